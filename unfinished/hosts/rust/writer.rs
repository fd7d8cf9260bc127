//! Writes a script call by call while driving a machine, so that choices can depend on where the store stands.

use crate::layout::MOST_WORKERS;
use crate::machine::{make, store_of, SCRIPT_LINES};
use crate::memory::MemoryKind;
use crate::object::ObjectKind;
use crate::planted::Planted;
use crate::random::Random;
use crate::script::{Call, Script};
use crate::store::Store;
use crate::table::{Phase, Place, Request};

/// Past this many bytes no further call is written.
const ENOUGH_BYTES: usize = 32_500;

/// Which operations are chosen more often.
#[derive(Clone, Copy)]
pub enum Mood {
    Fill,
    Empty,
    Mixed,
}

pub const MOODS: [Mood; 3] = [Mood::Fill, Mood::Empty, Mood::Mixed];

pub struct Writer<'a> {
    pub random: &'a mut Random,
    pub store: Store,
    pub text: String,
    pub limit: usize,
    pub mood: Mood,
    calls: usize,
    /// The request last accepted of each worker.
    slips: [Option<Request>; MOST_WORKERS],
}

/// The line of a call.
pub fn line_of(call: Call) -> String {
    match call {
        Call::Format { workers } => format!("format {workers}\n"),
        Call::Start => "start\n".to_string(),
        Call::Announce { worker, op, arg } => format!("announce {worker} {op} {arg}\n"),
        Call::Step { worker, count: 1 } => format!("step {worker}\n"),
        Call::Step { worker, count } => format!("step {worker} {count}\n"),
        Call::Resume { worker, turn, op, arg } => format!("resume {worker} {turn} {op} {arg}\n"),
        Call::Arrive { line } => format!("arrive {line}\n"),
        Call::Cut => "cut\n".to_string(),
    }
}

impl Writer<'_> {
    pub fn new(random: &mut Random, object: ObjectKind, memory: MemoryKind, limit: usize) -> Writer<'_> {
        let object_name = if object == ObjectKind::Queue { "queue" } else { "stack" };
        let memory_name = if memory == MemoryKind::Lazy { "lazy" } else { "prompt" };
        let setup = Script { object, memory, calls: Vec::new() };
        let mood = random.one_of(&MOODS);
        Writer {
            random,
            store: store_of(&setup, Planted::Nothing),
            text: format!("store {object_name} {memory_name}\n"),
            limit,
            mood,
            calls: 0,
            slips: [None; MOST_WORKERS],
        }
    }

    pub fn goes_on(&self) -> bool {
        self.calls < self.limit && self.text.len() < ENOUGH_BYTES
    }

    /// Writes a call and makes it on the own machine.
    pub fn say(&mut self, call: Call) {
        if !self.goes_on() {
            return;
        }
        self.text.push_str(&line_of(call));
        self.calls += 1;
        let count = if let Call::Step { count, .. } = call { count } else { 1 };
        for _ in 0..count {
            if make(&mut self.store, call).is_err() {
                break;
            }
        }
        if matches!(call, Call::Announce { .. } | Call::Resume { .. }) {
            self.remember_slips();
        }
    }

    fn remember_slips(&mut self) {
        let Some(table) = self.store.table() else {
            return;
        };
        for (slip, place) in self.slips.iter_mut().zip(&table.places) {
            if let Place::Waiting(request, _) | Place::Answered(request, _) = place {
                *slip = Some(*request);
            }
        }
    }

    /// How many workers the store has, or eight where it is down.
    pub fn workers(&self) -> u64 {
        self.store.table().map_or(MOST_WORKERS, |table| table.workers) as u64
    }

    pub fn round_steps(&self) -> u64 {
        21 + 2 * self.workers()
    }

    pub fn waiting_workers(&self) -> Vec<u64> {
        let places = self.store.table().map_or(&[][..], |table| &table.places[..]);
        let waits = |worker: &u64| matches!(places[*worker as usize], Place::Waiting(..));
        (0..places.len() as u64).filter(waits).collect()
    }

    pub fn workers_in(&self, wanted: Phase) -> Vec<u64> {
        let places = self.store.table().map_or(&[][..], |table| &table.places[..]);
        let is_there = |worker: &u64| matches!(places[*worker as usize], Place::Waiting(_, phase) if phase == wanted);
        (0..places.len() as u64).filter(is_there).collect()
    }

    pub fn any_worker(&mut self) -> u64 {
        match self.random.below(40) {
            0 => self.workers(),
            1 => self.random.one_of(&[8, 9, 255, 1 << 32, u64::MAX]),
            _ => self.random.below(self.workers()),
        }
    }

    /// A worker for whom a step most often is accepted.
    pub fn stepper(&mut self) -> u64 {
        let waiting = self.waiting_workers();
        let holder = self.store.table().and_then(|table| table.lock);
        match (holder, self.random.below(12)) {
            (_, 0) => self.any_worker(),
            (Some(holder), 1..=6) => holder as u64,
            _ if waiting.is_empty() => self.any_worker(),
            _ => self.random.one_of(&waiting),
        }
    }

    pub fn any_op(&mut self) -> u64 {
        let choice = self.random.below(20);
        match (self.mood, choice) {
            (_, 0) => self.random.one_of(&[0, 4, 9, 1 << 32, u64::MAX]),
            (_, 1 | 2) => 3,
            (Mood::Fill, 3) | (Mood::Empty, 4..=19) | (Mood::Mixed, 3..=10) => 2,
            _ => 1,
        }
    }

    pub fn any_word(&mut self) -> u64 {
        match self.random.below(12) {
            0 => 0,
            1 => u64::MAX,
            2 => self.random.next(),
            _ => self.random.below(1000),
        }
    }

    pub fn announce(&mut self, worker: u64) {
        let (op, arg) = (self.any_op(), self.any_word());
        self.say(Call::Announce { worker, op, arg });
    }

    pub fn steps(&mut self, worker: u64) {
        let round = self.round_steps();
        let count = match self.random.below(20) {
            0..=5 => 1,
            6..=9 => self.random.between(2, 8),
            10..=16 => self.random.between(1, round + 2),
            17 => round,
            18 => round + 1,
            _ => self.random.one_of(&[2 * round, 999, 1000]),
        };
        self.say(Call::Step { worker, count });
    }

    /// The slip of this worker's last ticket, or one that is made up.
    pub fn slip(&self, worker: u64) -> Request {
        let slip = self.slips.get(worker as usize).copied().flatten();
        slip.unwrap_or(Request { turn: 1, op: 1, arg: 5 })
    }

    pub fn collect(&mut self, worker: u64) {
        let Request { turn, op, arg } = self.slip(worker);
        self.say(Call::Resume { worker, turn, op, arg });
    }

    /// A line that is due, asked, late or not yet kept, or any.
    pub fn any_line(&mut self) -> u64 {
        let wish = self.random.below(6);
        let memory = self.store.memory();
        let wished = |line: &usize| match wish {
            0 => memory.due().holds(*line),
            1 => memory.asked().holds(*line),
            2 => memory.late().holds(*line),
            3 | 4 => memory.would_lose(*line),
            _ => true,
        };
        let lines: Vec<usize> = (0..memory.lines()).filter(wished).collect();
        if self.random.once_in(20) {
            self.random.one_of(&[27, 28, 64, 1 << 61, u64::MAX])
        } else if lines.is_empty() {
            self.random.below(SCRIPT_LINES as u64)
        } else {
            self.random.one_of(&lines) as u64
        }
    }
}

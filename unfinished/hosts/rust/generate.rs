//! The shapes of random scripts: rounds of many, cuts at any phase, full and empty objects, odd slips, arrivals.

use crate::layout::MOST_WORKERS;
use crate::machine::SCRIPT_LINES;
use crate::memory::MemoryKind;
use crate::object::ObjectKind;
use crate::random::Random;
use crate::script::{Call, MOST_CALLS};
use crate::table::{Phase, Request};
use crate::writer::{Mood, Writer, MOODS};

/// A script without a fault.
pub fn script(random: &mut Random) -> Vec<u8> {
    let object = random.one_of(&[ObjectKind::Queue, ObjectKind::Stack]);
    let memory = random.one_of(&[MemoryKind::Lazy, MemoryKind::Lazy, MemoryKind::Lazy, MemoryKind::Prompt]);
    let limit = match random.below(10) {
        0..=4 => random.between(5, 60),
        5..=7 => random.between(60, 160),
        8 => random.between(160, 400),
        _ => MOST_CALLS as u64,
    } as usize;
    let workers = if random.once_in(4) { MOST_WORKERS as u64 } else { random.between(1, MOST_WORKERS as u64) };
    let mut writer = Writer::new(random, object, memory, limit);
    match writer.random.below(10) {
        0 => writer.fill_up(workers),
        1..=3 => writer.cut_often(workers),
        _ => {}
    }
    writer.wander(workers);
    writer.text.into_bytes()
}

/// A long script that steps a lot: full rounds of all workers, one after another.
pub fn busy_script(random: &mut Random, object: ObjectKind, workers: u64) -> Vec<u8> {
    let mut writer = Writer::new(random, object, MemoryKind::Lazy, MOST_CALLS);
    writer.open(workers);
    while writer.goes_on() {
        writer.mood = writer.random.one_of(&MOODS);
        writer.full_round();
    }
    writer.text.into_bytes()
}

impl Writer<'_> {
    fn open(&mut self, workers: u64) {
        if self.random.once_in(20) {
            self.call_while_down();
        }
        if self.random.once_in(20) {
            self.say(Call::Start);
        }
        self.say(Call::Format { workers });
        self.say(Call::Start);
    }

    /// Puts in until the object must be full.
    fn fill_up(&mut self, workers: u64) {
        self.open(workers);
        self.limit = MOST_CALLS;
        self.mood = Mood::Fill;
        for _ in 0..36 / self.workers() {
            self.full_round();
        }
    }

    /// Rounds that are cut at any phase.
    fn cut_often(&mut self, workers: u64) {
        self.open(workers);
        for _ in 0..self.random.between(1, 6) {
            self.announce_many();
            let worker = self.stepper();
            let round = self.round_steps();
            let tail = self.random.between(round - 5, round);
            let any = self.random.between(1, round + 1);
            let count = self.random.one_of(&[any, any, tail]);
            self.say(Call::Step { worker, count });
            if self.random.once_in(2) {
                self.interleave();
            }
            self.cut();
        }
    }

    fn wander(&mut self, workers: u64) {
        if self.store.table().is_none() {
            self.open(workers);
        }
        while self.goes_on() {
            if self.random.once_in(25) {
                self.mood = self.random.one_of(&MOODS);
            }
            if self.store.table().is_none() && !self.random.once_in(3) {
                self.say(Call::Start);
            }
            self.one_action();
        }
    }

    fn one_action(&mut self) {
        match self.random.below(61) {
            0..=9 => {
                let worker = self.any_worker();
                self.announce(worker);
            }
            10..=14 => self.announce_many(),
            15..=26 => {
                let worker = self.stepper();
                self.steps(worker);
            }
            27..=36 => self.interleave(),
            37..=40 => self.full_round(),
            41..=46 => {
                let worker = self.any_worker();
                self.collect(worker);
            }
            47..=50 => self.odd_resume(),
            51..=53 => self.arrivals(),
            54..=56 => self.cut(),
            57 => self.say(Call::Start),
            58 => self.format(),
            59 => self.look_late(),
            _ => self.collect_all(),
        }
    }

    /// A round that serves many, and all answers taken.
    fn full_round(&mut self) {
        self.announce_many();
        let worker = self.stepper();
        let watched = self.random.once_in(2);
        if watched {
            let count = self.random.between(1, self.round_steps() - 1);
            self.say(Call::Step { worker, count });
            self.watch();
        }
        let count = self.round_steps() + self.random.below(2);
        self.say(Call::Step { worker, count });
        for other in self.waiting_workers() {
            let count = if watched { 1 } else { self.round_steps() + 1 };
            self.say(Call::Step { worker: other, count });
        }
        self.collect_all();
    }

    /// Lets all who wait at the gate watch, and perhaps some announce who come too late to be served.
    fn watch(&mut self) {
        if self.random.once_in(2) {
            self.announce_many();
        }
        for worker in self.waiting_workers() {
            let holds = self.store.table().is_some_and(|table| table.lock == Some(worker as usize));
            if !holds {
                self.say(Call::Step { worker, count: 1 });
            }
        }
    }

    /// Lets a worker look that was not served, while another's round is at its Flip or past it.
    fn look_late(&mut self) {
        self.full_round();
        let lookers = self.workers_in(Phase::Look);
        self.into_a_round();
        let Some(holder) = self.store.table().and_then(|table| table.lock) else {
            return;
        };
        while self.goes_on() && !self.past_fence() {
            let count = self.random.between(1, 3);
            self.say(Call::Step { worker: holder as u64, count });
        }
        for worker in lookers {
            self.say(Call::Step { worker, count: 1 });
        }
    }

    /// Whether no round is running, or the running one has done its Fence.
    fn past_fence(&self) -> bool {
        let phase = self.store.table().and_then(|table| table.round_phase());
        phase.is_none_or(|phase| matches!(phase, Phase::Flip | Phase::Mark | Phase::Sync | Phase::Leave))
    }

    fn announce_many(&mut self) {
        let leave_out = self.random.one_of(&[2, 3, 1000]);
        for worker in 0..self.workers() {
            if !self.random.once_in(leave_out) {
                self.announce(worker);
            }
        }
    }

    /// Single and few steps of all who wait, in turns.
    fn interleave(&mut self) {
        for _ in 0..self.random.between(2, 14) {
            let worker = self.stepper();
            let most = self.random.one_of(&[1, 2, 20]);
            let count = self.random.between(1, most);
            self.say(Call::Step { worker, count });
        }
    }

    fn collect_all(&mut self) {
        for worker in 0..self.workers() {
            self.collect(worker);
        }
    }

    /// A slip that is old, early, or has other words.
    fn odd_resume(&mut self) {
        let worker = self.any_worker();
        let Request { mut turn, mut op, mut arg } = self.slip(worker);
        match self.random.below(8) {
            0 => turn = turn.saturating_sub(1),
            1 | 2 => turn += 1,
            3 => turn += 2,
            4 => op = self.any_op(),
            5 => arg = self.any_word(),
            6 => turn = self.random.one_of(&[0, 1, (1 << 32) - 1, 1 << 32, u64::MAX]),
            _ => (turn, op) = (turn + 1, op.wrapping_add(1)),
        }
        self.say(Call::Resume { worker, turn, op, arg });
    }

    /// Gets a round going, up to any phase, where none is.
    fn into_a_round(&mut self) {
        if self.store.table().is_some_and(|table| table.lock.is_none()) {
            let worker = self.random.below(self.workers());
            self.announce(worker);
            let count = self.random.between(1, self.round_steps());
            self.say(Call::Step { worker, count });
        }
    }

    /// A cut with some arrivals before it, calls while down, a start, and slips.
    fn cut(&mut self) {
        if !self.random.once_in(3) {
            self.into_a_round();
        }
        match self.random.below(4) {
            0 => self.arrivals(),
            1 | 2 => self.arrive_most(),
            _ => {}
        }
        self.say(Call::Cut);
        if self.random.once_in(6) {
            self.call_while_down();
        }
        if !self.random.once_in(30) {
            self.say(Call::Start);
        }
        if self.random.once_in(2) {
            self.collect_all();
        }
    }

    fn call_while_down(&mut self) {
        match self.random.below(6) {
            0 => self.announce(0),
            1 => self.collect(0),
            2 => self.say(Call::Step { worker: 0, count: 2 }),
            3 => self.format(),
            4 => self.say(Call::Cut),
            _ => self.arrivals(),
        }
    }

    fn format(&mut self) {
        let workers = match self.random.below(6) {
            0 => self.random.one_of(&[0, 9, u64::MAX]),
            _ => self.random.between(1, MOST_WORKERS as u64),
        };
        self.say(Call::Format { workers });
    }

    fn arrivals(&mut self) {
        for _ in 0..self.random.between(1, 6) {
            let line = self.any_line();
            self.say(Call::Arrive { line });
        }
    }

    /// Lets all lines arrive that a cut would lose, the due ones first, but for some chance.
    fn arrive_most(&mut self) {
        let leave_out = self.random.one_of(&[4, 1000]);
        for late in [false, true] {
            for line in 0..SCRIPT_LINES {
                let memory = self.store.memory();
                let needed = memory.would_lose(line) || memory.due().holds(line);
                if needed && memory.late().holds(line) == late && !self.random.once_in(leave_out) {
                    self.say(Call::Arrive { line: line as u64 });
                }
            }
        }
    }
}

//! The table of an up store: places, phases, the lock, and what each step does.

use crate::layout::{self, INDEX_LINE, INDEX_WORD, MOST_WORKERS, OBJECT_LINES};
use crate::memory::{Line, Memory, LINE_WORDS};
use crate::object::{Object, Picture, PICTURE_WORDS};
use crate::planted::Planted;
use crate::refusal::Refusal;
use crate::store::numbers;

/// A request, or the slip of one; the worker is known from where it lies.
#[derive(Clone, Copy, PartialEq, Eq, Debug)]
pub struct Request {
    pub turn: u64,
    pub op: u64,
    pub arg: u64,
}

#[derive(Clone, Copy, PartialEq, Eq, Debug)]
pub enum Phase {
    Gate,
    Watch,
    Look,
    Load(usize),
    Serve(usize),
    Store(usize),
    Ask(usize),
    Fence,
    Flip,
    Mark,
    Sync,
    Leave,
}

/// A worker's place; an answered one has code and value.
#[derive(Clone, Copy, PartialEq, Eq, Debug)]
pub enum Place {
    Free,
    Waiting(Request, Phase),
    Answered(Request, (u64, u64)),
}

pub struct Table {
    pub workers: usize,
    pub settled: usize,
    pub lock: Option<usize>,
    pub places: [Place; MOST_WORKERS],
    /// What announce takes off the next turn: zeros, but for the planted rule.
    pub turns_before: [u64; MOST_WORKERS],
    pub planted: Planted,
    loaded: Picture,
    working: Object,
}

impl Table {
    pub fn new(workers: usize, settled: usize, working: Object, planted: Planted) -> Table {
        Table {
            workers,
            settled,
            lock: None,
            places: [Place::Free; MOST_WORKERS],
            turns_before: [0; MOST_WORKERS],
            planted,
            loaded: [0; PICTURE_WORDS],
            working,
        }
    }

    /// The phase of the running round, if there is one.
    pub fn round_phase(&self) -> Option<Phase> {
        match self.places[self.lock?] {
            Place::Waiting(_, phase) => Some(phase),
            _ => None,
        }
    }

    pub fn other(&self) -> usize {
        1 - self.settled
    }

    pub fn settled_line<'a>(&self, worker: usize, memory: &'a Memory) -> Result<&'a Line, Refusal> {
        memory.line(layout::worker_line(self.workers, self.settled, worker))
    }

    pub fn turn_word(&self, worker: usize, memory: &Memory) -> Result<u64, Refusal> {
        Ok(self.settled_line(worker, memory)?[0])
    }

    /// Does nothing, but for the planted rule.
    pub fn count_turns_from_here(&mut self, memory: &Memory) -> Result<(), Refusal> {
        if self.planted == Planted::TurnsFromOne {
            for worker in 0..self.workers {
                self.turns_before[worker] = self.turn_word(worker, memory)?;
            }
        }
        Ok(())
    }

    /// Takes a waiting worker one step on and gives the number of what was done.
    pub fn step(&mut self, worker: usize, memory: &mut Memory) -> Result<u64, Refusal> {
        let Place::Waiting(request, phase) = self.places[worker] else {
            return Err(Refusal(6));
        };
        let (next, number) = match phase {
            Phase::Gate if self.lock.is_none() => {
                self.lock = Some(worker);
                (Phase::Load(0), 1)
            }
            Phase::Gate | Phase::Watch => (Phase::Watch, 2),
            Phase::Look => return self.look(worker, request, memory),
            Phase::Load(part) => (self.load(part, memory)?, 3),
            Phase::Serve(served) => self.serve(served, memory)?,
            Phase::Store(part) => (self.store(part, memory)?, 6),
            Phase::Ask(part) => (self.ask(part, memory)?, 7),
            Phase::Fence | Phase::Flip | Phase::Mark | Phase::Sync => self.make_durable(phase, memory)?,
            Phase::Leave => {
                self.leave();
                (Phase::Look, 12)
            }
        };
        self.places[worker] = Place::Waiting(request, next);
        Ok(number)
    }

    fn look(&mut self, worker: usize, request: Request, memory: &Memory) -> Result<u64, Refusal> {
        let record = match self.planted {
            Planted::LookByIndex => memory.read(INDEX_WORD)? as usize,
            _ => self.settled,
        };
        let [turn, code, value, ..] = *memory.line(layout::worker_line(self.workers, record, worker))?;
        if turn == request.turn {
            self.places[worker] = Place::Answered(request, (code, value));
            Ok(13)
        } else {
            self.places[worker] = Place::Waiting(request, Phase::Gate);
            Ok(14)
        }
    }

    fn load(&mut self, part: usize, memory: &Memory) -> Result<Phase, Refusal> {
        let line = memory.line(layout::object_line(self.workers, self.settled, part))?;
        self.loaded[part * LINE_WORDS..][..LINE_WORDS].copy_from_slice(line);
        if part + 1 < OBJECT_LINES {
            Ok(Phase::Load(part + 1))
        } else if self.working.take_picture(&self.loaded) {
            Ok(Phase::Serve(0))
        } else {
            Err(Refusal(21))
        }
    }

    fn serve(&mut self, served: usize, memory: &mut Memory) -> Result<(Phase, u64), Refusal> {
        let mut line = *self.settled_line(served, memory)?;
        let mut number = 5;
        if let Place::Waiting(request, _) = self.places[served] {
            if request.turn != line[0] || self.planted == Planted::ServedTwice {
                let (code, value) = numbers(self.working.apply(request.op, request.arg));
                line[..3].copy_from_slice(&[request.turn, code, value]);
                number = 4;
            }
        }
        memory.write_line(layout::worker_line(self.workers, self.other(), served), &line)?;
        let next = if served + 1 < self.workers { Phase::Serve(served + 1) } else { Phase::Store(0) };
        Ok((next, number))
    }

    fn store(&mut self, part: usize, memory: &mut Memory) -> Result<Phase, Refusal> {
        let line = self.working.picture_line(part);
        memory.write_line(layout::object_line(self.workers, self.other(), part), &line)?;
        Ok(if part + 1 < OBJECT_LINES { Phase::Store(part + 1) } else { Phase::Ask(0) })
    }

    fn ask(&mut self, part: usize, memory: &mut Memory) -> Result<Phase, Refusal> {
        memory.ask(layout::record_start(self.workers, self.other()) + part)?;
        let last = part + 1 == layout::record_lines(self.workers);
        Ok(if last { Phase::Fence } else { Phase::Ask(part + 1) })
    }

    /// The phases from Fence to Sync: the record first, then the index.
    fn make_durable(&mut self, phase: Phase, memory: &mut Memory) -> Result<(Phase, u64), Refusal> {
        match phase {
            Phase::Fence => {
                if self.planted != Planted::NoFence {
                    memory.fence();
                }
                Ok((Phase::Flip, 8))
            }
            Phase::Flip => {
                memory.write(INDEX_WORD, self.other() as u64)?;
                Ok((Phase::Mark, 9))
            }
            Phase::Mark => {
                if self.planted != Planted::IndexNotAsked {
                    memory.ask(INDEX_LINE)?;
                }
                Ok((Phase::Sync, 10))
            }
            _ => {
                memory.sync();
                Ok((Phase::Leave, 11))
            }
        }
    }

    fn leave(&mut self) {
        self.settled = self.other();
        self.lock = None;
        if self.planted == Planted::WatchersSleep {
            return;
        }
        for place in &mut self.places {
            if let Place::Waiting(request, Phase::Watch) = *place {
                *place = Place::Waiting(request, Phase::Look);
            }
        }
    }
}

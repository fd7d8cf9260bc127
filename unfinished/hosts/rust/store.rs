//! The store: its calls, their questions, and what it knows while it is up.

use crate::layout::{self, CONTENTS_LINE, INDEX_WORD, MOST_WORKERS, OBJECT_LINES};
use crate::memory::{Memory, LINE_WORDS};
use crate::object::{is_picture, Answer, Object, ObjectKind, Picture, PICTURE_WORDS};
use crate::planted::Planted;
use crate::refusal::{Refusal, OUTSIDE};
use crate::table::{Phase, Place, Request, Table};

const LAST_TURN: u64 = (1 << 32) - 1;
const FEWEST_LINES: usize = 14;

/// What an accepted resume gives: the answer, or a ticket whose request may be answered already.
#[derive(Clone, Copy, PartialEq, Eq, Debug)]
pub enum Resumed {
    Answer(u64, u64),
    Waiting(u64),
}

pub struct Store {
    object: ObjectKind,
    planted: Planted,
    memory: Memory,
    table: Option<Table>,
    outlived: Option<usize>,
}

impl Store {
    pub fn new(object: ObjectKind, memory: Memory, planted: Planted) -> Store {
        Store { object, planted, memory, table: None, outlived: None }
    }

    pub fn memory(&self) -> &Memory {
        &self.memory
    }

    /// The table, while the store is up.
    pub fn table(&self) -> Option<&Table> {
        self.table.as_ref()
    }

    pub fn turn_word(&self, worker: usize) -> Option<u64> {
        let table = self.table.as_ref()?;
        table.turn_word(worker, &self.memory).ok()
    }

    pub fn format(&mut self, workers: u64) -> Result<(), Refusal> {
        if self.table.is_some() {
            return Err(Refusal(2));
        }
        if !(1..=MOST_WORKERS as u64).contains(&workers) {
            return Err(Refusal(13));
        }
        let workers = workers as usize;
        let used = layout::lines_used(workers);
        if self.memory.lines() < used {
            return Err(Refusal(14));
        }
        let contents = layout::contents(workers, self.object.number());
        self.memory.write_line(CONTENTS_LINE, &contents)?;
        for line in CONTENTS_LINE + 1..used {
            // Index 0 and the fresh picture are zeros too.
            self.memory.write_line(line, &[0; LINE_WORDS])?;
        }
        for line in 0..used {
            self.memory.ask(line)?;
        }
        self.memory.sync();
        Ok(())
    }

    pub fn start(&mut self) -> Result<(), Refusal> {
        if self.table.is_some() {
            return Err(Refusal(2));
        }
        if self.memory.lines() < FEWEST_LINES {
            return Err(Refusal(14));
        }
        let workers = self.workers_found()?;
        let settled = match self.memory.read(INDEX_WORD)? {
            index @ (0 | 1) => index as usize,
            _ => return Err(Refusal(17)),
        };
        if !is_picture(&self.picture_found(workers, settled)?) {
            return Err(Refusal(18));
        }
        let working = Object::fresh(self.object, self.planted);
        let mut table = Table::new(workers, settled, working, self.planted);
        table.count_turns_from_here(&self.memory)?;
        table.lock = self.outlived.filter(|&holder| holder < workers);
        self.table = Some(table);
        Ok(())
    }

    /// Questions 15 and 16: the number of workers that the contents tell.
    fn workers_found(&self) -> Result<usize, Refusal> {
        let found = self.memory.line(CONTENTS_LINE)?;
        let (kind, workers) = (found[1], found[2]);
        if !(1..=MOST_WORKERS as u64).contains(&workers) {
            return Err(Refusal(15));
        }
        let workers = workers as usize;
        if *found != layout::contents(workers, kind) || self.memory.lines() < layout::lines_used(workers) {
            return Err(Refusal(15));
        }
        if kind != self.object.number() {
            return Err(Refusal(16));
        }
        Ok(workers)
    }

    fn picture_found(&self, workers: usize, record: usize) -> Result<Picture, Refusal> {
        let mut picture = [0; PICTURE_WORDS];
        for part in 0..OBJECT_LINES {
            let line = self.memory.line(layout::object_line(workers, record, part))?;
            picture[part * LINE_WORDS..][..LINE_WORDS].copy_from_slice(line);
        }
        Ok(picture)
    }

    /// Gives the turn of the ticket.
    pub fn announce(&mut self, worker: u64, op: u64, arg: u64) -> Result<u64, Refusal> {
        let (table, worker) = up_with(&mut self.table, worker)?;
        if table.places[worker] != Place::Free {
            return Err(Refusal(4));
        }
        let turn_word = table.turn_word(worker, &self.memory)?;
        if turn_word >= LAST_TURN {
            return Err(Refusal(5));
        }
        let turn = turn_word + 1 - table.turns_before[worker];
        table.places[worker] = Place::Waiting(Request { turn, op, arg }, Phase::Gate);
        Ok(turn)
    }

    /// Gives the number of what the step did.
    pub fn step(&mut self, worker: u64) -> Result<u64, Refusal> {
        let (table, worker) = up_with(&mut self.table, worker)?;
        table.step(worker, &mut self.memory)
    }

    /// Resumes from a slip, and collects at once where it gets a ticket and can.
    pub fn resume(&mut self, worker: u64, slip: Request) -> Result<Resumed, Refusal> {
        let (table, worker) = up_with(&mut self.table, worker)?;
        if !(1..=LAST_TURN).contains(&slip.turn) {
            return Err(Refusal(9));
        }
        match table.places[worker] {
            Place::Waiting(request, _) | Place::Answered(request, _) if request.turn == slip.turn => {
                if request != slip && self.planted != Planted::AnyWords {
                    return Err(Refusal(10));
                }
                Ok(collect_if_answered(table, worker, slip.turn))
            }
            Place::Free => resume_free(table, worker, slip, &self.memory),
            _ => Err(Refusal(11)),
        }
    }

    pub fn arrive(&mut self, line: u64) -> Result<(), Refusal> {
        let line = usize::try_from(line).map_err(|_| OUTSIDE)?;
        self.memory.arrive(line)
    }

    pub fn cut(&mut self) {
        if self.planted == Planted::LockOutlivesCut {
            self.outlived = self.table.as_ref().and_then(|table| table.lock);
        }
        self.memory.cut();
        self.table = None;
    }
}

/// Questions 1 and 3.
fn up_with(table: &mut Option<Table>, worker: u64) -> Result<(&mut Table, usize), Refusal> {
    let table = table.as_mut().ok_or(Refusal(1))?;
    if worker >= table.workers as u64 {
        return Err(Refusal(3));
    }
    Ok((table, worker as usize))
}

fn collect_if_answered(table: &mut Table, worker: usize, turn: u64) -> Resumed {
    match table.places[worker] {
        Place::Answered(_, (code, value)) => {
            table.places[worker] = Place::Free;
            Resumed::Answer(code, value)
        }
        _ => Resumed::Waiting(turn),
    }
}

fn resume_free(table: &mut Table, worker: usize, slip: Request, memory: &Memory) -> Result<Resumed, Refusal> {
    let [turn_word, code, value, ..] = *table.settled_line(worker, memory)?;
    let reach = if table.planted == Planted::TurnTooFar { 2 } else { 1 };
    if slip.turn == turn_word {
        Ok(Resumed::Answer(code, value))
    } else if slip.turn > turn_word && slip.turn <= turn_word + reach {
        table.places[worker] = Place::Waiting(slip, Phase::Gate);
        Ok(Resumed::Waiting(slip.turn))
    } else {
        Err(Refusal(12))
    }
}

/// An answer as the pair of its code and value.
pub fn numbers(answer: Answer) -> (u64, u64) {
    (answer.code(), answer.value())
}

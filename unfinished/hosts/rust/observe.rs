//! Calls that are added to a script after a cut, to see what a restarted store holds.

use std::fmt::Write;

use crate::layout::MOST_WORKERS;
use crate::table::Request;

/// More steps than any request takes until it is answered.
const STEPS: u64 = 200;

/// The calls, and which of them, counted from the first, are those of the draining.
pub struct Observation {
    pub text: String,
    pub drain: std::ops::Range<usize>,
    pub takes: usize,
}

/// What the observer knows: the number of workers, and the last request that each was given a ticket for.
pub struct Known {
    pub workers: usize,
    pub slips: [Option<Request>; MOST_WORKERS],
    pub before: [Option<Request>; MOST_WORKERS],
    pub puts: usize,
}

impl Known {
    pub fn nothing(workers: usize) -> Known {
        Known { workers, slips: [None; MOST_WORKERS], before: [None; MOST_WORKERS], puts: 0 }
    }

    /// Takes note of a ticket.
    pub fn accepted(&mut self, worker: usize, request: Request) {
        if request.op == 1 {
            self.puts += 1;
        }
        if self.slips[worker].is_some_and(|slip| slip.turn + 1 == request.turn) {
            self.before[worker] = self.slips[worker];
        }
        self.slips[worker] = Some(request);
    }

    /// So many takes find the object empty in the end.
    fn takes(&self) -> usize {
        self.puts.min(32) + 1
    }

    fn turn(&self, worker: usize) -> u64 {
        self.slips[worker].map_or(0, |slip| slip.turn)
    }
}

fn resume(text: &mut String, worker: usize, slip: Request) {
    writeln!(text, "resume {worker} {} {} {}", slip.turn, slip.op, slip.arg).expect("a String takes all");
}

fn steps(text: &mut String, worker: usize) {
    writeln!(text, "step {worker} {STEPS}").expect("a String takes all");
}

/// Every worker's last requests, which are served now if they were not before.
fn resume_all(known: &Known, but: Option<usize>, text: &mut String) {
    for worker in (0..known.workers).filter(|&worker| Some(worker) != but) {
        if let Some(slip) = known.before[worker] {
            resume(text, worker, slip);
        }
        if let Some(slip) = known.slips[worker] {
            resume(text, worker, slip);
            steps(text, worker);
            resume(text, worker, slip);
        }
    }
}

/// First every slip, then worker 0 drains the object.
pub fn slips_first(known: &Known) -> Observation {
    let mut text = String::new();
    resume_all(known, None, &mut text);
    let from = text.lines().count();
    let turn = known.turn(0);
    for take in 1..=known.takes() as u64 {
        text.push_str("announce 0 2 0\n");
        steps(&mut text, 0);
        resume(&mut text, 0, Request { turn: turn + take, op: 2, arg: 0 });
    }
    let to = text.lines().count();
    Observation { text, drain: from..to, takes: known.takes() }
}

/// First this worker drains the object, without its slip; then the slips of the others.
/// Its turn may be its last one or the next: one of two resumes is refused each time.
pub fn content_first(known: &Known, worker: usize) -> Observation {
    let mut text = String::new();
    let turn = known.turn(worker);
    for take in 0..known.takes() as u64 {
        writeln!(text, "announce {worker} 2 0").expect("a String takes all");
        steps(&mut text, worker);
        resume(&mut text, worker, Request { turn: turn + take + 1, op: 2, arg: 0 });
        if turn + take > 0 {
            resume(&mut text, worker, Request { turn: turn + take, op: 2, arg: 0 });
        }
    }
    let to = text.lines().count();
    resume_all(known, Some(worker), &mut text);
    Observation { text, drain: 0..to, takes: known.takes() }
}

//! The second machine: runs a script on its own store and writes the listing.

use crate::memory::Memory;
use crate::planted::Planted;
use crate::refusal::Refusal;
use crate::script::{self, Call, Fault, Script};
use crate::store::{Resumed, Store};
use crate::table::Request;
use Part::{Number, Word};

/// How many lines of zeros the store of a script has.
pub const SCRIPT_LINES: usize = 28;

/// What an accepted call gave; of a step, the number of what it did.
#[derive(Clone, Copy, PartialEq, Eq, Debug)]
pub enum Outcome {
    Done(&'static str),
    Turn(u64),
    Step(u64),
    Answer(u64, u64),
    Waiting(u64),
}

/// The listing of a script, or the line of its first fault.
pub fn listing(script: &[u8]) -> Vec<u8> {
    listing_with(script, Planted::Nothing)
}

/// The same with one rule changed.
pub fn listing_with(script: &[u8], planted: Planted) -> Vec<u8> {
    let mut out = Vec::new();
    match script::read(script, planted) {
        Ok(script) => run(&script, planted, &mut out),
        Err(Fault { number, line, byte }) => {
            let (line, byte) = (Number(line as u64), Number(byte as u64));
            put(&mut out, &[Word("fault"), Number(number), Word("line"), line, Word("byte"), byte]);
        }
    }
    out
}

/// The store of a script before its first call.
pub fn store_of(script: &Script, planted: Planted) -> Store {
    Store::new(script.object, Memory::zeros(script.memory, SCRIPT_LINES, planted), planted)
}

fn run(script: &Script, planted: Planted, out: &mut Vec<u8>) {
    let mut store = store_of(script, planted);
    for &call in &script.calls {
        match call {
            Call::Step { worker, count } => steps(&mut store, worker, count, out),
            _ => list(make(&mut store, call), out),
        }
    }
}

fn steps(store: &mut Store, worker: u64, count: u64, out: &mut Vec<u8>) {
    let mut last = 0;
    for done in 0..count {
        match store.step(worker) {
            Ok(number) => last = number,
            Err(refusal) => {
                let (number, layer) = (Number(refusal.0), Word(refusal.layer()));
                put(out, &[Word("step"), Number(done), Word("refused"), number, layer]);
                return;
            }
        }
    }
    put(out, &[Word("step"), Number(count), Number(last)]);
}

/// Makes one call; of a `step W K`, the first step only.
pub fn make(store: &mut Store, call: Call) -> Result<Outcome, Refusal> {
    Ok(match call {
        Call::Format { workers } => {
            store.format(workers)?;
            Outcome::Done("format")
        }
        Call::Start => {
            store.start()?;
            Outcome::Done("start")
        }
        Call::Announce { worker, op, arg } => Outcome::Turn(store.announce(worker, op, arg)?),
        Call::Step { worker, .. } => Outcome::Step(store.step(worker)?),
        Call::Resume { worker, turn, op, arg } => match store.resume(worker, Request { turn, op, arg })? {
            Resumed::Answer(code, value) => Outcome::Answer(code, value),
            Resumed::Waiting(turn) => Outcome::Waiting(turn),
        },
        Call::Arrive { line } => {
            store.arrive(line)?;
            Outcome::Done("arrive")
        }
        Call::Cut => {
            store.cut();
            Outcome::Done("cut")
        }
    })
}

fn list(outcome: Result<Outcome, Refusal>, out: &mut Vec<u8>) {
    match outcome {
        Ok(Outcome::Done(name)) => put(out, &[Word(name), Word("ok")]),
        Ok(Outcome::Turn(turn)) => put(out, &[Word("turn"), Number(turn)]),
        Ok(Outcome::Step(number)) => put(out, &[Word("step"), Number(1), Number(number)]),
        Ok(Outcome::Answer(code, value)) => put(out, &[Word("answer"), Number(code), Number(value)]),
        Ok(Outcome::Waiting(turn)) => put(out, &[Word("waiting"), Number(turn)]),
        Err(refusal) => put(out, &[Word("refused"), Number(refusal.0), Word(refusal.layer())]),
    }
}

/// A word or a number of a line.
#[derive(Clone, Copy)]
enum Part {
    Word(&'static str),
    Number(u64),
}

/// Writes one line: its parts with a space between them, and LF.
fn put(out: &mut Vec<u8>, parts: &[Part]) {
    for part in parts {
        match *part {
            Word(word) => out.extend_from_slice(word.as_bytes()),
            Number(number) => put_number(out, number),
        }
        out.push(b' ');
    }
    if let Some(last) = out.last_mut() {
        *last = b'\n';
    }
}

fn put_number(out: &mut Vec<u8>, mut number: u64) {
    let first = out.len();
    loop {
        out.push(b'0' + (number % 10) as u8);
        number /= 10;
        if number == 0 {
            break;
        }
    }
    out[first..].reverse();
}

//! The reader of scripts: the setup, the calls, and every fault.

use crate::memory::MemoryKind;
use crate::object::ObjectKind;
use crate::planted::Planted;

pub const MOST_BYTES: usize = 32_768;
pub const MOST_CALLS: usize = 512;
pub const MOST_STEPS: u64 = 1_000;

#[derive(Clone, Copy, PartialEq, Eq, Debug)]
pub enum Call {
    Format { workers: u64 },
    Start,
    Announce { worker: u64, op: u64, arg: u64 },
    Step { worker: u64, count: u64 },
    Resume { worker: u64, turn: u64, op: u64, arg: u64 },
    Arrive { line: u64 },
    Cut,
}

pub struct Script {
    pub object: ObjectKind,
    pub memory: MemoryKind,
    pub calls: Vec<Call>,
}

#[derive(Clone, Copy, PartialEq, Eq, Debug)]
pub struct Fault {
    pub number: u64,
    pub line: usize,
    pub byte: usize,
}

/// Reads a whole script, or finds its first fault.
pub fn read(text: &[u8], planted: Planted) -> Result<Script, Fault> {
    let fault = |number| Fault { number, line: 1, byte: 1 };
    if text.len() > MOST_BYTES {
        return Err(fault(38));
    }
    let mut lines = lines(text);
    let (object, memory) = lines.next().and_then(setup).ok_or(fault(35))?;
    let most = if planted == Planted::OneCallMore { MOST_CALLS + 1 } else { MOST_CALLS };
    let mut calls = Vec::new();
    for (place, line) in lines.enumerate() {
        let at = |(number, byte)| Fault { number, line: place + 2, byte };
        if calls.len() == most {
            return Err(at((31, 1)));
        }
        calls.push(call(line, planted).map_err(at)?);
    }
    Ok(Script { object, memory, calls })
}

/// The lines of a text without their LF; what follows the last LF is a line unless it is empty.
pub fn lines(text: &[u8]) -> impl Iterator<Item = &[u8]> {
    text.split_inclusive(|&byte| byte == b'\n').map(|line| line.strip_suffix(b"\n").unwrap_or(line))
}

fn setup(line: &[u8]) -> Option<(ObjectKind, MemoryKind)> {
    let words: Vec<&[u8]> = line.split(|&byte| byte == b' ').collect();
    let [b"store", object, memory] = words[..] else {
        return None;
    };
    let object = match object {
        b"queue" => ObjectKind::Queue,
        b"stack" => ObjectKind::Stack,
        _ => return None,
    };
    let memory = match memory {
        b"lazy" => MemoryKind::Lazy,
        b"prompt" => MemoryKind::Prompt,
        _ => return None,
    };
    Some((object, memory))
}

/// Reads one call, or gives the number and the byte of its fault.
fn call(line: &[u8], planted: Planted) -> Result<Call, (u64, usize)> {
    let mut words = line.split(|&byte| byte == b' ');
    let name = words.next().unwrap_or(b"");
    let (fewest, most) = match name {
        b"start" | b"cut" => (0, 0),
        b"format" | b"arrive" => (1, 1),
        b"step" => (1, 2),
        b"announce" => (3, 3),
        b"resume" => (4, 4),
        _ => return Err((32, 1)),
    };
    let given = words.clone().count();
    if given < fewest || given > most {
        return Err((33, 1));
    }
    let mut fields = [0; 4];
    let mut begins = [0; 4];
    let mut byte = name.len() + 2;
    for (place, word) in words.enumerate() {
        fields[place] = number(word, planted).ok_or((34, byte))?;
        begins[place] = byte;
        byte += word.len() + 1;
    }
    if name == b"step" && given == 2 && !(1..=MOST_STEPS).contains(&fields[1]) {
        return Err((37, begins[1]));
    }
    Ok(made(name, fields, given))
}

/// The call of a name that is known and has its fields.
fn made(name: &[u8], fields: [u64; 4], given: usize) -> Call {
    let [first, second, third, fourth] = fields;
    match name {
        b"format" => Call::Format { workers: first },
        b"start" => Call::Start,
        b"announce" => Call::Announce { worker: first, op: second, arg: third },
        b"step" => Call::Step { worker: first, count: if given == 2 { second } else { 1 } },
        b"resume" => Call::Resume { worker: first, turn: second, op: third, arg: fourth },
        b"arrive" => Call::Arrive { line: first },
        _ => Call::Cut,
    }
}

fn number(word: &[u8], planted: Planted) -> Option<u64> {
    let zero_ahead = word.len() > 1 && word[0] == b'0' && planted != Planted::LeadingZeros;
    if word.is_empty() || zero_ahead {
        return None;
    }
    word.iter().try_fold(0u64, |sum, &byte| {
        let digit = byte.is_ascii_digit().then(|| u64::from(byte - b'0'))?;
        sum.checked_mul(10)?.checked_add(digit)
    })
}

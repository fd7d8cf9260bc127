//! Damages scripts, and writes such as no writer would: too long, too many calls, noise.

use crate::random::Random;
use crate::script::{MOST_BYTES, MOST_CALLS};

/// Words that stand where a number should be, or are the largest number.
const ODD_FIELDS: [&str; 14] = [
    "", "00", "01", "007", "+1", "-1", "1a", "0x1", "18446744073709551615", "18446744073709551616",
    "018446744073709551615", "99999999999999999999", "184467440737095516150", "1\r",
];

const ODD_LINES: [&str; 16] = [
    "", " ", "start ", " start", "Start", "cut 1", "format", "format  1", "announce 0 1", "step", "step 0 0",
    "step 0 1001", "step 0 1000 1", "resume 0 1 1", "arrive 1 2", "step  0",
];

const ODD_SETUPS: [&str; 12] = [
    "", "store", "store queue", "store queue lazy ", "store queue  lazy", " store queue lazy", "store queue lazy x",
    "store heap lazy", "store queue eager", "Store queue lazy", "store queue lazy\r", "store stack prompt",
];

/// A script with one to three damages, or one that is odd as a whole.
pub fn damaged(random: &mut Random, script: Vec<u8>) -> Vec<u8> {
    match random.below(12) {
        0 => of_size(random, &script),
        1 => many_calls(random, &script),
        2 => noise(random),
        _ => {
            let mut script = script;
            for _ in 0..random.between(1, 3) {
                damage(random, &mut script);
            }
            script
        }
    }
}

fn damage(random: &mut Random, script: &mut Vec<u8>) {
    let place = random.below(script.len() as u64 + 1) as usize;
    match random.below(10) {
        0 if place < script.len() => script[place] ^= 1 << random.below(8),
        1 if place < script.len() => drop(script.remove(place)),
        2 => script.insert(place, random.next() as u8),
        3 => script.insert(place, random.one_of(b" \n\r\t0159")),
        4 => drop(script.pop()),
        5 => script.truncate(place),
        6 => change_field(random, script),
        7 => insert_line(random, script),
        8 => change_setup(random, script),
        _ => double_line(random, script),
    }
}

fn split(script: &[u8]) -> Vec<Vec<u8>> {
    script.split_inclusive(|&byte| byte == b'\n').map(<[u8]>::to_vec).collect()
}

fn change_field(random: &mut Random, script: &mut Vec<u8>) {
    let mut lines = split(script);
    if lines.is_empty() {
        return;
    }
    let place = random.below(lines.len() as u64) as usize;
    let line = String::from_utf8_lossy(&lines[place]).trim_end_matches('\n').to_string();
    let mut words: Vec<&str> = line.split(' ').collect();
    let field = random.below(words.len() as u64) as usize;
    words[field] = random.one_of(&ODD_FIELDS);
    lines[place] = (words.join(" ") + "\n").into_bytes();
    *script = lines.concat();
}

fn insert_line(random: &mut Random, script: &mut Vec<u8>) {
    let mut lines = split(script);
    let place = random.below(lines.len() as u64 + 1) as usize;
    let line = random.one_of(&ODD_LINES);
    lines.insert(place, format!("{line}\n").into_bytes());
    *script = lines.concat();
}

fn change_setup(random: &mut Random, script: &mut Vec<u8>) {
    let mut lines = split(script);
    let setup = random.one_of(&ODD_SETUPS);
    if let Some(first) = lines.first_mut() {
        *first = format!("{setup}\n").into_bytes();
    }
    *script = lines.concat();
}

fn double_line(random: &mut Random, script: &mut Vec<u8>) {
    let mut lines = split(script);
    if !lines.is_empty() {
        let place = random.below(lines.len() as u64) as usize;
        lines.insert(place, lines[place].clone());
    }
    *script = lines.concat();
}

/// A script of about the most bytes: one below, just so many, or one above.
fn of_size(random: &mut Random, script: &[u8]) -> Vec<u8> {
    let size = random.between(MOST_BYTES as u64 - 1, MOST_BYTES as u64 + 1) as usize;
    let mut out: Vec<u8> = split(script).into_iter().take(100).flatten().collect();
    while size - out.len() > 182 {
        out.extend(resume_of_length(91));
    }
    let half = (size - out.len()) / 2;
    out.extend(resume_of_length(half));
    out.extend(resume_of_length(size - out.len()));
    out
}

/// A resume line of so many bytes, 15 to 91, with its LF.
fn resume_of_length(length: usize) -> Vec<u8> {
    let mut digits = length - 11;
    let mut line = "resume".to_string();
    for left in (0..4).rev() {
        let count = (digits - left).min(20);
        line.push(' ');
        line.push_str(&"1".repeat(count));
        digits -= count;
    }
    line.push('\n');
    line.into_bytes()
}

/// A script of about the most calls, perhaps with a bad last line.
fn many_calls(random: &mut Random, script: &[u8]) -> Vec<u8> {
    let calls = random.between(MOST_CALLS as u64 - 1, MOST_CALLS as u64 + 2) as usize;
    let mut lines = split(script);
    lines.truncate(calls + 1);
    while lines.len() < calls + 1 {
        let filler = random.one_of(&["cut", "start", "arrive 1", "step 0 3"]);
        lines.push(format!("{filler}\n").into_bytes());
    }
    if random.once_in(3) {
        let odd = random.one_of(&ODD_LINES);
        lines[calls] = format!("{odd}\n").into_bytes();
    }
    lines.concat()
}

fn noise(random: &mut Random) -> Vec<u8> {
    let length = random.one_of(&[0, 1, 2, 30, 3000, 32_768, 32_769]);
    let mut out: Vec<u8> = (0..length).map(|_| random.next() as u8).collect();
    if length == 3000 {
        out.splice(..0, *b"store queue lazy\n");
    }
    out
}

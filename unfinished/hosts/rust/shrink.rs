//! Shortens a script as long as something stays true of it: first over lines, then over numbers.

use crate::script::MOST_STEPS;

const MOST_FOR_PAIRS: usize = 60;

/// The shortened script; `holds` is true of the script given and of the one that comes back.
pub fn shrink(script: &[u8], holds: &mut dyn FnMut(&[u8]) -> bool) -> Vec<u8> {
    let mut lines: Vec<Vec<u8>> = script.split_inclusive(|&byte| byte == b'\n').map(<[u8]>::to_vec).collect();
    loop {
        let before = lines.concat();
        fewer_lines(&mut lines, holds);
        without_pairs(&mut lines, holds);
        joined_steps(&mut lines, holds);
        smaller_numbers(&mut lines, holds);
        if lines.concat() == before {
            return before;
        }
    }
}

/// Leaves out runs of lines, long runs first, until no single line can be left out.
fn fewer_lines(lines: &mut Vec<Vec<u8>>, holds: &mut dyn FnMut(&[u8]) -> bool) {
    let mut length = lines.len().div_ceil(2);
    while length > 0 {
        let mut place = 0;
        let mut shorter = false;
        while place < lines.len() {
            let end = (place + length).min(lines.len());
            let rest = [&lines[..place], &lines[end..]].concat();
            if holds(&rest.concat()) {
                *lines = rest;
                shorter = true;
            } else {
                place = end;
            }
        }
        if length > 1 || !shorter {
            length /= 2;
        }
    }
}

/// Leaves out two lines that lie apart, as a call and its answer, where the script is short enough to try all.
fn without_pairs(lines: &mut Vec<Vec<u8>>, holds: &mut dyn FnMut(&[u8]) -> bool) {
    let mut first = 0;
    while first < lines.len() && lines.len() <= MOST_FOR_PAIRS {
        let found = (first + 1..lines.len()).find_map(|second| {
            let mut rest = lines.clone();
            rest.remove(second);
            rest.remove(first);
            holds(&rest.concat()).then_some(rest)
        });
        match found {
            Some(rest) => *lines = rest,
            None => first += 1,
        }
    }
}

/// Makes one line of two neighbours that step the same worker.
fn joined_steps(lines: &mut Vec<Vec<u8>>, holds: &mut dyn FnMut(&[u8]) -> bool) {
    let mut place = 0;
    while place + 1 < lines.len() {
        let joined = steps_of(&lines[place]).zip(steps_of(&lines[place + 1])).and_then(|(one, two)| {
            let mut rest = lines.clone();
            rest[place] = format!("step {} {}\n", one.0, one.1 + two.1).into_bytes();
            rest.remove(place + 1);
            (one.0 == two.0 && holds(&rest.concat())).then_some(rest)
        });
        match joined {
            Some(rest) => *lines = rest,
            None => place += 1,
        }
    }
}

/// Worker and count of a line of steps.
fn steps_of(line: &[u8]) -> Option<(u64, u64)> {
    let text = std::str::from_utf8(line).ok()?;
    let mut words = text.trim_end().strip_prefix("step ")?.split(' ');
    let worker = words.next()?.parse().ok()?;
    let count = words.next().map_or(Some(1), |word| word.parse().ok())?;
    Some((worker, count)).filter(|_| count <= MOST_STEPS)
}

fn smaller_numbers(lines: &mut [Vec<u8>], holds: &mut dyn FnMut(&[u8]) -> bool) {
    for place in 0..lines.len() {
        let mut field = 0;
        while let Some(smaller) = candidates(&lines[place], field) {
            let found = smaller.into_iter().find(|line| {
                let mut changed = lines.to_vec();
                changed[place] = line.clone();
                holds(&changed.concat())
            });
            match found {
                Some(line) => lines[place] = line,
                None => field += 1,
            }
        }
    }
}

/// The line with a smaller number in this field, none where it has no such field.
fn candidates(line: &[u8], field: usize) -> Option<Vec<Vec<u8>>> {
    let text = std::str::from_utf8(line).ok()?;
    let (text, end) = text.strip_suffix('\n').map_or((text, ""), |text| (text, "\n"));
    let words: Vec<&str> = text.split(' ').collect();
    let word = words.get(field)?;
    let mut out = Vec::new();
    if let Ok(number) = word.parse::<u64>() {
        // One less is tried of small numbers only: of large ones it would take too many tries.
        let one_less = if number <= MOST_STEPS { number.saturating_sub(1) } else { 0 };
        for smaller in [0, 1, number / 2, one_less] {
            if smaller < number {
                let mut changed: Vec<String> = words.iter().map(|word| word.to_string()).collect();
                changed[field] = smaller.to_string();
                out.push((changed.join(" ") + end).into_bytes());
            }
        }
    }
    Some(out)
}

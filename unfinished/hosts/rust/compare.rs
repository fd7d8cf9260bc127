//! Compares random scripts byte for byte: the second machine's listing with that of the C function.
#![deny(warnings)]

use std::path::PathBuf;
use std::process::ExitCode;
use std::time::{Instant, SystemTime, UNIX_EPOCH};

use depot::coverage::Coverage;
use depot::damage::damaged;
use depot::generate;
use depot::machine::listing_with;
use depot::planted::{Planted, ALL_PLANTED};
use depot::proved::{self, NO_ROOM};
use depot::random::Random;
use depot::shrink::shrink;

/// One script in so many is damaged.
const DAMAGED: u64 = 5;
const SELFTEST_SCRIPTS: u64 = 2_000;
const SELFTEST_SEED: u64 = 1;
const USUAL_SCRIPTS: u64 = 2_000;
/// No listing is longer: 512 calls of at most 30 bytes.
const MOST_LISTING: usize = 16_384;
/// What lies in a buffer before the call, by place.
const FILL: [u8; 3] = [0xa5, 0x0a, 0x5a];

fn fill(place: usize) -> u8 {
    FILL[place % FILL.len()]
}

fn script_of(seed: u64, index: u64) -> Vec<u8> {
    let mut random = Random::of_script(seed, index);
    let script = generate::script(&mut random);
    if random.once_in(DAMAGED) {
        damaged(&mut random, script)
    } else {
        script
    }
}

/// Runs the C function with this much room, and says what is wrong with what it leaves.
fn wrong_in_buffer(script: &[u8], wanted: &[u8], buffer: &mut [u8], room: usize) -> Option<String> {
    for (place, byte) in buffer.iter_mut().enumerate() {
        *byte = fill(place);
    }
    let answer = proved::run(script, &mut buffer[..room]);
    let fits = wanted.len() <= room;
    let should = if fits { wanted.len() } else { NO_ROOM };
    if answer != should {
        return Some(format!("with room for {room} bytes the answer is {answer}, not {should}"));
    }
    let written = if fits { wanted.len() } else { 0 };
    if buffer[..written] != wanted[..written] {
        return Some("the listings differ".to_string());
    }
    let touched = (written..buffer.len()).find(|&place| buffer[place] != fill(place));
    touched.map(|place| format!("with room for {room} bytes byte {place} was touched, which is no part of a listing"))
}

/// What is wrong, if anything: with room enough, with just enough, with one byte less, and with none.
fn difference(script: &[u8], planted: Planted, buffer: &mut [u8]) -> Option<String> {
    let wanted = listing_with(script, planted);
    let mut rooms = vec![MOST_LISTING, wanted.len()];
    if !wanted.is_empty() {
        rooms.extend([wanted.len() - 1, 0]);
    }
    rooms.into_iter().find_map(|room| wrong_in_buffer(script, &wanted, buffer, room))
}

/// A script that differs.
struct Difference {
    index: u64,
    script: Vec<u8>,
    wrong: String,
}

/// The first script that differs.
fn first_difference(count: u64, seed: u64, planted: Planted, coverage: &mut Coverage) -> Option<Difference> {
    let mut buffer = vec![0; MOST_LISTING + 64];
    for index in 0..count {
        let script = script_of(seed, index);
        coverage.add(&script);
        if let Some(wrong) = difference(&script, planted, &mut buffer) {
            return Some(Difference { index, script, wrong });
        }
    }
    None
}

fn shortened(script: &[u8], planted: Planted) -> Vec<u8> {
    let mut buffer = vec![0; MOST_LISTING + 64];
    shrink(script, &mut |script| difference(script, planted, &mut buffer).is_some())
}

fn line_count(script: &[u8]) -> usize {
    script.split_inclusive(|&byte| byte == b'\n').count()
}

/// Writes a script and, beside it, what the second machine and the proved library make of it.
fn write_out(name: &str, script: &[u8], planted: Planted) -> PathBuf {
    let folder = PathBuf::from(std::env::var_os("DEPOT_OUT").unwrap_or(".".into()));
    let path = folder.join(name).with_extension("script");
    let written = std::fs::write(&path, script)
        .and_then(|()| std::fs::write(path.with_extension("machine"), listing_with(script, planted)))
        .and_then(|()| std::fs::write(path.with_extension("proved"), proved::listing(script)));
    if let Err(error) = written {
        eprintln!("{}: {error}", path.display());
    }
    path
}

fn compare(count: u64, seed: u64) -> ExitCode {
    println!("seed {seed}, {count} scripts");
    let began = Instant::now();
    let mut coverage = Coverage::default();
    let found = first_difference(count, seed, Planted::Nothing, &mut coverage);
    let Some(Difference { index, script, wrong }) = found else {
        print!("{coverage}");
        println!("no difference, {:.1} s", began.elapsed().as_secs_f64());
        return ExitCode::SUCCESS;
    };
    let short = shortened(&script, Planted::Nothing);
    let path = write_out(&format!("differs-{seed}-{index}"), &short, Planted::Nothing);
    println!("script {index} differs: {wrong}");
    println!("shortened to {} lines: {}", line_count(&short), path.display());
    ExitCode::FAILURE
}

/// Plants one changed rule after another in the second machine; each must be found.
fn selftest(seed: u64) -> ExitCode {
    println!("seed {seed}, up to {SELFTEST_SCRIPTS} scripts for each changed rule");
    let mut all = true;
    for planted in ALL_PLANTED {
        let found = first_difference(SELFTEST_SCRIPTS, seed, planted, &mut Coverage::default());
        let Some(Difference { index, script, .. }) = found else {
            println!("{planted:?}: NOT FOUND");
            all = false;
            continue;
        };
        let short = shortened(&script, planted);
        println!("{planted:?}: found after {} scripts, shortened to {} lines", index + 1, line_count(&short));
        write_out(&format!("selftest-{planted:?}"), &short, planted);
    }
    if all {
        println!("every changed rule was found");
        ExitCode::SUCCESS
    } else {
        ExitCode::FAILURE
    }
}

fn clock_seed() -> u64 {
    SystemTime::now().duration_since(UNIX_EPOCH).map_or(0, |time| time.as_nanos() as u64 % 1_000_000_007)
}

fn main() -> ExitCode {
    let words: Vec<String> = std::env::args().skip(1).collect();
    if let Some(("--selftest", rest)) = words.split_first().map(|(first, rest)| (first.as_str(), rest)) {
        let seed = rest.first().and_then(|word| word.parse().ok());
        return selftest(seed.unwrap_or(SELFTEST_SEED));
    }
    let numbers: Result<Vec<u64>, _> = words.iter().map(|word| word.parse()).collect();
    match numbers.as_deref() {
        Ok([]) => compare(USUAL_SCRIPTS, clock_seed()),
        Ok([count]) => compare(*count, clock_seed()),
        Ok([count, seed]) => compare(*count, *seed),
        _ => {
            eprintln!("usage: compare [COUNT [SEED]], or compare --selftest [SEED]");
            ExitCode::from(2)
        }
    }
}

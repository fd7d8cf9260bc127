//! Measures the proved library beside the second machine, and counts what combining saves. It only prints.
#![deny(warnings)]

use std::hint::black_box;
use std::process::{Command, ExitCode};
use std::time::Instant;

use depot::generate::busy_script;
use depot::machine::{self, make, store_of, Outcome};
use depot::object::ObjectKind;
use depot::planted::Planted;
use depot::proved;
use depot::random::Random;
use depot::script::{self, Call};

const SEED: u64 = 20;
const REPEATS: usize = 9;
/// Scripts for each object and each number of workers: many for the clock, few for the counting.
const TIMED: usize = 40;
const COUNTED: usize = 1;

type Run = fn(&[u8], &mut Vec<u8>);

fn run_proved(script: &[u8], out: &mut Vec<u8>) {
    black_box(proved::run(black_box(script), out));
}

fn run_machine(script: &[u8], _: &mut Vec<u8>) {
    black_box(machine::listing(black_box(script)));
}

fn run_nothing(script: &[u8], _: &mut Vec<u8>) {
    black_box(script);
}

fn scripts(each: usize) -> Vec<Vec<u8>> {
    let mut random = Random::new(SEED);
    let mut out = Vec::new();
    for workers in 1..=8 {
        for object in [ObjectKind::Queue, ObjectKind::Stack] {
            out.extend((0..each).map(|_| busy_script(&mut random, object, workers)));
        }
    }
    out
}

/// How many steps the scripts make that are accepted.
fn steps_of(scripts: &[Vec<u8>]) -> u64 {
    let mut steps = 0;
    for text in scripts {
        let Ok(script) = script::read(text, Planted::Nothing) else {
            continue;
        };
        let mut store = store_of(&script, Planted::Nothing);
        for call in script.calls {
            let count = if let Call::Step { count, .. } = call { count } else { 1 };
            for _ in 0..count {
                match make(&mut store, call) {
                    Ok(Outcome::Step(_)) => steps += 1,
                    Ok(_) => {}
                    Err(_) => break,
                }
            }
        }
    }
    steps
}

fn run_all(scripts: &[Vec<u8>], run: Run, out: &mut Vec<u8>) {
    for script in scripts {
        run(script, out);
    }
}

fn timed() {
    let scripts = scripts(TIMED);
    let steps = steps_of(&scripts);
    let mut out = vec![0; 1 << 16];
    let mut best = [f64::INFINITY; 2];
    for _ in 0..REPEATS {
        for (which, run) in [run_proved as Run, run_machine].into_iter().enumerate() {
            let began = Instant::now();
            run_all(&scripts, run, &mut out);
            best[which] = best[which].min(began.elapsed().as_secs_f64());
        }
    }
    println!("{} scripts, {steps} accepted steps, seed {SEED}, best of {REPEATS} runs in turns", scripts.len());
    for (name, seconds) in ["proved library", "second machine"].into_iter().zip(best) {
        println!("{name}: {seconds:.4} s, {:.1} million steps per second", steps as f64 / seconds / 1e6);
    }
    println!("the proved library takes {:.2} times the time of the second machine", best[0] / best[1]);
}

/// The part that is run under the counter: `speed --only NAME`.
fn only(name: &str) -> ExitCode {
    let run: Run = match name {
        "proved" => run_proved,
        "machine" => run_machine,
        "nothing" => run_nothing,
        _ => return ExitCode::from(2),
    };
    run_all(&scripts(COUNTED), run, &mut vec![0; 1 << 16]);
    ExitCode::SUCCESS
}

/// The instructions of this program's run with `--only NAME`.
fn instructions(name: &str) -> Option<u64> {
    let program = std::env::current_exe().ok()?;
    let output = Command::new("valgrind")
        .args(["--tool=callgrind", "--callgrind-out-file=/dev/null"])
        .arg(program)
        .args(["--only", name])
        .output()
        .ok()?;
    let said = String::from_utf8_lossy(&output.stderr).into_owned();
    let line = said.lines().find(|line| line.contains("Collected :"))?;
    line.split_whitespace().last()?.parse().ok()
}

fn counted() {
    let all = ["nothing", "proved", "machine"].map(instructions);
    let [Some(nothing), Some(proved), Some(machine)] = all else {
        println!("instructions: not counted, valgrind did not run");
        return;
    };
    let scripts = scripts(COUNTED);
    let steps = steps_of(&scripts);
    println!("{} scripts, {steps} accepted steps, under callgrind, less the writing of the scripts", scripts.len());
    for (name, count) in [("proved library", proved - nothing), ("second machine", machine - nothing)] {
        println!("{name}: {count} instructions, {:.0} for each step", count as f64 / steps as f64);
    }
    let ratio = (proved - nothing) as f64 / (machine - nothing) as f64;
    println!("the proved library takes {ratio:.2} times the instructions of the second machine");
}

/// What rounds ask of the memory, counted from step answers in the proved library's listing.
#[derive(Default)]
struct Asked {
    served: u64,
    lines: u64,
    fences: u64,
    syncs: u64,
}

/// Counts over all steps of a script whose steps stand one in a line.
fn asked(script: &str) -> Asked {
    let mut asked = Asked::default();
    for line in String::from_utf8_lossy(&proved::listing(script.as_bytes())).lines() {
        match line {
            "step 1 4" => asked.served += 1,
            "step 1 7" | "step 1 10" => asked.lines += 1,
            "step 1 8" => asked.fences += 1,
            "step 1 11" => asked.syncs += 1,
            _ => {}
        }
    }
    asked
}

/// A script in which so many workers are served: in one round, or each in a round of its own.
fn serving(workers: u64, requests: u64, one_round: bool) -> String {
    let mut text = format!("store queue lazy\nformat {workers}\nstart\n");
    let round = |worker: u64| format!("step {worker}\n").repeat(21 + 2 * workers as usize);
    for worker in 0..requests {
        text += &format!("announce {worker} 1 {worker}\n");
        if !one_round {
            text += &round(worker);
        }
    }
    if one_round {
        text += &round(0);
    }
    text
}

fn combining() {
    println!("for each request served: lines asked, fences, syncs");
    println!("{:>8} {:>9}   {:>24}   {:>24}", "workers", "requests", "in one round", "a round for each");
    let eight = (1..=8).map(|requests| (8, requests));
    let just = (1..8).map(|requests| (requests, requests));
    for (workers, requests) in eight.chain(just) {
        let cells = [true, false].map(|one_round| {
            let asked = asked(&serving(workers, requests, one_round));
            let each = |count: u64| count as f64 / asked.served as f64;
            let missed = if asked.served == requests { "" } else { " WRONG" };
            format!("{:8.2}{:8.3}{:8.3}{missed}", each(asked.lines), each(asked.fences), each(asked.syncs))
        });
        println!("{workers:>8} {requests:>9}   {}   {}", cells[0], cells[1]);
    }
}

fn main() -> ExitCode {
    let words: Vec<String> = std::env::args().skip(1).collect();
    if let [option, name] = &words[..] {
        if option == "--only" {
            return only(name);
        }
    }
    println!("Time");
    timed();
    println!("\nInstructions");
    counted();
    println!("\nCombining");
    combining();
    ExitCode::SUCCESS
}

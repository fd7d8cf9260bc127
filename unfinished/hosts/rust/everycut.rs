//! Cuts a script at every point, under every set of arrivals that the memory allows, and checks what is found then.
#![deny(warnings)]

use std::path::{Path, PathBuf};
use std::process::ExitCode;
use std::time::Instant;

use depot::machine::{listing_with, make, store_of, Outcome};
use depot::memory::{Memory, MemoryKind};
use depot::observe::{content_first, slips_first, Known, Observation};
use depot::order::explain;
use depot::planted::Planted;
use depot::proved;
use depot::random::Random;
use depot::script::{self, Call, MOST_BYTES, MOST_CALLS};
use depot::store::Store;
use depot::table::Request;
use depot::writer::line_of;

/// So many sets of arrivals are tried at one cut point; where there are more, as many are drawn.
const MOST_SETS: u64 = 4_096;
const SAMPLE_SEED: u64 = 4_096;

/// Room for what is added to a script: 28 arrivals, a cut, a start, 32 calls for slips, and 33 takes of 4 calls.
const ADDED_CALLS: usize = 200;
const ADDED_BYTES: usize = 10_000;

type Runner<'a> = &'a dyn Fn(&[u8]) -> Vec<u8>;

#[derive(Default)]
struct Tally {
    points: u64,
    cases: u64,
    runs: u64,
    sampled: u64,
}

/// A case that no order explains.
struct Unexplained {
    script: String,
    why: String,
}

/// The lines of the memory that matter at a cut point.
struct Lines {
    /// Lines that a cut would lose.
    lost: Vec<usize>,
    due: Vec<usize>,
    /// Lines that wait until no line is due.
    waiting: Vec<usize>,
}

impl Lines {
    fn of(memory: &Memory) -> Lines {
        let all = 0..memory.lines();
        Lines {
            lost: all.clone().filter(|&line| memory.would_lose(line)).collect(),
            due: all.clone().filter(|&line| memory.due().holds(line)).collect(),
            waiting: all.filter(|&line| !memory.allowed(line)).collect(),
        }
    }

    /// The arrivals of a set, in an order that the memory allows; none where it allows no such set.
    fn arrivals(&self, chosen: &[usize]) -> Option<Vec<usize>> {
        let (last, mut out): (Vec<usize>, Vec<usize>) = chosen.iter().partition(|line| self.waiting.contains(line));
        if !last.is_empty() {
            for &line in &self.due {
                if self.lost.contains(&line) && !out.contains(&line) {
                    return None;
                }
                if !out.contains(&line) {
                    out.push(line);
                }
            }
        }
        out.extend(last);
        Some(out)
    }

    /// Every allowed set, or so many drawn ones and true.
    fn sets(&self) -> (Vec<Vec<usize>>, bool) {
        let chosen = |mask: u64| -> Vec<usize> {
            let bits = self.lost.iter().enumerate();
            bits.filter(|(bit, _)| mask >> bit & 1 == 1).map(|(_, &line)| line).collect()
        };
        let masks = 1u64 << self.lost.len();
        let allowed = |mask| self.arrivals(&chosen(mask));
        if masks <= 16 * MOST_SETS {
            let sets: Vec<Vec<usize>> = (0..masks).filter_map(allowed).collect();
            if sets.len() as u64 <= MOST_SETS {
                return (sets, false);
            }
        }
        let mut random = Random::new(SAMPLE_SEED);
        let mut sets: Vec<Vec<usize>> = [0, masks - 1].into_iter().filter_map(allowed).collect();
        while (sets.len() as u64) < MOST_SETS {
            let mask = random.below(masks);
            sets.extend(allowed(mask));
        }
        (sets, true)
    }
}

/// Walks through a script on a machine that tells what the memory allows, and cuts at every point.
struct Walk<'a> {
    run: Runner<'a>,
    store: Store,
    known: Option<Known>,
    /// The script up to the cut point.
    before: String,
    calls: usize,
    tally: Tally,
}

impl Walk<'_> {
    /// Makes the next call, step by step, and cuts after each.
    fn go_on(&mut self, call: Call) -> Result<(), Unexplained> {
        let Call::Step { worker, count } = call else {
            let outcome = make(&mut self.store, call);
            self.take_note(call, outcome.ok());
            self.before.push_str(&line_of(call));
            self.calls += 1;
            return self.cut_here();
        };
        let before = self.before.clone();
        self.calls += 1;
        for done in 1..=count {
            let accepted = make(&mut self.store, call).is_ok();
            self.before = before.clone() + &line_of(Call::Step { worker, count: done });
            self.cut_here()?;
            if !accepted {
                break;
            }
        }
        self.before = before + &line_of(call);
        Ok(())
    }

    fn take_note(&mut self, call: Call, outcome: Option<Outcome>) {
        match (call, outcome) {
            (Call::Format { workers }, Some(_)) => self.known = Some(Known::nothing(workers as usize)),
            (Call::Announce { worker, op, arg }, Some(Outcome::Turn(turn)))
            | (Call::Resume { worker, op, arg, .. }, Some(Outcome::Waiting(turn))) => {
                if let Some(known) = &mut self.known {
                    known.accepted(worker as usize, Request { turn, op, arg });
                }
            }
            _ => {}
        }
    }

    /// Tries every set of arrivals at this point; before a format there is nothing to find.
    fn cut_here(&mut self) -> Result<(), Unexplained> {
        let Some(known) = &self.known else {
            return Ok(());
        };
        self.tally.points += 1;
        let (sets, sampled) = Lines::of(self.store.memory()).sets();
        self.tally.sampled += u64::from(sampled);
        for arrivals in sets {
            let drainer = (self.tally.cases % known.workers as u64) as usize;
            self.tally.cases += 1;
            for observation in [slips_first(known), content_first(known, drainer)] {
                self.tally.runs += 1;
                self.one_run(&arrivals, &observation)?;
            }
        }
        Ok(())
    }

    fn one_run(&self, arrivals: &[usize], observation: &Observation) -> Result<(), Unexplained> {
        let mut script = self.before.clone();
        for &line in arrivals {
            script.push_str(&line_of(Call::Arrive { line: line as u64 }));
        }
        script.push_str("cut\nstart\n");
        script.push_str(&observation.text);
        let listing = String::from_utf8_lossy(&(self.run)(script.as_bytes())).into_owned();
        let start = self.calls + arrivals.len() + 1;
        let seen = check(&script, &listing, (self.calls, start), observation);
        seen.map_err(|why| Unexplained { script, why })
    }
}

/// That an order explains it all, that the arrivals and the start were done, and that the draining was answered.
/// `first` and `start` are the places of the first arrival and of the start in the listing.
fn check(
    script: &str,
    listing: &str,
    (first, start): (usize, usize),
    observation: &Observation,
) -> Result<(), String> {
    explain(script, listing)?;
    let lines: Vec<&str> = listing.lines().collect();
    if lines[first..start - 1].iter().any(|&line| line != "arrive ok") {
        return Err("an arrival that the memory allows was refused".to_string());
    }
    if lines[start] != "start ok" {
        return Err("the start was refused".to_string());
    }
    let drain = &lines[start + 1 + observation.drain.start..start + 1 + observation.drain.end];
    let answers = drain.iter().filter(|line| line.starts_with("answer ")).count();
    if answers != observation.takes {
        return Err(format!("{answers} of {} takes were answered", observation.takes));
    }
    Ok(())
}

/// Cuts a script everywhere; the machine that knows the memory has the same planted rule as the runner.
fn every_cut(text: &[u8], run: Runner, planted: Planted) -> Result<(Tally, Option<Unexplained>), String> {
    let script = script::read(text, Planted::Nothing)
        .map_err(|fault| format!("fault {} line {} byte {}", fault.number, fault.line, fault.byte))?;
    if script.memory != MemoryKind::Lazy {
        return Err("the script's memory is not lazy".to_string());
    }
    if script.calls.len() > MOST_CALLS - ADDED_CALLS || text.len() > MOST_BYTES - ADDED_BYTES {
        return Err("the script is too long to add calls to it".to_string());
    }
    let setup = String::from_utf8_lossy(script::lines(text).next().unwrap_or(b"")).into_owned();
    let store = store_of(&script, planted);
    let mut walk =
        Walk { run, store, known: None, before: setup + "\n", calls: 0, tally: Tally::default() };
    for call in script.calls {
        if let Err(unexplained) = walk.go_on(call) {
            return Ok((walk.tally, Some(unexplained)));
        }
    }
    Ok((walk.tally, None))
}

/// Tries one file; true where every case was explained.
fn try_file(path: &Path) -> bool {
    let began = Instant::now();
    let text = match std::fs::read(path) {
        Ok(text) => text,
        Err(error) => {
            println!("{}: {error}", path.display());
            return false;
        }
    };
    let (tally, found) = match every_cut(&text, &proved::listing, Planted::Nothing) {
        Ok(tried) => tried,
        Err(why) => {
            println!("{}: not tried: {why}", path.display());
            return false;
        }
    };
    if tally.points == 0 {
        println!("{}: not tried: no store is formatted in it", path.display());
        return false;
    }
    let seconds = began.elapsed().as_secs_f64();
    println!(
        "{}: {} cut points, {} cases of arrivals, {} runs, {seconds:.1} s; {}",
        path.display(), tally.points, tally.cases, tally.runs, exhaustive(tally.sampled)
    );
    match found {
        Some(found) => report(path, &found),
        None => return true,
    }
    false
}

fn exhaustive(sampled: u64) -> String {
    match sampled {
        0 => "every set of arrivals was tried".to_string(),
        _ => format!("at {sampled} points {MOST_SETS} sets were drawn (seed {SAMPLE_SEED}), at the others all tried"),
    }
}

fn report(path: &Path, found: &Unexplained) {
    let folder = PathBuf::from(std::env::var_os("DEPOT_OUT").unwrap_or(".".into()));
    let name = path.file_stem().unwrap_or_default().to_string_lossy().into_owned();
    let out = folder.join(format!("unexplained-{name}.script"));
    let written = std::fs::write(&out, &found.script)
        .and_then(|()| std::fs::write(out.with_extension("listing"), proved::listing(found.script.as_bytes())));
    if let Err(error) = written {
        eprintln!("{}: {error}", out.display());
    }
    println!("not explained: {}\n{}", found.why, out.display());
}

/// Two rounds of one worker.
const TWO_ROUNDS: &str = "store queue lazy\nformat 1\nstart\nannounce 0 1 501\nstep 0 24\nresume 0 1 1 501\n\
    announce 0 1 502\nstep 0 24\nresume 0 2 1 502\n";
/// Worker 1 announces after its line was served, looks after the round of worker 0, and looks too late:
/// the next round of worker 0 has done its Flip by then.
const LATE_LOOK: &str = "store queue lazy\nformat 2\nstart\nannounce 0 1 501\nstep 0 8\nannounce 1 1 601\nstep 1\n\
    step 0 18\nresume 0 1 1 501\nannounce 0 1 502\nstep 0 22\nstep 1\nresume 1 1 1 601\nstep 0 5\nresume 0 2 1 502\n";

/// Both are served in one round, and then worker 1, who did not see it, makes a round of its own.
const ROUND_AFTER: &str = "store queue lazy\nformat 2\nstart\nannounce 0 1 501\nannounce 1 1 601\nstep 0 26\n\
    resume 0 1 1 501\nstep 1 26\nresume 1 1 1 601\n";

/// Rules that break a promise of the store, each with a script that shows it.
const BROKEN: [(Planted, &str); 6] = [
    (Planted::NoFence, TWO_ROUNDS),
    (Planted::LookByIndex, LATE_LOOK),
    (Planted::TurnsFromOne, TWO_ROUNDS),
    (Planted::LateMayArrive, TWO_ROUNDS),
    (Planted::IndexNotAsked, TWO_ROUNDS),
    (Planted::ServedTwice, ROUND_AFTER),
];

/// Changes one answer after another in a listing that is right; true where no order explains any of them.
fn changed_answers_found(script: &str) -> bool {
    let listing = String::from_utf8_lossy(&listing_with(script.as_bytes(), Planted::Nothing)).into_owned();
    let lines: Vec<&str> = listing.lines().collect();
    let answers: Vec<usize> = (0..lines.len()).filter(|&place| lines[place].starts_with("answer ")).collect();
    let found = answers.iter().filter(|&&place| {
        let mut changed = lines.clone();
        changed[place] = "answer 0 77";
        explain(script, &changed.join("\n")).is_err()
    });
    let found = found.count();
    println!("{found} of {} changed answers not explained", answers.len());
    explain(script, &listing).is_ok() && found == answers.len() && found > 0
}

/// Runs the second machine in place of the C function: as it is every case is explained, with a changed rule not.
fn selftest() -> ExitCode {
    let mut all = [TWO_ROUNDS, LATE_LOOK, ROUND_AFTER].into_iter().all(changed_answers_found);
    let unplanted = [TWO_ROUNDS, LATE_LOOK, ROUND_AFTER].map(|script| (Planted::Nothing, script));
    for (planted, script) in unplanted.into_iter().chain(BROKEN) {
        let run = |text: &[u8]| listing_with(text, planted);
        let (tally, found) = match every_cut(script.as_bytes(), &run, planted) {
            Ok(tried) => tried,
            Err(why) => {
                println!("{planted:?}: {why}");
                return ExitCode::FAILURE;
            }
        };
        let right = found.is_some() == (planted != Planted::Nothing);
        all &= right;
        let said = found.map_or("every case explained".to_string(), |found| found.why);
        let mark = if right { "" } else { " - WRONG" };
        println!("{planted:?}: {} cut points, {} cases: {said}{mark}", tally.points, tally.cases);
    }
    if all {
        println!("every changed rule and answer was found");
        ExitCode::SUCCESS
    } else {
        ExitCode::FAILURE
    }
}

fn main() -> ExitCode {
    let words: Vec<String> = std::env::args().skip(1).collect();
    if words.is_empty() {
        eprintln!("usage: everycut SCRIPT..., or everycut --selftest");
        return ExitCode::from(2);
    }
    if words == ["--selftest"] {
        return selftest();
    }
    let mut all = true;
    for word in &words {
        all &= try_file(Path::new(word));
    }
    if all {
        println!("every case is explained by an order");
        ExitCode::SUCCESS
    } else {
        ExitCode::FAILURE
    }
}

//! Counts what the scripts of a comparison reached, on the second machine.

use std::collections::BTreeMap;
use std::fmt;

use crate::machine::{make, store_of, Outcome};
use crate::planted::Planted;
use crate::refusal::Refusal;
use crate::script::{self, Call};
use crate::store::Store;
use crate::table::Phase;

/// Refusals that a script can reach, step answers, faults and phases: a run should see them all.
const REFUSALS: [u64; 13] = [1, 2, 3, 4, 6, 9, 10, 11, 12, 13, 15, 19, 20];
const FAULTS: [u64; 7] = [31, 32, 33, 34, 35, 37, 38];
const PHASES: [&str; 11] =
    ["down", "no round", "Load", "Serve", "Store", "Ask", "Fence", "Flip", "Mark", "Sync", "Leave"];

#[derive(Default)]
pub struct Coverage {
    scripts: u64,
    calls: u64,
    steps: u64,
    cuts: BTreeMap<&'static str, u64>,
    refusals: BTreeMap<u64, u64>,
    answers: BTreeMap<u64, u64>,
    codes: BTreeMap<u64, u64>,
    faults: BTreeMap<u64, u64>,
    rounds: BTreeMap<u64, u64>,
}

impl Coverage {
    pub fn add(&mut self, text: &[u8]) {
        self.scripts += 1;
        let script = match script::read(text, Planted::Nothing) {
            Ok(script) => script,
            Err(fault) => return *self.faults.entry(fault.number).or_default() += 1,
        };
        let mut store = store_of(&script, Planted::Nothing);
        let mut served = 0;
        for call in script.calls {
            self.calls += 1;
            let count = if let Call::Step { count, .. } = call { count } else { 1 };
            for _ in 0..count {
                if call == Call::Cut {
                    *self.cuts.entry(phase_name(&store)).or_default() += 1;
                }
                let outcome = make(&mut store, call);
                self.count(outcome, &mut served);
                if outcome.is_err() {
                    break;
                }
            }
        }
    }

    fn count(&mut self, outcome: Result<Outcome, Refusal>, served: &mut u64) {
        match outcome {
            Ok(Outcome::Step(number)) => {
                self.steps += 1;
                *self.answers.entry(number).or_default() += 1;
                match number {
                    1 => *served = 0,
                    4 => *served += 1,
                    12 => *self.rounds.entry(*served).or_default() += 1,
                    _ => {}
                }
            }
            Ok(Outcome::Answer(code, _)) => *self.codes.entry(code).or_default() += 1,
            Ok(_) => {}
            Err(refusal) => *self.refusals.entry(refusal.0).or_default() += 1,
        }
    }

    /// What a run of any length should have seen and this one has not.
    pub fn missing(&self) -> Vec<String> {
        let mut out = Vec::new();
        let mut want = |name: &str, seen: bool| {
            if !seen {
                out.push(name.to_string());
            }
        };
        PHASES.iter().for_each(|phase| want(&format!("cut at {phase}"), self.cuts.contains_key(phase)));
        REFUSALS.iter().for_each(|number| want(&format!("refusal {number}"), self.refusals.contains_key(number)));
        FAULTS.iter().for_each(|number| want(&format!("fault {number}"), self.faults.contains_key(number)));
        (1..=14).for_each(|number| want(&format!("step answer {number}"), self.answers.contains_key(&number)));
        (0..=3).for_each(|code| want(&format!("answer code {code}"), self.codes.contains_key(&code)));
        (1..=8).for_each(|served| want(&format!("round of {served}"), self.rounds.contains_key(&served)));
        out
    }
}

/// The phase whose step would come next in the running round.
fn phase_name(store: &Store) -> &'static str {
    let Some(table) = store.table() else {
        return "down";
    };
    match table.round_phase() {
        None | Some(Phase::Gate | Phase::Watch | Phase::Look) => "no round",
        Some(Phase::Load(_)) => "Load",
        Some(Phase::Serve(_)) => "Serve",
        Some(Phase::Store(_)) => "Store",
        Some(Phase::Ask(_)) => "Ask",
        Some(Phase::Fence) => "Fence",
        Some(Phase::Flip) => "Flip",
        Some(Phase::Mark) => "Mark",
        Some(Phase::Sync) => "Sync",
        Some(Phase::Leave) => "Leave",
    }
}

fn row<K: fmt::Display + Ord>(to: &mut fmt::Formatter, name: &str, counts: &BTreeMap<K, u64>) -> fmt::Result {
    let parts: Vec<String> = counts.iter().map(|(key, count)| format!("{key}: {count}")).collect();
    writeln!(to, "{name}: {}", parts.join(", "))
}

impl fmt::Display for Coverage {
    fn fmt(&self, to: &mut fmt::Formatter) -> fmt::Result {
        writeln!(to, "scripts: {}, calls: {}, accepted steps: {}", self.scripts, self.calls, self.steps)?;
        row(to, "cuts by the phase that would have come next", &self.cuts)?;
        row(to, "refusals by number", &self.refusals)?;
        row(to, "step answers by number", &self.answers)?;
        row(to, "answers by code", &self.codes)?;
        row(to, "faults by number", &self.faults)?;
        row(to, "rounds by requests served", &self.rounds)?;
        let missing = self.missing();
        if missing.is_empty() {
            writeln!(to, "never seen: none of those that a script can reach")
        } else {
            writeln!(to, "never seen: {}", missing.join(", "))
        }
    }
}

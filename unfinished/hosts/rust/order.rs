//! The order checker: finds an order of the accepted requests that explains a listing, or shows that there is none.
//!
//! It reads only the script and its listing, and has an object of its own. Of the content of a store it knows
//! what requests that take out were answered, as those of a worker that drains the store after a restart.

use std::collections::{BTreeMap, HashSet};

/// A worker and a turn.
type Name = (u64, u64);
/// An operation and its argument.
type Words = (u64, u64);
/// How far the order has come with each worker, and the object's entries there.
type Place = (Vec<u64>, Vec<u64>);

/// What is known of a worker's request of one turn.
struct Known {
    words: Words,
    /// When these words were first accepted for this turn.
    first_accepted: usize,
    /// When it first became answered, or its answer was given.
    answered: Option<usize>,
    answers: Vec<(u64, u64)>,
}

/// All that a script and its listing tell of requests and answers since the last format.
#[derive(Default)]
pub struct History {
    stack: bool,
    requests: BTreeMap<Name, Known>,
    accepted: BTreeMap<(Name, Words), usize>,
    in_hand: BTreeMap<u64, u64>,
    formatted: bool,
}

/// An order that explains the listing, as workers and turns, or why there is none.
pub fn explain(script: &str, listing: &str) -> Result<Vec<Name>, String> {
    History::read(script, listing)?.find_order()
}

impl History {
    pub fn read(script: &str, listing: &str) -> Result<History, String> {
        let mut lines = script.lines();
        let setup = lines.next().unwrap_or("");
        let mut history = History { stack: setup.starts_with("store stack"), ..History::default() };
        if script.lines().count() != listing.lines().count() + 1 {
            return Err("the listing has not one line for each call".to_string());
        }
        for (time, (call, outcome)) in lines.zip(listing.lines()).enumerate() {
            let call: Vec<&str> = call.split(' ').collect();
            let outcome: Vec<&str> = outcome.split(' ').collect();
            history.note(time, &call, &outcome)?;
        }
        Ok(history)
    }

    fn note(&mut self, time: usize, call: &[&str], outcome: &[&str]) -> Result<(), String> {
        let number = |word: &str| word.parse::<u64>().map_err(|_| format!("no number: {word}"));
        match (call, outcome) {
            (["format", _], ["format", "ok"]) => {
                *self = History { stack: self.stack, formatted: true, ..History::default() };
            }
            (["cut"], _) => self.in_hand.clear(),
            (["start"], ["refused", why, _]) if self.formatted && *why != "2" => {
                return Err(format!("call {time}: a start of a formatted store was refused"));
            }
            (["announce", worker, op, arg], ["turn", turn]) => {
                self.accept(time, (number(worker)?, number(turn)?), (number(op)?, number(arg)?));
            }
            (["resume", worker, _, op, arg], ["waiting", turn]) => {
                self.accept(time, (number(worker)?, number(turn)?), (number(op)?, number(arg)?));
            }
            (["resume", worker, turn, ..], ["answer", code, value]) => {
                let name = (number(worker)?, number(turn)?);
                self.in_hand.remove(&name.0);
                self.become_answered(time, name)?;
                let answer = (number(code)?, number(value)?);
                self.requests.entry(name).and_modify(|known| known.answers.push(answer));
            }
            (["step", worker, ..], ["step", _, "13"]) => self.step_answered(time, number(worker)?)?,
            (["step", worker, ..], ["step", done, "refused", "6", _]) if *done != "0" => {
                self.step_answered(time, number(worker)?)?;
            }
            _ => {}
        }
        Ok(())
    }

    fn accept(&mut self, time: usize, name: Name, words: Words) {
        let first_accepted = *self.accepted.entry((name, words)).or_insert(time);
        self.in_hand.insert(name.0, name.1);
        let fresh = Known { words, first_accepted, answered: None, answers: Vec::new() };
        let known = self.requests.entry(name).or_insert(fresh);
        known.words = words;
        known.first_accepted = first_accepted;
    }

    fn step_answered(&mut self, time: usize, worker: u64) -> Result<(), String> {
        match self.in_hand.get(&worker) {
            Some(&turn) => self.become_answered(time, (worker, turn)),
            None => Err(format!("call {time}: worker {worker} became answered with nothing in hand")),
        }
    }

    fn become_answered(&mut self, time: usize, name: Name) -> Result<(), String> {
        let known = self.requests.get_mut(&name);
        let known = known.ok_or(format!("call {time}: an answer to a request that was never accepted"))?;
        known.answered.get_or_insert(time);
        Ok(())
    }

    /// The last turn of each worker that every order must have: answered, or followed by a later turn.
    fn last_turns_needed(&self) -> BTreeMap<u64, u64> {
        let mut needed = BTreeMap::new();
        for (&(worker, turn), known) in &self.requests {
            let last = needed.entry(worker).or_insert(0);
            *last = if known.answered.is_some() { turn } else { turn - 1 }.max(*last);
        }
        needed
    }

    /// Tries all orders, and no place twice.
    fn find_order(&self) -> Result<Vec<Name>, String> {
        let needed = self.last_turns_needed();
        let workers: Vec<u64> = needed.keys().copied().collect();
        let needed: Vec<u64> = needed.values().copied().collect();
        let mut order = Vec::new();
        let start = (vec![0; workers.len()], Vec::new());
        if self.search(&workers, &needed, start, &mut order, &mut HashSet::new()) {
            Ok(order)
        } else {
            Err("no order of the accepted requests explains the answers".to_string())
        }
    }

    fn search(
        &self,
        workers: &[u64],
        needed: &[u64],
        place: Place,
        order: &mut Vec<Name>,
        tried: &mut HashSet<Place>,
    ) -> bool {
        if place.0.iter().zip(needed).all(|(turns, needed)| turns >= needed) {
            return true;
        }
        if !tried.insert(place.clone()) {
            return false;
        }
        for (slot, &worker) in workers.iter().enumerate() {
            let name = (worker, place.0[slot] + 1);
            let Some(next) = self.requests.get(&name) else {
                continue;
            };
            if self.must_wait(next, workers, &place.0) {
                continue;
            }
            let (mut turns, mut entries) = place.clone();
            let answer = apply(self.stack, &mut entries, next.words);
            if next.answers.iter().any(|&given| given != answer) {
                continue;
            }
            turns[slot] += 1;
            order.push(name);
            if self.search(workers, needed, (turns, entries), order, tried) {
                return true;
            }
            order.pop();
        }
        false
    }

    /// Whether a request that is not yet in the order was answered before this one was first accepted.
    fn must_wait(&self, next: &Known, workers: &[u64], turns: &[u64]) -> bool {
        workers.iter().zip(turns).any(|(&worker, &placed)| {
            let left = self.requests.range((worker, placed + 1)..=(worker, u64::MAX));
            left.into_iter().any(|(_, known)| known.answered.is_some_and(|time| time < next.first_accepted))
        })
    }
}

/// The object of the checker: at most 32 entries, oldest first.
fn apply(stack: bool, entries: &mut Vec<u64>, words: Words) -> (u64, u64) {
    let next = if stack { entries.len().saturating_sub(1) } else { 0 };
    match words.0 {
        1 if entries.len() == 32 => (2, 0),
        1 => {
            entries.push(words.1);
            (0, entries.len() as u64)
        }
        2 | 3 if entries.is_empty() => (1, 0),
        2 => (0, entries.remove(next)),
        3 => (0, entries[next]),
        _ => (3, 0),
    }
}

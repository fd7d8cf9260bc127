//! The objects: a queue and a stack of at most 32 words, with their pictures.

use crate::memory::{Line, LINE_WORDS};
use crate::planted::Planted;

pub const PICTURE_WORDS: usize = 40;
pub const MOST_ENTRIES: usize = 32;

pub type Picture = [u64; PICTURE_WORDS];

#[derive(Clone, Copy, PartialEq, Eq, Debug)]
pub enum ObjectKind {
    Queue,
    Stack,
}

impl ObjectKind {
    pub fn number(self) -> u64 {
        match self {
            ObjectKind::Queue => 1,
            ObjectKind::Stack => 2,
        }
    }
}

#[derive(Clone, Copy, PartialEq, Eq, Debug)]
pub enum Answer {
    Done(u64),
    Empty,
    Full,
    Unknown,
}

impl Answer {
    pub fn code(self) -> u64 {
        match self {
            Answer::Done(_) => 0,
            Answer::Empty => 1,
            Answer::Full => 2,
            Answer::Unknown => 3,
        }
    }

    pub fn value(self) -> u64 {
        match self {
            Answer::Done(value) => value,
            _ => 0,
        }
    }
}

/// A queue or a stack; its entries lie oldest first.
#[derive(Clone, PartialEq, Eq, Debug)]
pub struct Object {
    kind: ObjectKind,
    entries: [u64; MOST_ENTRIES],
    count: usize,
    limit: usize,
}

impl Object {
    pub fn fresh(kind: ObjectKind, planted: Planted) -> Object {
        let limit = if planted == Planted::FullAt31 { 31 } else { MOST_ENTRIES };
        Object { kind, entries: [0; MOST_ENTRIES], count: 0, limit }
    }

    pub fn count(&self) -> usize {
        self.count
    }

    pub fn entries(&self) -> &[u64] {
        &self.entries[..self.count]
    }

    /// Does an operation and gives its answer.
    pub fn apply(&mut self, op: u64, arg: u64) -> Answer {
        match op {
            1 => self.put_in(arg),
            2 => self.take_out(),
            3 => self.look(),
            _ => Answer::Unknown,
        }
    }

    fn put_in(&mut self, arg: u64) -> Answer {
        if self.count >= self.limit {
            return Answer::Full;
        }
        self.entries[self.count] = arg;
        self.count += 1;
        Answer::Done(self.count as u64)
    }

    fn take_out(&mut self) -> Answer {
        let answer = self.look();
        if self.count > 0 {
            if self.kind == ObjectKind::Queue {
                self.entries.copy_within(1..self.count, 0);
            }
            self.count -= 1;
        }
        answer
    }

    fn look(&self) -> Answer {
        let next = match self.kind {
            ObjectKind::Queue => self.entries().first(),
            ObjectKind::Stack => self.entries().last(),
        };
        match next {
            Some(&entry) => Answer::Done(entry),
            None => Answer::Empty,
        }
    }

    /// Eight words of the picture: its line with this number, from 0 to 4.
    pub fn picture_line(&self, part: usize) -> Line {
        let mut line = [0; LINE_WORDS];
        for (place, word) in line.iter_mut().enumerate() {
            match part * LINE_WORDS + place {
                0 => *word = self.count as u64,
                later if later <= self.count => *word = self.entries[later - 1],
                _ => {}
            }
        }
        line
    }

    /// Takes the state that a picture shows; false, and no change, where the words are no picture.
    pub fn take_picture(&mut self, picture: &Picture) -> bool {
        if !is_picture(picture) {
            return false;
        }
        self.count = picture[0] as usize;
        self.entries[..self.count].copy_from_slice(&picture[1..=self.count]);
        true
    }
}

pub fn is_picture(words: &Picture) -> bool {
    words[0] <= MOST_ENTRIES as u64 && words[words[0] as usize + 1..].iter().all(|&word| word == 0)
}

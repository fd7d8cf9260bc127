//! The memory modules, lazy and prompt: two images of the lines, and the sets asked, due and late.

use crate::planted::Planted;
use crate::refusal::{Refusal, NOT_ALLOWED, OUTSIDE};

pub const LINE_WORDS: usize = 8;
pub const MOST_LINES: usize = 64;

pub type Line = [u64; LINE_WORDS];

#[derive(Clone, Copy, PartialEq, Eq, Debug)]
pub enum MemoryKind {
    Lazy,
    Prompt,
}

/// A set of lines that knows how many it has.
#[derive(Clone)]
pub struct LineSet {
    has: Vec<bool>,
    count: usize,
}

impl LineSet {
    fn none(lines: usize) -> LineSet {
        LineSet { has: vec![false; lines], count: 0 }
    }

    pub fn holds(&self, line: usize) -> bool {
        self.has[line]
    }

    pub fn count(&self) -> usize {
        self.count
    }

    pub fn is_empty(&self) -> bool {
        self.count == 0
    }

    fn join(&mut self, line: usize) {
        if !self.has[line] {
            self.has[line] = true;
            self.count += 1;
        }
    }

    fn leave(&mut self, line: usize) {
        if self.has[line] {
            self.has[line] = false;
            self.count -= 1;
        }
    }

    fn clear(&mut self) {
        if self.count > 0 {
            self.has.fill(false);
            self.count = 0;
        }
    }
}

/// A memory module.
#[derive(Clone)]
pub struct Memory {
    kind: MemoryKind,
    planted: Planted,
    now: Vec<Line>,
    kept: Vec<Line>,
    asked: LineSet,
    due: LineSet,
    late: LineSet,
}

impl Memory {
    /// A module over so many lines of zeros.
    pub fn zeros(kind: MemoryKind, lines: usize, planted: Planted) -> Memory {
        let lines = lines.min(MOST_LINES);
        Memory {
            kind,
            planted,
            now: vec![[0; LINE_WORDS]; lines],
            kept: vec![[0; LINE_WORDS]; lines],
            asked: LineSet::none(lines),
            due: LineSet::none(lines),
            late: LineSet::none(lines),
        }
    }

    pub fn lines(&self) -> usize {
        self.now.len()
    }

    pub fn asked(&self) -> &LineSet {
        &self.asked
    }

    pub fn due(&self) -> &LineSet {
        &self.due
    }

    pub fn late(&self) -> &LineSet {
        &self.late
    }

    /// Whether a cut would lose something of this line.
    pub fn would_lose(&self, line: usize) -> bool {
        self.now[line] != self.kept[line]
    }

    /// The eight words of a line of now.
    pub fn line(&self, line: usize) -> Result<&Line, Refusal> {
        self.now.get(line).ok_or(OUTSIDE)
    }

    pub fn read(&self, word: usize) -> Result<u64, Refusal> {
        Ok(self.line(word / LINE_WORDS)?[word % LINE_WORDS])
    }

    pub fn write(&mut self, word: usize, value: u64) -> Result<(), Refusal> {
        let line = self.inside(word / LINE_WORDS)?;
        if self.due.holds(line) {
            self.due_arrive();
        }
        self.now[line][word % LINE_WORDS] = value;
        if !self.due.is_empty() {
            self.late.join(line);
        }
        self.arrive_if_prompt(line);
        Ok(())
    }

    /// Writes the eight words of a line: the same as eight writes, since only the first can find the line due.
    pub fn write_line(&mut self, line: usize, words: &Line) -> Result<(), Refusal> {
        self.inside(line)?;
        if self.due.holds(line) {
            self.due_arrive();
        }
        self.now[line] = *words;
        if !self.due.is_empty() {
            self.late.join(line);
        }
        self.arrive_if_prompt(line);
        Ok(())
    }

    pub fn ask(&mut self, line: usize) -> Result<(), Refusal> {
        self.inside(line)?;
        self.asked.join(line);
        self.arrive_if_prompt(line);
        Ok(())
    }

    pub fn fence(&mut self) {
        self.due_arrive();
        std::mem::swap(&mut self.due, &mut self.asked);
        self.asked.clear();
        self.late.clear();
    }

    pub fn sync(&mut self) {
        self.due_arrive();
        for line in 0..self.lines() {
            if self.asked.holds(line) {
                self.arrives(line);
            }
        }
        self.late.clear();
    }

    pub fn arrive(&mut self, line: usize) -> Result<(), Refusal> {
        self.inside(line)?;
        if !self.allowed(line) {
            return Err(NOT_ALLOWED);
        }
        self.arrives(line);
        Ok(())
    }

    /// Whether this line, which is inside, may arrive now.
    pub fn allowed(&self, line: usize) -> bool {
        self.due.is_empty()
            || self.due.holds(line)
            || !self.late.holds(line)
            || self.planted == Planted::LateMayArrive
    }

    pub fn cut(&mut self) {
        self.now.copy_from_slice(&self.kept);
        self.asked.clear();
        self.due.clear();
        self.late.clear();
    }

    fn inside(&self, line: usize) -> Result<usize, Refusal> {
        if line < self.lines() {
            Ok(line)
        } else {
            Err(OUTSIDE)
        }
    }

    fn arrives(&mut self, line: usize) {
        self.kept[line] = self.now[line];
        self.asked.leave(line);
        self.due.leave(line);
        if self.due.is_empty() {
            self.late.clear();
        }
    }

    fn due_arrive(&mut self) {
        if self.due.is_empty() {
            return;
        }
        for line in 0..self.lines() {
            if self.due.holds(line) {
                self.arrives(line);
            }
        }
    }

    fn arrive_if_prompt(&mut self, line: usize) {
        if self.kind == MemoryKind::Prompt {
            self.arrives(line);
        }
    }
}

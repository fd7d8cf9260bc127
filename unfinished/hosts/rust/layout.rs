//! Where the words of a store with n workers lie.

use crate::memory::{Line, LINE_WORDS};

pub const MOST_WORKERS: usize = 8;
pub const OBJECT_LINES: usize = 5;
pub const CONTENTS_LINE: usize = 0;
pub const INDEX_LINE: usize = 1;
pub const INDEX_WORD: usize = INDEX_LINE * LINE_WORDS;

pub fn lines_used(workers: usize) -> usize {
    2 * workers + 12
}

pub fn record_lines(workers: usize) -> usize {
    workers + OBJECT_LINES
}

pub fn record_start(workers: usize, record: usize) -> usize {
    2 + record * record_lines(workers)
}

pub fn worker_line(workers: usize, record: usize, worker: usize) -> usize {
    record_start(workers, record) + worker
}

pub fn object_line(workers: usize, record: usize, part: usize) -> usize {
    record_start(workers, record) + workers + part
}

/// The words of line 0.
pub fn contents(workers: usize, kind: u64) -> Line {
    [
        1,
        kind,
        workers as u64,
        INDEX_LINE as u64,
        record_start(workers, 0) as u64,
        record_start(workers, 1) as u64,
        record_lines(workers) as u64,
        lines_used(workers) as u64,
    ]
}

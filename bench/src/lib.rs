//! The wall check in plain Rust, without proofs, to compare speed with: `simple` as one would first
//! write it, `fast` as fast as we could make it by hand. Each has the whole program and functions for one
//! line and one row, also of the minimum load in the top storey, and for two lines and two rows of a range; `choice`, with the
//! function and the program that choose a block; and `archive`, with the functions and both programs of archived schedules.

pub mod fast;
pub mod simple;

use std::process::ExitCode;

/// The five numbers of a result.
#[derive(Clone, Copy, Debug, Default, PartialEq, Eq)]
pub struct CheckResult {
    pub refusal: u64,
    pub second: u64,
    pub load: u64,
    pub resistance: u64,
    pub spare: i64,
}

/// The result of a line and how many of its bytes are taken: up to and including the first wrong one, or all.
#[derive(Clone, Copy, Debug, Default, PartialEq, Eq)]
pub struct Reading {
    pub result: CheckResult,
    pub taken: u64,
}

/// What the functions of ranges return.
#[derive(Clone, Copy, Debug, Default, PartialEq, Eq)]
pub struct RangeResult {
    pub refusal: u64,
    pub answer: u64,
}

/// A building block of a merchant's list.
#[derive(Clone, Copy, Debug, PartialEq, Eq)]
pub struct Block {
    pub strength: u64,
    pub price: u64,
}

/// What choosing the block returns.
#[derive(Clone, Copy, Debug, Default, PartialEq, Eq)]
pub struct Choice {
    pub refusal: u64,
    pub place: u64,
    pub checked: u64,
}

/// A list has at most this many blocks.
const MOST_BLOCKS: usize = 64;

/// A worksheet row: the 19 cells in the line's order.
pub type Row = [f64; 19];

/// What the functions of the archive return.
#[derive(Clone, Copy, Debug, Default, PartialEq, Eq)]
pub struct Archived {
    pub refusal: u64,
    pub count: u64,
}

/// The length of an archive's block.
pub const BLOCK: usize = 512;

/// The lines of a block follow from this byte on.
const HEAD: usize = 4;

/// A block has room for this many bytes of lines.
const ROOM: usize = BLOCK - HEAD;

/// A line over this many bytes is refusal 1.
const LONGEST_LINE: usize = 200;

/// A lent buffer under this many bytes is refusal 20.
const SHORTEST_BUFFER: usize = 64;

fn refused(refusal: u64) -> CheckResult {
    CheckResult {
        refusal,
        ..CheckResult::default()
    }
}

fn range_refused(refusal: u64) -> RangeResult {
    RangeResult { refusal, answer: 0 }
}

fn range_answer(answer: u64) -> RangeResult {
    RangeResult { refusal: 0, answer }
}

fn choice_refused(refusal: u64) -> Choice {
    Choice {
        refusal,
        ..Choice::default()
    }
}

const BAD_BLOCK: Archived = Archived {
    refusal: 23,
    count: 0,
};

const BAD_TEXT: Archived = Archived {
    refusal: 24,
    count: 0,
};

fn archived(count: usize) -> Archived {
    Archived {
        refusal: 0,
        count: count as u64,
    }
}

fn filled(refusal: u64, second: u64, load: u64, resistance: u64) -> CheckResult {
    CheckResult {
        refusal,
        second,
        load,
        resistance,
        spare: resistance as i64 - load as i64,
    }
}

/// What the programs pack and unpack tell on standard error, and the status with which they then end.
#[derive(Default)]
pub struct Told {
    any: bool,
}

impl Told {
    pub fn line(&mut self, number: u64) {
        self.tell(BAD_TEXT, "line", number);
    }

    pub fn block(&mut self, number: u64) {
        self.tell(BAD_BLOCK, "block", number);
    }

    fn tell(&mut self, refused: Archived, what: &str, number: u64) {
        eprintln!("refusal {}: {what} {number}", refused.refusal);
        self.any = true;
    }

    pub fn status(&self) -> ExitCode {
        ExitCode::from(u8::from(self.any))
    }
}

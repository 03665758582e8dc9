//! The entries of include/wallcheck.h as safe functions. The header says what each field and function means.

/// The five numbers of a result.
#[repr(C)]
#[derive(Clone, Copy, Debug, Default, PartialEq, Eq)]
pub struct CheckResult {
    pub refusal: u64,
    pub length_or_need: u64,
    pub load: u64,
    pub resistance: u64,
    pub spare: i64,
}

/// The result of a line and the count of bytes taken.
#[repr(C)]
#[derive(Clone, Copy, Debug, Default, PartialEq, Eq)]
pub struct Reading {
    pub result: CheckResult,
    pub taken: u64,
}

/// What the functions of ranges return: 0 and the answer 1, 2 or 3; or refusal 1, 2 or 25 and 0.
#[repr(C)]
#[derive(Clone, Copy, Debug, Default, PartialEq, Eq)]
pub struct RangeResult {
    pub refusal: u64,
    pub answer: u64,
}

/// A building block that a merchant offers: the strength F of the masonry with it, and its price.
#[repr(C)]
#[derive(Clone, Copy, Debug, Default, PartialEq, Eq)]
pub struct Block {
    pub strength: u64,
    pub price: u64,
}

/// What choosing the block returns: 0, a place and a count; refusal 27, 0 and a count; or refusal 26, 1 or 2, 0 and 0.
#[repr(C)]
#[derive(Clone, Copy, Debug, Default, PartialEq, Eq)]
pub struct Choice {
    pub refusal: u64,
    pub place: u64,
    pub checked: u64,
}

/// What the functions of the archive return: 0 and a count; or refusal 23 or 24 and 0.
#[repr(C)]
#[derive(Clone, Copy, Debug, Default, PartialEq, Eq)]
pub struct Archived {
    pub refusal: u64,
    pub count: u64,
}

/// The length of an archive's block.
pub const BLOCK_LEN: usize = 512;

/// A worksheet row: the 19 numbers of a storey wall's line, in its order.
#[repr(C)]
#[derive(Clone, Copy, Debug, Default)]
pub struct Cells {
    pub usage: f64,
    pub thickness: f64,
    pub height: f64,
    pub length: f64,
    pub held: f64,
    pub distance: f64,
    pub support: f64,
    pub span: f64,
    pub bearing: f64,
    pub strength: f64,
    pub bonded: f64,
    pub dead: f64,
    pub imposed: f64,
    pub floorload: f64,
    pub building: f64,
    pub storeys: f64,
    pub otherspan: f64,
    pub calciumsilicate: f64,
    pub wind: f64,
}

impl From<[f64; 19]> for Cells {
    fn from(cells: [f64; 19]) -> Cells {
        Cells {
            usage: cells[0],
            thickness: cells[1],
            height: cells[2],
            length: cells[3],
            held: cells[4],
            distance: cells[5],
            support: cells[6],
            span: cells[7],
            bearing: cells[8],
            strength: cells[9],
            bonded: cells[10],
            dead: cells[11],
            imposed: cells[12],
            floorload: cells[13],
            building: cells[14],
            storeys: cells[15],
            otherspan: cells[16],
            calciumsilicate: cells[17],
            wind: cells[18],
        }
    }
}

/// The C functions themselves.
pub mod raw {
    use super::{Archived, Block, Cells, CheckResult, Choice, RangeResult, Reading};

    extern "C" {
        pub fn wallcheck_edition() -> u64;
        pub fn wallcheck_line(line: *const u8, len: usize) -> CheckResult;
        pub fn wallcheck_line_taken(line: *const u8, len: usize) -> Reading;
        pub fn wallcheck_line_into(
            line: *const u8,
            len: usize,
            out: *mut u8,
            out_len: usize,
        ) -> CheckResult;
        pub fn wallcheck_row(cells: Cells) -> CheckResult;
        pub fn wallcheck_row_into(cells: Cells, out: *mut u8, out_len: usize) -> CheckResult;
        pub fn wallcheck_minimum_load_line(line: *const u8, len: usize, wind: u64) -> CheckResult;
        pub fn wallcheck_minimum_load_line_into(
            line: *const u8,
            len: usize,
            wind: u64,
            out: *mut u8,
            out_len: usize,
        ) -> CheckResult;
        pub fn wallcheck_minimum_load_row(cells: Cells, wind: f64) -> CheckResult;
        pub fn wallcheck_minimum_load_row_into(
            cells: Cells,
            wind: f64,
            out: *mut u8,
            out_len: usize,
        ) -> CheckResult;
        pub fn wallcheck_range_lines(
            low: *const u8,
            low_len: usize,
            high: *const u8,
            high_len: usize,
        ) -> RangeResult;
        pub fn wallcheck_range_rows(low: Cells, high: Cells) -> RangeResult;
        pub fn wallcheck_choose(
            line: *const u8,
            len: usize,
            blocks: *const Block,
            count: usize,
        ) -> Choice;
        pub fn wallcheck_archive_count(text: *const u8, len: usize) -> Archived;
        pub fn wallcheck_archive_write(
            text: *const u8,
            len: usize,
            out: *mut u8,
            out_len: usize,
        ) -> Archived;
        pub fn wallcheck_archive_read(block: *const u8, len: usize) -> Archived;
    }
}

// Each call below is sound: the edition takes nothing, the pointers and lengths are those of slices that live throughout the call,
// and a shared and a mutable slice do not overlap.

/// The edition of the rules.
pub fn edition() -> u64 {
    unsafe { raw::wallcheck_edition() }
}

pub fn check_line(line: &[u8]) -> CheckResult {
    unsafe { raw::wallcheck_line(line.as_ptr(), line.len()) }
}

pub fn check_line_taken(line: &[u8]) -> Reading {
    unsafe { raw::wallcheck_line_taken(line.as_ptr(), line.len()) }
}

pub fn check_line_into(line: &[u8], out: &mut [u8]) -> CheckResult {
    unsafe { raw::wallcheck_line_into(line.as_ptr(), line.len(), out.as_mut_ptr(), out.len()) }
}

pub fn check_row(cells: Cells) -> CheckResult {
    unsafe { raw::wallcheck_row(cells) }
}

pub fn check_row_into(cells: Cells, out: &mut [u8]) -> CheckResult {
    unsafe { raw::wallcheck_row_into(cells, out.as_mut_ptr(), out.len()) }
}

/// The minimum load in the top storey, with the design wind load in N/m².
pub fn minimum_load_line(line: &[u8], wind: u64) -> CheckResult {
    unsafe { raw::wallcheck_minimum_load_line(line.as_ptr(), line.len(), wind) }
}

pub fn minimum_load_line_into(line: &[u8], wind: u64, out: &mut [u8]) -> CheckResult {
    unsafe {
        raw::wallcheck_minimum_load_line_into(
            line.as_ptr(),
            line.len(),
            wind,
            out.as_mut_ptr(),
            out.len(),
        )
    }
}

pub fn minimum_load_row(cells: Cells, wind: f64) -> CheckResult {
    unsafe { raw::wallcheck_minimum_load_row(cells, wind) }
}

pub fn minimum_load_row_into(cells: Cells, wind: f64, out: &mut [u8]) -> CheckResult {
    unsafe { raw::wallcheck_minimum_load_row_into(cells, wind, out.as_mut_ptr(), out.len()) }
}

/// Whether all records between a low and a high line are accepted, none, or some.
pub fn range_lines(low: &[u8], high: &[u8]) -> RangeResult {
    unsafe { raw::wallcheck_range_lines(low.as_ptr(), low.len(), high.as_ptr(), high.len()) }
}

/// The same of two rows.
pub fn range_rows(low: Cells, high: Cells) -> RangeResult {
    unsafe { raw::wallcheck_range_rows(low, high) }
}

/// The cheapest block with which the record of a line is accepted.
pub fn choose(line: &[u8], blocks: &[Block]) -> Choice {
    unsafe { raw::wallcheck_choose(line.as_ptr(), line.len(), blocks.as_ptr(), blocks.len()) }
}

/// How many blocks the lines of a text take.
pub fn archive_count(text: &[u8]) -> Archived {
    unsafe { raw::wallcheck_archive_count(text.as_ptr(), text.len()) }
}

/// Writes these blocks.
pub fn archive_write(text: &[u8], out: &mut [u8]) -> Archived {
    unsafe { raw::wallcheck_archive_write(text.as_ptr(), text.len(), out.as_mut_ptr(), out.len()) }
}

/// How many bytes a block yields, from byte 4 on.
pub fn archive_read(block: &[u8]) -> Archived {
    unsafe { raw::wallcheck_archive_read(block.as_ptr(), block.len()) }
}

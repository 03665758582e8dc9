//! Runs the acceptance cases against the library: each line, each storey record as a worksheet row too, and each row,
//! alone and into lent buffers of several lengths; of each line also the count of bytes taken. The same of the minimum
//! load in the top storey. Each pair of lines and of rows of a range. Each record with a list of blocks to choose from. Each
//! text is archived into buffers of several lengths and read back, and each block is read.
//!
//!     WALLCHECK_LIB_DIR=.. cargo run --release --bin acceptance

use std::mem::{offset_of, size_of};
use std::process::exit;
use std::ptr::{from_ref, null, null_mut};
use wallcheck::{
    archive_count, archive_read, archive_write, check_line, check_line_into, check_line_taken,
    check_row, check_row_into, choose, edition, minimum_load_line, minimum_load_line_into,
    minimum_load_row, minimum_load_row_into, range_lines, range_rows, raw, Archived, Block, Cells,
    CheckResult, Choice, RangeResult, Reading, BLOCK_LEN,
};

// As include/wallcheck.h has it.
const _: () = assert!(size_of::<RangeResult>() == 16 && offset_of!(RangeResult, answer) == 8);
const _: () = assert!(size_of::<Block>() == 16 && offset_of!(Block, price) == 8);
const _: () = assert!(size_of::<Choice>() == 24 && offset_of!(Choice, checked) == 16);

const LINES: &str = include_str!("../../../cases.txt");
const ROWS: &str = include_str!("../../../rows.txt");
const MINIMUM_LOAD_LINES: &str = include_str!("../../../minimum_load_lines.txt");
const MINIMUM_LOAD_ROWS: &str = include_str!("../../../minimum_load_rows.txt");
const RANGE_LINES: &str = include_str!("../../../range_lines.txt");
const RANGE_ROWS: &str = include_str!("../../../range_rows.txt");
const CHOICES: &str = include_str!("../../../choices.txt");
const ARCHIVE_TEXTS: &str = include_str!("../../../archive_texts.txt");
const ARCHIVE_BLOCKS: &str = include_str!("../../../archive_blocks.txt");
const EDITION: u64 = 110;
const OUT_LENGTHS: [usize; 4] = [0, 63, 64, 100];
const FILL: u8 = 0xA5;

#[derive(Default)]
struct Tally {
    agreed: u64,
    different: u64,
}

impl Tally {
    fn count(&mut self, what: &str, line: &str, agrees: bool) {
        if agrees {
            self.agreed += 1;
        } else {
            self.different += 1;
            eprintln!("rust: {what} differs: {line}");
        }
    }

    /// Compares what `write` hands back and leaves in a lent buffer of each length.
    fn count_into(
        &mut self,
        what: &str,
        line: &str,
        expected: CheckResult,
        write: impl Fn(&mut [u8]) -> CheckResult,
    ) {
        for out_len in OUT_LENGTHS {
            let mut out = vec![FILL; out_len];
            let back = write(&mut out);
            let (expected_back, expected_out) = lent(expected, out_len);
            self.count(what, line, back == expected_back && out == expected_out);
        }
    }
}

fn refused(refusal: u64) -> CheckResult {
    CheckResult {
        refusal,
        ..CheckResult::default()
    }
}

/// What is handed back and what a buffer of this length then holds.
fn lent(result: CheckResult, out_len: usize) -> (CheckResult, Vec<u8>) {
    let mut out = vec![FILL; out_len];
    if out_len < 64 {
        return (refused(20), out);
    }
    let numbers = [
        result.refusal,
        result.length_or_need,
        result.load,
        result.resistance,
    ];
    let text = numbers.map(|number| format!("{number} ")).concat() + &format!("{}\n", result.spare);
    out[..text.len()].copy_from_slice(text.as_bytes());
    (result, out)
}

fn result_of(numbers: &str) -> CheckResult {
    let numbers: Vec<i64> = numbers
        .split(' ')
        .map(|n| n.parse().expect("a number"))
        .collect();
    let &[refusal, length_or_need, load, resistance, spare] = &numbers[..] else {
        panic!("five numbers");
    };
    CheckResult {
        refusal: refusal as u64,
        length_or_need: length_or_need as u64,
        load: load as u64,
        resistance: resistance as u64,
        spare,
    }
}

/// Each case of a file: what stands before the first tab, with the columns behind it.
fn cases(file: &'static str) -> impl Iterator<Item = (&'static str, &'static str)> {
    let cases = file.lines().filter_map(|row| row.split_once('\t'));
    cases.filter(|(case, _)| !case.starts_with('#'))
}

/// The result of a line and how many of its bytes are taken: behind refusal 1 a column says it, any other line has all
/// its bytes taken.
fn reading_of(line: &str, columns: &str) -> Reading {
    let (numbers, count) = match columns.split_once('\t') {
        Some((numbers, count)) => (numbers, Some(count)),
        None => (columns, None),
    };
    let result = result_of(numbers);
    assert_eq!(result.refusal == 1, count.is_some(), "count of {line}");
    let taken = match count {
        Some(count) => count.parse().expect("a count"),
        None => line.len() as u64,
    };
    Reading { result, taken }
}

/// The row of 19 numbers with a space between.
fn cells_of(numbers: &str) -> Cells {
    let cells: Vec<f64> = numbers
        .split(' ')
        .map(|n| n.parse().expect("a cell"))
        .collect();
    let cells: [f64; 19] = cells.try_into().expect("19 cells");
    cells.into()
}

fn run_row(tally: &mut Tally, row: &str, cells: Cells, expected: CheckResult) {
    tally.count("row", row, check_row(cells) == expected);
    tally.count_into("row into a buffer", row, expected, |out| {
        check_row_into(cells, out)
    });
}

fn run_line_case(tally: &mut Tally, line: &str, reading: Reading) {
    let expected = reading.result;
    tally.count("line", line, check_line(line.as_bytes()) == expected);
    tally.count(
        "line with the bytes taken",
        line,
        check_line_taken(line.as_bytes()) == reading,
    );
    tally.count_into("line into a buffer", line, expected, |out| {
        check_line_into(line.as_bytes(), out)
    });
    match line.strip_prefix("S ") {
        Some(numbers) if expected.refusal != 1 => run_row(tally, line, cells_of(numbers), expected),
        _ => (),
    }
}

fn run_minimum_load_row(
    tally: &mut Tally,
    row: &str,
    cells: Cells,
    wind: f64,
    expected: CheckResult,
) {
    let result = minimum_load_row(cells, wind);
    tally.count("minimum load of a row", row, result == expected);
    let what = "minimum load of a row into a buffer";
    tally.count_into(what, row, expected, |out| {
        minimum_load_row_into(cells, wind, out)
    });
}

fn run_minimum_load_line_case(tally: &mut Tally, line: &str, wind: u64, expected: CheckResult) {
    let result = minimum_load_line(line.as_bytes(), wind);
    tally.count("minimum load of a line", line, result == expected);
    let what = "minimum load of a line into a buffer";
    tally.count_into(what, line, expected, |out| {
        minimum_load_line_into(line.as_bytes(), wind, out)
    });
    match line.strip_prefix("S ") {
        Some(numbers) if expected.refusal != 1 => {
            run_minimum_load_row(tally, line, cells_of(numbers), wind as f64, expected)
        }
        _ => (),
    }
}

fn run_minimum_load(tally: &mut Tally) {
    for (line, columns) in cases(MINIMUM_LOAD_LINES) {
        let (wind, numbers) = columns.split_once('\t').expect("two columns");
        let wind = wind.parse().expect("a design wind");
        run_minimum_load_line_case(tally, line, wind, result_of(numbers));
    }
    for (row, columns) in cases(MINIMUM_LOAD_ROWS) {
        let (wind, numbers) = columns.split_once('\t').expect("two columns");
        let wind = wind.parse().expect("a cell");
        run_minimum_load_row(tally, row, cells_of(row), wind, result_of(numbers));
    }
}

fn range_of(numbers: &str) -> RangeResult {
    let (refusal, answer) = numbers.split_once(' ').expect("refusal and answer");
    RangeResult {
        refusal: refusal.parse().expect("a refusal"),
        answer: answer.parse().expect("an answer"),
    }
}

/// The 19 words behind the letter `S`, if there are so many.
fn storey_numbers(line: &str) -> Option<&str> {
    let numbers = line.strip_prefix("S ")?;
    (numbers.split(' ').count() == 19).then_some(numbers)
}

/// Runs a low and a high line, and their rows where both are of the form `S`.
fn run_range_lines_case(tally: &mut Tally, low: &str, high: &str, expected: RangeResult) {
    let result = range_lines(low.as_bytes(), high.as_bytes());
    tally.count("range of lines", low, result == expected);
    match (storey_numbers(low), storey_numbers(high)) {
        (Some(low), Some(high)) if expected.refusal != 1 => {
            let result = range_rows(cells_of(low), cells_of(high));
            tally.count("range of rows of lines", low, result == expected);
        }
        _ => (),
    }
}

fn run_ranges(tally: &mut Tally) {
    for (low, columns) in cases(RANGE_LINES) {
        let (high, numbers) = columns.split_once('\t').expect("two columns");
        run_range_lines_case(tally, low, high, range_of(numbers));
    }
    for (low, columns) in cases(RANGE_ROWS) {
        let (high, numbers) = columns.split_once('\t').expect("two columns");
        let result = range_rows(cells_of(low), cells_of(high));
        tally.count("range of rows", low, result == range_of(numbers));
    }
}

/// A null pointer with length 0, as low line and as high line, which the header allows.
fn run_range_null(tally: &mut Tally) {
    let line = b"S 1 175 2625 5000 2 0 1 5000 175 500 0 60000 90000 2250 9000 3 0 0 0";
    let given = (line.as_ptr(), line.len());
    let none = (null(), 0);
    let no_line = RangeResult {
        refusal: 1,
        answer: 0,
    };
    for (what, low, high) in [
        ("both null", none, none),
        ("low null", none, given),
        ("high null", given, none),
    ] {
        let result = unsafe { raw::wallcheck_range_lines(low.0, low.1, high.0, high.1) };
        tally.count("range of lines", what, result == no_line);
    }
}

/// A block as F and price.
fn block_of(numbers: &str) -> Block {
    let (strength, price) = numbers.split_once(' ').expect("F and price");
    Block {
        strength: strength.parse().expect("an F"),
        price: price.parse().expect("a price"),
    }
}

fn choice_of(numbers: &str) -> Choice {
    let numbers: Vec<u64> = numbers
        .split(' ')
        .map(|n| n.parse().expect("a number"))
        .collect();
    let &[refusal, place, checked] = &numbers[..] else {
        panic!("three numbers");
    };
    Choice {
        refusal,
        place,
        checked,
    }
}

/// Runs each record's line with its blocks. Behind them stands one that would be chosen if the function looked there.
fn run_choices(tally: &mut Tally) {
    for (line, columns) in cases(CHOICES) {
        let (list, numbers) = columns.split_once('\t').expect("two columns");
        let words = list.split(", ").filter(|block| !block.is_empty());
        let mut blocks: Vec<Block> = words.map(block_of).collect();
        blocks.push(Block {
            strength: 5000,
            price: 1,
        });
        let choice = choose(line.as_bytes(), &blocks[..blocks.len() - 1]);
        tally.count("choice", line, choice == choice_of(numbers));
    }
}

/// A null pointer with length 0, as line and as list, which the header allows.
fn run_choice_null(tally: &mut Tally) {
    let line = b"C 365 2500 2000 6000 20000 500 0 40000 10000 5000";
    let block = Block {
        strength: 500,
        price: 10,
    };
    let given = (line.as_ptr(), line.len());
    let none = (null(), 0);
    let refused = |refusal| Choice {
        refusal,
        ..Choice::default()
    };
    for (what, line, list, expected) in [
        ("both null", none, (null(), 0), refused(26)),
        ("list null", given, (null(), 0), refused(26)),
        ("line null", none, (from_ref(&block), 1), refused(1)),
    ] {
        let choice = unsafe { raw::wallcheck_choose(line.0, line.1, list.0, list.1) };
        tally.count("choice", what, choice == expected);
    }
}

/// The bytes of a column: pieces with a space between, hexadecimal digits, and where `*` and a number stand behind them, so
/// many times.
fn bytes_of(column: &str) -> Vec<u8> {
    let pieces = column.split_ascii_whitespace();
    pieces.flat_map(bytes_of_piece).collect()
}

fn bytes_of_piece(piece: &str) -> Vec<u8> {
    let (digits, times) = piece.split_once('*').unwrap_or((piece, "1"));
    let byte = |at| u8::from_str_radix(&digits[at..at + 2], 16).expect("two digits");
    let bytes: Vec<u8> = (0..digits.len()).step_by(2).map(byte).collect();
    bytes.repeat(times.parse().expect("how many times"))
}

/// Bytes 10 behind a text or a block would end its last line or its used part if a function looked there.
fn with_ends_behind(bytes: &[u8]) -> Vec<u8> {
    [bytes, b"\n\n"].concat()
}

fn archived(refusal: u64, count: u64) -> Archived {
    Archived { refusal, count }
}

fn archived_of(numbers: &str) -> Archived {
    let (refusal, count) = numbers.split_once(' ').expect("refusal and count");
    archived(
        refusal.parse().expect("a refusal"),
        count.parse().expect("a count"),
    )
}

/// What is handed back for a buffer of this length, and what it then holds: all blocks, or nothing new.
fn archive(expected: Archived, blocks: &[u8], out_len: usize) -> (Archived, Vec<u8>) {
    let mut out = vec![FILL; out_len];
    if expected.refusal != 0 || out_len < blocks.len() {
        return (archived(24, 0), out);
    }
    out[..blocks.len()].copy_from_slice(blocks);
    (expected, out)
}

fn run_archive_write(tally: &mut Tally, row: &str, text: &[u8], blocks: &[u8], expected: Archived) {
    let needed = blocks.len();
    let lengths = [needed, needed + 1, needed + 511, needed + 512, 0, 512, 9000];
    // one byte too few, where there is one
    for out_len in lengths.into_iter().chain(needed.checked_sub(1)) {
        let mut out = vec![FILL; out_len];
        let back = archive_write(text, &mut out);
        let agrees = (back, out) == archive(expected, blocks, out_len);
        tally.count("archive", row, agrees);
    }
}

/// Reads each block alone: together they yield the text.
fn run_archive_read_back(tally: &mut Tally, row: &str, text: &[u8], blocks: &[u8]) {
    let mut yielded = Vec::new();
    for block in blocks.chunks(BLOCK_LEN) {
        let back = archive_read(block);
        let used = block[4..].get(..back.count as usize);
        tally.count(
            "block of an archive",
            row,
            back.refusal == 0 && used.is_some(),
        );
        yielded.extend_from_slice(used.unwrap_or_default());
    }
    tally.count("text read back", row, yielded == text);
}

/// Behind refusal and count stand the blocks of the text, each in a column of its own.
fn run_archive_text_case(tally: &mut Tally, row: &str, columns: &str) {
    let (numbers, blocks) = columns.split_once('\t').unwrap_or((columns, ""));
    let (text, blocks, expected) = (bytes_of(row), bytes_of(blocks), archived_of(numbers));
    assert_eq!(blocks.len() as u64, BLOCK_LEN as u64 * expected.count);
    let lent = with_ends_behind(&text);
    let text = &lent[..text.len()];
    tally.count("count of blocks", row, archive_count(text) == expected);
    run_archive_write(tally, row, text, &blocks, expected);
    if expected.refusal == 0 {
        run_archive_read_back(tally, row, text, &blocks);
    }
}

fn run_archive(tally: &mut Tally) {
    for (row, columns) in cases(ARCHIVE_TEXTS) {
        run_archive_text_case(tally, row, columns);
    }
    for (row, numbers) in cases(ARCHIVE_BLOCKS) {
        let block = bytes_of(row);
        let back = archive_read(&with_ends_behind(&block)[..block.len()]);
        tally.count("block", row, back == archived_of(numbers));
    }
}

/// A null pointer with length 0, as text, as buffer and as block, which the header allows.
fn run_archive_null(tally: &mut Tally) {
    let count = unsafe { raw::wallcheck_archive_count(null(), 0) };
    tally.count("count of blocks", "null", count == archived(0, 0));
    let both = unsafe { raw::wallcheck_archive_write(null(), 0, null_mut(), 0) };
    tally.count("archive", "null, buffer null", both == archived(0, 0));
    let line = b"S 175\n";
    let buffer = unsafe { raw::wallcheck_archive_write(line.as_ptr(), line.len(), null_mut(), 0) };
    tally.count("archive", "buffer null", buffer == archived(24, 0));
    let block = unsafe { raw::wallcheck_archive_read(null(), 0) };
    tally.count("block", "null", block == archived(23, 0));
}

/// A null pointer with length 0, as line and as buffer, which the header allows.
fn run_null(tally: &mut Tally) {
    let line = unsafe { raw::wallcheck_line(null(), 0) };
    tally.count("line", "null", line == refused(1));
    let reading = unsafe { raw::wallcheck_line_taken(null(), 0) };
    let expected = Reading {
        result: refused(1),
        taken: 0,
    };
    tally.count("line with the bytes taken", "null", reading == expected);
    tally.count_into("line into a buffer", "null", refused(1), |out| unsafe {
        raw::wallcheck_line_into(null(), 0, out.as_mut_ptr(), out.len())
    });
    let both = unsafe { raw::wallcheck_line_into(null(), 0, null_mut(), 0) };
    tally.count(
        "line into a buffer",
        "null, buffer null",
        both == refused(20),
    );
    let row = unsafe { raw::wallcheck_row_into(Cells::default(), null_mut(), 0) };
    tally.count("row into a buffer", "buffer null", row == refused(20));
    let line = unsafe { raw::wallcheck_minimum_load_line(null(), 0, 780) };
    tally.count("minimum load of a line", "null", line == refused(1));
    let both = unsafe { raw::wallcheck_minimum_load_line_into(null(), 0, 780, null_mut(), 0) };
    let what = "minimum load of a line into a buffer";
    tally.count(what, "null, buffer null", both == refused(20));
    let row =
        unsafe { raw::wallcheck_minimum_load_row_into(Cells::default(), 780.0, null_mut(), 0) };
    let what = "minimum load of a row into a buffer";
    tally.count(what, "buffer null", row == refused(20));
}

fn main() {
    let mut tally = Tally::default();
    for (line, columns) in cases(LINES) {
        run_line_case(&mut tally, line, reading_of(line, columns));
    }
    for (row, numbers) in cases(ROWS) {
        run_row(&mut tally, row, cells_of(row), result_of(numbers));
    }
    run_minimum_load(&mut tally);
    run_ranges(&mut tally);
    run_choices(&mut tally);
    run_archive(&mut tally);
    run_null(&mut tally);
    run_range_null(&mut tally);
    run_choice_null(&mut tally);
    run_archive_null(&mut tally);
    tally.count("edition", "", edition() == EDITION);
    if tally.different > 0 {
        eprintln!("rust: {} cases differ", tally.different);
        exit(1);
    }
    println!("rust: {} cases agree", tally.agreed);
}

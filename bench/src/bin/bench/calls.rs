//! Single calls over lines in memory.

use plain::{fast, simple, CheckResult, Reading, Row};
use std::hint::black_box;
use std::time::Instant;
use wallcheck::Cells;

/// The design wind of the timed calls, in N/m².
const TIMED_WIND: u64 = 780;

/// The design winds with which the calls are to agree: within the range and beside its bounds.
const WINDS: [u64; 5] = [0, 1, 780, 10_000, 10_001];

/// The same for the cells of rows, and a fraction.
const WIND_CELLS: [f64; 6] = [0.0, 1.0, 780.0, 780.5, 10_000.0, 10_001.0];

/// A kind of call with the time of one call, in nanoseconds where nothing else is said, for each of the three.
pub struct Times {
    pub name: &'static str,
    pub library: f64,
    pub fast: f64,
    pub simple: f64,
}

fn from_library(result: wallcheck::CheckResult) -> CheckResult {
    let wallcheck::CheckResult {
        refusal,
        length_or_need,
        load,
        resistance,
        spare,
    } = result;
    CheckResult {
        refusal,
        second: length_or_need,
        load,
        resistance,
        spare,
    }
}

fn reading_from_library(reading: wallcheck::Reading) -> Reading {
    Reading {
        result: from_library(reading.result),
        taken: reading.taken,
    }
}

/// The functions of rows.c.
mod rows {
    use wallcheck::{Cells, CheckResult};

    extern "C" {
        fn rows_check(cells: *const Cells) -> CheckResult;
        fn rows_check_into(cells: *const Cells, out: *mut u8, out_len: usize) -> CheckResult;
        fn rows_minimum_load(cells: *const Cells, wind: f64) -> CheckResult;
        fn rows_minimum_load_into(
            cells: *const Cells,
            wind: f64,
            out: *mut u8,
            out_len: usize,
        ) -> CheckResult;
    }

    // Sound: the pointers and the length are those of references that live throughout the call.

    pub fn check(cells: &Cells) -> CheckResult {
        unsafe { rows_check(cells) }
    }

    pub fn check_into(cells: &Cells, out: &mut [u8]) -> CheckResult {
        unsafe { rows_check_into(cells, out.as_mut_ptr(), out.len()) }
    }

    pub fn minimum_load(cells: &Cells, wind: f64) -> CheckResult {
        unsafe { rows_minimum_load(cells, wind) }
    }

    pub fn minimum_load_into(cells: &Cells, wind: f64, out: &mut [u8]) -> CheckResult {
        unsafe { rows_minimum_load_into(cells, wind, out.as_mut_ptr(), out.len()) }
    }
}

pub fn row_of(line: &[u8]) -> Option<(Cells, Row)> {
    let words = std::str::from_utf8(line)
        .ok()?
        .strip_prefix("S ")?
        .split(' ');
    let numbers: Vec<f64> = words.map(|word| word.parse().ok()).collect::<Option<_>>()?;
    let row: Row = numbers.try_into().ok()?;
    Some((row.into(), row))
}

/// Whether the calls of `measure` agree on a line, in the result, in the count of bytes taken and in the bytes of a
/// lent buffer.
fn agree_on_line(line: &[u8]) -> bool {
    let mut out = [[0xA5; 64]; 3];
    from_library(wallcheck::check_line_into(line, &mut out[0]))
        == fast::check_line_into(line, &mut out[1])
        && fast::check_line(line) == simple::check_line_into(line, &mut out[2])
        && from_library(wallcheck::check_line(line)) == simple::check_line(line)
        && reading_from_library(wallcheck::check_line_taken(line)) == fast::check_line_taken(line)
        && fast::check_line_taken(line) == simple::check_line_taken(line)
        && out[0] == out[1]
        && out[1] == out[2]
}

/// The same for a row.
fn agree_on_row(cells: &Cells, row: &Row) -> bool {
    let mut out = [[0xA5; 64]; 3];
    from_library(rows::check_into(cells, &mut out[0])) == fast::check_row_into(row, &mut out[1])
        && fast::check_row(row) == simple::check_row_into(row, &mut out[2])
        && from_library(rows::check(cells)) == simple::check_row(row)
        && out[0] == out[1]
        && out[1] == out[2]
}

/// Whether the calls of the minimum load agree on a line, in the result and in the bytes of a lent
/// buffer.
fn agree_on_line_with_wind(line: &[u8], wind: u64) -> bool {
    let mut out = [[0xA5; 64]; 3];
    from_library(wallcheck::minimum_load_line_into(line, wind, &mut out[0]))
        == fast::minimum_load_line_into(line, wind, &mut out[1])
        && fast::minimum_load_line(line, wind)
            == simple::minimum_load_line_into(line, wind, &mut out[2])
        && from_library(wallcheck::minimum_load_line(line, wind))
            == simple::minimum_load_line(line, wind)
        && out[0] == out[1]
        && out[1] == out[2]
}

/// The same for a row.
fn agree_on_row_with_wind(cells: &Cells, row: &Row, wind: f64) -> bool {
    let mut out = [[0xA5; 64]; 3];
    from_library(rows::minimum_load_into(cells, wind, &mut out[0]))
        == fast::minimum_load_row_into(row, wind, &mut out[1])
        && fast::minimum_load_row(row, wind)
            == simple::minimum_load_row_into(row, wind, &mut out[2])
        && from_library(rows::minimum_load(cells, wind)) == simple::minimum_load_row(row, wind)
        && out[0] == out[1]
        && out[1] == out[2]
}

fn agree_with_winds(line: &[u8]) -> bool {
    WINDS
        .iter()
        .all(|&wind| agree_on_line_with_wind(line, wind))
        && row_of(line).is_none_or(|(cells, row)| {
            WIND_CELLS
                .iter()
                .all(|&wind| agree_on_row_with_wind(&cells, &row, wind))
        })
}

/// Whether the three agree on every line and row.
pub fn agree(lines: &[&[u8]]) -> bool {
    lines.iter().all(|line| {
        agree_on_line(line)
            && row_of(line).is_none_or(|(cells, row)| agree_on_row(&cells, &row))
            && agree_with_winds(line)
    })
}

/// Nanoseconds of one call in one pass. The result is lent and not moved, since a copy of it would be timed too.
pub fn pass<T, R>(items: &[T], mut call: impl FnMut(&T) -> R) -> f64 {
    let start = Instant::now();
    for item in items {
        let result = call(black_box(item));
        black_box(&result);
    }
    start.elapsed().as_nanos() as f64 / items.len() as f64
}

/// The median of each list.
pub fn medians<const N: usize>(times: [Vec<f64>; N]) -> [f64; N] {
    times.map(|mut times| {
        times.sort_by(f64::total_cmp);
        times[times.len() / 2]
    })
}

/// The three calls in turn in each pass, so that a busy machine slows all alike; the medians of the passes.
pub fn time<T, A, B, C>(
    name: &'static str,
    passes: usize,
    items: &[T],
    mut library: impl FnMut(&T) -> A,
    mut fast: impl FnMut(&T) -> B,
    mut simple: impl FnMut(&T) -> C,
) -> Times {
    let mut times = [const { Vec::new() }; 3];
    for _ in 0..passes {
        times[0].push(pass(items, &mut library));
        times[1].push(pass(items, &mut fast));
        times[2].push(pass(items, &mut simple));
    }
    let [library, fast, simple] = medians(times);
    Times {
        name,
        library,
        fast,
        simple,
    }
}

fn measure_lines(passes: usize, lines: &[&[u8]]) -> Vec<Times> {
    let mut out = [[0; 64]; 3];
    let [first, second, third] = &mut out;
    vec![
        time(
            "line",
            passes,
            lines,
            |line| wallcheck::check_line(line),
            |line| fast::check_line(line),
            |line| simple::check_line(line),
        ),
        time(
            "line, bytes taken",
            passes,
            lines,
            |line| wallcheck::check_line_taken(line),
            |line| fast::check_line_taken(line),
            |line| simple::check_line_taken(line),
        ),
        time(
            "line into a buffer",
            passes,
            lines,
            |line| wallcheck::check_line_into(line, first),
            |line| fast::check_line_into(line, second),
            |line| simple::check_line_into(line, third),
        ),
    ]
}

fn measure_rows(passes: usize, rows: &[(Cells, Row)]) -> Vec<Times> {
    let mut out = [[0; 64]; 3];
    let [first, second, third] = &mut out;
    vec![
        time(
            "row",
            passes,
            rows,
            |(cells, _)| rows::check(cells),
            |(_, row)| fast::check_row(row),
            |(_, row)| simple::check_row(row),
        ),
        time(
            "row into a buffer",
            passes,
            rows,
            |(cells, _)| rows::check_into(cells, first),
            |(_, row)| fast::check_row_into(row, second),
            |(_, row)| simple::check_row_into(row, third),
        ),
    ]
}

fn measure_minimum_load_lines(passes: usize, lines: &[&[u8]], wind: u64) -> Vec<Times> {
    let mut out = [[0; 64]; 3];
    let [first, second, third] = &mut out;
    vec![
        time(
            "minimum load, line",
            passes,
            lines,
            |line| wallcheck::minimum_load_line(line, wind),
            |line| fast::minimum_load_line(line, wind),
            |line| simple::minimum_load_line(line, wind),
        ),
        time(
            "minimum load, line into a buffer",
            passes,
            lines,
            |line| wallcheck::minimum_load_line_into(line, wind, first),
            |line| fast::minimum_load_line_into(line, wind, second),
            |line| simple::minimum_load_line_into(line, wind, third),
        ),
    ]
}

fn measure_minimum_load_rows(passes: usize, rows: &[(Cells, Row)], wind: f64) -> Vec<Times> {
    let mut out = [[0; 64]; 3];
    let [first, second, third] = &mut out;
    vec![
        time(
            "minimum load, row",
            passes,
            rows,
            |(cells, _)| rows::minimum_load(cells, wind),
            |(_, row)| fast::minimum_load_row(row, wind),
            |(_, row)| simple::minimum_load_row(row, wind),
        ),
        time(
            "minimum load, row into a buffer",
            passes,
            rows,
            |(cells, _)| rows::minimum_load_into(cells, wind, first),
            |(_, row)| fast::minimum_load_row_into(row, wind, second),
            |(_, row)| simple::minimum_load_row_into(row, wind, third),
        ),
    ]
}

pub fn measure(passes: usize, lines: &[&[u8]]) -> Vec<Times> {
    let rows: Vec<(Cells, Row)> = lines.iter().filter_map(|line| row_of(line)).collect();
    // A cellar's line is refusal 1 in this check, in `fast` at its first byte: so only storey lines are timed.
    let mut storey_lines = lines.to_vec();
    storey_lines.retain(|line| line.starts_with(b"S"));
    // Hidden, since the plain functions could else be compiled for this one wind.
    let wind = black_box(TIMED_WIND);
    let mut times = measure_lines(passes, lines);
    times.extend(measure_rows(passes, &rows));
    times.extend(measure_minimum_load_lines(passes, &storey_lines, wind));
    times.extend(measure_minimum_load_rows(passes, &rows, wind as f64));
    times
}

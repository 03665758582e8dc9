//! Early design with ranges: pairs of lines and of rows in memory.

use crate::calls::{row_of, time, Times};
use crate::input::Random;
use plain::{fast, simple, RangeResult, Row};
use wallcheck::Cells;

extern "C" {
    /// Of rows.c.
    fn rows_range(low: *const Cells, high: *const Cells) -> wallcheck::RangeResult;
}

fn library_rows(low: &Cells, high: &Cells) -> wallcheck::RangeResult {
    // Sound: the pointers are those of references that live throughout the call.
    unsafe { rows_range(low, high) }
}

fn from_library(result: wallcheck::RangeResult) -> RangeResult {
    let wallcheck::RangeResult { refusal, answer } = result;
    RangeResult { refusal, answer }
}

/// The places of the numbers in which the low and the high record may differ, and by how much they do at most in the timed
/// calls: span, strength, dead load, imposed load, floor load, building height.
const WIDTHS: [(usize, u64); 6] = [
    (7, 300),
    (9, 200),
    (11, 30_000),
    (12, 20_000),
    (13, 500),
    (14, 2000),
];

/// The place of the span, and that of the other span.
const SPANS: [usize; 2] = [7, 16];

/// The place of the clear height.
const HEIGHT: usize = 2;

/// The high line for a low one: greater in some of the six numbers, and now and then in the clear height, which is 25. A line
/// that is no storey wall's stands for itself.
fn high_line(random: &mut Random, line: &[u8]) -> Vec<u8> {
    let Some((_, mut row)) = row_of(line) else {
        return line.to_vec();
    };
    for (place, width) in WIDTHS {
        let agrees = place == SPANS[0] && row[SPANS[1]] > 0.0;
        if !agrees && !random.one_in(4) {
            row[place] += random.within(0, width) as f64;
        }
    }
    if random.one_in(50) {
        row[HEIGHT] += 1.0;
    }
    let numbers: String = row.iter().map(|number| format!(" {number}")).collect();
    format!("S{numbers}").into_bytes()
}

type Lines<'a> = (&'a [u8], Vec<u8>);
type Rows = ((Cells, Row), (Cells, Row));

/// Low and high lines, the low ones those of storey walls among `lines`; a cellar's line would be refusal 1 at once.
fn pairs<'a>(lines: &[&'a [u8]]) -> Vec<Lines<'a>> {
    let mut random = Random(0x6A09_E667_F3BC_C909);
    let storeys = lines.iter().filter(|line| line.starts_with(b"S"));
    storeys
        .map(|line| (*line, high_line(&mut random, line)))
        .collect()
}

fn rows_of(low: &[u8], high: &[u8]) -> Option<Rows> {
    Some((row_of(low)?, row_of(high)?))
}

fn agree_on_lines(low: &[u8], high: &[u8]) -> bool {
    from_library(wallcheck::range_lines(low, high)) == fast::range_lines(low, high)
        && fast::range_lines(low, high) == simple::range_lines(low, high)
}

fn agree_on_rows((low, high): &Rows) -> bool {
    from_library(library_rows(&low.0, &high.0)) == fast::range_rows(&low.1, &high.1)
        && fast::range_rows(&low.1, &high.1) == simple::range_rows(&low.1, &high.1)
}

fn agree_on_pair(low: &[u8], high: &[u8]) -> bool {
    agree_on_lines(low, high) && rows_of(low, high).is_none_or(|rows| agree_on_rows(&rows))
}

/// Whether the three agree on the pairs that are timed, the same with low and high in exchange, and each line with the next
/// one, which is mostly 25 or the refusal of one of the two.
pub fn agree(lines: &[&[u8]]) -> bool {
    let made = pairs(lines);
    let mut neighbours = lines.windows(2);
    made.iter()
        .all(|(low, high)| agree_on_pair(low, high) && agree_on_pair(high, low))
        && neighbours.all(|pair| agree_on_pair(pair[0], pair[1]))
}

pub fn measure(passes: usize, lines: &[&[u8]]) -> [Times; 2] {
    let pairs = pairs(lines);
    let rows: Vec<Rows> = pairs
        .iter()
        .filter_map(|(low, high)| rows_of(low, high))
        .collect();
    [
        time(
            "range, two lines",
            passes,
            &pairs,
            |(low, high)| wallcheck::range_lines(low, high),
            |(low, high)| fast::range_lines(low, high),
            |(low, high)| simple::range_lines(low, high),
        ),
        time(
            "range, two rows",
            passes,
            &rows,
            |(low, high)| library_rows(&low.0, &high.0),
            |(low, high)| fast::range_rows(&low.1, &high.1),
            |(low, high)| simple::range_rows(&low.1, &high.1),
        ),
    ]
}

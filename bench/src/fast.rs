//! As fast as we could make it. A line byte by byte: each is looked at once, numbers of 64 bits, no allocation for a line.

pub mod archive;
pub mod choice;

use crate::{
    filled, range_answer, range_refused, refused, CheckResult, RangeResult, Reading, Row,
    LONGEST_LINE, SHORTEST_BUFFER,
};
use std::io::{self, Read, Write};

const STOREY_NUMBERS: usize = 19;
const CELLAR_NUMBERS: usize = 10;

/// Input and output of a schedule are moved in pieces of this many bytes.
const PIECE: usize = 64 * 1024;

/// Reads N numbers, each with one space before it. The place behind the last one, where they are all of the form, else
/// that of the first byte that is wrong or missing.
#[inline(always)]
fn read_numbers<const N: usize>(bytes: &[u8]) -> Result<([u64; N], usize), usize> {
    let mut numbers = [0; N];
    let mut at = 1;
    for number in &mut numbers {
        if *bytes.get(at).ok_or(at)? != b' ' {
            return Err(at);
        }
        let mut value = bytes.get(at + 1).ok_or(at + 1)?.wrapping_sub(b'0') as u64;
        if value > 9 {
            return Err(at + 1);
        }
        at += 2;
        if value != 0 {
            // A tenth digit is left, and is then no space.
            let end = at + 8;
            while at < end {
                let Some(digit) = bytes
                    .get(at)
                    .map(|b| b.wrapping_sub(b'0'))
                    .filter(|&digit| digit <= 9)
                else {
                    break;
                };
                value = 10 * value + digit as u64;
                at += 1;
            }
        }
        *number = value;
    }
    Ok((numbers, at))
}

/// The result of the line that stands at the start of `bytes` and its length, where it is of the form, else the place of
/// the first byte that is wrong or missing.
#[inline(always)]
fn check_start(bytes: &[u8]) -> Result<(CheckResult, usize), usize> {
    match bytes.first() {
        Some(b'S') => {
            read_numbers::<STOREY_NUMBERS>(bytes).map(|(numbers, at)| (check_storey(&numbers), at))
        }
        Some(b'C') => {
            read_numbers::<CELLAR_NUMBERS>(bytes).map(|(numbers, at)| (check_cellar(&numbers), at))
        }
        _ => Err(0),
    }
}

#[inline(always)]
fn within(number: u64, low: u64, high: u64) -> bool {
    number.wrapping_sub(low) <= high - low
}

#[inline(always)]
fn rounded_load(hundredths: u64) -> u64 {
    (hundredths + 50) / 100
}

// In hundredths.
#[inline(always)]
fn general_load(dead: u64, imposed: u64) -> u64 {
    135 * dead + 150 * imposed
}

#[inline(always)]
fn storey_load(dead: u64, imposed: u64, floor_load: u64) -> u64 {
    let general = general_load(dead, imposed);
    let simplified = 140 * (dead + imposed);
    let exact = if floor_load <= 3000 {
        simplified.min(general)
    } else {
        general
    };
    rounded_load(exact)
}

#[inline(always)]
fn storey_in_range(numbers: &[u64; STOREY_NUMBERS]) -> bool {
    let [usage, t, h, w, held, c, support, span, a, f, bonded, dead, imposed, ..] = *numbers;
    let [.., floor_load, building, storeys, other, calcium_silicate, wind] = *numbers;
    // Without branches between the tests: nearly all lines pass all of them.
    within(usage, 1, 4)
        & within(t, 1, 1000)
        & within(h, 1, 20_000)
        & within(w, 1, 20_000)
        & within(held, 2, 4)
        & (c <= 30_000)
        & ((c == 0) == (held == 2))
        & within(support, 1, 4)
        & within(span, 1, 20_000)
        & (a.wrapping_sub(1) < t)
        & within(f, 1, 5000)
        & (bonded <= 1)
        & within(dead, 1, 10_000_000)
        & (imposed <= 10_000_000)
        & (floor_load <= 100_000)
        & within(building, 1, 200_000)
        & within(storeys, 1, 20)
        & (other <= 20_000)
        & (calcium_silicate <= 1)
        & (wind <= 10_000)
}

/// The shorter of both spans, where there is another one.
#[inline(always)]
fn governing_span(span: u64, other: u64) -> u64 {
    if (other != 0) & (other < span) {
        other
    } else {
        span
    }
}

/// The span in m, in twentieths of a mm.
#[inline(always)]
fn support_span(span: u64, other: u64) -> u64 {
    let reduced = (other != 0) & (other <= 2 * span) & (span <= 2 * other);
    governing_span(span, other) * if reduced { 17 } else { 20 }
}

/// The greatest clear height, `taller` for the heights of calcium silicate walls.
#[inline(always)]
fn height_limit(usage: u64, t: u64, f: u64, taller: bool) -> u64 {
    if t >= 240 {
        return match usage {
            1 => u64::MAX,
            _ if taller && t < 300 => 3600,
            _ => 12 * t,
        };
    }
    if !taller {
        return 2750;
    }
    match usage {
        1 => 3600,
        _ if t >= 200 => 3600,
        _ if t < 175 => 2750,
        _ if f >= 500 => 3300,
        _ => 3000,
    }
}

/// The first of refusals 3 to 11 that applies, or 0.
#[inline(always)]
fn storey_limit(numbers: &[u64; STOREY_NUMBERS]) -> u64 {
    let [usage, t, h, w, held, c, support, span, a, f, ..] = *numbers;
    let [.., floor_load, building, storeys, other, calcium_silicate, wind] = *numbers;
    if t < 115 {
        return 3;
    }
    if w * t < 40_000 {
        return 4;
    }
    if usage != 1 {
        let held_near = (held == 4 && c <= 4500) || (held == 3 && c <= 2000);
        let refused = match usage {
            2 => t < 150,
            3 => t < 150 && (storeys > 2 || !held_near),
            _ => storeys > 1,
        };
        if refused {
            return 5;
        }
    }
    if h > 2750 {
        let taller = calcium_silicate == 1 && a == t && f >= 350 && (usage == 1 || wind <= 1250);
        if h > height_limit(usage, t, f, taller) {
            return 6;
        }
    }
    if floor_load > 3000 && (floor_load > 5000 || (usage != 1 && t < 175)) {
        return 7;
    }
    if building > 20_000 {
        return 8;
    }
    if governing_span(span, other) > 6000 && support != 4 {
        return 9;
    }
    if a <= 100 || if t == 365 { a < 165 } else { 2 * a < t } {
        return 10;
    }
    if f < 180 {
        return 11;
    }
    0
}

#[inline(always)]
fn buckling_length(t: u64, h: u64, held: u64, c: u64, a: u64) -> u64 {
    let suffices = if t >= 240 { a >= 175 } else { a == t };
    let r = if !suffices || t > 250 {
        20
    } else if t <= 175 {
        15
    } else {
        18
    };
    let k = r * h;
    if held == 3 && c <= 15 * t {
        let square = 1800 * c * c;
        return (square * k).div_ceil(2 * square + k * k).max(3 * h);
    }
    if held == 4 && c <= 30 * t {
        if h > c {
            return 5 * c;
        }
        let square = 200 * c * c;
        return (square * k).div_ceil(2 * square + k * k);
    }
    k.div_ceil(2)
}

/// The resistance where e is at most 270t.
#[inline(always)]
fn storey_resistance(numbers: &[u64; STOREY_NUMBERS], e: u64) -> u64 {
    let [_, t, _, w, _, _, support, span, a, f, bonded, ..] = *numbers;
    let [.., other, _, _] = *numbers;
    // 4/5 or 5/5, over 5.
    let fifths = if w * t < 100_000 || bonded == 1 { 4 } else { 5 };
    let times = 17 * fifths * f;
    let mut resistance = times * (850_000 * a * t).saturating_sub(11 * e * e) / (15_000_000 * t);
    if support != 1 {
        let m = match support {
            2 => (192_000 - support_span(span, other)).min(108_000),
            3 => 39_960,
            _ => 108_000,
        };
        resistance = resistance.min(times * a * m / 1_800_000);
    }
    resistance
}

#[inline(always)]
fn check_storey(numbers: &[u64; STOREY_NUMBERS]) -> CheckResult {
    if !storey_in_range(numbers) {
        return refused(2);
    }
    let limit = storey_limit(numbers);
    if limit != 0 {
        return refused(limit);
    }
    let [_, t, h, _, held, c, _, _, a, _, _, dead, imposed, floor_load, ..] = *numbers;
    let e = buckling_length(t, h, held, c, a);
    if e > 270 * t {
        return refused(12);
    }
    let resistance = storey_resistance(numbers, e);
    let load = storey_load(dead, imposed, floor_load);
    filled(if load > resistance { 13 } else { 0 }, e, load, resistance)
}

// The places of the numbers in which two records of a range may differ.
const SPAN: usize = 7;
const STRENGTH: usize = 9;
const DEAD: usize = 11;
const IMPOSED: usize = 12;
const FLOOR_LOAD: usize = 13;
const BUILDING: usize = 14;

const OTHER_SPAN: usize = 16;

/// Whether a low value is above its high value or another number differs.
#[inline(always)]
fn bad_range(low: &[u64; STOREY_NUMBERS], high: &[u64; STOREY_NUMBERS]) -> bool {
    // Without branches between the tests, as for the ranges.
    let mut bad = (low[OTHER_SPAN] != 0) & (low[SPAN] != high[SPAN]);
    for place in 0..STOREY_NUMBERS {
        bad |= match place {
            SPAN | STRENGTH | DEAD | IMPOSED | FLOOR_LOAD | BUILDING => low[place] > high[place],
            _ => low[place] != high[place],
        };
    }
    bad
}

/// Whether a record in range with this e, at most 270t, is accepted.
#[inline(always)]
fn accepted(numbers: &[u64; STOREY_NUMBERS], e: u64) -> bool {
    let load = storey_load(numbers[DEAD], numbers[IMPOSED], numbers[FLOOR_LOAD]);
    storey_limit(numbers) == 0 && load <= storey_resistance(numbers, e)
}

/// The result of two records in range. They have the same e.
#[inline(always)]
fn check_range(low: &[u64; STOREY_NUMBERS], high: &[u64; STOREY_NUMBERS]) -> RangeResult {
    if bad_range(low, high) {
        return range_refused(25);
    }
    let [_, t, h, _, held, c, _, _, a, ..] = *low;
    let e = buckling_length(t, h, held, c, a);
    if e > 270 * t {
        return range_answer(2);
    }
    let (mut worst, mut best) = (*high, *low);
    worst[STRENGTH] = low[STRENGTH];
    best[STRENGTH] = high[STRENGTH];
    if accepted(&worst, e) {
        return range_answer(1);
    }
    range_answer(if accepted(&best, e) { 3 } else { 2 })
}

/// The check of the minimum load in the top storey.
#[inline(always)]
fn check_minimum_load(numbers: &[u64; STOREY_NUMBERS], design_wind: u64) -> CheckResult {
    if !within(design_wind, 1, 10_000) {
        return refused(2);
    }
    let ordinary = check_storey(numbers);
    if ordinary.refusal != 0 {
        return ordinary;
    }
    let [_, _, h, _, _, _, _, _, a, _, _, dead, ..] = *numbers;
    // a is over 100 in what is accepted, and h at most 20000, so 300a is above h. The numerator
    // stays below 2^46.
    let need = (9 * design_wind * h * h).div_ceil(160 * (300 * a - h));
    filled(
        if dead < need { 21 } else { 0 },
        need,
        ordinary.load,
        ordinary.resistance,
    )
}

#[inline(always)]
fn cellar_in_range(numbers: &[u64; CELLAR_NUMBERS]) -> bool {
    let [t, h, e, c, y, f, bonded, dead, imposed, ground] = *numbers;
    within(t, 1, 1000)
        & within(h, 1, 20_000)
        & (e <= 20_000)
        & within(c, 1, 30_000)
        & within(y, 1, 30_000)
        & within(f, 1, 5000)
        & (bonded <= 1)
        & within(dead, 1, 10_000_000)
        & (imposed <= 10_000_000)
        & (ground <= 100_000)
}

/// The first of refusals 14 to 17 and 11 that applies, or 0.
#[inline(always)]
fn cellar_limit(t: u64, h: u64, e: u64, f: u64, ground: u64) -> u64 {
    if t < 200 {
        14
    } else if h > 2600 {
        15
    } else if 20 * e > 23 * h {
        16
    } else if ground > 5000 {
        17
    } else if f < 180 {
        11
    } else {
        0
    }
}

/// The required dead load, within the limits.
#[inline(always)]
fn cellar_need(t: u64, h: u64, e: u64, c: u64, y: u64) -> u64 {
    // B is b/h with b = 60h - 20c, between 20h and 40h; 20 is divided out of both sides of the fraction. h is at most
    // 2600 here and e at most 2990, so the numerator stays below 2^61.
    let b = if c >= 2 * h { h } else { 3 * h - c.max(h) };
    (y * h * h * e * e).div_ceil(20_000_000 * b * t)
}

#[inline(always)]
fn cellar_resistance(t: u64, f: u64, bonded: u64) -> u64 {
    let fifths = if bonded == 1 { 4 } else { 5 };
    17 * fifths * f * t / 45
}

#[inline(always)]
fn check_cellar(numbers: &[u64; CELLAR_NUMBERS]) -> CheckResult {
    if !cellar_in_range(numbers) {
        return refused(2);
    }
    let [t, h, e, c, y, f, bonded, dead, imposed, ground] = *numbers;
    let limit = cellar_limit(t, h, e, f, ground);
    if limit != 0 {
        return refused(limit);
    }
    let need = cellar_need(t, h, e, c, y);
    let resistance = cellar_resistance(t, f, bonded);
    let load = rounded_load(general_load(dead, imposed));
    let refusal = if load > resistance {
        18
    } else if dead < need {
        19
    } else {
        0
    };
    filled(refusal, need, load, resistance)
}

/// All numbers of two digits, one after the other.
const PAIRS: [u8; 200] = {
    let mut pairs = [0; 200];
    let mut n = 0;
    while n < 100 {
        pairs[2 * n] = b'0' + (n / 10) as u8;
        pairs[2 * n + 1] = b'0' + (n % 10) as u8;
        n += 1;
    }
    pairs
};

#[inline(always)]
fn digits(value: u32) -> usize {
    match value {
        0..=9 => 1,
        10..=99 => 2,
        100..=999 => 3,
        1000..=9999 => 4,
        10_000..=99_999 => 5,
        100_000..=999_999 => 6,
        1_000_000..=9_999_999 => 7,
        _ => 8,
    }
}

/// Writes a number of at most 8 digits and the byte behind it; the place behind both.
#[inline(always)]
fn write_number(out: &mut [u8; SHORTEST_BUFFER], at: usize, value: u64, behind: u8) -> usize {
    let mut value = value as u32;
    let end = at + digits(value);
    let mut place = end;
    while value >= 10 {
        let pair = 2 * (value % 100) as usize;
        value /= 100;
        place -= 2;
        out[place..place + 2].copy_from_slice(&PAIRS[pair..pair + 2]);
    }
    if place > at {
        out[at] = b'0' + value as u8;
    }
    out[end] = behind;
    end + 1
}

/// Writes a result as text; its length.
#[inline(always)]
fn write_result(result: &CheckResult, out: &mut [u8; SHORTEST_BUFFER]) -> usize {
    let mut at = write_number(out, 0, result.refusal, b' ');
    if result.load == 0 {
        out[at..at + 8].copy_from_slice(b"0 0 0 0\n");
        return at + 8;
    }
    at = write_number(out, at, result.second, b' ');
    at = write_number(out, at, result.load, b' ');
    at = write_number(out, at, result.resistance, b' ');
    if result.spare < 0 {
        out[at] = b'-';
        at += 1;
    }
    write_number(out, at, result.spare.unsigned_abs(), b'\n')
}

#[inline(always)]
fn into(out: &mut [u8], check: impl FnOnce() -> CheckResult) -> CheckResult {
    let Some(first) = out.first_chunk_mut() else {
        return refused(20);
    };
    let result = check();
    write_result(&result, first);
    result
}

#[inline(always)]
fn line_result(line: &[u8]) -> CheckResult {
    match check_start(line) {
        Ok((result, at)) if at == line.len() => result,
        _ => refused(1),
    }
}

#[inline(always)]
fn line_reading(line: &[u8]) -> Reading {
    let (result, taken) = match check_start(line) {
        Ok((result, at)) if at == line.len() => (result, at),
        Ok((_, place)) | Err(place) => (refused(1), line.len().min(place + 1)),
    };
    Reading {
        result,
        taken: taken as u64,
    }
}

/// The numbers of a row, if all its cells are whole. What is no number of 64 bits becomes another one and so differs.
#[inline(always)]
fn row_numbers(row: &Row) -> Option<[u64; STOREY_NUMBERS]> {
    let numbers = row.map(|cell| cell as u64);
    let mut whole = true;
    for (&number, &cell) in numbers.iter().zip(row) {
        whole &= number as f64 == cell;
    }
    whole.then_some(numbers)
}

#[inline(always)]
fn row_result(row: &Row) -> CheckResult {
    row_numbers(row).map_or(refused(2), |numbers| check_storey(&numbers))
}

/// This check has no cellar walls.
#[inline(always)]
fn minimum_load_line_result(line: &[u8], design_wind: u64) -> CheckResult {
    if line.first() != Some(&b'S') {
        return refused(1);
    }
    match read_numbers(line) {
        Ok((numbers, at)) if at == line.len() => check_minimum_load(&numbers, design_wind),
        _ => refused(1),
    }
}

#[inline(always)]
fn minimum_load_row_result(row: &Row, wind_cell: f64) -> CheckResult {
    let design_wind = wind_cell as u64;
    match row_numbers(row) {
        Some(numbers) if design_wind as f64 == wind_cell => {
            check_minimum_load(&numbers, design_wind)
        }
        _ => refused(2),
    }
}

/// The numbers of a storey wall's line, in range, or refusal 1 or 2.
#[inline(always)]
fn range_line(line: &[u8]) -> Result<[u64; STOREY_NUMBERS], u64> {
    if line.first() != Some(&b'S') {
        return Err(1);
    }
    match read_numbers(line) {
        Ok((numbers, at)) if at == line.len() => in_range(numbers),
        _ => Err(1),
    }
}

#[inline(always)]
fn in_range(numbers: [u64; STOREY_NUMBERS]) -> Result<[u64; STOREY_NUMBERS], u64> {
    if storey_in_range(&numbers) {
        Ok(numbers)
    } else {
        Err(2)
    }
}

#[inline(always)]
fn range_row(row: &Row) -> Result<[u64; STOREY_NUMBERS], u64> {
    row_numbers(row).map_or(Err(2), in_range)
}

#[inline(always)]
fn range_result<T: ?Sized>(
    low: &T,
    high: &T,
    read: impl Fn(&T) -> Result<[u64; STOREY_NUMBERS], u64>,
) -> RangeResult {
    let low = match read(low) {
        Ok(numbers) => numbers,
        Err(refusal) => return range_refused(refusal),
    };
    match read(high) {
        Ok(high) => check_range(&low, &high),
        Err(refusal) => range_refused(refusal),
    }
}

#[inline(never)]
pub fn check_line(line: &[u8]) -> CheckResult {
    line_result(line)
}

#[inline(never)]
pub fn check_line_taken(line: &[u8]) -> Reading {
    line_reading(line)
}

#[inline(never)]
pub fn check_line_into(line: &[u8], out: &mut [u8]) -> CheckResult {
    into(out, || line_result(line))
}

#[inline(never)]
pub fn check_row(row: &Row) -> CheckResult {
    row_result(row)
}

#[inline(never)]
pub fn check_row_into(row: &Row, out: &mut [u8]) -> CheckResult {
    into(out, || row_result(row))
}

#[inline(never)]
pub fn minimum_load_line(line: &[u8], wind: u64) -> CheckResult {
    minimum_load_line_result(line, wind)
}

#[inline(never)]
pub fn minimum_load_line_into(line: &[u8], wind: u64, out: &mut [u8]) -> CheckResult {
    into(out, || minimum_load_line_result(line, wind))
}

#[inline(never)]
pub fn minimum_load_row(row: &Row, wind: f64) -> CheckResult {
    minimum_load_row_result(row, wind)
}

#[inline(never)]
pub fn minimum_load_row_into(row: &Row, wind: f64, out: &mut [u8]) -> CheckResult {
    into(out, || minimum_load_row_result(row, wind))
}

#[inline(never)]
pub fn range_lines(low: &[u8], high: &[u8]) -> RangeResult {
    range_result(low, high, range_line)
}

#[inline(never)]
pub fn range_rows(low: &Row, high: &Row) -> RangeResult {
    range_result(low, high, range_row)
}

/// Output that is gathered into pieces.
struct Gathered<W: Write> {
    output: W,
    bytes: Vec<u8>,
    used: usize,
}

impl<W: Write> Gathered<W> {
    #[inline(always)]
    fn put(&mut self, result: &CheckResult) -> io::Result<()> {
        if let Some(free) = self.bytes[self.used..].first_chunk_mut() {
            self.used += write_result(result, free);
            return Ok(());
        }
        self.flush()?;
        self.put_first(result)
    }

    #[cold]
    fn put_first(&mut self, result: &CheckResult) -> io::Result<()> {
        self.used = self
            .bytes
            .first_chunk_mut()
            .map_or(0, |free| write_result(result, free));
        Ok(())
    }

    fn flush(&mut self) -> io::Result<()> {
        self.output.write_all(&self.bytes[..self.used])?;
        self.used = 0;
        Ok(())
    }
}

/// Checks the lines of a piece that are ended. The place behind the last of them.
fn check_ended_lines<W: Write>(piece: &[u8], output: &mut Gathered<W>) -> io::Result<usize> {
    let mut start = 0;
    loop {
        let rest = &piece[start..];
        let length = match check_start(rest) {
            Ok((result, length)) if rest.get(length) == Some(&b'\n') => {
                output.put(&result)?;
                length
            }
            _ => match rest.iter().position(|&b| b == b'\n') {
                None => return Ok(start),
                Some(length) => {
                    output.put(&refused(1))?;
                    length
                }
            },
        };
        start += length + 1;
    }
}

/// The schedule program.
pub fn schedule(mut input: impl Read, output: impl Write) -> io::Result<()> {
    let mut output = Gathered {
        output,
        bytes: vec![0; PIECE],
        used: 0,
    };
    let mut piece = vec![0; PIECE];
    let mut kept = 0;
    loop {
        let read = input.read(&mut piece[kept..])?;
        if read == 0 {
            break;
        }
        let held = kept + read;
        let start = check_ended_lines(&piece[..held], &mut output)?;
        piece.copy_within(start..held, 0);
        kept = held - start;
        if kept > LONGEST_LINE {
            // Too long already, so only its first bytes are kept; they stay too many until its end comes.
            kept = LONGEST_LINE + 1;
        }
    }
    if kept > 0 {
        output.put(&line_result(&piece[..kept]))?;
    }
    output.flush()
}

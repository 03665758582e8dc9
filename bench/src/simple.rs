//! As one would first write it: split and parse, wide integers, a String for each result.

pub mod archive;
pub mod choice;

use crate::{
    filled, range_answer, range_refused, refused, CheckResult, RangeResult, Reading, Row,
    LONGEST_LINE, SHORTEST_BUFFER,
};
use std::io::{self, BufRead, Write};

struct StoreyWall {
    usage: u64,
    thickness: u64,
    height: u64,
    length: u64,
    held: u64,
    distance: u64,
    support: u64,
    span: u64,
    bearing: u64,
    strength: u64,
    bonded: u64,
    dead: u64,
    imposed: u64,
    floor_load: u64,
    building: u64,
    storeys: u64,
    other_span: u64,
    calcium_silicate: u64,
    wind: u64,
}

struct CellarWall {
    thickness: u64,
    height: u64,
    fill: u64,
    spacing: u64,
    weight: u64,
    strength: u64,
    bonded: u64,
    dead: u64,
    imposed: u64,
    ground: u64,
}

enum Wall {
    Storey(StoreyWall),
    Cellar(CellarWall),
}

fn number(word: &str) -> Option<u64> {
    let leading_zero = word.len() > 1 && word.starts_with('0');
    if word.len() > 9 || leading_zero || !word.bytes().all(|b| b.is_ascii_digit()) {
        return None;
    }
    word.parse().ok()
}

fn storey_wall(n: &[u64]) -> Option<StoreyWall> {
    (n.len() == 19).then(|| StoreyWall {
        usage: n[0],
        thickness: n[1],
        height: n[2],
        length: n[3],
        held: n[4],
        distance: n[5],
        support: n[6],
        span: n[7],
        bearing: n[8],
        strength: n[9],
        bonded: n[10],
        dead: n[11],
        imposed: n[12],
        floor_load: n[13],
        building: n[14],
        storeys: n[15],
        other_span: n[16],
        calcium_silicate: n[17],
        wind: n[18],
    })
}

fn cellar_wall(n: &[u64]) -> Option<CellarWall> {
    (n.len() == 10).then(|| CellarWall {
        thickness: n[0],
        height: n[1],
        fill: n[2],
        spacing: n[3],
        weight: n[4],
        strength: n[5],
        bonded: n[6],
        dead: n[7],
        imposed: n[8],
        ground: n[9],
    })
}

fn read_line(line: &[u8]) -> Option<Wall> {
    let mut words = std::str::from_utf8(line).ok()?.split(' ');
    let letter = words.next()?;
    let numbers: Vec<u64> = words.map(number).collect::<Option<_>>()?;
    match letter {
        "S" => storey_wall(&numbers).map(Wall::Storey),
        "C" => cellar_wall(&numbers).map(Wall::Cellar),
        _ => None,
    }
}

/// How many bytes are taken: up to and including the first wrong one, or all.
fn taken(line: &[u8]) -> usize {
    let count = match line.first() {
        Some(b'S') => 19,
        Some(b'C') => 10,
        Some(_) => return 1,
        None => return 0,
    };
    let (mut numbers, mut start) = (0, 0);
    for place in 1..line.len() {
        let word = &line[start..place];
        let right = match line[place] {
            b' ' => !word.is_empty() && numbers < count,
            b'0'..=b'9' => numbers > 0 && word.len() < 9 && word != b"0",
            _ => false,
        };
        if !right {
            return place + 1;
        }
        if line[place] == b' ' {
            numbers += 1;
            start = place + 1;
        }
    }
    line.len()
}

/// To the nearest, an exact half upwards.
fn rounded_load(hundredths: u64) -> u64 {
    (hundredths + 50) / 100
}

// In hundredths.
fn general_load(dead: u64, imposed: u64) -> u64 {
    135 * dead + 150 * imposed
}

impl StoreyWall {
    fn in_range(&self) -> bool {
        let distance_in_range = if self.held == 2 {
            self.distance == 0
        } else {
            (1..=30_000).contains(&self.distance)
        };
        (1..=4).contains(&self.usage)
            && (1..=1000).contains(&self.thickness)
            && (1..=20_000).contains(&self.height)
            && (1..=20_000).contains(&self.length)
            && (2..=4).contains(&self.held)
            && distance_in_range
            && (1..=4).contains(&self.support)
            && (1..=20_000).contains(&self.span)
            && (1..=self.thickness).contains(&self.bearing)
            && (1..=5000).contains(&self.strength)
            && self.bonded <= 1
            && (1..=10_000_000).contains(&self.dead)
            && self.imposed <= 10_000_000
            && self.floor_load <= 100_000
            && (1..=200_000).contains(&self.building)
            && (1..=20).contains(&self.storeys)
            && self.other_span <= 20_000
            && self.calcium_silicate <= 1
            && self.wind <= 10_000
    }

    fn use_refused(&self) -> bool {
        let held_near =
            (self.held == 4 && self.distance <= 4500) || (self.held == 3 && self.distance <= 2000);
        match self.usage {
            2 => self.thickness < 150,
            3 => self.thickness < 150 && (self.storeys > 2 || !held_near),
            4 => self.storeys > 1,
            _ => false,
        }
    }

    fn height_limit(&self) -> u64 {
        let taller = self.calcium_silicate == 1
            && self.bearing == self.thickness
            && self.strength >= 350
            && (self.usage == 1 || self.wind <= 1250);
        match (self.usage, self.thickness) {
            (1, ..=239) if taller => 3600,
            (2.., 175..=199) if taller && self.strength >= 500 => 3300,
            (2.., 175..=199) if taller => 3000,
            (2.., 200..=299) if taller => 3600,
            (_, ..=239) => 2750,
            (1, _) => u64::MAX,
            (_, thickness) => 12 * thickness,
        }
    }

    fn bearing_refused(&self) -> bool {
        let too_short = match self.thickness {
            365 => 20 * self.bearing < 9 * 365,
            thickness => 2 * self.bearing < thickness,
        };
        self.bearing <= 100 || too_short
    }

    fn floor_load_refused(&self) -> bool {
        self.floor_load > 5000
            || (self.floor_load > 3000 && self.usage != 1 && self.thickness < 175)
    }

    fn factor(&self) -> u64 {
        let suffices = if self.thickness >= 240 {
            self.bearing >= 175
        } else {
            self.bearing == self.thickness
        };
        if !suffices || self.thickness > 250 {
            20
        } else if self.thickness > 175 {
            18
        } else {
            15
        }
    }

    fn buckling_length(&self) -> u64 {
        let k = (self.factor() * self.height) as u128;
        let c = self.distance as u128;
        let h = self.height as u128;
        let length = match self.held {
            3 if self.distance <= 15 * self.thickness => {
                (1800 * c * c * k).div_ceil(3600 * c * c + k * k).max(3 * h)
            }
            4 if self.distance <= 30 * self.thickness && h <= c => {
                (200 * c * c * k).div_ceil(400 * c * c + k * k)
            }
            4 if self.distance <= 30 * self.thickness => 5 * c,
            _ => k.div_ceil(2),
        };
        length as u64
    }

    fn load(&self) -> u64 {
        let general = general_load(self.dead, self.imposed);
        let exact = if self.floor_load <= 3000 {
            general.min(140 * (self.dead + self.imposed))
        } else {
            general
        };
        rounded_load(exact)
    }

    /// The shorter of both spans, where there is another one.
    fn governing_span(&self) -> u64 {
        match self.other_span {
            0 => self.span,
            other => self.span.min(other),
        }
    }

    /// The span in m, in hundredths of a mm.
    fn support_span(&self) -> u64 {
        let other = self.other_span;
        let reduced = other > 0 && other <= 2 * self.span && self.span <= 2 * other;
        self.governing_span() * if reduced { 85 } else { 100 }
    }

    fn resistance(&self, buckling_length: u64) -> u64 {
        let [t, a, f, e, l] = [
            self.thickness,
            self.bearing,
            self.strength,
            buckling_length,
            self.support_span(),
        ]
        .map(i128::from);
        let (times, over) = if self.length * self.thickness < 100_000 || self.bonded == 1 {
            (4, 5)
        } else {
            (1, 1)
        };
        let in_the_middle =
            times * 17 * f * (850_000 * a * t - 11 * e * e) / (over * 3_000_000 * t);
        let m = match self.support {
            1 => return in_the_middle.max(0) as u64,
            2 => (960_000 - l).min(540_000),
            3 => 199_800,
            _ => 540_000,
        };
        let at_the_floor = times * 17 * f * a * m / (over * 1_800_000);
        in_the_middle.min(at_the_floor).max(0) as u64
    }

    fn refusal(&self) -> u64 {
        if !self.in_range() {
            2
        } else if self.thickness < 115 {
            3
        } else if self.length * self.thickness < 40_000 {
            4
        } else if self.use_refused() {
            5
        } else if self.height > self.height_limit() {
            6
        } else if self.floor_load_refused() {
            7
        } else if self.building > 20_000 {
            8
        } else if self.governing_span() > 6000 && self.support != 4 {
            9
        } else if self.bearing_refused() {
            10
        } else if self.strength < 180 {
            11
        } else if self.buckling_length() > 270 * self.thickness {
            12
        } else {
            0
        }
    }

    fn check(&self) -> CheckResult {
        match self.refusal() {
            0 => {
                let buckling_length = self.buckling_length();
                let load = self.load();
                let resistance = self.resistance(buckling_length);
                filled(
                    if load > resistance { 13 } else { 0 },
                    buckling_length,
                    load,
                    resistance,
                )
            }
            refusal => refused(refusal),
        }
    }

    /// The dead load that the wall needs in the top storey, 9Wh²/(160(300a - h)).
    fn minimum_load(&self, design_wind: u64) -> u64 {
        let moment = 9 * design_wind * self.height * self.height;
        moment.div_ceil(160 * (300 * self.bearing - self.height))
    }

    fn check_minimum_load(&self, design_wind: u64) -> CheckResult {
        if !(1..=10_000).contains(&design_wind) {
            return refused(2);
        }
        let ordinary = self.check();
        if ordinary.refusal != 0 {
            return ordinary;
        }
        let need = self.minimum_load(design_wind);
        filled(
            if self.dead < need { 21 } else { 0 },
            need,
            ordinary.load,
            ordinary.resistance,
        )
    }
}

/// Whether a low value is above its high value or another number differs.
fn bad_range(low: &StoreyWall, high: &StoreyWall) -> bool {
    low.dead > high.dead
        || low.imposed > high.imposed
        || low.strength > high.strength
        || low.span > high.span
        || low.floor_load > high.floor_load
        || low.building > high.building
        || (low.other_span > 0 && low.span != high.span)
        || low.usage != high.usage
        || low.thickness != high.thickness
        || low.height != high.height
        || low.length != high.length
        || low.held != high.held
        || low.distance != high.distance
        || low.support != high.support
        || low.bearing != high.bearing
        || low.bonded != high.bonded
        || low.storeys != high.storeys
        || low.other_span != high.other_span
        || low.calcium_silicate != high.calcium_silicate
        || low.wind != high.wind
}

/// The result of two records in range.
fn check_range(low: &StoreyWall, high: &StoreyWall) -> RangeResult {
    if bad_range(low, high) {
        return range_refused(25);
    }
    let worst = StoreyWall {
        strength: low.strength,
        ..*high
    };
    let best = StoreyWall {
        strength: high.strength,
        ..*low
    };
    if worst.check().refusal == 0 {
        range_answer(1)
    } else if best.check().refusal == 0 {
        range_answer(3)
    } else {
        range_answer(2)
    }
}

impl CellarWall {
    fn in_range(&self) -> bool {
        (1..=1000).contains(&self.thickness)
            && (1..=20_000).contains(&self.height)
            && self.fill <= 20_000
            && (1..=30_000).contains(&self.spacing)
            && (1..=30_000).contains(&self.weight)
            && (1..=5000).contains(&self.strength)
            && self.bonded <= 1
            && (1..=10_000_000).contains(&self.dead)
            && self.imposed <= 10_000_000
            && self.ground <= 100_000
    }

    /// y × h × e²/(1000000 × B × t), with B = b/h.
    fn need(&self) -> u64 {
        let [t, h, e, c, y] = [
            self.thickness,
            self.height,
            self.fill,
            self.spacing,
            self.weight,
        ]
        .map(u128::from);
        let b = if c >= 2 * h {
            20 * h
        } else if c <= h {
            40 * h
        } else {
            60 * h - 20 * c
        };
        (y * h * h * e * e).div_ceil(1_000_000 * b * t) as u64
    }

    fn resistance(&self) -> u64 {
        let (times, over) = if self.bonded == 1 { (4, 5) } else { (1, 1) };
        times * 17 * self.strength * self.thickness / (over * 9)
    }

    fn refusal(&self) -> u64 {
        if !self.in_range() {
            2
        } else if self.thickness < 200 {
            14
        } else if self.height > 2600 {
            15
        } else if 20 * self.fill > 23 * self.height {
            16
        } else if self.ground > 5000 {
            17
        } else if self.strength < 180 {
            11
        } else {
            0
        }
    }

    fn check(&self) -> CheckResult {
        match self.refusal() {
            0 => {
                let load = rounded_load(general_load(self.dead, self.imposed));
                let resistance = self.resistance();
                let need = self.need();
                let refusal = if load > resistance {
                    18
                } else if self.dead < need {
                    19
                } else {
                    0
                };
                filled(refusal, need, load, resistance)
            }
            refusal => refused(refusal),
        }
    }
}

fn text(result: CheckResult) -> String {
    let CheckResult {
        refusal,
        second,
        load,
        resistance,
        spare,
    } = result;
    format!("{refusal} {second} {load} {resistance} {spare}\n")
}

/// The whole number of a cell, within what f64 holds exactly.
fn whole_number(cell: f64) -> Option<u64> {
    (cell.fract() == 0.0 && (0.0..=1e9).contains(&cell)).then_some(cell as u64)
}

fn row_wall(row: &Row) -> Option<StoreyWall> {
    let numbers: Vec<u64> = row
        .iter()
        .map(|&cell| whole_number(cell))
        .collect::<Option<_>>()?;
    storey_wall(&numbers)
}

fn into(result: CheckResult, out: &mut [u8]) -> CheckResult {
    let text = text(result);
    out[..text.len()].copy_from_slice(text.as_bytes());
    result
}

#[inline(never)]
pub fn check_line(line: &[u8]) -> CheckResult {
    match read_line(line) {
        None => refused(1),
        Some(Wall::Storey(wall)) => wall.check(),
        Some(Wall::Cellar(wall)) => wall.check(),
    }
}

#[inline(never)]
pub fn check_line_taken(line: &[u8]) -> Reading {
    Reading {
        result: check_line(line),
        taken: taken(line) as u64,
    }
}

#[inline(never)]
pub fn check_line_into(line: &[u8], out: &mut [u8]) -> CheckResult {
    if out.len() < SHORTEST_BUFFER {
        return refused(20);
    }
    into(check_line(line), out)
}

#[inline(never)]
pub fn check_row(row: &Row) -> CheckResult {
    row_wall(row).map_or(refused(2), |wall| wall.check())
}

#[inline(never)]
pub fn check_row_into(row: &Row, out: &mut [u8]) -> CheckResult {
    if out.len() < SHORTEST_BUFFER {
        return refused(20);
    }
    into(check_row(row), out)
}

#[inline(never)]
pub fn minimum_load_line(line: &[u8], wind: u64) -> CheckResult {
    match read_line(line) {
        Some(Wall::Storey(wall)) => wall.check_minimum_load(wind),
        _ => refused(1),
    }
}

#[inline(never)]
pub fn minimum_load_line_into(line: &[u8], wind: u64, out: &mut [u8]) -> CheckResult {
    if out.len() < SHORTEST_BUFFER {
        return refused(20);
    }
    into(minimum_load_line(line, wind), out)
}

#[inline(never)]
pub fn minimum_load_row(row: &Row, wind: f64) -> CheckResult {
    match (row_wall(row), whole_number(wind)) {
        (Some(wall), Some(wind)) => wall.check_minimum_load(wind),
        _ => refused(2),
    }
}

#[inline(never)]
pub fn minimum_load_row_into(row: &Row, wind: f64, out: &mut [u8]) -> CheckResult {
    if out.len() < SHORTEST_BUFFER {
        return refused(20);
    }
    into(minimum_load_row(row, wind), out)
}

/// The storey wall of a line, in range, or refusal 1 or 2.
fn range_line(line: &[u8]) -> Result<StoreyWall, u64> {
    match read_line(line) {
        Some(Wall::Storey(wall)) if wall.in_range() => Ok(wall),
        Some(Wall::Storey(_)) => Err(2),
        _ => Err(1),
    }
}

fn range_row(row: &Row) -> Result<StoreyWall, u64> {
    row_wall(row).filter(StoreyWall::in_range).ok_or(2)
}

#[inline(never)]
pub fn range_lines(low: &[u8], high: &[u8]) -> RangeResult {
    match (range_line(low), range_line(high)) {
        (Ok(low), Ok(high)) => check_range(&low, &high),
        (Err(refusal), _) | (_, Err(refusal)) => range_refused(refusal),
    }
}

#[inline(never)]
pub fn range_rows(low: &Row, high: &Row) -> RangeResult {
    match (range_row(low), range_row(high)) {
        (Ok(low), Ok(high)) => check_range(&low, &high),
        (Err(refusal), _) | (_, Err(refusal)) => range_refused(refusal),
    }
}

/// The schedule program.
pub fn schedule(input: impl BufRead, mut output: impl Write) -> io::Result<()> {
    for line in input.split(b'\n') {
        let line = line?;
        let result = if line.len() > LONGEST_LINE {
            refused(1)
        } else {
            check_line(&line)
        };
        output.write_all(text(result).as_bytes())?;
    }
    output.flush()
}

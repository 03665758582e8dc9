//! A schedule as offices have them: mostly lines in order, some refused, a few damaged. Always the same.

use std::fs::File;
use std::io::{self, BufWriter, Write};
use std::path::Path;

/// Marsaglia's xorshift generator.
pub struct Random(pub u64);

impl Random {
    pub fn within(&mut self, low: u64, high: u64) -> u64 {
        self.0 ^= self.0 << 13;
        self.0 ^= self.0 >> 7;
        self.0 ^= self.0 << 17;
        low + (self.0 >> 16) % (high - low + 1)
    }

    pub fn one_in(&mut self, count: u64) -> bool {
        self.within(1, count) == 1
    }

    fn one_of(&mut self, values: &[u64]) -> u64 {
        values[self.within(0, values.len() as u64 - 1) as usize]
    }
}

fn storey_numbers(random: &mut Random) -> Vec<u64> {
    let thickness = random.one_of(&[115, 150, 175, 200, 240, 300, 365]);
    let held = random.within(2, 4);
    let distance = match held {
        2 => 0,
        3 => random.within(300, 18 * thickness),
        _ => random.within(500, 36 * thickness),
    };
    let bearing = if random.one_in(4) {
        random.within(thickness / 2, thickness)
    } else {
        thickness
    };
    let mut numbers = vec![
        random.one_of(&[1, 1, 1, 2, 3]),
        thickness,
        random.within(2000, 2750),
    ];
    numbers.extend([
        random.within(500, 9000),
        held,
        distance,
        random.within(1, 4),
        random.within(1000, 6050),
    ]);
    numbers.extend([
        bearing,
        random.within(175, 1500),
        random.within(0, 4) / 4,
        random.within(10_000, 150_000),
    ]);
    numbers.extend([
        random.within(0, 90_000),
        random.within(0, 4000),
        random.within(3000, 20_000),
    ]);
    numbers.push(random.within(1, 4));
    numbers.push(if random.one_in(2) {
        0
    } else {
        random.within(1000, 9000)
    });
    let calcium_silicate = random.within(0, 1);
    numbers.extend([calcium_silicate, random.within(0, 1500)]);
    if calcium_silicate == 1 && random.one_in(4) {
        numbers[2] = random.within(2750, 3600);
    }
    numbers
}

fn cellar_numbers(random: &mut Random) -> Vec<u64> {
    let height = random.within(2000, 2610);
    let mut numbers = vec![
        random.within(198, 500),
        height,
        random.within(0, 23 * height / 20 + 20),
        random.within(2000, 7000),
    ];
    numbers.extend([
        random.within(16_000, 22_000),
        random.within(180, 1500),
        random.within(0, 4) / 4,
    ]);
    numbers.extend([
        random.within(10_000, 150_000),
        random.within(0, 60_000),
        random.within(0, 5020),
    ]);
    numbers
}

/// Writes a schedule of `lines` lines.
pub fn write(path: &Path, lines: usize) -> io::Result<()> {
    let mut random = Random(0x9E37_79B9_7F4A_7C15);
    let mut file = BufWriter::new(File::create(path)?);
    for _ in 0..lines {
        let (letter, numbers) = match random.within(1, 5) {
            1 => ('C', cellar_numbers(&mut random)),
            _ => ('S', storey_numbers(&mut random)),
        };
        write!(file, "{letter}")?;
        for number in numbers {
            write!(file, " {number}")?;
        }
        file.write_all(if random.one_in(50) { b" \n" } else { b"\n" })?;
    }
    file.flush()
}

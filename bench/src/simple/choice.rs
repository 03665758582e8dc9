//! Choosing the block: each block of the list is checked.

use super::{number, read_line, CellarWall, StoreyWall, Wall};
use crate::{choice_refused, Block, Choice, MOST_BLOCKS};
use std::io::{self, BufRead, Write};

fn bad_list(blocks: &[Block]) -> bool {
    let in_range = |block: &Block| {
        (1..=5000).contains(&block.strength) && (1..=1_000_000).contains(&block.price)
    };
    blocks.is_empty() || blocks.len() > MOST_BLOCKS || !blocks.iter().all(in_range)
}

impl Wall {
    fn in_range(&self) -> bool {
        match self {
            Wall::Storey(wall) => wall.in_range(),
            Wall::Cellar(wall) => wall.in_range(),
        }
    }

    fn accepted_with(&self, strength: u64) -> bool {
        let result = match self {
            Wall::Storey(wall) => StoreyWall { strength, ..*wall }.check(),
            Wall::Cellar(wall) => CellarWall { strength, ..*wall }.check(),
        };
        result.refusal == 0
    }
}

/// How many blocks cost less than every accepted one before them.
fn checked(blocks: &[Block], accepted: &[bool]) -> u64 {
    let mut lowest = u64::MAX;
    let mut checked = 0;
    for (block, &accepted) in blocks.iter().zip(accepted) {
        if block.price < lowest {
            checked += 1;
            if accepted {
                lowest = block.price;
            }
        }
    }
    checked
}

/// The choice for a record in range and a good list.
fn choose_for(wall: &Wall, blocks: &[Block]) -> Choice {
    let accepted: Vec<bool> = blocks
        .iter()
        .map(|block| wall.accepted_with(block.strength))
        .collect();
    // The first of several that cost the same.
    let cheapest = (1..)
        .zip(blocks.iter().zip(&accepted))
        .filter(|(_, (_, &accepted))| accepted)
        .min_by_key(|(_, (block, _))| block.price);
    match cheapest {
        None => Choice {
            refusal: 27,
            place: 0,
            checked: blocks.len() as u64,
        },
        Some((place, _)) => Choice {
            refusal: 0,
            place,
            checked: checked(blocks, &accepted),
        },
    }
}

#[inline(never)]
pub fn choose(line: &[u8], blocks: &[Block]) -> Choice {
    if bad_list(blocks) {
        return choice_refused(26);
    }
    match read_line(line) {
        None => choice_refused(1),
        Some(wall) if !wall.in_range() => choice_refused(2),
        Some(wall) => choose_for(&wall, blocks),
    }
}

fn read_block(line: &[u8]) -> Option<Block> {
    let (strength, price) = std::str::from_utf8(line).ok()?.split_once(' ')?;
    Some(Block {
        strength: number(strength)?,
        price: number(price)?,
    })
}

/// The program: the record's line, then a line for each block.
pub fn program(input: impl BufRead, mut output: impl Write) -> io::Result<()> {
    let mut lines = input.split(b'\n');
    let line = lines.next().transpose()?.unwrap_or_default();
    let rest: Vec<Vec<u8>> = lines.collect::<io::Result<_>>()?;
    let blocks: Option<Vec<Block>> = rest.iter().map(|line| read_block(line)).collect();
    let Choice {
        refusal,
        place,
        checked,
    } = blocks.map_or(choice_refused(26), |blocks| choose(&line, &blocks));
    writeln!(output, "{refusal} {place} {checked}")?;
    output.flush()
}

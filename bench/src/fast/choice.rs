//! Choosing the block: the price first, so that only those blocks are checked that can be chosen; what does not depend on F
//! is computed once.

use super::{
    accepted, buckling_length, cellar_in_range, cellar_limit, cellar_need, cellar_resistance,
    general_load, read_numbers, rounded_load, storey_in_range, within, write_number,
    CELLAR_NUMBERS, STOREY_NUMBERS, STRENGTH,
};
use crate::{choice_refused, Block, Choice, MOST_BLOCKS, SHORTEST_BUFFER};
use std::io::{self, Read, Write};

const LEAST_STRENGTH: u64 = 180;

#[inline(always)]
fn bad_list(blocks: &[Block]) -> bool {
    if blocks.is_empty() || blocks.len() > MOST_BLOCKS {
        return true;
    }
    let mut good = true;
    for block in blocks {
        good &= within(block.strength, 1, 5000) & within(block.price, 1, 1_000_000);
    }
    !good
}

#[inline(always)]
fn cheapest(blocks: &[Block], mut accepted_with: impl FnMut(u64) -> bool) -> Choice {
    let (mut place, mut lowest, mut checked) = (0, u64::MAX, 0);
    for (at, block) in blocks.iter().enumerate() {
        if block.price < lowest {
            checked += 1;
            if accepted_with(block.strength) {
                (place, lowest) = (at as u64 + 1, block.price);
            }
        }
    }
    Choice {
        refusal: if place == 0 { 27 } else { 0 },
        place,
        checked,
    }
}

#[inline(always)]
fn choose_storey(mut numbers: [u64; STOREY_NUMBERS], blocks: &[Block]) -> Choice {
    if !storey_in_range(&numbers) {
        return choice_refused(2);
    }
    let [_, t, h, _, held, c, _, _, a, ..] = numbers;
    let e = buckling_length(t, h, held, c, a);
    let slender = e > 270 * t;
    cheapest(blocks, |strength| {
        numbers[STRENGTH] = strength;
        !slender && accepted(&numbers, e)
    })
}

#[inline(always)]
fn choose_cellar(numbers: [u64; CELLAR_NUMBERS], blocks: &[Block]) -> Choice {
    if !cellar_in_range(&numbers) {
        return choice_refused(2);
    }
    let [t, h, e, c, y, _, bonded, dead, imposed, ground] = numbers;
    let load = rounded_load(general_load(dead, imposed));
    // The limits other than that of F, and the need, which is only computed within them.
    let refused =
        cellar_limit(t, h, e, LEAST_STRENGTH, ground) != 0 || dead < cellar_need(t, h, e, c, y);
    cheapest(blocks, |strength| {
        !refused && strength >= LEAST_STRENGTH && load <= cellar_resistance(t, strength, bonded)
    })
}

#[inline(always)]
fn choice(line: &[u8], blocks: &[Block]) -> Choice {
    if bad_list(blocks) {
        return choice_refused(26);
    }
    match line.first() {
        Some(b'S') => match read_numbers(line) {
            Ok((numbers, at)) if at == line.len() => choose_storey(numbers, blocks),
            _ => choice_refused(1),
        },
        Some(b'C') => match read_numbers(line) {
            Ok((numbers, at)) if at == line.len() => choose_cellar(numbers, blocks),
            _ => choice_refused(1),
        },
        _ => choice_refused(1),
    }
}

#[inline(never)]
pub fn choose(line: &[u8], blocks: &[Block]) -> Choice {
    choice(line, blocks)
}

fn write_choice(choice: &Choice, out: &mut [u8; SHORTEST_BUFFER]) -> usize {
    let at = write_number(out, 0, choice.refusal, b' ');
    let at = write_number(out, at, choice.place, b' ');
    write_number(out, at, choice.checked, b'\n')
}

fn number(word: &[u8]) -> Option<u64> {
    let form = match word {
        [] => false,
        [b'0', rest @ ..] => rest.is_empty(),
        _ => word.len() <= 9,
    };
    if !form {
        return None;
    }
    word.iter().try_fold(0, |value, byte| {
        let digit = byte.wrapping_sub(b'0');
        (digit <= 9).then_some(10 * value + digit as u64)
    })
}

fn read_block(line: &[u8]) -> Option<Block> {
    let space = line.iter().position(|&byte| byte == b' ')?;
    Some(Block {
        strength: number(&line[..space])?,
        price: number(&line[space + 1..])?,
    })
}

/// The program: the record's line, then a line for each block.
pub fn program(mut input: impl Read, mut output: impl Write) -> io::Result<()> {
    let mut text = Vec::new();
    input.read_to_end(&mut text)?;
    let text = text.strip_suffix(b"\n").unwrap_or(&text);
    let mut lines = text.split(|&byte| byte == b'\n');
    let line = lines.next().unwrap_or_default();
    // One block too many is enough to refuse the list.
    let blocks: Option<Vec<Block>> = lines.take(MOST_BLOCKS + 1).map(read_block).collect();
    let choice = blocks.map_or(choice_refused(26), |blocks| choice(line, &blocks));
    let mut out = [0; SHORTEST_BUFFER];
    let length = write_choice(&choice, &mut out);
    output.write_all(&out[..length])
}

//! The archive as one would first write it: line by line, with a Vec for the lines of a block.

use crate::{archived, Archived, BAD_BLOCK, BAD_TEXT, BLOCK, HEAD, ROOM};
use std::io::{self, BufRead, Read, Write};

fn lines(text: &[u8]) -> impl Iterator<Item = &[u8]> {
    text.split_inclusive(|&byte| byte == b'\n')
}

/// Whether a line has its end and fits into a block.
fn good(line: &[u8]) -> bool {
    line.ends_with(b"\n") && line.len() <= ROOM
}

/// The sum of all bytes but those that hold the sum.
fn sum(block: &[u8]) -> u16 {
    let others = block[..2].iter().chain(&block[HEAD..]);
    others.map(|&byte| u32::from(byte)).sum::<u32>() as u16
}

fn block_of(lines: &[u8]) -> [u8; BLOCK] {
    let mut block = [0; BLOCK];
    block[..2].copy_from_slice(&(lines.len() as u16).to_le_bytes());
    block[HEAD..HEAD + lines.len()].copy_from_slice(lines);
    let sum = sum(&block);
    block[2..HEAD].copy_from_slice(&sum.to_le_bytes());
    block
}

/// What a block yields, where it is good.
fn lines_of(block: &[u8]) -> Option<&[u8]> {
    if block.len() != BLOCK {
        return None;
    }
    let count = u16::from_le_bytes([block[0], block[1]]) as usize;
    if count > ROOM || u16::from_le_bytes([block[2], block[3]]) != sum(block) {
        return None;
    }
    let (lines, remainder) = block[HEAD..].split_at(count);
    let whole = lines.is_empty() || lines.ends_with(b"\n");
    (whole && remainder.iter().all(|&byte| byte == 0)).then_some(lines)
}

#[inline(never)]
pub fn count(text: &[u8]) -> Archived {
    let (mut blocks, mut used) = (0, ROOM);
    for line in lines(text) {
        if !good(line) {
            return BAD_TEXT;
        }
        if used + line.len() > ROOM {
            blocks += 1;
            used = 0;
        }
        used += line.len();
    }
    archived(blocks)
}

#[inline(never)]
pub fn write(text: &[u8], out: &mut [u8]) -> Archived {
    let counted = count(text);
    if counted.refusal != 0 || counted.count > (out.len() / BLOCK) as u64 {
        return BAD_TEXT;
    }
    let mut blocks = Vec::new();
    let mut open = Vec::new();
    for line in lines(text) {
        if open.len() + line.len() > ROOM {
            blocks.extend(block_of(&open));
            open.clear();
        }
        open.extend_from_slice(line);
    }
    if !open.is_empty() {
        blocks.extend(block_of(&open));
    }
    out[..blocks.len()].copy_from_slice(&blocks);
    counted
}

#[inline(never)]
pub fn read(block: &[u8]) -> Archived {
    lines_of(block).map_or(BAD_BLOCK, |lines| archived(lines.len()))
}

/// The pack program. The first bad line is handed to `refused` by its number, from 1; the lines before it are written.
pub fn pack(
    mut input: impl BufRead,
    mut output: impl Write,
    mut refused: impl FnMut(u64),
) -> io::Result<()> {
    let (mut line, mut open) = (Vec::new(), Vec::new());
    for number in 1.. {
        line.clear();
        // One byte more than fits, so that a line of any length takes no more memory.
        let longest = ROOM as u64 + 1;
        let length = input.by_ref().take(longest).read_until(b'\n', &mut line)?;
        if length == 0 {
            break;
        }
        if !good(&line) {
            refused(number);
            break;
        }
        if open.len() + length > ROOM {
            output.write_all(&block_of(&open))?;
            open.clear();
        }
        open.extend_from_slice(&line);
    }
    if !open.is_empty() {
        output.write_all(&block_of(&open))?;
    }
    output.flush()
}

/// The unpack program. Each block that is refused is handed to `refused` by its number, from 0, and passed over.
pub fn unpack(
    mut input: impl BufRead,
    mut output: impl Write,
    mut refused: impl FnMut(u64),
) -> io::Result<()> {
    let mut block = Vec::new();
    for number in 0.. {
        block.clear();
        if input.by_ref().take(BLOCK as u64).read_to_end(&mut block)? == 0 {
            break;
        }
        match lines_of(&block) {
            Some(lines) => output.write_all(lines)?,
            None => refused(number),
        }
    }
    output.flush()
}

//! The archive as fast as we could make it in safe Rust: a block takes all up to the last end of a line among the bytes
//! that fit, which is what filling it line by line comes to, so lines are not looked at one by one.

use super::Gathered;
use crate::{archived, Archived, BAD_BLOCK, BAD_TEXT, BLOCK, HEAD, ROOM};
use std::io::{self, Read, Write};

const ENDS: u64 = u64::from_le_bytes([b'\n'; 8]);
const LOW_BITS: u64 = u64::from_le_bytes([0x7F; 8]);

/// The programs move at most so many bytes at once. These are the sizes of the repository's own, and what is read is
/// written at once as there, so that no program is ahead by fewer calls of the system.
const PACK_INPUT: usize = 64 * 1024;
const PACK_OUTPUT: usize = 128 * 1024;
const UNPACK: usize = 128 * 1024;

/// How many bytes the longest beginning that ends in byte 10 has, eight bytes at a time from behind.
#[inline(always)]
fn whole_lines(bytes: &[u8]) -> usize {
    let mut end = bytes.len();
    while let Some(last) = bytes[..end].last_chunk() {
        // The high bit of each byte that is byte 10.
        let differs = u64::from_le_bytes(*last) ^ ENDS;
        let found = !(((differs & LOW_BITS) + LOW_BITS) | differs | LOW_BITS);
        if found != 0 {
            return end - found.leading_zeros() as usize / 8;
        }
        end -= 8;
    }
    let place = bytes[..end].iter().rposition(|&byte| byte == b'\n');
    place.map_or(0, |place| place + 1)
}

/// The lines of the next block, none where the next line is bad.
#[inline(always)]
fn next_lines(text: &[u8]) -> &[u8] {
    let fitting = &text[..text.len().min(ROOM)];
    &fitting[..whole_lines(fitting)]
}

#[inline(always)]
fn sum(block: &[u8; BLOCK]) -> u16 {
    block
        .iter()
        .fold(0, |sum: u16, &byte| sum.wrapping_add(u16::from(byte)))
}

/// Fills a block with lines, of which there is room.
#[inline(always)]
fn fill(block: &mut [u8; BLOCK], lines: &[u8]) {
    let (used, remainder) = block[HEAD..].split_at_mut(lines.len());
    used.copy_from_slice(lines);
    remainder.fill(0);
    let [low, high] = (lines.len() as u16).to_le_bytes();
    block[..HEAD].copy_from_slice(&[low, high, 0, 0]);
    let sum = sum(block);
    block[2..HEAD].copy_from_slice(&sum.to_le_bytes());
}

/// How many bytes a block yields, where it is good.
#[inline(always)]
fn yielded(block: &[u8; BLOCK]) -> Option<usize> {
    let count = u16::from_le_bytes([block[0], block[1]]) as usize;
    let (lines, remainder) = block[HEAD..].split_at_checked(count)?;
    // The sum of all bytes has those of the stated sum in it.
    let stated = u16::from_le_bytes([block[2], block[3]]);
    let others = sum(block)
        .wrapping_sub(u16::from(block[2]))
        .wrapping_sub(u16::from(block[3]));
    let gathered = remainder.iter().fold(0, |gathered, &byte| gathered | byte);
    let whole = lines.last().is_none_or(|&byte| byte == b'\n');
    ((stated == others) & (gathered == 0) & whole).then_some(count)
}

#[inline(always)]
fn counted(mut text: &[u8]) -> Option<usize> {
    let mut blocks = 0;
    while !text.is_empty() {
        let lines = next_lines(text).len();
        if lines == 0 {
            return None;
        }
        text = &text[lines..];
        blocks += 1;
    }
    Some(blocks)
}

#[inline(never)]
pub fn count(text: &[u8]) -> Archived {
    counted(text).map_or(BAD_TEXT, archived)
}

#[inline(never)]
pub fn write(text: &[u8], out: &mut [u8]) -> Archived {
    let (blocks, _) = out.as_chunks_mut();
    let Some(needed) = counted(text).filter(|&needed| needed <= blocks.len()) else {
        return BAD_TEXT;
    };
    let mut rest = text;
    for block in &mut blocks[..needed] {
        let lines = next_lines(rest);
        fill(block, lines);
        rest = &rest[lines.len()..];
    }
    archived(needed)
}

#[inline(never)]
pub fn read(block: &[u8]) -> Archived {
    let whole: Option<&[u8; BLOCK]> = block.try_into().ok();
    whole.and_then(yielded).map_or(BAD_BLOCK, archived)
}

/// How many lines end in these bytes, at most a block's.
#[inline(always)]
fn line_ends(lines: &[u8]) -> u64 {
    // Parts so short that a byte holds their count.
    let ends = |part: &[u8]| {
        part.iter()
            .fold(0, |ends, &byte| ends + u8::from(byte == b'\n'))
    };
    lines.chunks(255).map(|part| u64::from(ends(part))).sum()
}

impl<W: Write> Gathered<W> {
    #[inline(always)]
    fn put_block(&mut self, lines: &[u8]) -> io::Result<()> {
        if self.used == self.bytes.len() {
            self.flush()?;
        }
        if let Some(free) = self.bytes[self.used..].first_chunk_mut() {
            fill(free, lines);
            self.used += BLOCK;
        }
        Ok(())
    }
}

/// Writes the blocks of a text: all where it has ended, else those that more text cannot change. Counts their lines. How
/// many bytes of the text are written.
fn put_blocks<W: Write>(
    text: &[u8],
    ended: bool,
    output: &mut Gathered<W>,
    written_lines: &mut u64,
) -> io::Result<usize> {
    let mut start = 0;
    while text.len() - start >= ROOM || ended {
        let lines = next_lines(&text[start..]);
        if lines.is_empty() {
            break;
        }
        output.put_block(lines)?;
        *written_lines += line_ends(lines);
        start += lines.len();
    }
    Ok(start)
}

/// The pack program. The first bad line is handed to `refused` by its number, from 1; the lines before it are written.
pub fn pack(
    mut input: impl Read,
    output: impl Write,
    mut refused: impl FnMut(u64),
) -> io::Result<()> {
    let mut output = Gathered {
        output,
        bytes: vec![0; PACK_OUTPUT],
        used: 0,
    };
    let mut piece = vec![0; PACK_INPUT];
    let (mut kept, mut written_lines) = (0, 0);
    loop {
        let read = input.read(&mut piece[kept..])?;
        let held = kept + read;
        let start = put_blocks(&piece[..held], read == 0, &mut output, &mut written_lines)?;
        output.flush()?;
        kept = held - start;
        if read == 0 || kept >= ROOM {
            break;
        }
        piece.copy_within(start..held, 0);
    }
    if kept > 0 {
        refused(written_lines + 1);
    }
    Ok(())
}

/// Moves the lines of the whole blocks of a piece to its front, where blocks have been read already. How many bytes the
/// blocks have, and how many the lines.
#[inline(always)]
fn move_lines(
    piece: &mut [u8],
    held: usize,
    number: &mut u64,
    refused: &mut impl FnMut(u64),
) -> (usize, usize) {
    let (mut start, mut lines_end) = (0, 0);
    while let Some(block) = piece[start..held].first_chunk() {
        let from = start + HEAD;
        start += BLOCK;
        match yielded(block) {
            Some(count) => {
                piece.copy_within(from..from + count, lines_end);
                lines_end += count;
            }
            None => refused(*number),
        }
        *number += 1;
    }
    (start, lines_end)
}

/// The unpack program. Each block that is refused is handed to `refused` by its number, from 0, and passed over.
pub fn unpack(
    mut input: impl Read,
    mut output: impl Write,
    mut refused: impl FnMut(u64),
) -> io::Result<()> {
    let mut piece = vec![0; UNPACK];
    let (mut kept, mut number) = (0, 0);
    loop {
        let read = input.read(&mut piece[kept..])?;
        if read == 0 {
            break;
        }
        let held = kept + read;
        let (start, lines_end) = move_lines(&mut piece, held, &mut number, &mut refused);
        output.write_all(&piece[..lines_end])?;
        piece.copy_within(start..held, 0);
        kept = held - start;
    }
    if kept > 0 {
        refused(number);
    }
    output.flush()
}

//! The functions of the archive over a text in memory.

use crate::calls::{time, Times};
use crate::input::Random;
use plain::{fast, simple, Archived, BLOCK};

/// Each pass calls the functions that take a whole text so many times.
const REPEATS: usize = 8;

/// The functions are to agree on so many beginnings of the text.
const BEGINNINGS: usize = 2000;

/// The functions of the archive in one of the three.
struct Archive {
    count: fn(&[u8]) -> Archived,
    write: fn(&[u8], &mut [u8]) -> Archived,
    read: fn(&[u8]) -> Archived,
}

const ARCHIVES: [Archive; 3] = [
    Archive {
        count: |text| from_library(wallcheck::archive_count(text)),
        write: |text, out| from_library(wallcheck::archive_write(text, out)),
        read: |block| from_library(wallcheck::archive_read(block)),
    },
    Archive {
        count: fast::archive::count,
        write: fast::archive::write,
        read: fast::archive::read,
    },
    Archive {
        count: simple::archive::count,
        write: simple::archive::write,
        read: simple::archive::read,
    },
];

fn from_library(archived: wallcheck::Archived) -> Archived {
    let wallcheck::Archived { refusal, count } = archived;
    Archived { refusal, count }
}

/// What all three return, where they agree.
fn agreed<R: PartialEq>(of: impl Fn(&Archive) -> R) -> Option<R> {
    let [library, fast, simple] = ARCHIVES.each_ref().map(of);
    (library == fast && fast == simple).then_some(library)
}

/// Whether the three agree on a text: in the count, and in what writing leaves in buffers as long as its blocks, longer
/// and too short. A bad text is counted as no blocks and must leave all of them as they are.
fn agree_on_text(text: &[u8]) -> bool {
    let Some(counted) = agreed(|archive| (archive.count)(text)) else {
        return false;
    };
    let needed = counted.count as usize * BLOCK;
    let lengths = [
        0,
        needed.saturating_sub(1),
        needed,
        needed + 1,
        needed + BLOCK + 1,
    ];
    lengths.iter().all(|&length| {
        let written = agreed(|archive| {
            let mut out = vec![0xA5; length];
            ((archive.write)(text, &mut out), out)
        });
        written.is_some_and(|(result, out)| {
            let wrote = result == counted && counted.refusal == 0 && length >= needed;
            let kept = if wrote { &out[needed..] } else { &out };
            (wrote || result.refusal == 24) && kept.iter().all(|&byte| byte == 0xA5)
        })
    })
}

/// What all three return for a block, where they agree.
fn agreed_reading(block: &[u8]) -> Option<Archived> {
    agreed(|archive| (archive.read)(block))
}

fn refused(block: &[u8]) -> bool {
    agreed_reading(block).is_some_and(|result| result.refusal == 23)
}

/// Makes the sum of a block right.
fn mend(block: &mut [u8]) {
    block[2..4].fill(0);
    let sum: u32 = block.iter().map(|&byte| u32::from(byte)).sum();
    block[2..4].copy_from_slice(&(sum as u16).to_le_bytes());
}

/// Whether each change of one byte of a block is refused, and whether the three agree where the sum is then made right,
/// so that count, remainder and last byte decide; also whether each wrong length is refused.
fn agree_on_damage(block: &[u8]) -> bool {
    let mut changes = (0..BLOCK).flat_map(|place| (1..=255).map(move |change| (place, change)));
    let agree_changed = changes.all(|(place, change)| {
        let mut changed = block.to_vec();
        changed[place] ^= change;
        let stale = refused(&changed);
        mend(&mut changed);
        stale && agreed_reading(&changed).is_some()
    });
    let long = [block, block].concat();
    let mut lengths = (0..=long.len()).filter(|&length| length != BLOCK);
    agree_changed && lengths.all(|length| refused(&long[..length]))
}

/// A text with lines of these lengths, ends not counted.
fn text_of(lengths: &[u64]) -> Vec<u8> {
    let line = |&length| [vec![b'7'; length as usize], vec![b'\n']].concat();
    lengths.iter().flat_map(line).collect()
}

/// Whether the three agree on texts with a line of each length around that of a block, and on random ones, in which now
/// and then a line is too long.
fn agree_on_lengths() -> bool {
    let mut random = Random(0x2545_F491_4F6C_DD1D);
    let mut random_text = || {
        let lines = random.within(1, 60);
        let lengths: Vec<u64> = (0..lines).map(|_| random.within(0, 508)).collect();
        text_of(&lengths)
    };
    (0..1000).all(|_| agree_on_text(&random_text()))
        && (0..1100).all(|length| {
            let texts = [&[length][..], &[100, length, 100], &[length, length]];
            texts.iter().all(|lengths| agree_on_text(&text_of(lengths)))
        })
}

/// Whether the three agree on this text, on beginnings of it and on other texts, and on its blocks, whole and damaged,
/// and whether these yield the text again.
pub fn agree(text: &[u8]) -> bool {
    let blocks = blocks_of(text);
    let mut yielded = Vec::new();
    for block in blocks.chunks(BLOCK) {
        let Some(Archived { refusal: 0, count }) = agreed_reading(block) else {
            return false;
        };
        yielded.extend_from_slice(&block[4..][..count as usize]);
    }
    let damaged = [
        &blocks[..BLOCK],
        &blocks[blocks.len() - BLOCK..],
        &[0; BLOCK],
    ];
    yielded == text
        && agree_on_text(text)
        && (0..text.len().min(BEGINNINGS)).all(|length| agree_on_text(&text[..length]))
        && agree_on_lengths()
        && damaged.iter().all(|block| agree_on_damage(block))
}

/// The blocks of a good text that is not empty.
fn blocks_of(text: &[u8]) -> Vec<u8> {
    let mut blocks = vec![0; fast::archive::count(text).count as usize * BLOCK];
    fast::archive::write(text, &mut blocks);
    blocks
}

/// Times in microseconds for a megabyte, where each call takes so many bytes.
fn a_megabyte(times: Times, bytes: usize) -> Times {
    let of = |nanoseconds: f64| nanoseconds * 1e3 / bytes as f64;
    Times {
        name: times.name,
        library: of(times.library),
        fast: of(times.fast),
        simple: of(times.simple),
    }
}

/// The times for a megabyte of what is taken: of the text, for reading of its blocks.
pub fn measure(passes: usize, text: &[u8]) -> [Times; 3] {
    let blocks = blocks_of(text);
    let texts = [text; REPEATS];
    let read: Vec<&[u8]> = blocks.chunks(BLOCK).collect();
    let [mut first, mut second, mut third] = [(); 3].map(|()| blocks.clone());
    let counted = time(
        "archive, count",
        passes,
        &texts,
        |text| wallcheck::archive_count(text),
        |text| fast::archive::count(text),
        |text| simple::archive::count(text),
    );
    let written = time(
        "archive, write",
        passes,
        &texts,
        |text| wallcheck::archive_write(text, &mut first),
        |text| fast::archive::write(text, &mut second),
        |text| simple::archive::write(text, &mut third),
    );
    let read = time(
        "archive, read",
        passes,
        &read,
        |block| wallcheck::archive_read(block),
        |block| fast::archive::read(block),
        |block| simple::archive::read(block),
    );
    [
        a_megabyte(counted, text.len()),
        a_megabyte(written, text.len()),
        a_megabyte(read, BLOCK),
    ]
}

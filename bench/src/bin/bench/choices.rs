//! Choosing the block: lines and lists in memory. The program is left out: it answers once, in the time that it takes to start
//! a process.

use crate::calls::{time, Times};
use crate::input::Random;
use plain::{fast, simple, Block, Choice};

/// The blocks of a list of the timed calls.
const TIMED_BLOCKS: u64 = 16;

/// So many lists are timed, in turn.
const LISTS: usize = 97;

/// The calls are to agree on lists of these lengths.
const LENGTHS: [u64; 7] = [0, 1, 2, 16, 63, 64, 65];

/// The least and the greatest strength and price of the blocks that are made.
const STRENGTHS: [u64; 2] = [170, 1200];
const PRICES: [u64; 2] = [150, 400];

/// A list as the library takes it and as the plain functions do.
struct List {
    library: Vec<wallcheck::Block>,
    plain: Vec<Block>,
}

impl List {
    fn new(plain: Vec<Block>) -> List {
        let library = plain.iter().map(|block| wallcheck::Block {
            strength: block.strength,
            price: block.price,
        });
        List {
            library: library.collect(),
            plain,
        }
    }

    fn random(random: &mut Random, length: u64) -> List {
        List::new((0..length).map(|_| random_block(random)).collect())
    }
}

fn random_block(random: &mut Random) -> Block {
    let [strength, price] = [STRENGTHS, PRICES].map(|[low, high]| random.within(low, high));
    Block { strength, price }
}

fn from_library(choice: wallcheck::Choice) -> Choice {
    let wallcheck::Choice {
        refusal,
        place,
        checked,
    } = choice;
    Choice {
        refusal,
        place,
        checked,
    }
}

/// Lists of several lengths, each as it is, with a strength and with a price out of range, and with few prices, so that many are
/// equal.
fn lists_to_agree_on() -> Vec<List> {
    let mut random = Random(0xBB67_AE85_84CA_A73B);
    let mut lists = Vec::new();
    for length in LENGTHS {
        let blocks = List::random(&mut random, length).plain;
        let mut few_prices = blocks.clone();
        for block in &mut few_prices {
            block.price = random.within(1, 3);
        }
        for beyond in [(0, 1), (5001, 1), (500, 0), (500, 1_000_001)] {
            let mut bad = blocks.clone();
            if let Some(last) = bad.last_mut() {
                (last.strength, last.price) = beyond;
            }
            lists.push(List::new(bad));
        }
        lists.extend([blocks, few_prices].map(List::new));
    }
    lists
}

fn agree_on(line: &[u8], list: &List) -> bool {
    from_library(wallcheck::choose(line, &list.library)) == fast::choice::choose(line, &list.plain)
        && fast::choice::choose(line, &list.plain) == simple::choice::choose(line, &list.plain)
}

/// Whether the three agree on each line with lists of all kinds.
pub fn agree(lines: &[&[u8]]) -> bool {
    let lists = lists_to_agree_on();
    let mut random = Random(0x3C6E_F372_FE94_F82B);
    lines.iter().all(|line| {
        let length = random.within(1, 64);
        agree_on(line, &List::random(&mut random, length))
    }) && lines
        .iter()
        .step_by(10)
        .all(|line| lists.iter().all(|list| agree_on(line, list)))
}

fn measure_kind(
    name: &'static str,
    passes: usize,
    lines: &[&[u8]],
    letter: &[u8],
    lists: &[List],
) -> Times {
    let of_kind = lines.iter().filter(|line| line.starts_with(letter));
    let items: Vec<(&[u8], &List)> = of_kind.copied().zip(lists.iter().cycle()).collect();
    time(
        name,
        passes,
        &items,
        |(line, list)| wallcheck::choose(line, &list.library),
        |(line, list)| fast::choice::choose(line, &list.plain),
        |(line, list)| simple::choice::choose(line, &list.plain),
    )
}

pub fn measure(passes: usize, lines: &[&[u8]]) -> [Times; 2] {
    let mut random = Random(0xA54F_F53A_5F1D_36F1);
    let lists: Vec<List> = (0..LISTS)
        .map(|_| List::random(&mut random, TIMED_BLOCKS))
        .collect();
    [
        ("choice of 16 blocks, storey wall", b"S"),
        ("choice of 16 blocks, cellar wall", b"C"),
    ]
    .map(|(name, letter)| measure_kind(name, passes, lines, letter, &lists))
}

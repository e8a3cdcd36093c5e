//! Switches that are worst for the flat table: many different lists, lists with equal hashes, guards of many nodes that many lists name.

use oracle::draft::Draft;
use oracle::format::*;
use oracle::random::Random;
use std::collections::HashMap;

/// Blocks of a switch.
const BLOCKS: u32 = 64;
/// Blocks in a part of a list whose hashes are searched.
const PART: usize = 6;

/// The head of a switch: a Unit as its subject, and for each block the guard that `guard` writes and a Unit as its body.
fn open(draft: &mut Draft, cases: u32, mut guard: impl FnMut(&mut Draft, u32)) {
    draft.open(SWITCH, [BLOCKS, cases, 1], 1);
    draft.leaf(UNIT, [0; 3], 1);
    for block in 0..BLOCKS {
        guard(draft, block);
        draft.leaf(UNIT, [0; 3], 2);
    }
}

fn this(draft: &mut Draft, _: u32) {
    draft.leaf(THIS, [0; 3], 2);
}

/// A case for each list, each with a value of its own.
fn cases(draft: &mut Draft, lists: &[Vec<u32>]) {
    for (value, list) in lists.iter().enumerate() {
        draft.open(CASE, [0; 3], 3);
        draft.int(value as i64, 3);
        for block in list {
            draft.leaf(REF, [*block, 0, 0], 3);
        }
        draft.close();
    }
}

fn range(draft: &mut Draft, from: i64, to: i64, block: u32) {
    draft.open(RANGE, [1, block, 0], 4);
    draft.int(from, 4);
    draft.int(to, 4);
    draft.close();
}

/// So many cases of so many Refs: equal but for the last.
pub fn long_lists(count: usize) -> Vec<u8> {
    let mut draft = Draft::new();
    open(&mut draft, count as u32, this);
    let lists: Vec<Vec<u32>> = (0..count as u32)
        .map(|case| {
            let mut list = vec![0; count - 1];
            list.push(case);
            list
        })
        .collect();
    cases(&mut draft, &lists);
    draft.close();
    draft.to_bytes()
}

/// One guard of so many nodes, in thousands. 64 cases name it 63 times each, and 64 ranges once, and none has the list of another.
pub fn heavy_guard(nodes: usize) -> Vec<u8> {
    let mut draft = Draft::new();
    open(&mut draft, 64, |draft, block| {
        if block > 0 {
            return this(draft, block);
        }
        draft.open(ARRAY, [0; 3], 2);
        for _ in 0..nodes / 1_000 {
            draft.open(ARRAY, [0; 3], 2);
            for _ in 1..1_000 {
                draft.leaf(UNIT, [0; 3], 2);
            }
            draft.close();
        }
        draft.close();
    });
    let lists: Vec<Vec<u32>> = (0..64)
        .map(|case| {
            let mut list = vec![0; 63];
            list.push(case);
            list
        })
        .collect();
    cases(&mut draft, &lists);
    for place in 0..64i64 {
        range(&mut draft, 1_000 + place, 2_000 + place, 0);
    }
    draft.close();
    draft.to_bytes()
}

/// One step of the hash of a list of blocks.
fn step(hash: u64, block: u32) -> u64 {
    (hash + u64::from(block) + 1) % (1 << 32) * 2_654_435_769 / 65_536
}

/// What the hash has after these blocks: later steps see it mod 2^32.
fn hash(start: u64, blocks: &[u32]) -> u64 {
    blocks
        .iter()
        .fold(start, |hash, block| step(hash, *block) % (1 << 32))
}

/// Two parts of PART blocks with one hash behind `start`, by a birthday search.
fn equal_parts(start: u64) -> [Vec<u32>; 2] {
    let mut random = Random::new(23);
    let mut seen: HashMap<u64, Vec<u32>> = HashMap::new();
    loop {
        let part: Vec<u32> = (0..PART)
            .map(|_| random.below(BLOCKS as usize) as u32)
            .collect();
        if let Some(other) = seen.insert(hash(start, &part), part.clone()) {
            if other != part {
                return [other, part];
            }
        }
    }
}

/// 2^parts lists with one hash: each part is one of two.
fn equal_lists(parts: usize) -> Vec<Vec<u32>> {
    let mut start = (parts * PART) as u64;
    let mut lists = vec![Vec::new()];
    for _ in 0..parts {
        let pair = equal_parts(start);
        start = hash(start, &pair[0]);
        lists = lists
            .iter()
            .flat_map(|list: &Vec<u32>| {
                pair.iter()
                    .map(move |part| [list.as_slice(), part].concat())
            })
            .collect();
    }
    assert!(lists
        .iter()
        .all(|list| hash((parts * PART) as u64, list) == start));
    lists
}

/// 2^parts cases with different lists and one hash.
pub fn equal_cases(parts: usize) -> Vec<u8> {
    let mut draft = Draft::new();
    let lists = equal_lists(parts);
    open(&mut draft, lists.len() as u32, this);
    cases(&mut draft, &lists);
    draft.close();
    draft.to_bytes()
}

/// Runs with different lists and one hash: the ranges of a list cover one integer each. Lists of two parts, four of them, next to each other and
/// then apart.
pub fn equal_runs(gap: i64) -> Vec<u8> {
    let mut draft = Draft::new();
    let lists = equal_lists(2);
    open(&mut draft, 0, this);
    for (place, list) in lists.iter().enumerate() {
        let at = (1 + gap) * place as i64;
        for block in list {
            range(&mut draft, at, at, *block);
        }
    }
    draft.close();
    draft.to_bytes()
}

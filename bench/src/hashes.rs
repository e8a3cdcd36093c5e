//! Sheets whose entries have equal hashes, for the index of the pools: whoever knows the hash can make them.
//!
//! The hash of a text is a fold over its bytes, h * FACTOR + byte + 1 mod 2^32 from 0, and then one product. Blocks of equal length and equal
//! fold may stand for each other anywhere in a text without a change of its hash.

use oracle::draft::Draft;
use oracle::format::*;
use oracle::random::Random;
use std::collections::HashMap;

const FACTOR: u32 = 16_777_619;
/// Bytes of a block.
const BLOCK: usize = 8;

/// The hash of bytes before its last product.
fn fold(bytes: &[u8]) -> u32 {
    bytes.iter().fold(0u32, |hash, byte| {
        hash.wrapping_mul(FACTOR).wrapping_add(u32::from(*byte) + 1)
    })
}

/// FACTOR to a power.
fn power(exponent: usize) -> u32 {
    (0..exponent).fold(1u32, |product, _| product.wrapping_mul(FACTOR))
}

fn letters(random: &mut Random) -> [u8; BLOCK] {
    std::array::from_fn(|_| b'a' + random.below(26) as u8)
}

/// Two blocks of letters with one fold, by a birthday search.
fn equal_blocks() -> [[u8; BLOCK]; 2] {
    let mut random = Random::new(21);
    let mut seen: HashMap<u32, [u8; BLOCK]> = HashMap::new();
    loop {
        let block = letters(&mut random);
        if let Some(other) = seen.insert(fold(&block), block) {
            if other != block {
                return [other, block];
            }
        }
    }
}

/// A block of ASCII with this fold: the last half is looked for among those of the first half's needs.
fn block_with(fold_wanted: u32) -> [u8; 2 * BLOCK] {
    let mut random = Random::new(22);
    // fold(first ++ last) is fold(first) * FACTOR^BLOCK + fold(last).
    let shift = power(BLOCK);
    let mut firsts: HashMap<u32, [u8; BLOCK]> = HashMap::new();
    loop {
        let first = letters(&mut random);
        let need = fold_wanted.wrapping_sub(fold(&first).wrapping_mul(shift));
        firsts.insert(need, first);
        let last = letters(&mut random);
        if let Some(first) = firsts.get(&fold(&last)) {
            let mut block = [0; 2 * BLOCK];
            block[..BLOCK].copy_from_slice(first);
            block[BLOCK..].copy_from_slice(&last);
            return block;
        }
    }
}

/// A row of bits in which each of the 2^order windows of `order` bits stands once.
fn de_bruijn(order: usize) -> Vec<bool> {
    // The greedy row: a 1 wherever the window that it makes is new.
    let mask = (1usize << order) - 1;
    let mut seen = vec![false; 1 << order];
    let mut row = vec![false; order];
    let mut window = 0;
    seen[0] = true;
    loop {
        let bit = [1, 0]
            .into_iter()
            .find(|bit| !seen[(window << 1 | bit) & mask]);
        let Some(bit) = bit else {
            return row;
        };
        window = (window << 1 | bit) & mask;
        seen[window] = true;
        row.push(bit == 1);
    }
}

/// So many texts, at most 65,536, all different and of one hash: windows of 16 blocks, which overlap.
fn equal_texts(count: usize) -> Draft {
    let blocks = equal_blocks();
    let mut draft = Draft::new();
    for bit in de_bruijn(16).iter().take(count + 15) {
        draft.bytes.extend(blocks[usize::from(*bit)]);
    }
    draft.texts = (0..count)
        .map(|text| ((BLOCK * text) as u32, 16 * BLOCK as u32))
        .collect();
    assert!(draft.texts.iter().all(|(from, length)| {
        let (from, length) = (*from as usize, *length as usize);
        fold(&draft.bytes[from..from + length]) == fold(&draft.bytes[..length])
    }));
    draft
}

/// So many texts of so many bytes, of one hash, that begin alike and differ near their ends: each has one block more behind its `a`s.
fn equal_long_texts(count: usize, length: usize) -> Draft {
    let size = 2 * BLOCK;
    let head = vec![b'a'; length];
    // The window that starts a block later has the fold whole * FACTOR^size + fold(block) - fold(a..a) * FACTOR^length.
    let whole = fold(&head);
    let wanted = whole
        .wrapping_sub(whole.wrapping_mul(power(size)))
        .wrapping_add(fold(&head[..size]).wrapping_mul(power(length)));
    let block = block_with(wanted);
    let mut draft = Draft::new();
    draft.bytes = head;
    for _ in 0..count {
        draft.bytes.extend(block);
    }
    draft.texts = (0..count)
        .map(|text| ((size * text) as u32, length as u32))
        .collect();
    let last = size * (count - 1);
    assert_eq!(fold(&draft.bytes[last..last + length]), whole);
    draft
}

/// An Array of a leaf of a kind for each text.
fn leaves(mut draft: Draft, kind: u32) -> Vec<u8> {
    draft.open(ARRAY, [0; 3], 1);
    for text in 0..draft.texts.len() as u32 {
        draft.leaf(kind, [text, 0, 0], 2);
    }
    draft.close();
    draft.to_bytes()
}

/// Variables with so many names of one hash.
pub fn names(count: usize) -> Vec<u8> {
    leaves(equal_texts(count), VARIABLE)
}

/// So many strings of one hash.
pub fn strings(count: usize) -> Vec<u8> {
    leaves(equal_texts(count), STRING)
}

/// Variables with so many names of so many bytes, of one hash, which differ near their ends.
pub fn long_names(count: usize, length: usize) -> Vec<u8> {
    leaves(equal_long_texts(count, length), VARIABLE)
}

/// Variables with so many own names of one hash below one namespace of so many bytes: the joined names have one hash too.
pub fn qualified_names(count: usize, length: usize) -> Vec<u8> {
    let mut draft = equal_texts(count);
    let space = draft.text(&vec![b'a'; length]);
    let names: Vec<(u32, u32)> = (0..count as u32).map(|name| (space, name)).collect();
    crate::sheets::each_name(draft, &names)
}

/// Chains of 62 Properties, each with three names of so many bytes, of one hash, which differ near their ends.
pub fn properties(chains: usize, length: usize) -> Vec<u8> {
    let links = 62;
    let mut draft = equal_long_texts(3 * links * chains, length);
    let mut name = 0;
    draft.open(ARRAY, [0; 3], 1);
    for _ in 0..chains {
        for _ in 0..links {
            draft.open(DOT, [0; 3], 2);
        }
        draft.leaf(THIS, [0; 3], 3);
        for _ in 0..links {
            draft.leaf(PROPERTY, [name, name + 1, name + 2], 4);
            draft.close();
            name += 3;
        }
    }
    draft.close();
    draft.to_bytes()
}

/// So many integers of one hash: of a number with low word a and high word b it is a function of a * FACTOR + b mod 2^32.
pub fn numbers(count: usize) -> Vec<u8> {
    let mut draft = Draft::new();
    draft.open(INTERPOLATED, [0; 3], 1);
    for low in 0..count as u32 {
        let high = 0u32.wrapping_sub(low.wrapping_mul(FACTOR));
        draft.leaf(INT, [low, high, 0], 2);
    }
    draft.close();
    draft.to_bytes()
}

//! Sheets from words written out in the tests.
#![allow(dead_code)]

use oracle::format::NODE_WORDS;

/// A sheet: nodes by their first six words, the rest of them 0, their
/// positions, texts one after the other, locals.
pub fn sheet(nodes: &[[u32; 6]], positions: &[u32], texts: &[&str], locals: &[u32]) -> Vec<u8> {
    let nodes: Vec<[u32; NODE_WORDS]> = nodes.iter().map(|node| full(*node, 0, 0)).collect();
    sheet_of(&nodes, positions, texts, locals)
}

/// A node with its namespace: the number of the text plus 1, and a position.
pub fn full(node: [u32; 6], space: u32, position: u32) -> [u32; NODE_WORDS] {
    let [kind, span, count, a, b, c] = node;
    [kind, span, count, a, b, c, space, position]
}

/// The same with all words of the nodes.
pub fn sheet_of(
    nodes: &[[u32; NODE_WORDS]],
    positions: &[u32],
    texts: &[&str],
    locals: &[u32],
) -> Vec<u8> {
    assert_eq!(nodes.len(), positions.len());
    let bytes: Vec<u8> = texts.concat().into_bytes();
    let mut words = vec![
        nodes.len() as u32,
        texts.len() as u32,
        bytes.len() as u32,
        locals.len() as u32,
    ];
    for node in nodes {
        words.extend(node);
    }
    words.extend(positions);
    let mut start = 0;
    for text in texts {
        words.push(start);
        start += text.len() as u32;
    }
    words.extend(texts.iter().map(|text| text.len() as u32));
    let mut out: Vec<u8> = words.iter().flat_map(|word| word.to_le_bytes()).collect();
    out.extend_from_slice(&bytes);
    while !out.len().is_multiple_of(4) {
        out.push(0);
    }
    for local in locals {
        out.extend_from_slice(&local.to_le_bytes());
    }
    out
}

/// The image's words with ample buffers.
pub fn words(sheet: &[u8]) -> Vec<u32> {
    let mut image = vec![7; 100_000];
    let mut scratch = vec![7; 400_000];
    let (number, count) = oracle::lower(sheet, &mut image, &mut scratch);
    assert_eq!(number, 0, "refused");
    assert!(scratch.iter().all(|word| *word == 0));
    assert!(image[count as usize..].iter().all(|word| *word == 7));
    image.truncate(count as usize);
    image
}

/// The number with ample buffers.
pub fn number(sheet: &[u8]) -> u32 {
    let (image, scratch) = if sheet.len() < 20_000 {
        (50_000, 100_000)
    } else {
        (6_000_000, 8_000_000)
    };
    let mut image = vec![7; image];
    let mut scratch = vec![7; scratch];
    let (number, count) = oracle::lower(sheet, &mut image, &mut scratch);
    if number != 0 {
        assert_eq!(count, 0);
        assert!(
            image.iter().all(|word| *word == 7),
            "the image changed under a refusal"
        );
        assert!(
            scratch.iter().all(|word| *word == 7),
            "the scratch changed under a refusal"
        );
    }
    // What the sheet needs says the same, without buffers.
    let (refused, words) = oracle::needs(sheet);
    assert_eq!(refused, number);
    assert_eq!(words == 0, number != 0);
    number
}

// Node kinds, as document 01 numbers them.
pub const BOOL: u32 = 1;
pub const UNIT: u32 = 2;
pub const INT: u32 = 3;
pub const FLOAT: u32 = 4;
pub const CHAR: u32 = 5;
pub const STRING: u32 = 6;
pub const INTERPOLATED: u32 = 7;
pub const ARRAY: u32 = 8;
pub const VARIABLE: u32 = 9;
pub const THIS: u32 = 10;
pub const PROPERTY: u32 = 11;
pub const METHOD: u32 = 12;
pub const CALL: u32 = 13;
pub const DOT: u32 = 14;
pub const INDEX: u32 = 15;
pub const AND: u32 = 16;
pub const OR: u32 = 17;
pub const COALESCE: u32 = 18;
pub const SWITCH: u32 = 19;
pub const CASE: u32 = 20;
pub const RANGE: u32 = 21;
pub const REF: u32 = 22;

//! Each refusal at its boundary, on both sides.

mod common;
use common::*;

const U: [u32; 6] = [UNIT, 1, 0, 0, 0, 0];

fn with_positions(nodes: &[[u32; 6]], texts: &[&str], locals: &[u32]) -> Vec<u8> {
    sheet(nodes, &vec![1; nodes.len()], texts, locals)
}

/// One node alone, with two texts.
fn alone(node: [u32; 6]) -> u32 {
    number(&with_positions(&[node], &["x", "y"], &[]))
}

/// An Array around these nodes; `count` of them are its children.
fn in_array(count: u32, nodes: &[[u32; 6]]) -> u32 {
    let mut all = vec![[ARRAY, nodes.len() as u32 + 1, count, 0, 0, 0]];
    all.extend_from_slice(nodes);
    number(&with_positions(&all, &["x", "y"], &[]))
}

fn set_word(sheet: &mut [u8], index: usize, word: u32) {
    sheet[4 * index..4 * index + 4].copy_from_slice(&word.to_le_bytes());
}

// ---- 1 ----

#[test]
fn number_1_lengths() {
    let good = with_positions(&[U], &["x"], &[0]);
    assert_eq!(number(&good), 0);
    for cut in 1..=good.len() {
        assert_eq!(number(&good[..good.len() - cut]), 1);
    }
    for more in 1..=8 {
        let mut long = good.clone();
        long.resize(good.len() + more, 0);
        assert_eq!(number(&long), 1);
    }
    assert_eq!(number(&[]), 1);
}

#[test]
fn number_1_sizes() {
    // No node at all.
    assert_eq!(number(&[0; 16]), 1);
    // A size that does not fit the length.
    for size in 0..4 {
        for change in [1u32, u32::MAX] {
            // Four text bytes, so that one less makes the last one padding.
            let mut sheet = with_positions(&[[ARRAY, 2, 1, 0, 0, 0], U], &["xx", "yy"], &[0, 0]);
            assert_eq!(number(&sheet), 0);
            let word = u32::from_le_bytes(sheet[4 * size..4 * size + 4].try_into().unwrap());
            set_word(&mut sheet, size, word.wrapping_add(change));
            assert_eq!(number(&sheet), 1, "size {size}");
        }
    }
}

#[test]
fn number_1_limits() {
    // N: 131,072 and one more, an interpolation with leaves.
    let nodes = |n: u32| {
        let mut nodes = vec![[INTERPOLATED, n, n - 1, 0, 0, 0]];
        nodes.extend(std::iter::repeat_n(U, n as usize - 1));
        oracle::check(&with_positions(&nodes, &[], &[]))
    };
    assert_eq!(nodes(131_072), 0);
    assert_eq!(nodes(131_073), 1);
    // X: 65,536 empty texts and one more.
    let texts = |x: usize| oracle::check(&with_positions(&[U], &vec![""; x], &[]));
    assert_eq!(texts(65_536), 0);
    assert_eq!(texts(65_537), 1);
    // B.
    let bytes = |b: usize| oracle::check(&with_positions(&[U], &["x".repeat(b).as_str()], &[]));
    assert_eq!(bytes(1_048_576), 0);
    assert_eq!(bytes(1_048_577), 1);
    // L.
    let locals = |l: usize| oracle::check(&with_positions(&[U], &["x"], &vec![0; l]));
    assert_eq!(locals(65_535), 0);
    assert_eq!(locals(65_536), 1);
}

#[test]
fn number_1_padding() {
    // One text of 1 to 4 bytes; each padding byte in turn.
    for length in 1..=4usize {
        let text = "x".repeat(length);
        let good = with_positions(&[U], &[text.as_str()], &[0]);
        assert_eq!(number(&good), 0);
        // 4 sizes, 8 + 1 words, start, length, then the bytes.
        let bytes_at = 4 * (4 + 9 + 2);
        for byte in length..4 {
            let mut bad = good.clone();
            bad[bytes_at + byte] = 1;
            assert_eq!(number(&bad), 1);
            // It goes before a node's fault.
            set_word(&mut bad, 4, 99);
            assert_eq!(number(&bad), 1);
        }
    }
}

// ---- 2 ----

#[test]
fn number_2_kinds() {
    for (kind, expected) in [
        (0, 2),
        (1, 0),
        (2, 0),
        (18, 2),
        (23, 8),
        (24, 8),
        (25, 8),
        (26, 2),
        (u32::MAX, 2),
    ] {
        // Kind 18 has no child here.
        assert_eq!(alone([kind, 1, 0, 0, 0, 0]), expected, "kind {kind}");
    }
    // 19 at node 0 needs its subject; 20 to 22 stand only in it.
    for kind in 19..=22 {
        assert_eq!(alone([kind, 1, 0, 0, 0, 0]), 2);
        assert_eq!(in_array(1, &[[kind, 1, 0, 0, 0, 0]]), 2);
    }
    // A whole Switch below node 0.
    assert_eq!(in_array(1, &[[SWITCH, 2, 1, 0, 0, 0], U]), 2);
}

#[test]
fn number_2_shapes() {
    // Span and count of a leaf.
    assert_eq!(alone([UNIT, 0, 0, 0, 0, 0]), 2);
    assert_eq!(alone([UNIT, 2, 0, 0, 0, 0]), 2);
    assert_eq!(alone([UNIT, u32::MAX, 0, 0, 0, 0]), 2);
    assert_eq!(alone([UNIT, 1, 1, 0, 0, 0]), 2);
    // A leaf with a child.
    assert_eq!(
        number(&with_positions(&[[UNIT, 2, 1, 0, 0, 0], U], &[], &[])),
        2
    );
    // Node 0 must span all.
    assert_eq!(number(&with_positions(&[U, U], &[], &[])), 2);
    assert_eq!(
        number(&with_positions(&[[ARRAY, 2, 1, 0, 0, 0], U, U], &[], &[])),
        2
    );
    // Counts that do not fit.
    assert_eq!(in_array(2, &[U, U]), 0);
    assert_eq!(in_array(1, &[U, U]), 2);
    assert_eq!(in_array(3, &[U, U]), 2);
    assert_eq!(in_array(u32::MAX, &[U, U]), 2);
    // A child that reaches past its parent.
    assert_eq!(in_array(2, &[[ARRAY, 3, 1, 0, 0, 0], U]), 2);
    assert_eq!(
        in_array(1, &[[ARRAY, 2, 1, 0, 0, 0], [UNIT, 2, 0, 0, 0, 0]]),
        2
    );
    // A child of span 0.
    assert_eq!(in_array(2, &[[UNIT, 0, 0, 0, 0, 0], U]), 2);
    // And, Or, Coalesce need a child; Dot and Index two.
    for kind in [AND, OR, COALESCE] {
        assert_eq!(alone([kind, 1, 0, 0, 0, 0]), 2);
        assert_eq!(
            number(&with_positions(&[[kind, 2, 1, 0, 0, 0], U], &[], &[])),
            0
        );
    }
    for kind in [DOT, INDEX] {
        for children in 0..4u32 {
            let mut nodes = vec![[kind, children + 1, children, 0, 0, 0]];
            nodes.extend(std::iter::repeat_n(U, children as usize));
            let expected = if children == 2 { 0 } else { 2 };
            assert_eq!(number(&with_positions(&nodes, &[], &[])), expected);
        }
    }
    for kind in [INTERPOLATED, ARRAY, METHOD, CALL] {
        assert_eq!(alone([kind, 1, 0, 0, 0, 0]), 0);
    }
}

#[test]
fn number_2_fields() {
    // For each kind: the largest fields, one past them, and unused ones.
    let cases: &[(u32, [[u32; 2]; 3])] = &[
        // kind, then for a, b, c: the largest that is right and the next.
        (BOOL, [[1, 2], [0, 1], [0, 1]]),
        (UNIT, [[0, 1], [0, 1], [0, 1]]),
        (INT, [[u32::MAX, 0], [u32::MAX, 0], [0, 1]]),
        (FLOAT, [[u32::MAX, 0], [u32::MAX, 0], [0, 1]]),
        (CHAR, [[0x10_FFFF, 0x11_0000], [0, 1], [0, 1]]),
        (STRING, [[1, 1], [0, 1], [0, 1]]),
        (INTERPOLATED, [[0, 1], [0, 1], [0, 1]]),
        (ARRAY, [[0, 1], [0, 1], [0, 1]]),
        (VARIABLE, [[1, 1], [0, 1], [0, 1]]),
        (THIS, [[0, 1], [0, 1], [0, 1]]),
        (PROPERTY, [[1, 1], [1, 1], [1, 1]]),
        (METHOD, [[1, 1], [0, 1], [0, 1]]),
        (CALL, [[1, 1], [1, 2], [65_535, 65_536]]),
    ];
    for (kind, fields) in cases {
        let mut good = [*kind, 1, 0, 0, 0, 0];
        for field in 0..3 {
            good[3 + field] = fields[field][0];
        }
        assert_eq!(alone(good), 0, "kind {kind}");
        for field in 0..3 {
            let [right, past] = fields[field];
            let mut bad = good;
            bad[3 + field] = past;
            let free = right == u32::MAX || right == past;
            assert_eq!(
                alone(bad),
                if free { 0 } else { 2 },
                "kind {kind} field {field}"
            );
        }
    }
    for kind in [23, 24, 25] {
        assert_eq!(alone([kind, 1, 0, 0, 0, 0]), 8);
        for field in 3..6 {
            let mut node = [kind, 1, 0, 0, 0, 0];
            node[field] = 1;
            assert_eq!(alone(node), 2);
        }
        assert_eq!(
            number(&with_positions(&[[kind, 2, 1, 0, 0, 0], U], &[], &[])),
            2
        );
    }
    for kind in [DOT, INDEX] {
        for (a, expected) in [(0, 0), (3, 0), (4, 2), (u32::MAX, 2)] {
            let nodes = [[kind, 3, 2, a, 0, 0], U, U];
            assert_eq!(number(&with_positions(&nodes, &[], &[])), expected);
        }
        assert_eq!(
            number(&with_positions(&[[kind, 3, 2, 0, 1, 0], U, U], &[], &[])),
            2
        );
        assert_eq!(
            number(&with_positions(&[[kind, 3, 2, 0, 0, 1], U, U], &[], &[])),
            2
        );
    }
    for kind in [AND, OR, COALESCE] {
        for field in 3..6 {
            let mut node = [kind, 2, 1, 0, 0, 0];
            node[field] = 1;
            assert_eq!(number(&with_positions(&[node, U], &[], &[])), 2);
        }
    }
    for (value, expected) in [
        (0, 0),
        (0xD7FF, 0),
        (0xD800, 2),
        (0xDFFF, 2),
        (0xE000, 0),
        (0x10_FFFF, 0),
        (0x11_0000, 2),
    ] {
        assert_eq!(alone([CHAR, 1, 0, value, 0, 0]), expected);
    }
}

/// A switch with K blocks of This and Unit, then these nodes as `count` more
/// children.
fn switch(k: u32, b: u32, c: u32, count: u32, nodes: &[[u32; 6]]) -> Vec<u8> {
    let mut all = vec![[SWITCH, 0, 1 + 2 * k + count, k, b, c], U];
    for _ in 0..k {
        all.push([THIS, 1, 0, 0, 0, 0]);
        all.push(U);
    }
    all.extend_from_slice(nodes);
    all[0][1] = all.len() as u32;
    with_positions(&all, &["x", "y"], &[])
}

const ZERO: [u32; 6] = [INT, 1, 0, 0, 0, 0];
const RANGE_0: [u32; 6] = [RANGE, 3, 2, 0, 0, 0];

#[test]
fn number_2_switch() {
    assert_eq!(number(&switch(0, 0, 0, 0, &[])), 0);
    assert_eq!(number(&switch(1, 0, 0, 0, &[])), 0);
    // A case without Refs, with each kind of value.
    for value in [INT, CHAR, STRING] {
        let nodes = [[CASE, 2, 1, 0, 0, 0], [value, 1, 0, 0, 0, 0]];
        assert_eq!(number(&switch(0, 1, 0, 1, &nodes)), 0);
    }
    for value in [BOOL, UNIT, FLOAT, VARIABLE, ARRAY, REF, 23] {
        let nodes = [[CASE, 2, 1, 0, 0, 0], [value, 1, 0, 0, 0, 0]];
        assert_eq!(number(&switch(0, 1, 0, 1, &nodes)), 2);
    }
    // A case with no child.
    assert_eq!(number(&switch(0, 1, 0, 1, &[[CASE, 1, 0, 0, 0, 0]])), 2);
    // A Ref first, or something else than a Ref later.
    let wrong = [[CASE, 3, 2, 0, 0, 0], [REF, 1, 0, 0, 0, 0], ZERO];
    assert_eq!(number(&switch(1, 1, 0, 1, &wrong)), 2);
    let wrong = [[CASE, 3, 2, 0, 0, 0], ZERO, ZERO];
    assert_eq!(number(&switch(1, 1, 0, 1, &wrong)), 2);
    let right = [[CASE, 3, 2, 0, 0, 0], ZERO, [REF, 1, 0, 0, 0, 0]];
    assert_eq!(number(&switch(1, 1, 0, 1, &right)), 0);
    // Fields of Case and Ref.
    for field in 3..6 {
        let mut nodes = right;
        nodes[0][field] = 1;
        assert_eq!(number(&switch(1, 1, 0, 1, &nodes)), 2);
    }
    for field in 4..6 {
        let mut nodes = right;
        nodes[2][field] = 1;
        assert_eq!(number(&switch(1, 1, 0, 1, &nodes)), 2);
    }
    // Ranges.
    assert_eq!(number(&switch(1, 0, 0, 1, &[RANGE_0, ZERO, ZERO])), 0);
    assert_eq!(
        number(&switch(1, 0, 0, 1, &[[RANGE, 3, 2, 1, 0, 0], ZERO, ZERO])),
        0
    );
    assert_eq!(
        number(&switch(1, 0, 0, 1, &[[RANGE, 3, 2, 2, 0, 0], ZERO, ZERO])),
        2
    );
    assert_eq!(
        number(&switch(1, 0, 0, 1, &[[RANGE, 3, 2, 0, 0, 1], ZERO, ZERO])),
        2
    );
    assert_eq!(
        number(&switch(1, 0, 0, 1, &[[RANGE, 2, 1, 0, 0, 0], ZERO])),
        2
    );
    assert_eq!(
        number(&switch(
            1,
            0,
            0,
            1,
            &[RANGE_0, ZERO, [FLOAT, 1, 0, 0, 0, 0]]
        )),
        2
    );
    // A Range before a Case, and a Case among the ranges.
    let case = [[CASE, 2, 1, 0, 0, 0], ZERO];
    let both: Vec<[u32; 6]> = case.iter().chain(&[RANGE_0, ZERO, ZERO]).copied().collect();
    assert_eq!(number(&switch(1, 1, 0, 2, &both)), 0);
    let turned: Vec<[u32; 6]> = [RANGE_0, ZERO, ZERO].iter().chain(&case).copied().collect();
    assert_eq!(number(&switch(1, 1, 0, 2, &turned)), 2);
    assert_eq!(number(&switch(1, 0, 0, 2, &both)), 2);
    // K and b that are far too large, also where their sum passes 2^32.
    for (a, b) in [
        (1, 0),
        (0, 1),
        (0x7FFF_FFFF, 0),
        (0x8000_0000, 0),
        (0xFFFF_FFFF, 2),
        (0x7FFF_FFFF, 1),
        (0, 0xFFFF_FFFF),
    ] {
        let nodes = [[SWITCH, 2, 1, a, b, 0], U];
        assert_eq!(number(&with_positions(&nodes, &[], &[])), 2);
    }
    // A guard that is no expression.
    let mut sheet = switch(1, 0, 0, 0, &[]);
    set_word(&mut sheet, 4 + 2 * 8, REF);
    assert_eq!(number(&sheet), 2);
}

// ---- 3 ----

/// A Unit with these bytes and texts.
fn with_texts(bytes: &[u8], texts: &[(u32, u32)]) -> u32 {
    let mut words = vec![1, texts.len() as u32, bytes.len() as u32, 0];
    words.extend(U);
    words.extend([0, 0]);
    words.push(5);
    words.extend(texts.iter().map(|text| text.0));
    words.extend(texts.iter().map(|text| text.1));
    let mut out: Vec<u8> = words.iter().flat_map(|word| word.to_le_bytes()).collect();
    out.extend_from_slice(bytes);
    while !out.len().is_multiple_of(4) {
        out.push(0);
    }
    number(&out)
}

#[test]
fn number_3_bounds() {
    for (start, length, expected) in [
        (0, 4, 0),
        (0, 5, 3),
        (4, 0, 0),
        (5, 0, 3),
        (3, 1, 0),
        (3, 2, 3),
        (4, 1, 3),
        (u32::MAX, 1, 3),
        (1, u32::MAX, 3),
        (u32::MAX, 0, 3),
        (0, 0, 0),
    ] {
        assert_eq!(
            with_texts(b"abcd", &[(start, length)]),
            expected,
            "{start} {length}"
        );
    }
    // No bytes at all: a text at 0 of none.
    assert_eq!(with_texts(b"", &[(0, 0)]), 0);
    assert_eq!(with_texts(b"", &[(1, 0)]), 3);
    // Bytes that no text has may be anything; a text of none may stand inside
    // a character.
    assert_eq!(with_texts(b"\xFF\xC3\xA9", &[(1, 2)]), 0);
    assert_eq!(with_texts(b"\xFF\xC3\xA9", &[(0, 0), (2, 0)]), 0);
    assert_eq!(with_texts(b"\xFF\xC3\xA9", &[(2, 1)]), 3);
    assert_eq!(with_texts(b"\xFF\xC3\xA9", &[(1, 1)]), 3);
}

#[test]
fn number_3_utf_8() {
    let good: &[&[u8]] = &[
        b"",
        b"\x00",
        b"\x7F",
        b"\xC2\x80",
        b"\xDF\xBF",
        b"\xE0\xA0\x80",
        b"\xE0\xBF\xBF",
        b"\xE1\x80\x80",
        b"\xEC\xBF\xBF",
        b"\xED\x80\x80",
        b"\xED\x9F\xBF",
        b"\xEE\x80\x80",
        b"\xEF\xBF\xBF",
        b"\xF0\x90\x80\x80",
        b"\xF0\xBF\xBF\xBF",
        b"\xF1\x80\x80\x80",
        b"\xF3\xBF\xBF\xBF",
        b"\xF4\x80\x80\x80",
        b"\xF4\x8F\xBF\xBF",
    ];
    let bad: &[&[u8]] = &[
        b"\x80",
        b"\xBF",
        b"\xC0\x80",
        b"\xC1\xBF",
        b"\xC2",
        b"\xC2\x7F",
        b"\xC2\xC0",
        b"\xE0\x80\x80",
        b"\xE0\x9F\xBF",
        b"\xE0\xA0",
        b"\xE0\xA0\x7F",
        b"\xE0\xA0\xC0",
        b"\xED\xA0\x80",
        b"\xED\xBF\xBF",
        b"\xF0\x80\x80\x80",
        b"\xF0\x8F\xBF\xBF",
        b"\xF0\x90\x80",
        b"\xF0\x90\x80\x7F",
        b"\xF0\x90\xC0\x80",
        b"\xF4\x90\x80\x80",
        b"\xF5\x80\x80\x80",
        b"\xF8\x88\x80\x80\x80",
        b"\xFE",
        b"\xFF",
    ];
    for bytes in good {
        assert_eq!(
            with_texts(bytes, &[(0, bytes.len() as u32)]),
            0,
            "{bytes:?}"
        );
        // Twelve times the same text takes the other way through the check.
        assert_eq!(
            with_texts(bytes, &[(0, bytes.len() as u32); 12]),
            0,
            "{bytes:?}"
        );
    }
    for bytes in bad {
        assert_eq!(
            with_texts(bytes, &[(0, bytes.len() as u32)]),
            3,
            "{bytes:?}"
        );
        assert_eq!(
            with_texts(bytes, &[(0, bytes.len() as u32); 12]),
            3,
            "{bytes:?}"
        );
        // In the middle of good bytes.
        let mut around = b"a".to_vec();
        around.extend_from_slice(bytes);
        around.push(b'b');
        assert_eq!(
            with_texts(&around, &[(0, around.len() as u32)]),
            3,
            "{bytes:?}"
        );
    }
}

#[test]
fn number_3_both_ways_agree() {
    // All windows over a few bytes, each alone and many times over.
    let mut random = oracle::random::Random::new(3);
    let pieces: &[&[u8]] = &[
        b"a",
        b"\xC3\xA9",
        b"\xE6\x97\xA5",
        b"\xF0\x9D\x84\x9E",
        b"\x80",
        b"\xC2",
        b"\xED\xA0\x80",
        b"\xE2\x82",
    ];
    for _ in 0..60 {
        let mut bytes = Vec::new();
        for _ in 0..random.between(1, 5) {
            let piece: &[u8] = pieces[random.below(pieces.len())];
            bytes.extend_from_slice(piece);
        }
        let count = bytes.len() as u32;
        for start in 0..=count {
            for length in 0..=count - start {
                let expected =
                    match std::str::from_utf8(&bytes[start as usize..(start + length) as usize]) {
                        Ok(_) => 0,
                        Err(_) => 3,
                    };
                assert_eq!(with_texts(&bytes, &[(start, length)]), expected);
                assert_eq!(
                    with_texts(&bytes, &vec![(start, length); 9 * bytes.len()]),
                    expected
                );
            }
        }
    }
}

// ---- 4 ----

#[test]
fn number_4_texts() {
    // Two texts: 0 and 1 exist.
    for kind in [STRING, VARIABLE, METHOD, CALL] {
        for (text, expected) in [(0, 0), (1, 0), (2, 4), (u32::MAX, 4)] {
            assert_eq!(alone([kind, 1, 0, text, 0, 0]), expected);
        }
    }
    for field in 3..6 {
        for (text, expected) in [(1, 0), (2, 4), (u32::MAX, 4)] {
            let mut node = [PROPERTY, 1, 0, 0, 0, 0];
            node[field] = text;
            assert_eq!(alone(node), expected);
        }
    }
    for (text, expected) in [(0, 0), (1, 0), (2, 4), (u32::MAX, 4)] {
        assert_eq!(
            number(&with_positions(&[U], &["x", "y"], &[0, text])),
            expected
        );
    }
    // Without any text.
    assert_eq!(
        number(&with_positions(&[[VARIABLE, 1, 0, 0, 0, 0]], &[], &[])),
        4
    );
    assert_eq!(number(&with_positions(&[U], &[], &[0])), 4);
}

#[test]
fn number_4_blocks() {
    for k in 0..3u32 {
        for (c, expected) in [(0, 0), (k, 0), (k + 1, 4), (u32::MAX, 4)] {
            assert_eq!(number(&switch(k, 0, c, 0, &[])), expected);
        }
        for block in [0, 1, 2, 3, u32::MAX] {
            let expected = if block < k { 0 } else { 4 };
            let case = [[CASE, 3, 2, 0, 0, 0], ZERO, [REF, 1, 0, block, 0, 0]];
            assert_eq!(number(&switch(k, 1, 0, 1, &case)), expected);
            // An empty range's block must exist too.
            let range = [[RANGE, 3, 2, 0, block, 0], ZERO, ZERO];
            assert_eq!(number(&switch(k, 0, 0, 1, &range)), expected);
        }
    }
}

// ---- 14 ----

/// The texts x, with number 0, and the empty one, with number 1.
fn named(nodes: &[[u32; 8]], locals: &[u32]) -> Vec<u8> {
    sheet_of(nodes, &vec![1; nodes.len()], &["x", ""], locals)
}

/// The kinds with an own name, and the namespaces that each may have: none, x,
/// and the empty text, which counts as none.
const OWN: [(u32, &[u32]); 4] = [
    (VARIABLE, &[0, 1, 2]),
    (PROPERTY, &[0]),
    (METHOD, &[0]),
    (CALL, &[0, 1, 2]),
];

/// Each node with an own name, once with this text.
fn own_names(text: u32) -> Vec<[u32; 8]> {
    let all = OWN.iter();
    all.flat_map(|(kind, spaces)| {
        spaces
            .iter()
            .map(|space| [*kind, 1, 0, text, 0, 0, *space, 0])
    })
    .collect()
}

const W: [u32; 8] = [UNIT, 1, 0, 0, 0, 0, 0, 0];

/// An Array of these nodes, each without children.
fn array_of(leaves: &[[u32; 8]]) -> Vec<[u32; 8]> {
    let count = leaves.len() as u32;
    let mut nodes = vec![[ARRAY, count + 1, count, 0, 0, 0, 0, 0]];
    nodes.extend_from_slice(leaves);
    nodes
}

#[test]
fn number_14_in_nodes() {
    for (text, expected) in [(0, 0), (1, 14)] {
        for node in own_names(text) {
            // Node 0, the first node below it, the last one, one between.
            assert_eq!(number(&named(&[node], &[])), expected, "{node:?}");
            for leaves in [[node, W, W], [W, W, node], [W, node, W]] {
                assert_eq!(number(&named(&array_of(&leaves), &[])), expected);
            }
            // Beside locals with names.
            assert_eq!(number(&named(&[node], &[0, 0])), expected);
        }
        // Calls and methods with arguments, capture and operator.
        for call in [
            [METHOD, 3, 2, text, 0, 0, 0, 0],
            [CALL, 3, 2, text, 1, 0, 0, 0],
            [CALL, 3, 2, text, 0, 40, 1, 7],
        ] {
            assert_eq!(number(&named(&[call, W, W], &[])), expected);
        }
        // As root and steps of a chain: v.p and v.m().
        for step in [PROPERTY, METHOD] {
            let step = [step, 1, 0, text, 0, 0, 0, 0];
            let root = [VARIABLE, 1, 0, 0, 0, 0, 0, 0];
            let nodes = [[DOT, 3, 2, 0, 0, 0, 0, 0], root, step];
            assert_eq!(number(&named(&nodes, &[])), expected);
        }
    }
}

#[test]
fn number_14_in_locals() {
    for (text, expected) in [(0, 0), (1, 14)] {
        for locals in [vec![text], vec![text, 0], vec![0, text], vec![0, text, 0]] {
            assert_eq!(number(&named(&[W], &locals)), expected);
            // Beside a variable of the name x.
            let variable = [VARIABLE, 1, 0, 0, 0, 0, 0, 0];
            assert_eq!(number(&named(&[variable], &locals)), expected);
        }
        let mut locals = vec![0; 65_535];
        locals[65_534] = text;
        assert_eq!(number(&named(&[W], &locals)), expected);
    }
    // A local and a variable that has its name, which both are empty.
    let variable = [VARIABLE, 1, 0, 1, 0, 0, 0, 0];
    assert_eq!(number(&named(&[variable], &[1])), 14);
}

#[test]
fn number_14_in_nodes_not_reached() {
    for (text, expected) in [(0, 0), (1, 14)] {
        for node in own_names(text) {
            // Below a MethodCall outside a chain.
            let nodes = [[METHOD, 2, 1, 0, 0, 0, 0, 0], node];
            assert_eq!(number(&named(&nodes, &[])), expected);
            // The 256th argument of a call, the 65,536th element of an array.
            for (kind, count) in [(CALL, 256), (ARRAY, 65_536)] {
                let mut nodes = array_of(&vec![W; count]);
                nodes[0][0] = kind;
                nodes[count] = node;
                assert_eq!(number(&named(&nodes, &[])), expected);
            }
            // Guard and body of a block that nothing names, and a body behind a
            // guard that is constant false.
            for at in [2, 3] {
                let mut nodes = vec![[SWITCH, 4, 3, 1, 0, 0, 0, 0], W, W, W];
                nodes[at] = node;
                assert_eq!(number(&named(&nodes, &[])), expected);
            }
            let nodes = [
                [SWITCH, 7, 4, 1, 1, 0, 0, 0],
                W,
                [BOOL, 1, 0, 0, 0, 0, 0, 0],
                node,
                [CASE, 3, 2, 0, 0, 0, 0, 0],
                [INT, 1, 0, 5, 0, 0, 0, 0],
                [REF, 1, 0, 0, 0, 0, 0, 0],
            ];
            assert_eq!(number(&named(&nodes, &[])), expected);
            // Beyond a step that is no step: x.(x).node.
            let nodes = [
                [DOT, 5, 2, 0, 0, 0, 0, 0],
                [VARIABLE, 1, 0, 0, 0, 0, 0, 0],
                [DOT, 3, 2, 0, 0, 0, 0, 0],
                [VARIABLE, 1, 0, 0, 0, 0, 0, 0],
                node,
            ];
            assert_eq!(number(&named(&nodes, &[])), expected);
        }
    }
}

#[test]
fn what_may_have_no_bytes() {
    // An unused text.
    assert_eq!(number(&named(&[W], &[])), 0);
    assert_eq!(number(&named(&own_names(0)[..1], &[0])), 0);
    // Getters and setters, Strings, namespaces of variables and calls.
    for node in [
        [PROPERTY, 1, 0, 0, 1, 0, 0, 0],
        [PROPERTY, 1, 0, 0, 0, 1, 0, 0],
        [PROPERTY, 1, 0, 0, 1, 1, 0, 0],
        [STRING, 1, 0, 1, 0, 0, 0, 0],
        [VARIABLE, 1, 0, 0, 0, 0, 2, 5],
        [CALL, 1, 0, 0, 0, 0, 2, 5],
    ] {
        assert_eq!(number(&named(&[node], &[])), 0, "{node:?}");
        assert_eq!(number(&named(&array_of(&[node, W, node]), &[0])), 0);
    }
    // A property of a chain: x.x with getter and setter without bytes.
    let nodes = [
        [DOT, 3, 2, 0, 0, 0, 0, 0],
        [VARIABLE, 1, 0, 0, 0, 0, 2, 5],
        [PROPERTY, 1, 0, 0, 1, 1, 0, 0],
    ];
    assert_eq!(number(&named(&nodes, &[0])), 0);
    // The value of a Case.
    let nodes = [
        [SWITCH, 4, 2, 0, 1, 0, 0, 0],
        W,
        [CASE, 2, 1, 0, 0, 0, 0, 0],
        [STRING, 1, 0, 1, 0, 0, 0, 0],
    ];
    assert_eq!(number(&named(&nodes, &[0])), 0);
    // Numbers in fields of other kinds are no texts: 1 is the empty one's.
    for nodes in [
        vec![[BOOL, 1, 0, 1, 0, 0, 0, 0]],
        vec![[INT, 1, 0, 1, 1, 0, 0, 0]],
        vec![[FLOAT, 1, 0, 1, 1, 0, 0, 0]],
        vec![[CHAR, 1, 0, 1, 0, 0, 0, 0]],
        vec![[DOT, 3, 2, 1, 0, 0, 0, 0], W, W],
        vec![[INDEX, 3, 2, 1, 0, 0, 0, 0], W, W],
        vec![[CALL, 1, 0, 0, 1, 1, 0, 0]],
        vec![[SWITCH, 4, 3, 1, 0, 1, 0, 0], W, W, W],
    ] {
        assert_eq!(number(&named(&nodes, &[0])), 0, "{nodes:?}");
    }
    let nodes = [
        [SWITCH, 12, 7, 2, 1, 1, 0, 0],
        W,
        W,
        W,
        W,
        W,
        [CASE, 3, 2, 0, 0, 0, 0, 0],
        [INT, 1, 0, 1, 0, 0, 0, 0],
        [REF, 1, 0, 1, 0, 0, 0, 0],
        [RANGE, 3, 2, 1, 1, 0, 0, 0],
        [INT, 1, 0, 1, 0, 0, 0, 0],
        [INT, 1, 0, 1, 0, 0, 0, 0],
    ];
    assert_eq!(number(&named(&nodes, &[0])), 0);
}

#[test]
fn number_14_goes_by_the_length() {
    // Text 0 in the bytes `é`, wherever it starts; a zero byte or a space is a byte.
    let variable = |bytes: &str, start: u32, length: u32| {
        let mut sheet = with_positions(&[[VARIABLE, 1, 0, 0, 0, 0]], &[bytes], &[]);
        set_word(&mut sheet, 4 + 9, start);
        set_word(&mut sheet, 4 + 9 + 1, length);
        number(&sheet)
    };
    assert_eq!(variable("é", 0, 2), 0);
    for start in 0..3 {
        assert_eq!(variable("é", start, 0), 14, "{start}");
    }
    assert_eq!(variable("é", 3, 0), 3);
    assert_eq!(variable("", 0, 0), 14);
    for byte in ["\0", " ", "!"] {
        assert_eq!(variable(byte, 0, 1), 0);
    }
    // Two texts at one place, of which the node names the longer one.
    let mut sheet = with_positions(&[[VARIABLE, 1, 0, 0, 0, 0]], &["x", "y"], &[]);
    set_word(&mut sheet, 4 + 9 + 1, 0);
    set_word(&mut sheet, 4 + 9 + 3, 0);
    assert_eq!(number(&sheet), 0);
    set_word(&mut sheet, 4 + 3, 1);
    assert_eq!(number(&sheet), 14);
}

#[test]
fn number_14_among_the_later_ones() {
    // Each sheet with a local of the name x (number 0) or the empty one (1).
    for (local, refused) in [(0, false), (1, true)] {
        let answer =
            |nodes: &[[u32; 6]], texts: &[&str]| number(&with_positions(nodes, texts, &[local]));
        let or = |number: u32| if refused { 14 } else { number };
        // 5: 65 levels.
        let mut deep: Vec<[u32; 6]> = (0..64).map(|up| [AND, 65 - up, 1, 0, 0, 0]).collect();
        deep.push(U);
        assert_eq!(answer(&deep, &["x", ""]), or(5));
        // 9: `eval`, text 2.
        let eval = [CALL, 1, 0, 2, 0, 0];
        assert_eq!(answer(&[eval], &["x", "", "eval"]), or(9));
        // 10.
        assert_eq!(answer(&emitting(262_144), &["x", ""]), or(10));
        // 11 and 12, by the lent buffers. One Unit: 16 + 16 + 4,096 words of
        // scratch, 12 + 5 words of the image.
        let unit = with_positions(&[U], &["x", ""], &[local]);
        for (image, scratch, expected) in [
            (17, 4_128, 0),
            (16, 4_128, 12),
            (17, 4_127, 11),
            (16, 4_127, 11),
            (0, 0, 11),
        ] {
            let (mut image, mut scratch) = (vec![7; image], vec![7; scratch]);
            let (number, words) = oracle::lower(&unit, &mut image, &mut scratch);
            assert_eq!(number, or(expected));
            if refused {
                assert_eq!(words, 0);
                assert!(image.iter().chain(&scratch).all(|word| *word == 7));
            }
        }
        let needed = if refused { (14, 0) } else { (0, 4_128) };
        assert_eq!(oracle::needs(&unit), needed);
        assert_eq!(oracle::check(&unit), or(0));
    }
}

#[test]
fn deepest_tree_with_an_empty_name() {
    // 131,072 levels: 14 at the bottom goes before 5.
    let sheet = |text: u32| {
        let mut nodes: Vec<[u32; 6]> = (1..131_072)
            .map(|up| [ARRAY, 131_073 - up, 1, 0, 0, 0])
            .collect();
        nodes.push([VARIABLE, 1, 0, text, 0, 0]);
        number(&with_positions(&nodes, &["x", ""], &[]))
    };
    assert_eq!(sheet(0), 5);
    assert_eq!(sheet(1), 14);
    assert_eq!(sheet(2), 4);
}

// ---- 5 ----

fn nested(levels: u32) -> Vec<u8> {
    let nodes: Vec<[u32; 6]> = (0..levels)
        .map(|level| {
            if level + 1 == levels {
                U
            } else {
                [ARRAY, levels - level, 1, 0, 0, 0]
            }
        })
        .collect();
    with_positions(&nodes, &[], &[])
}

#[test]
fn number_5() {
    assert_eq!(number(&nested(1)), 0);
    assert_eq!(number(&nested(64)), 0);
    assert_eq!(number(&nested(65)), 5);
    assert_eq!(number(&nested(131_072)), 5);
    // A deep branch after many shallow ones.
    let deep = |levels: u32| {
        let mut nodes = vec![[ARRAY, 0, 11, 0, 0, 0]];
        nodes.extend([U; 10]);
        for level in 0..levels - 1 {
            let last = level + 2 == levels;
            nodes.push(if last {
                U
            } else {
                [OR, levels - 1 - level, 1, 0, 0, 0]
            });
        }
        nodes[0][1] = nodes.len() as u32;
        number(&with_positions(&nodes, &[], &[]))
    };
    assert_eq!(deep(64), 0);
    assert_eq!(deep(65), 5);
    // In a switch: node 0, the subject 2, so 63 levels there.
    let subject = |levels: u32| {
        let mut nodes = vec![[SWITCH, levels + 1, 1, 0, 0, 0]];
        for level in 0..levels {
            nodes.push(if level + 1 == levels {
                U
            } else {
                [AND, levels - level, 1, 0, 0, 0]
            });
        }
        number(&with_positions(&nodes, &[], &[]))
    };
    assert_eq!(subject(63), 0);
    assert_eq!(subject(64), 5);
}

#[test]
fn deepest_tree_gets_lower_numbers_first() {
    let words = 131_072usize;
    let sheet = nested(131_072);
    let last = 4 + 8 * (words - 1);
    let mut bad = sheet.clone();
    set_word(&mut bad, last, 26);
    assert_eq!(oracle::check(&bad), 2);
    let mut bad = sheet.clone();
    set_word(&mut bad, last, VARIABLE);
    assert_eq!(oracle::check(&bad), 4);
    let mut bad = sheet;
    set_word(&mut bad, last, 23);
    assert_eq!(oracle::check(&bad), 5);
}

// ---- 6 ----

#[test]
fn number_6() {
    for (k, expected) in [(64, 0), (65, 6), (200, 6)] {
        assert_eq!(number(&switch(k, 0, 0, 0, &[])), expected);
    }
    for (count, expected) in [(64u32, 0), (65, 6)] {
        let cases: Vec<[u32; 6]> = (0..count)
            .flat_map(|value| [[CASE, 2, 1, 0, 0, 0], [INT, 1, 0, value, 0, 0]])
            .collect();
        assert_eq!(number(&switch(0, count, 0, count, &cases)), expected);
        let ranges: Vec<[u32; 6]> = (0..count)
            .flat_map(|value| [RANGE_0, [INT, 1, 0, value, 0, 0], [INT, 1, 0, 100, 0, 0]])
            .collect();
        assert_eq!(number(&switch(1, 0, 0, count, &ranges)), expected);
        let mut case = vec![[CASE, count + 2, count + 1, 0, 0, 0], ZERO];
        case.extend(std::iter::repeat_n([REF, 1, 0, 0, 0, 0], count as usize));
        assert_eq!(number(&switch(1, 1, 0, 1, &case)), expected);
    }
    // 6 before 7: 65 equal cases.
    let cases: Vec<[u32; 6]> = (0..65)
        .flat_map(|_| [[CASE, 2, 1, 0, 0, 0], ZERO])
        .collect();
    assert_eq!(number(&switch(0, 65, 0, 65, &cases)), 6);
}

// ---- 7 ----

#[test]
fn number_7() {
    let two = |one: [u32; 3], two: [u32; 3]| {
        let value = |[kind, a, b]: [u32; 3]| [kind, 1, 0, a, b, 0];
        let nodes = [
            [CASE, 2, 1, 0, 0, 0],
            value(one),
            [CASE, 2, 1, 0, 0, 0],
            [INT, 1, 0, 12_345, 0, 0],
            [CASE, 2, 1, 0, 0, 0],
            value(two),
        ];
        let mut all = vec![[SWITCH, 8, 4, 0, 3, 0], U];
        all.extend(nodes);
        number(&with_positions(&all, &["x", "y", "x", "", ""], &[]))
    };
    assert_eq!(two([INT, 1, 0], [INT, 2, 0]), 0);
    assert_eq!(two([INT, 1, 0], [INT, 1, 0]), 7);
    assert_eq!(two([INT, 1, 0], [INT, 1, 1]), 0);
    assert_eq!(two([INT, 1, 0x8000_0000], [INT, 1, 0x8000_0000]), 7);
    assert_eq!(two([CHAR, 97, 0], [CHAR, 97, 0]), 7);
    assert_eq!(two([CHAR, 97, 0], [CHAR, 98, 0]), 0);
    assert_eq!(two([INT, 97, 0], [CHAR, 97, 0]), 0);
    assert_eq!(two([INT, 0, 0], [STRING, 0, 0]), 0);
    assert_eq!(two([STRING, 0, 0], [STRING, 0, 0]), 7);
    assert_eq!(two([STRING, 0, 0], [STRING, 1, 0]), 0);
    assert_eq!(two([STRING, 0, 0], [STRING, 2, 0]), 7);
    assert_eq!(two([STRING, 3, 0], [STRING, 4, 0]), 7);
    assert_eq!(two([STRING, 3, 0], [STRING, 0, 0]), 0);
}

// ---- 8 ----

#[test]
fn number_8() {
    for kind in [23, 24, 25] {
        assert_eq!(in_array(1, &[[kind, 1, 0, 0, 0, 0]]), 8);
    }
    let curry = |kind: u32, count: u32, name: &str| {
        let mut nodes = vec![[kind, count + 1, count, 0, 0, 0]];
        nodes.extend(std::iter::repeat_n(U, count as usize));
        number(&with_positions(&nodes, &[name], &[]))
    };
    for (count, expected) in [(0, 0), (1, 0), (2, 8), (300, 8)] {
        assert_eq!(curry(CALL, count, "curry"), expected);
        assert_eq!(curry(METHOD, count, "curry"), 0);
        assert_eq!(curry(CALL, count, "curr"), 0);
        assert_eq!(curry(CALL, count, "curry "), 0);
        assert_eq!(curry(CALL, count, "Curry"), 0);
    }
    // Also where lowering would not come: below a residual.
    assert_eq!(
        number(&with_positions(
            &[[METHOD, 2, 1, 0, 0, 0], [23, 1, 0, 0, 0, 0]],
            &["m"],
            &[]
        )),
        8
    );
}

// ---- 9 ----

const TEXTS: [&str; 4] = ["eval", "g", "x", "m"];

fn eval_in(nodes: &[[u32; 6]]) -> u32 {
    number(&with_positions(nodes, &TEXTS, &[]))
}

const EVAL: [u32; 6] = [CALL, 1, 0, 0, 0, 0];

#[test]
fn number_9_reached() {
    assert_eq!(eval_in(&[EVAL]), 9);
    // With any number of arguments, with capture, with an operator.
    assert_eq!(eval_in(&[[CALL, 2, 1, 0, 1, 5], U]), 9);
    let mut many = vec![[CALL, 301, 300, 0, 0, 0]];
    many.extend([U; 300]);
    assert_eq!(eval_in(&many), 9);
    // Deep in an expression.
    assert_eq!(eval_in(&[[AND, 3, 2, 0, 0, 0], U, EVAL]), 9);
    assert_eq!(eval_in(&[[CALL, 3, 2, 1, 0, 0], U, EVAL]), 9);
    // As an argument of a method of a chain that fails later: x.m(eval()).eval().
    assert_eq!(
        eval_in(&[
            [DOT, 6, 2, 0, 0, 0],
            [VARIABLE, 1, 0, 2, 0, 0],
            [DOT, 4, 2, 0, 0, 0],
            [METHOD, 2, 1, 3, 0, 0],
            EVAL,
            [METHOD, 1, 0, 0, 0, 0],
        ]),
        9
    );
}

#[test]
fn number_9_not_reached() {
    // As a method or a variable it is none.
    assert_eq!(eval_in(&[[METHOD, 1, 0, 0, 0, 0]]), 0);
    assert_eq!(eval_in(&[[VARIABLE, 1, 0, 0, 0, 0]]), 0);
    // Below a MethodCall outside a chain.
    assert_eq!(eval_in(&[[METHOD, 2, 1, 3, 0, 0], EVAL]), 0);
    // 255 arguments reach it, 256 do not.
    for (count, expected) in [(255u32, 9), (256, 0)] {
        let mut nodes = vec![[CALL, count + 1, count, 1, 0, 0]];
        nodes.extend(std::iter::repeat_n(U, count as usize - 1));
        nodes.push(EVAL);
        assert_eq!(eval_in(&nodes), expected);
    }
    // 65,535 elements reach it, 65,536 do not.
    for (count, expected) in [(65_535u32, 9), (65_536, 0)] {
        let mut nodes = vec![[ARRAY, count + 1, count, 0, 0, 0]];
        nodes.extend(std::iter::repeat_n(U, count as usize - 1));
        nodes.push(EVAL);
        assert_eq!(eval_in(&nodes), expected);
    }
    // The root of a chain that fails: eval().eval() as method.
    assert_eq!(
        eval_in(&[[DOT, 3, 2, 0, 0, 0], EVAL, [METHOD, 1, 0, 0, 0, 0]]),
        0
    );
    assert_eq!(
        eval_in(&[[DOT, 3, 2, 0, 0, 0], EVAL, [METHOD, 1, 0, 3, 0, 0]]),
        9
    );
    // The step after the failing one: x.eval()[eval()].
    assert_eq!(
        eval_in(&[
            [DOT, 5, 2, 0, 0, 0],
            [VARIABLE, 1, 0, 2, 0, 0],
            [INDEX, 3, 2, 0, 0, 0],
            [METHOD, 1, 0, 0, 0, 0],
            EVAL,
        ]),
        0
    );
    // A dot onto no property and no method: x.(eval()).
    assert_eq!(
        eval_in(&[[DOT, 3, 2, 0, 0, 0], [VARIABLE, 1, 0, 2, 0, 0], EVAL]),
        0
    );
    // An index is reached.
    assert_eq!(
        eval_in(&[[INDEX, 3, 2, 0, 0, 0], [VARIABLE, 1, 0, 2, 0, 0], EVAL]),
        9
    );
}

#[test]
fn number_9_in_switches() {
    // Blocks: 0 This/Unit, 1 eval/Unit, 2 This/eval, 3 Bool 1/Unit, 4 Bool
    // 0/eval.
    let run = |c: u32, cases: &[&[u32]], ranges: &[(u32, u32, u32)]| {
        let blocks = [
            [THIS, 1, 0, 0, 0, 0],
            U,
            EVAL,
            U,
            [THIS, 1, 0, 0, 0, 0],
            EVAL,
            [BOOL, 1, 0, 1, 0, 0],
            U,
            [BOOL, 1, 0, 0, 0, 0],
            EVAL,
        ];
        let count = 1 + 10 + cases.len() + ranges.len();
        let mut nodes = vec![[SWITCH, 0, count as u32, 5, cases.len() as u32, c], U];
        nodes.extend(blocks);
        for (value, refs) in cases.iter().enumerate() {
            let length = refs.len() as u32;
            nodes.push([CASE, length + 2, length + 1, 0, 0, 0]);
            nodes.push([INT, 1, 0, value as u32, 0, 0]);
            nodes.extend(refs.iter().map(|block| [REF, 1, 0, *block, 0, 0]));
        }
        for (start, end, block) in ranges {
            nodes.push([RANGE, 3, 2, 0, *block, 0]);
            nodes.push([INT, 1, 0, *start, 0, 0]);
            nodes.push([INT, 1, 0, *end, 0, 0]);
        }
        nodes[0][1] = nodes.len() as u32;
        number(&with_positions(&nodes, &["eval"], &[]))
    };
    // Blocks that nothing names.
    assert_eq!(run(0, &[], &[]), 0);
    assert_eq!(run(0, &[&[0]], &[(0, 9, 0)]), 0);
    // Guards and bodies that are named.
    assert_eq!(run(0, &[&[1]], &[]), 9);
    assert_eq!(run(0, &[&[2]], &[]), 9);
    assert_eq!(run(0, &[], &[(0, 9, 1)]), 9);
    // Behind a constant true guard.
    assert_eq!(run(0, &[&[3, 1, 2]], &[]), 0);
    assert_eq!(run(0, &[&[1, 3]], &[]), 9);
    // Behind its own constant false guard.
    assert_eq!(run(0, &[&[4]], &[]), 0);
    // Of an empty range.
    assert_eq!(run(0, &[], &[(5, 5, 1)]), 0);
    assert_eq!(run(0, &[], &[(9, 3, 2)]), 0);
    // As the default: the body counts, the guard does not.
    assert_eq!(run(2, &[], &[]), 0);
    assert_eq!(run(3, &[], &[]), 9);
    assert_eq!(run(5, &[], &[]), 9);
}

// ---- 10 ----

/// [Coalesce of k Units, then r Units]: emits 3k + 2r.
fn emitting(emitted: u32) -> Vec<[u32; 6]> {
    let rest = (0..3)
        .find(|rest| (emitted - 2 * rest).is_multiple_of(3))
        .unwrap();
    let operands = (emitted - 2 * rest) / 3;
    let mut nodes = vec![[ARRAY, operands + rest + 2, rest + 1, 0, 0, 0]];
    nodes.push([COALESCE, operands + 1, operands, 0, 0, 0]);
    nodes.extend(std::iter::repeat_n(U, (operands + rest) as usize));
    nodes
}

#[test]
fn number_10() {
    assert_eq!(number(&with_positions(&emitting(262_143), &[], &[])), 0);
    assert_eq!(number(&with_positions(&emitting(262_144), &[], &[])), 10);
    // All nodes there are: 2 * 131,069 + 5.
    let mut nodes = vec![[ARRAY, 131_072, 2, 0, 0, 0]];
    for count in [65_535u32, 65_534] {
        nodes.push([ARRAY, count + 1, count, 0, 0, 0]);
        nodes.extend(std::iter::repeat_n(U, count as usize));
    }
    assert_eq!(number(&with_positions(&nodes, &[], &[])), 0);
    // What a failed chain takes back counts: [100 elements].eval() of an index.
    // x[ .. ].eval(): the index emits, then the method fails, then EvalAst.
    for (emitted, expected) in [(262_142, 0), (262_143, 10)] {
        let index = emitting(emitted);
        let count = index.len() as u32;
        let mut nodes = vec![[INDEX, count + 4, 2, 0, 0, 0], [THIS, 1, 0, 0, 0, 0]];
        nodes.push([DOT, count + 2, 2, 0, 0, 0]);
        nodes.extend(index);
        nodes.push([METHOD, 1, 0, 0, 0, 0]);
        assert_eq!(number(&with_positions(&nodes, &["eval"], &[])), expected);
    }
}

#[test]
fn number_10_with_repeated_guards() {
    // One block, guard of g, body Unit, no default; cases with 1 to 64 Refs:
    // 2,080 mentions. Emitted: subject s, Switch, (g + 1) a mention, a jump a
    // list, body and jump, Unit, Rotate, Pop.
    for over in [0u32, 1] {
        let guard = emitting(50);
        let fixed = 1 + 2_080 * 51 + 64 + 2 + 1 + 2;
        let subject = emitting(262_143 + over - fixed);
        let mut nodes = vec![[SWITCH, 0, 3 + 64, 1, 64, 0]];
        nodes.extend(&subject);
        nodes.extend(&guard);
        nodes.push(U);
        for case in 1..=64u32 {
            nodes.push([CASE, case + 2, case + 1, 0, 0, 0]);
            nodes.push([INT, 1, 0, case, 0, 0]);
            nodes.extend(std::iter::repeat_n([REF, 1, 0, 0, 0, 0], case as usize));
        }
        nodes[0][1] = nodes.len() as u32;
        let expected = if over == 1 { 10 } else { 0 };
        assert_eq!(number(&with_positions(&nodes, &[], &[])), expected);
    }
}

#[test]
fn number_9_before_10() {
    // The `eval` comes after far too many instructions.
    let mut nodes = vec![[ARRAY, 0, 2, 0, 0, 0]];
    nodes.extend(emitting(300_000));
    nodes.push(EVAL);
    nodes[0][1] = nodes.len() as u32;
    assert_eq!(eval_in(&nodes), 9);
    nodes.pop();
    nodes.push(U);
    assert_eq!(eval_in(&nodes), 10);
}

// ---- 11 and 12 ----

#[test]
fn number_11() {
    // And of Bool 1: 5 emitted, 2 nodes, so 16 * 5 + 16 * 2 + 4096 = 4208.
    let sheet = with_positions(&[[AND, 2, 1, 0, 0, 0], [BOOL, 1, 0, 1, 0, 0]], &[], &[]);
    for (words, expected) in [(0, 11), (4_207, 11), (4_208, 0), (4_209, 0)] {
        let mut image = vec![7; 37];
        let mut scratch = vec![7; words];
        let (number, count) = oracle::lower(&sheet, &mut image, &mut scratch);
        assert_eq!(number, expected);
        if expected == 0 {
            assert_eq!(count, 37);
            assert!(scratch.iter().all(|word| *word == 0));
        } else {
            assert_eq!(count, 0);
            assert!(image.iter().chain(&scratch).all(|word| *word == 7));
        }
    }
    // A taken back instruction counts: the default's jump. 6 emitted, 4 nodes.
    let sheet = switch(1, 0, 1, 0, &[]);
    for (words, expected) in [(16 * 6 + 16 * 4 + 4_095, 11), (16 * 6 + 16 * 4 + 4_096, 0)] {
        let mut image = vec![7; 100];
        let mut scratch = vec![7; words];
        assert_eq!(oracle::lower(&sheet, &mut image, &mut scratch).0, expected);
    }
}

#[test]
fn number_12() {
    // The same And: 12 + 5 * 4 + 5 = 37 words.
    let sheet = with_positions(&[[AND, 2, 1, 0, 0, 0], [BOOL, 1, 0, 1, 0, 0]], &[], &[]);
    for (words, expected) in [(0, 12), (36, 12), (37, 0), (38, 0)] {
        let mut image = vec![7; words];
        let mut scratch = vec![7; 4_208];
        let (number, count) = oracle::lower(&sheet, &mut image, &mut scratch);
        assert_eq!(number, expected);
        assert!(scratch.iter().all(|word| *word == 0));
        if expected == 0 {
            assert_eq!(count, 37);
            assert!(image[37..].iter().all(|word| *word == 7));
        } else {
            assert_eq!(count, 0);
            assert!(image.iter().all(|word| *word == 7));
        }
    }
    // 11 goes before 12.
    let (mut image, mut scratch) = (vec![7; 0], vec![7; 4_207]);
    assert_eq!(oracle::lower(&sheet, &mut image, &mut scratch).0, 11);
}

// ---- what a sheet needs ----

/// The number and the scratch words of a need, tried with exactly that much
/// scratch and with one word less.
fn need(sheet: &[u8]) -> (u32, u64) {
    let (number, words) = oracle::needs(sheet);
    if number == 0 {
        let answer = |scratch| oracle::lower(sheet, &mut [], &mut vec![7; scratch]).0;
        assert_eq!(answer(words as usize), 12);
        assert_eq!(answer(words as usize - 1), 11);
    }
    (number, words)
}

#[test]
fn needs_by_counts() {
    // One node and one instruction.
    assert_eq!(need(&with_positions(&[U], &[], &[])), (0, 16 + 16 + 4_096));
    // Those taken back count: 6 emitted, 4 nodes.
    let switch = switch(1, 0, 1, 0, &[]);
    assert_eq!(need(&switch), (0, 16 * 6 + 16 * 4 + 4_096));
    // Cases with the lists [0] and [0, 0]: subject and Switch; the guard and
    // its JumpIfTrue for each mention, and a jump behind each list; body and
    // jump; Unit, Rotate and Pop.
    let mut nodes = vec![[SWITCH, 11, 5, 1, 2, 0], U, [THIS, 1, 0, 0, 0, 0], U];
    for refs in [1u32, 2] {
        nodes.push([CASE, refs + 2, refs + 1, 0, 0, 0]);
        nodes.push([INT, 1, 0, refs, 0, 0]);
        nodes.extend(std::iter::repeat_n([REF, 1, 0, 0, 0, 0], refs as usize));
    }
    let emitted = 2 + (2 + 1) + (2 * 2 + 1) + 2 + 3;
    assert_eq!(
        need(&with_positions(&nodes, &[], &[])),
        (0, 16 * emitted + 16 * 11 + 4_096)
    );
    // The most that any sheet needs is below this.
    let (number, words) = need(&with_positions(&emitting(262_143), &[], &[]));
    assert_eq!(number, 0);
    assert!(words < 16 * 262_143 + 16 * 131_072 + 4_096);
}

#[test]
fn needs_refused() {
    assert_eq!(need(&[]), (1, 0));
    assert_eq!(need(&named(&own_names(1)[..1], &[])), (14, 0));
    assert_eq!(need(&named(&[W], &[1])), (14, 0));
    assert_eq!(need(&with_positions(&[EVAL], &TEXTS, &[])), (9, 0));
    assert_eq!(need(&with_positions(&emitting(262_144), &[], &[])), (10, 0));
}

// ---- several causes at once ----

#[test]
fn the_first_number_wins() {
    // A switch with a cause of each number from 2 to 8, and 14; taking one away
    // shows the next. `empty` is the node or local with the empty name.
    let build = |causes: &[u32], empty: Option<[u32; 8]>| {
        let has = |number: u32| causes.contains(&number);
        let k = if has(6) { 65 } else { 2 };
        let mut nodes = vec![full([SWITCH, 0, 0, k, 2, 0], 0, 0)];
        let mut node = |node: [u32; 6]| nodes.push(full(node, 0, 0));
        // The subject, 64 levels where 5 is asked for, which with node 0 is 65.
        let levels = if has(5) { 64 } else { 1 };
        for level in 0..levels {
            let last = level + 1 == levels;
            node(match last {
                true if has(8) => [23, 1, 0, 0, 0, 0],
                true => U,
                false => [AND, levels - level, 1, 0, 0, 0],
            });
        }
        for block in 0..k {
            node(match block {
                0 if has(4) => [VARIABLE, 1, 0, 9, 0, 0],
                _ => U,
            });
            node(if has(2) { [UNIT, 1, 0, 1, 0, 0] } else { U });
        }
        for value in 0..2 {
            node([CASE, 2, 1, 0, 0, 0]);
            node([INT, 1, 0, if has(7) { 4 } else { value }, 0, 0]);
        }
        nodes[0][1] = nodes.len() as u32;
        nodes[0][2] = 1 + 2 * k + 2;
        let mut locals = vec![0];
        match empty {
            Some(node) if has(14) => {
                // The guard of block 1.
                nodes[1 + levels as usize + 2] = node;
            }
            None if has(14) => locals.push(1),
            _ => (),
        }
        let positions = vec![1; nodes.len()];
        let mut sheet = sheet_of(&nodes, &positions, &["x", ""], &locals);
        if has(3) {
            // The length of text 0.
            set_word(&mut sheet, 4 + 9 * nodes.len() + 2, 2);
        }
        if has(1) {
            sheet.push(0);
        }
        number(&sheet)
    };
    let order = [1, 2, 3, 4, 14, 5, 6, 7, 8];
    let names = [
        None,
        Some([VARIABLE, 1, 0, 1, 0, 0, 0, 0]),
        Some([VARIABLE, 1, 0, 1, 0, 0, 1, 9]),
        Some([PROPERTY, 1, 0, 1, 0, 0, 0, 0]),
        Some([METHOD, 1, 0, 1, 0, 0, 0, 0]),
        Some([CALL, 1, 0, 1, 0, 0, 0, 0]),
        Some([CALL, 1, 0, 1, 0, 0, 1, 9]),
    ];
    for empty in names {
        assert_eq!(build(&[], empty), 0);
        for (first, number) in order.into_iter().enumerate() {
            assert_eq!(build(&[number], empty), number);
            assert_eq!(build(&order[first..], empty), number);
            for later in &order[first + 1..] {
                assert_eq!(build(&[number, *later], empty), number, "{later}");
            }
        }
    }
}

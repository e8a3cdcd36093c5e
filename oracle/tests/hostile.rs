//! Sheets made to be slow: they must still get their answer soon.

mod common;
use common::*;
use std::time::{Duration, Instant};

fn soon<T>(what: &str, run: impl FnOnce() -> T) -> T {
    let start = Instant::now();
    let result = run();
    let took = start.elapsed();
    println!("{what}: {took:?}");
    assert!(took < Duration::from_secs(30), "{what} took {took:?}");
    result
}

/// An interpolation of these leaves, with texts given as start and length.
fn leaves(kinds: &[u32], texts: &[(u32, u32)], bytes: &[u8], locals: usize) -> Vec<u8> {
    let count = texts.len() as u32;
    let n = count + 1;
    let mut words = vec![n, count, bytes.len() as u32, locals as u32];
    words.extend([INTERPOLATED, n, count, 0, 0, 0, 0, 0]);
    for text in 0..count {
        words.extend([kinds[text as usize % kinds.len()], 1, 0, text, 0, 0, 0, 0]);
    }
    words.extend(std::iter::repeat_n(9, n as usize));
    words.extend(texts.iter().map(|text| text.0));
    words.extend(texts.iter().map(|text| text.1));
    let mut out: Vec<u8> = words.iter().flat_map(|word| word.to_le_bytes()).collect();
    out.extend_from_slice(bytes);
    while !out.len().is_multiple_of(4) {
        out.push(0);
    }
    for local in 0..locals {
        out.extend_from_slice(&(local as u32 % count).to_le_bytes());
    }
    out
}

#[test]
fn texts_over_the_same_bytes() {
    // Each text has almost all of the bytes.
    let bytes = vec![b'a'; 1 << 20];
    let texts: Vec<(u32, u32)> = (0..65_536)
        .map(|start| (start, (1 << 20) - start))
        .collect();
    let sheet = leaves(&[VARIABLE, STRING, CALL], &texts, &bytes, 65_535);
    assert_eq!(
        soon("different lengths, check", || oracle::check(&sheet)),
        0
    );
    let image = soon("different lengths, lower", || {
        oracle::lower_sheet(&sheet).ok().unwrap()
    });
    // Texts 1, 4, .. are Strings and 2, 5, .. calls, 21,845 of each. The
    // variables are locals and pool no name, but for the last one: local
    // 65,534 is the last local, and its text is the last but one.
    assert_eq!(image.words[1], 21_845);
    assert_eq!(image.words[2], 21_845 + 1);
}

#[test]
fn equal_long_texts() {
    let bytes = vec![b'a'; 1 << 17];
    let texts: Vec<(u32, u32)> = (0..65_536).map(|start| (start, 1 << 16)).collect();
    let sheet = leaves(&[VARIABLE, STRING, CALL], &texts, &bytes, 65_535);
    assert_eq!(soon("equal texts, check", || oracle::check(&sheet)), 0);
    let image = soon("equal texts, lower", || {
        oracle::lower_sheet(&sheet).ok().unwrap()
    });
    assert_eq!(image.words[1..3], [1, 1]);
}

#[test]
fn texts_that_differ_in_the_middle() {
    let mut bytes = Vec::new();
    let mut texts = Vec::new();
    for index in 0..65_536 {
        let text = format!("{}{index:06}{}", "b".repeat(5), "c".repeat(5));
        texts.push((bytes.len() as u32, text.len() as u32));
        bytes.extend_from_slice(text.as_bytes());
    }
    let sheet = leaves(&[VARIABLE, STRING, CALL], &texts, &bytes, 65_535);
    assert_eq!(soon("middles, check", || oracle::check(&sheet)), 0);
    soon("middles, lower", || {
        oracle::lower_sheet(&sheet).ok().unwrap()
    });
}

/// An Interpolated of a Variable for each namespace and own name, texts given as
/// start and length.
fn qualified(names: &[[(u32, u32); 2]], bytes: &[u8]) -> Vec<u8> {
    let count = names.len() as u32;
    let mut words = vec![count + 1, 2 * count, bytes.len() as u32, 0];
    words.extend([INTERPOLATED, count + 1, count, 0, 0, 0, 0, 0]);
    for name in 0..count {
        words.extend([VARIABLE, 1, 0, 2 * name + 1, 0, 0, 2 * name + 1, 5]);
    }
    words.extend(vec![9; names.len() + 1]);
    words.extend(names.iter().flatten().map(|text| text.0));
    words.extend(names.iter().flatten().map(|text| text.1));
    let mut out: Vec<u8> = words.iter().flat_map(|word| word.to_le_bytes()).collect();
    out.extend_from_slice(bytes);
    while !out.len().is_multiple_of(4) {
        out.push(0);
    }
    out
}

/// One line of 1 MiB with a separator in every 32 bytes: all cuts give one name,
/// and two names where every second one leaves out the last byte.
#[test]
fn names_that_are_cut_elsewhere() {
    let line = format!("{}::", "a".repeat(30)).repeat(1 << 15);
    let end = line.len() as u32;
    for (less, expected) in [(0, 1), (1, 2)] {
        let names: Vec<[(u32, u32); 2]> = (1..1 << 15)
            .map(|cut| {
                let at = 32 * cut - 2;
                [(0, at), (at + 2, end - at - 2 - cut % 2 * less)]
            })
            .collect();
        let sheet = qualified(&names, line.as_bytes());
        assert_eq!(soon("cuts, check", || oracle::check(&sheet)), 0);
        let image = soon("cuts, lower", || oracle::lower_sheet(&sheet).ok().unwrap());
        assert_eq!(image.words[2], expected);
    }
}

/// Long namespaces of equal bytes at other places, with one own name.
#[test]
fn namespaces_at_other_places() {
    let mut bytes = vec![b'a'; 1 << 20];
    bytes[(1 << 20) - 1] = b'v';
    let names: Vec<[(u32, u32); 2]> = (0..20_000)
        .map(|start| [(start, 1 << 18), ((1 << 20) - 1, 1)])
        .collect();
    let sheet = qualified(&names, &bytes);
    assert_eq!(soon("places, check", || oracle::check(&sheet)), 0);
    let image = soon("places, lower", || {
        oracle::lower_sheet(&sheet).ok().unwrap()
    });
    assert_eq!(image.words[2], 1);
}

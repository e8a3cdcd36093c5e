//! Sheets at the limits of document 01 and one past them.
//!
//! An even index stands at the limit, the odd one after it one past it.

use crate::draft::Draft;
use crate::format::*;
use crate::random::Random;

/// The edges, in the order in which the indices take them.
pub const EDGES: &[&str] = &[
    "depth",
    "deepest tree, alone and with a cause that goes before it",
    "ranges",
    "cases",
    "blocks",
    "refs in one case",
    "arguments of a call",
    "arguments of `call`",
    "arguments of a method",
    "arguments of the method `call`",
    "elements of an array",
    "emitted by an expression",
    "emitted by repeated guards",
    "far too many emitted, alone and with an `eval`",
    "nodes",
    "texts",
    "text bytes",
    "locals",
    "an array of 65,535 behind one argument",
    "texts that overlap",
    "scratch of the program `lower`",
    "many names, constants, chains and locals",
    "arguments of a qualified call",
    "many names with namespaces, equal and not",
    "name of the last of 65,535 locals",
    "name of the last of 131,072 nodes",
    "the last of 65,536 texts, without bytes",
    "far too many emitted, beside an empty String and an empty name",
];

/// The sheet for an index; there are two for each edge. An own name without bytes
/// is past an edge, a text without bytes that is none is at it.
pub fn sheet(index: u64, mut random: Random) -> Vec<u8> {
    let edge = (index / 2) as usize % EDGES.len();
    let over = index % 2 == 1;
    let more = usize::from(over);
    let mut draft = Draft::new();
    match edge {
        0 => deep(&mut draft, &mut random, MAX_DEPTH + more),
        1 => return deepest(&mut random, over),
        2 => arms(&mut draft, &mut random, 3, 2, MAX_ARMS as usize + more, 2),
        3 => arms(&mut draft, &mut random, 3, MAX_ARMS as usize + more, 2, 2),
        4 => arms(&mut draft, &mut random, MAX_ARMS as usize + more, 2, 2, 2),
        5 => arms(&mut draft, &mut random, 3, 2, 2, MAX_ARMS as usize + more),
        6 => call(&mut draft, &mut random, b"g", 255 + more),
        7 => call(&mut draft, &mut random, KEYWORD_FN_PTR_CALL, 256 + more),
        8 => method(&mut draft, &mut random, b"m", 255 + more),
        9 => method(&mut draft, &mut random, KEYWORD_FN_PTR_CALL, 255 + more),
        10 => array(&mut draft, 65_535 + more),
        11 => {
            if over || random.chance(1, 2) {
                fill(&mut draft, MAX_EMITTED as usize + more);
            } else {
                // Two arrays with all the nodes there are: 2 * 131,069 + 5.
                draft.open(ARRAY, [0, 0, 0], 1);
                array(&mut draft, 65_535);
                array(&mut draft, 65_534);
                draft.close();
            }
        }
        12 => repeated(&mut draft, &mut random, MAX_EMITTED as usize + more),
        13 => far_too_many(&mut draft, &mut random, over),
        14 => {
            // Two levels, so that no array is too long.
            let nodes = MAX_NODES as usize + more;
            draft.open(INTERPOLATED, [0, 0, 0], 1);
            for _ in 1..nodes {
                draft.leaf(UNIT, [0, 0, 0], 2);
            }
            draft.close();
        }
        15 => many_texts(&mut draft, &mut random, MAX_TEXTS as usize + more),
        16 => {
            let bytes = MAX_TEXT_BYTES as usize + more;
            let text = long_text(bytes);
            draft.text(&text);
            draft.leaf(STRING, [0, 0, 0], 1);
        }
        17 => {
            let locals = MAX_LOCALS as usize + more;
            for name in ["x", "y", "z"] {
                draft.text(name.as_bytes());
            }
            draft.locals = (0..locals)
                .map(|slot| u32::from(slot > 3) + u32::from(slot == 7))
                .collect();
            draft.open(ARRAY, [0, 0, 0], 1);
            for text in 0..3 {
                draft.leaf(VARIABLE, [text, 0, 0], 2);
            }
            draft.close();
        }
        18 => {
            let name = draft.text(b"g");
            draft.open(FN_CALL, [name, 0, 0], 1);
            draft.leaf(UNIT, [0, 0, 0], 2);
            array(&mut draft, 65_535 - more);
            draft.close();
        }
        19 => overlapping(&mut draft, &mut random, over),
        20 => {
            // Emitted plus nodes are 768 or 769; each Unit in an array is 3 of
            // them, the array itself 2, and each Array around it 3 more.
            let mut left = 768 + more - 2;
            let mut wraps = 0;
            while left % 3 != 0 {
                // A Coalesce of one child emits nothing itself: 1.
                left -= 1;
                wraps += 1;
            }
            for _ in 0..wraps {
                draft.open(COALESCE, [0, 0, 0], 1);
            }
            array(&mut draft, left / 3);
            for _ in 0..wraps {
                draft.close();
            }
        }
        21 => crowded(&mut draft, &mut random, over),
        22 => {
            call(&mut draft, &mut random, b"g", 255 + more);
            let space = draft.text(b"m");
            (draft.nodes[0][6], draft.nodes[0][7]) = (space + 1, 9);
        }
        23 => spaces(&mut draft, &mut random, over),
        24 => last_local(&mut draft, &mut random, over),
        25 => last_node(&mut draft, &mut random, over),
        26 => last_text(&mut draft, &mut random, over),
        _ => {
            far_too_many(&mut draft, &mut random, false);
            let name = draft.text(b"");
            let last = draft.nodes.iter().rposition(|node| node[0] == THIS);
            let guard = last.expect("a guard");
            let kind = if over { VARIABLE } else { STRING };
            draft.nodes[guard] = [kind, 1, 0, name, 0, 0, 0, 0];
        }
    }
    draft.to_bytes()
}

fn unit(draft: &mut Draft) {
    draft.leaf(UNIT, [0, 0, 0], 3);
}

/// An array of Units: emits `2 * count + 1`.
fn array(draft: &mut Draft, count: usize) {
    draft.open(ARRAY, [0, 0, 0], 4);
    for _ in 0..count {
        unit(draft);
    }
    draft.close();
}

/// An expression that emits exactly `emitted`, which is at least 5.
fn fill(draft: &mut Draft, emitted: usize) {
    // A Coalesce of k Units emits 3k - 2. In an array with r Units beside it
    // the whole emits 3k + 2r.
    let mut rest = 0;
    while !(emitted - 2 * rest).is_multiple_of(3) {
        rest += 1;
    }
    let operands = (emitted - 2 * rest) / 3;
    draft.open(ARRAY, [0, 0, 0], 1);
    draft.open(COALESCE, [0, 0, 0], 2);
    for _ in 0..operands {
        unit(draft);
    }
    draft.close();
    for _ in 0..rest {
        unit(draft);
    }
    draft.close();
}

fn deep(draft: &mut Draft, random: &mut Random, levels: usize) {
    for _ in 1..levels {
        let kind = *random.pick(&[AND, OR, COALESCE, ARRAY, INTERPOLATED, DOT, INDEX]);
        draft.open(kind, [0, 0, 0], random.word());
        if matches!(kind, DOT | INDEX) && random.chance(1, 2) {
            unit(draft);
        }
    }
    unit(draft);
    for _ in 1..levels {
        let (kind, count) = draft.innermost();
        if matches!(kind, DOT | INDEX) && count < 2 {
            unit(draft);
        }
        draft.close();
    }
}

/// As many levels as nodes, so 5; with a cause of 2 to 4 or of 14 added, that one.
fn deepest(random: &mut Random, over: bool) -> Vec<u8> {
    let mut draft = Draft::new();
    let levels = MAX_NODES as usize;
    draft.text(b"x");
    for _ in 1..levels {
        let kind = *random.pick(&[AND, OR, COALESCE, ARRAY, INTERPOLATED]);
        draft.open(kind, [0, 0, 0], 1);
    }
    draft.leaf(VARIABLE, [0, 0, 0], 1);
    for _ in 1..levels {
        draft.close();
    }
    if over {
        let last = levels - 1;
        match random.below(5) {
            0 => draft.nodes[last][2] = 1,
            1 => draft.texts[0] = (1, 1),
            2 => draft.nodes[last][3] = 1,
            3 => draft.texts[0].1 = 0,
            _ => draft.nodes[last][0] = 26,
        }
    }
    draft.to_bytes()
}

fn arms(
    draft: &mut Draft,
    random: &mut Random,
    blocks: usize,
    cases: usize,
    ranges: usize,
    refs: usize,
) {
    let default = random.below(blocks + 1) as u32;
    draft.open(SWITCH, [blocks as u32, cases as u32, default], 1);
    unit(draft);
    for _ in 0..blocks {
        match random.below(3) {
            0 => draft.leaf(THIS, [0, 0, 0], 2),
            1 => draft.leaf(BOOL, [0, 0, 0], 2),
            _ => draft.leaf(BOOL, [1, 0, 0], 2),
        }
        draft.leaf(UNIT, [0, 0, 0], 3);
    }
    for case in 0..cases {
        draft.open(CASE, [0, 0, 0], 4);
        draft.int(case as i64 - 5, 4);
        let count = if case == 0 { refs } else { random.below(3) };
        for _ in 0..count {
            draft.leaf(REF, [random.below(blocks) as u32, 0, 0], 5);
        }
        draft.close();
    }
    let nested = random.chance(1, 2);
    for range in 0..ranges {
        let (start, end) = if nested {
            (range as i64, 200 - range as i64)
        } else {
            (random.below(100) as i64, random.below(120) as i64)
        };
        draft.open(
            RANGE,
            [random.below(2) as u32, random.below(blocks) as u32, 0],
            6,
        );
        draft.int(start, 7);
        draft.int(end, 8);
        draft.close();
    }
    draft.close();
}

fn call(draft: &mut Draft, random: &mut Random, name: &[u8], count: usize) {
    let name = draft.text(name);
    let variable = draft.text(b"v");
    let eval = draft.text(KEYWORD_EVAL);
    if random.chance(1, 2) {
        draft.locals.push(variable);
    }
    let with_eval = random.chance(1, 3);
    draft.open(FN_CALL, [name, random.below(2) as u32, 0], 1);
    match random.below(3) {
        0 => unit(draft),
        1 => draft.leaf(THIS, [0, 0, 0], 2),
        _ => draft.leaf(VARIABLE, [variable, 0, 0], 2),
    }
    for index in 1..count {
        if with_eval && index + 1 == count {
            draft.leaf(FN_CALL, [eval, 0, 0], 3);
        } else {
            draft.int(index as i64 % 4, 3);
        }
    }
    draft.close();
}

fn method(draft: &mut Draft, random: &mut Random, name: &[u8], count: usize) {
    let name = draft.text(name);
    let variable = draft.text(b"v");
    if random.chance(1, 2) {
        draft.locals.push(variable);
    }
    draft.open(DOT, [random.below(4) as u32, 0, 0], 1);
    match random.below(3) {
        0 => draft.leaf(THIS, [0, 0, 0], 2),
        1 => array(draft, 2),
        _ => draft.leaf(VARIABLE, [variable, 0, 0], 2),
    }
    draft.open(METHOD_CALL, [name, 0, 0], 3);
    for index in 0..count {
        draft.int(index as i64 % 4, 3);
    }
    draft.close();
    draft.close();
}

/// A switch whose guards are repeated until exactly `emitted` is reached.
fn repeated(draft: &mut Draft, random: &mut Random, emitted: usize) {
    // Cases i has i Refs to block 0: 1 + .. + cases mentions, and each list
    // ends with a jump. Then the body with its jump, a Unit if there is no
    // default, and two more; the first Switch and the subject make up the rest.
    let cases = random.between(20, 64);
    let guard = random.between(5, 100);
    let mentions = cases * (cases + 1) / 2;
    let default = random.below(2);
    let fixed = 1 + mentions * (guard + 1) + cases + 2 + usize::from(default == 0) + 2;
    draft.open(SWITCH, [1, cases as u32, default as u32], 1);
    fill(draft, emitted - fixed);
    fill(draft, guard);
    unit(draft);
    for case in 1..=cases {
        draft.open(CASE, [0, 0, 0], 4);
        draft.int(case as i64, 4);
        for _ in 0..case {
            draft.leaf(REF, [0, 0, 0], 5);
        }
        draft.close();
    }
    draft.close();
}

/// 64 cases of 64 Refs and 64 staggered ranges over one long guard: about
/// 4,100,000,000 instructions. Nothing of a sheet emits over 4 for a node, and
/// at most 8,192 mentions are in distinct lists, so there is little above it.
fn far_too_many(draft: &mut Draft, random: &mut Random, with_eval: bool) {
    let eval = draft.text(KEYWORD_EVAL);
    draft.open(SWITCH, [64, 64, 0], 1);
    unit(draft);
    // Guard 0: a Coalesce of empty interpolations, 4 for each.
    draft.open(COALESCE, [0, 0, 0], 2);
    for _ in 0..126_000 {
        draft.leaf(INTERPOLATED, [0, 0, 0], 3);
    }
    draft.close();
    unit(draft);
    for block in 1..64 {
        draft.leaf(THIS, [0, 0, 0], 2);
        if block == 63 && with_eval {
            draft.leaf(FN_CALL, [eval, 0, 0], 3);
        } else {
            unit(draft);
        }
    }
    let last = random.below(64);
    for case in 0..64 {
        draft.open(CASE, [0, 0, 0], 4);
        draft.int(case as i64, 4);
        for index in 0..64 {
            let block = match index == case {
                true if case == last => 63,
                true => 1,
                false => 0,
            };
            draft.leaf(REF, [block, 0, 0], 5);
        }
        draft.close();
    }
    for range in 0..64i64 {
        draft.open(RANGE, [1, u32::from(range == 0), 0], 6);
        draft.int(range, 7);
        draft.int(range + 64, 8);
        draft.close();
    }
    draft.close();
}

fn long_text(bytes: usize) -> Vec<u8> {
    let mut text = "日本é𝄞".as_bytes().repeat(bytes / 12);
    text.resize(bytes, b'x');
    text
}

fn many_texts(draft: &mut Draft, random: &mut Random, texts: usize) {
    for index in 0..texts {
        draft.text(index.to_string().as_bytes());
    }
    draft.open(ARRAY, [0, 0, 0], 1);
    draft.leaf(STRING, [(texts - 1) as u32, 0, 0], 2);
    draft.leaf(VARIABLE, [random.below(texts) as u32, 0, 0], 2);
    draft.close();
}

/// Many long texts over the same bytes; past the edge, one that is malformed.
fn overlapping(draft: &mut Draft, random: &mut Random, over: bool) {
    let bytes = 12 * 10_000;
    draft.bytes = long_text(bytes);
    for _ in 0..20_000 {
        // Starts 0, 3, 6 and 8 of each twelve begin a character.
        let start = 12 * random.below(10_000) + *random.pick(&[0, 3, 6, 8]);
        let end = 12 * random.below(10_001);
        let (start, end) = if start <= end {
            (start, end)
        } else {
            (end, 12 * (start / 12))
        };
        draft.texts.push((start as u32, (end - start) as u32));
    }
    if over {
        draft.texts[random.below(20_000)] = (12 * random.below(5_000) as u32 + 1, 60_000);
    }
    draft.leaf(UNIT, [0, 0, 0], 1);
}

/// Thousands of qualified variables and calls. The joined names are cut out of
/// one line of separators and letters, so that many are equal though their
/// parts differ; past the edge each has its own first letters.
fn spaces(draft: &mut Draft, random: &mut Random, over: bool) {
    let line = "a::b::a:::b::c::".repeat(60);
    draft.bytes = line.into_bytes();
    let cuts: Vec<usize> = (1..draft.bytes.len() - 2)
        .filter(|at| draft.bytes[*at..].starts_with(b"::"))
        .collect();
    let mut whole = |draft: &mut Draft, index: usize| {
        let start = if over { random.below(400) } else { 0 };
        let cut = *random.pick(&cuts);
        let cut = cut.max(start + 1);
        let end = (cut + 2 + 16 * (1 + index % 40)).min(draft.bytes.len());
        draft.texts.push((start as u32, (cut - start) as u32));
        draft
            .texts
            .push((cut as u32 + 2, (end - cut).saturating_sub(2) as u32));
    };
    for index in 0..4_000 {
        whole(draft, index);
    }
    draft.open(INTERPOLATED, [0, 0, 0], 1);
    for index in 0..4_000u32 {
        let (space, name) = (2 * index, 2 * index + 1);
        if index % 3 == 0 {
            let capture = u32::from(index % 2 == 0);
            draft.leaf_in(FN_CALL, [name, capture, 0], 2, (space, index));
        } else {
            draft.leaf_in(VARIABLE, [name, 0, 0], 3, (space, index));
        }
    }
    draft.close();
}

/// All locals there may be; past the edge the last one has a name without bytes.
fn last_local(draft: &mut Draft, random: &mut Random, over: bool) {
    let [name, none] = [&b"x"[..], b""].map(|text| draft.text(text));
    draft.locals = vec![name; MAX_LOCALS as usize];
    if over {
        draft.locals[MAX_LOCALS as usize - 1] = none;
    }
    match random.below(3) {
        0 => unit(draft),
        1 => draft.leaf(VARIABLE, [name, 0, 0], 1),
        _ => draft.leaf(STRING, [none, 0, 0], 1),
    }
}

/// A node of a kind that has an own name, qualified or not.
fn named_leaf(draft: &mut Draft, random: &mut Random, name: u32, other: u32) {
    match random.below(6) {
        0 => draft.leaf(VARIABLE, [name, 0, 0], 2),
        1 => draft.leaf_in(VARIABLE, [name, 0, 0], 2, (other, 3)),
        2 => draft.leaf(PROPERTY, [name, other, other], 2),
        3 => draft.leaf(METHOD_CALL, [name, 0, 0], 2),
        4 => draft.leaf(FN_CALL, [name, 0, 0], 2),
        _ => draft.leaf_in(FN_CALL, [name, 0, 0], 2, (other, 3)),
    }
}

/// All nodes there may be, each but the first with an own name, in an Array that is
/// too long to be lowered; past the edge the last name has no bytes.
fn last_node(draft: &mut Draft, random: &mut Random, over: bool) {
    let [name, none] = [&b"x"[..], b""].map(|text| draft.text(text));
    draft.open(ARRAY, [0, 0, 0], 1);
    for _ in 2..MAX_NODES {
        named_leaf(draft, random, name, none);
    }
    named_leaf(draft, random, if over { none } else { name }, name);
    draft.close();
}

/// All texts there may be, of which only the last has no bytes; past the edge it is
/// an own name.
fn last_text(draft: &mut Draft, random: &mut Random, over: bool) {
    for index in 1..MAX_TEXTS {
        draft.text(index.to_string().as_bytes());
    }
    let none = draft.text(b"");
    let name = random.below(none as usize) as u32;
    draft.open(ARRAY, [0, 0, 0], 1);
    draft.leaf(STRING, [none, 0, 0], 2);
    named_leaf(draft, random, name, none);
    if over {
        named_leaf(draft, random, none, name);
    }
    draft.close();
}

/// Pools with thousands of entries.
fn crowded(draft: &mut Draft, random: &mut Random, over: bool) {
    let names = 4_000;
    for index in 0..names {
        draft.text(format!("n{}", index % 3_500).as_bytes());
    }
    draft.locals = (0..1_000).map(|_| random.below(names) as u32).collect();
    draft.open(ARRAY, [0, 0, 0], 1);
    for index in 0..6_000u32 {
        let name = random.below(names) as u32;
        match index % 5 {
            0 => draft.int(random.below(3_000) as i64, index),
            1 => draft.leaf(STRING, [name, 0, 0], index),
            2 => draft.leaf(VARIABLE, [name, 0, 0], index),
            3 => {
                draft.open(DOT, [0, 0, 0], index);
                draft.leaf(VARIABLE, [name, 0, 0], index / 500);
                draft.leaf(PROPERTY, [name, name, name], if over { 1 } else { index });
                draft.close();
            }
            _ => {
                let capture = u32::from(over);
                draft.open(FN_CALL, [name, capture, random.below(900) as u32], index);
                draft.int(random.next() as i64, index);
                draft.close();
            }
        }
    }
    draft.close();
}

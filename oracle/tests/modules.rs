//! Names qualified by modules, request A2: images and numbers worked out by
//! hand. A2.1 and the like are the points of docs/DECISIONS.md.
//!
//! A node is kind, span, count, a, b, c, namespace text plus 1, namespace
//! position. Each image is: twelve sizes, code, positions, then the pools.

mod common;
use common::*;

/// The number of a sheet of these nodes, all at position 1.
fn number_of(nodes: &[[u32; 8]], texts: &[&str]) -> u32 {
    number(&sheet_of(nodes, &vec![1; nodes.len()], texts, &[]))
}

const U: [u32; 8] = [UNIT, 1, 0, 0, 0, 0, 0, 0];

// ---- A2.1: the layout ----

#[test]
fn a_qualified_variable_from_raw_bytes() {
    // N 1, X 2, B 2, L 0; Variable, span 1, no children, text 0, namespace text
    // 1, its position 77; the node's position 5; starts, lengths, `xm`.
    let mut bytes = Vec::new();
    for word in [
        1u32, 2, 2, 0, 9, 1, 0, 0, 0, 0, 2, 77, 5, 0, 1, 1, 1, 0x6D78,
    ] {
        bytes.extend_from_slice(&word.to_le_bytes());
    }
    // LoadNamed 0 at 77; the name is text 0, no mark, namespace text 1 plus 1.
    let image = [1, 0, 1, 0, 0, 0, 0, 0, 0, 0, 1, 1, 5, 0, 0, 0, 77, 0, 0, 2];
    assert_eq!(words(&bytes), image);
}

#[test]
fn six_words_a_node_are_refused() {
    // The same layout as before namespaces: 28 bytes for each node with its
    // position.
    let six = |nodes: &[[u32; 6]], positions: &[u32]| {
        let mut words = vec![nodes.len() as u32, 0, 0, 0];
        words.extend(nodes.iter().flatten());
        words.extend(positions);
        let bytes: Vec<u8> = words.iter().flat_map(|word| word.to_le_bytes()).collect();
        number(&bytes)
    };
    let unit = [UNIT, 1, 0, 0, 0, 0];
    assert_eq!(six(&[unit], &[0]), 1);
    assert_eq!(six(&[unit], &[9]), 1);
    let array = |count: u32| {
        let mut nodes = vec![[ARRAY, count + 1, count, 0, 0, 0]];
        nodes.extend(std::iter::repeat_n(unit, count as usize));
        nodes
    };
    for count in [1, 2, 3, 7, 100] {
        let positions = vec![0; count as usize + 1];
        assert_eq!(six(&array(count), &positions), 1);
    }
    // The same nodes with eight words.
    let mut nodes = vec![[ARRAY, 3, 2, 0, 0, 0, 0, 0]];
    nodes.extend([U, U]);
    assert_eq!(number_of(&nodes, &[]), 0);
}

// ---- A2.2: number 2 ----

/// The numbers of a sheet, as it is, with a namespace on one of its nodes,
/// with a namespace and a position, and with a position alone.
fn with_space(nodes: &[[u32; 8]], at: usize) -> [u32; 4] {
    let texts = ["x", "y"];
    let mut answers = [0; 4];
    for (answer, (space, position)) in answers.iter_mut().zip([(0, 0), (1, 0), (1, 7), (0, 7)]) {
        let mut nodes = nodes.to_vec();
        (nodes[at][6], nodes[at][7]) = (space, position);
        *answer = number_of(&nodes, &texts);
    }
    answers
}

#[test]
fn number_2_a_namespace_on_each_kind() {
    // Leaves and nodes without children: all kinds that may stand alone.
    for kind in [
        BOOL,
        UNIT,
        INT,
        FLOAT,
        CHAR,
        STRING,
        INTERPOLATED,
        ARRAY,
        THIS,
        PROPERTY,
        METHOD,
    ] {
        let node = [kind, 1, 0, 0, 0, 0, 0, 0];
        assert_eq!(with_space(&[node], 0), [0, 2, 2, 2], "kind {kind}");
    }
    // Variable and FnCall: only a position without a namespace is wrong.
    for kind in [VARIABLE, CALL] {
        let node = [kind, 1, 0, 0, 0, 0, 0, 0];
        assert_eq!(with_space(&[node], 0), [0, 0, 0, 2], "kind {kind}");
    }
    for kind in [AND, OR, COALESCE] {
        let nodes = [[kind, 2, 1, 0, 0, 0, 0, 0], U];
        assert_eq!(with_space(&nodes, 0), [0, 2, 2, 2], "kind {kind}");
    }
    for kind in [DOT, INDEX] {
        let nodes = [[kind, 3, 2, 0, 0, 0, 0, 0], U, U];
        assert_eq!(with_space(&nodes, 0), [0, 2, 2, 2], "kind {kind}");
    }
    // 8 without a namespace, 2 with one.
    for kind in [23, 24, 25] {
        let node = [kind, 1, 0, 0, 0, 0, 0, 0];
        assert_eq!(with_space(&[node], 0), [8, 2, 2, 2], "kind {kind}");
    }
    // Switch, Case, Ref, Range and the Ints below Case and Range.
    let nodes = [
        [SWITCH, 10, 5, 1, 1, 0, 0, 0],
        U,
        [THIS, 1, 0, 0, 0, 0, 0, 0],
        U,
        [CASE, 3, 2, 0, 0, 0, 0, 0],
        [INT, 1, 0, 4, 0, 0, 0, 0],
        [REF, 1, 0, 0, 0, 0, 0, 0],
        [RANGE, 3, 2, 0, 0, 0, 0, 0],
        [INT, 1, 0, 0, 0, 0, 0, 0],
        [INT, 1, 0, 9, 0, 0, 0, 0],
    ];
    for at in 0..nodes.len() {
        assert_eq!(with_space(&nodes, at), [0, 2, 2, 2], "node {at}");
    }
    // A guard that is a Variable, and a body that is an FnCall.
    let mut named = nodes;
    named[2][0] = VARIABLE;
    named[3][0] = CALL;
    for at in [2, 3] {
        assert_eq!(with_space(&named, at), [0, 0, 0, 2], "node {at}");
    }
}

#[test]
fn number_2_positions() {
    // Any position where the namespace is not 0, also where its text has no
    // bytes; none where it is 0.
    for kind in [VARIABLE, CALL] {
        for (space, position, expected) in [
            (0, 0, 0),
            (0, 1, 2),
            (0, 0x8000_0000, 2),
            (0, u32::MAX, 2),
            (1, 0, 0),
            (1, u32::MAX, 0),
            (2, 0, 0),
            (2, 1, 0),
            (2, u32::MAX, 0),
        ] {
            let node = [kind, 1, 0, 0, 0, 0, space, position];
            let answer = number_of(&[node], &["x", ""]);
            assert_eq!(answer, expected, "kind {kind}: {space} at {position}");
        }
    }
}

// ---- A2.3: numbers 3 and 4 ----

#[test]
fn number_4_namespaces() {
    for kind in [VARIABLE, CALL] {
        // Two texts: 0 and 1 exist, which are 1 and 2 here.
        for (space, expected) in [
            (0, 0),
            (1, 0),
            (2, 0),
            (3, 4),
            (0x8000_0000, 4),
            (u32::MAX, 4),
        ] {
            let node = [kind, 1, 0, 0, 0, 0, space, 0];
            assert_eq!(number_of(&[node], &["x", "y"]), expected, "{kind} {space}");
        }
        // One text only, and the own name is wrong too.
        for (text, space, expected) in [(0, 1, 0), (0, 2, 4), (1, 1, 4), (1, 2, 4)] {
            let node = [kind, 1, 0, text, 0, 0, space, 0];
            assert_eq!(number_of(&[node], &["x"]), expected);
        }
    }
    // Where nothing lowers it: below a MethodCall outside a chain.
    for (space, expected) in [(1, 0), (2, 4)] {
        let nodes = [
            [METHOD, 2, 1, 0, 0, 0, 0, 0],
            [VARIABLE, 1, 0, 0, 0, 0, space, 0],
        ];
        assert_eq!(number_of(&nodes, &["x"]), expected);
    }
}

#[test]
fn the_first_number_wins_with_namespaces() {
    // 1 before 2: a namespace on a Unit, and a byte more.
    let mut sheet = sheet_of(&[[UNIT, 1, 0, 0, 0, 0, 1, 0]], &[1], &["x"], &[]);
    assert_eq!(number(&sheet), 2);
    sheet.push(0);
    assert_eq!(number(&sheet), 1);
    // 2 before 3 and 4: a namespace that does not exist on a Unit, beside a
    // text past its bytes.
    let two = |kind: u32, space: u32, length: u8| {
        let node = [kind, 1, 0, 0, 0, 0, space, 0];
        let mut sheet = sheet_of(&[node], &[1], &["x"], &[]);
        // 4 sizes, 9 words of the node, the start; then the length.
        sheet[4 * (4 + 9 + 1)] = length;
        number(&sheet)
    };
    assert_eq!(two(UNIT, 9, 2), 2);
    // 3 before 4, and 4 alone.
    assert_eq!(two(VARIABLE, 9, 2), 3);
    assert_eq!(two(VARIABLE, 1, 2), 3);
    assert_eq!(two(VARIABLE, 9, 1), 4);
    assert_eq!(two(VARIABLE, 1, 1), 0);
    // 4 before 5: 65 levels with a variable at the bottom.
    let deep = |levels: u32, space: u32| {
        let mut nodes: Vec<[u32; 8]> = (1..levels)
            .map(|level| [ARRAY, levels + 1 - level, 1, 0, 0, 0, 0, 0])
            .collect();
        nodes.push([VARIABLE, 1, 0, 0, 0, 0, space, 0]);
        number_of(&nodes, &["x"])
    };
    assert_eq!(deep(64, 1), 0);
    assert_eq!(deep(65, 1), 5);
    assert_eq!(deep(65, 2), 4);
    // 4 before 8, and 8 before 9.
    let curry = |space: u32, inner: [u32; 8]| {
        let nodes = [[CALL, 3, 2, 0, 0, 0, space, 0], U, inner];
        number_of(&nodes, &["curry", "eval"])
    };
    let eval = [CALL, 1, 0, 1, 0, 0, 1, 0];
    assert_eq!(curry(3, eval), 4);
    assert_eq!(curry(1, eval), 8);
}

#[test]
fn number_3_covers_namespaces() {
    // The namespace's text is a lone continuation byte.
    let sheet = |byte: u8| {
        let node = [VARIABLE, 1, 0, 0, 0, 0, 2, 0];
        let mut sheet = sheet_of(&[node], &[1], &["x", "m"], &[]);
        let at = sheet.len() - 3;
        assert_eq!(sheet[at], b'm');
        sheet[at] = byte;
        number(&sheet)
    };
    assert_eq!(sheet(b'n'), 0);
    assert_eq!(sheet(0x80), 3);
}

// ---- A2.4: a namespace of no bytes ----

#[test]
fn a_namespace_of_no_bytes_is_none() {
    // [v, Fn(v), g(v), v[v], w], each with the empty text 3 as namespace at 99.
    // v is local 0, w no local.
    //  0 LoadLocal 0             1 CheckSize 0 at 2
    //  2 LoadLocal 0             3 MakeFnPtr at 4     4 CheckSize 1 at 3
    //  5 CallRef 0, 1, slot 0    6 CheckSize 2 at 5
    //  7 LoadLocal 0             8 Chain 0 at 7       9 CheckSize 3 at 7
    // 10 LoadNamed 2 at 10      11 CheckSize 4 at 10
    // 12 MakeArray 5 at 1
    // Names: g, the chain's root v, w.
    for space in [4, 0] {
        let position = if space == 4 { 99 } else { 0 };
        let named = |kind, span, count, text| [kind, span, count, text, 0, 0, space, position];
        let nodes = [
            [ARRAY, 10, 5, 0, 0, 0, 0, 0],
            named(VARIABLE, 1, 0, 0),
            named(CALL, 2, 1, 1),
            named(VARIABLE, 1, 0, 0),
            named(CALL, 2, 1, 2),
            named(VARIABLE, 1, 0, 0),
            [INDEX, 3, 2, 0, 0, 0, 0, 0],
            named(VARIABLE, 1, 0, 0),
            named(VARIABLE, 1, 0, 0),
            named(VARIABLE, 1, 0, 4),
        ];
        let positions = [1, 2, 3, 4, 5, 6, 7, 8, 9, 10];
        let sheet = sheet_of(&nodes, &positions, &["v", "Fn", "g", "", "w"], &[0]);
        #[rustfmt::skip]
        assert_eq!(words(&sheet), [
            13, 0, 3, 0, 0, 1, 1, 0, 0, 0, 13, 5,
            4, 0, 0, 0,
            22, 0, 0, 0,
            4, 0, 0, 0,
            16, 0, 0, 0,
            22, 1, 0, 0,
            13, 0, 1, 0,
            22, 2, 0, 0,
            4, 0, 0, 0,
            23, 0, 0, 0,
            22, 3, 0, 0,
            5, 2, 0, 0,
            22, 4, 0, 0,
            21, 5, 0, 0,
            0, 2, 0, 4, 3, 5, 5, 0, 7, 7, 10, 10, 1,
            2, 0, 0,
            0, 0, 0,
            4, 0, 0,
            0, 0, 1, 0, 1, 1,
            0, 0, 0, 9, 7, 0,
        ]);
    }
    // `call` with two arguments, an operator, and a receiver's Rotate, with and
    // without the empty namespace.
    let image = |space: u32, position: u32, call: [u32; 3]| {
        let [text, b, c] = call;
        let nodes = [
            [CALL, 3, 2, text, b, c, space, position],
            [VARIABLE, 1, 0, 2, 0, 0, space, position],
            [INT, 1, 0, 5, 0, 0, 0, 0],
        ];
        words(&sheet_of(&nodes, &[1, 2, 3], &["call", "g", "v", ""], &[]))
    };
    for call in [[0, 0, 0], [0, 1, 0], [1, 0, 0], [1, 1, 0], [1, 0, 40]] {
        assert_eq!(image(4, 0, call), image(0, 0, call));
        assert_eq!(image(4, 77, call), image(0, 0, call));
    }
}

// ---- A2.5: names ----

#[test]
fn names_are_equal_by_their_joined_bytes() {
    // Texts: 0 a, 1 b::c, 2 a::b, 3 c, 4 a::b::c, 5 m, 6 g, 7 g!, 8 m::g!,
    // 9 m::g. In an array: a+b::c, a::b+c and the plain a::b::c; m+g with
    // capture, m+g!, the plain m::g!, m::g with capture; m+g; a::b.
    // Names: a+b::c, m+g with the mark, m+g, a::b.
    let nodes = [
        [ARRAY, 10, 9, 0, 0, 0, 0, 0],
        [VARIABLE, 1, 0, 1, 0, 0, 1, 11],
        [VARIABLE, 1, 0, 3, 0, 0, 3, 12],
        [VARIABLE, 1, 0, 4, 0, 0, 0, 0],
        [CALL, 1, 0, 6, 1, 0, 6, 13],
        [VARIABLE, 1, 0, 7, 0, 0, 6, 14],
        [VARIABLE, 1, 0, 8, 0, 0, 0, 0],
        [CALL, 1, 0, 9, 1, 0, 0, 0],
        [VARIABLE, 1, 0, 6, 0, 0, 6, 15],
        [VARIABLE, 1, 0, 2, 0, 0, 0, 0],
    ];
    let positions = [20, 21, 22, 23, 24, 25, 26, 27, 28, 29];
    let texts = [
        "a", "b::c", "a::b", "c", "a::b::c", "m", "g", "g!", "m::g!", "m::g",
    ];
    #[rustfmt::skip]
    assert_eq!(words(&sheet_of(&nodes, &positions, &texts, &[])), [
        19, 0, 4, 0, 0, 0, 0, 0, 0, 0, 19, 9,
        5, 0, 0, 0,
        22, 0, 0, 0,
        5, 0, 0, 0,
        22, 1, 0, 0,
        5, 0, 0, 0,
        22, 2, 0, 0,
        12, 1, 256, 0,
        22, 3, 0, 0,
        5, 1, 0, 0,
        22, 4, 0, 0,
        5, 1, 0, 0,
        22, 5, 0, 0,
        12, 1, 256, 0,
        22, 6, 0, 0,
        5, 2, 0, 0,
        22, 7, 0, 0,
        5, 3, 0, 0,
        22, 8, 0, 0,
        21, 9, 0, 0,
        11, 21, 12, 22, 23, 23, 24, 24, 14, 25, 26, 26, 27, 27, 15, 28, 29, 29, 20,
        1, 0, 1,
        6, 1, 6,
        6, 0, 6,
        2, 0, 0,
    ]);
}

/// The names that are pooled for an array of these, each by its namespace, own
/// name and mark; with a mark it is an FnCall, else a Variable.
fn pooled(names: &[(&str, &str, bool)]) -> Vec<usize> {
    let mut texts = Vec::new();
    let count = names.len() as u32;
    let mut nodes = vec![[ARRAY, count + 1, count, 0, 0, 0, 0, 0]];
    for (index, (space, name, mark)) in names.iter().enumerate() {
        texts.extend([*space, *name]);
        let text = 2 * index as u32;
        let kind = if *mark { CALL } else { VARIABLE };
        nodes.push([kind, 1, 0, text + 1, u32::from(*mark), 0, text + 1, 9]);
    }
    let positions = vec![1; nodes.len()];
    let image = words(&sheet_of(&nodes, &positions, &texts, &[]));
    // Behind the sizes, the code and the positions; there are no constants.
    let at = 12 + 5 * image[0] as usize;
    image[at..at + 3 * image[2] as usize]
        .chunks(3)
        .map(|name| {
            let index = name[0] as usize / 2;
            let (space, _, mark) = names[index];
            assert_eq!(name[0] as usize % 2, 1);
            assert_eq!(name[1], u32::from(mark));
            let expected = if space.is_empty() {
                0
            } else {
                2 * index as u32 + 1
            };
            assert_eq!(name[2], expected);
            index
        })
        .collect()
}

#[test]
fn the_first_met_triple_is_kept() {
    // `a:::b` in three ways, and the other order.
    let three = [("a:", "b", false), ("a", ":b", false), ("", "a:::b", false)];
    assert_eq!(pooled(&three), [0]);
    let turned = [three[2], three[1], three[0]];
    assert_eq!(pooled(&turned), [0]);
    // One colon more or less, and other bytes in the same places.
    let near = [
        ("a:", "b", false),
        ("a", "b", false),
        ("a::", "b", false),
        ("a:", ":b", false),
        ("a", "::b", false),
        ("b:", "a", false),
        ("", "a::b", false),
    ];
    // `a:::b`, `a::b`, `a::::b` in three ways, `b:::a`, and `a::b` again.
    assert_eq!(pooled(&near), [0, 1, 2, 5]);
    // Own names of signs: `m::`, `m::!` in three ways, `m::!!` in three ways,
    // `::`, and `::!` in two ways.
    let signs = [
        ("", "m::", false),
        ("m", "!", false),
        ("", "m::!", false),
        ("", "m::", true),
        ("m", "!", true),
        ("", "m::!!", false),
        ("", "m::!", true),
        ("", "::", false),
        ("", "::!", false),
        ("", "::", true),
    ];
    assert_eq!(pooled(&signs), [0, 1, 4, 7, 8]);
    // A namespace of no bytes has no separator.
    assert_eq!(pooled(&[("", "x", false), ("", "::x", false)]), [0, 1]);
    // A prefix: shorter names are not equal to longer ones.
    let prefixes = [
        ("a", "b", false),
        ("a", "bb", false),
        ("aa", "b", false),
        ("a", "b", true),
        ("", "a::", false),
    ];
    assert_eq!(pooled(&prefixes), [0, 1, 2, 3, 4]);
    // As long, split elsewhere, and with one byte that differs.
    let split = [
        ("aaaa", "aaaa", false),
        ("aaa", "aaaaa", false),
        ("aaaa", "aaab", false),
        ("baaa", "aaaa", false),
    ];
    assert_eq!(pooled(&split), [0, 1, 2, 3]);
    // Long ones of one line of separators: all cuts give one name.
    let line = "x::yy::z::".repeat(30);
    let cuts: Vec<usize> = (1..line.len() - 2)
        .filter(|at| line[*at..].starts_with("::"))
        .collect();
    assert_eq!(cuts.len(), 89);
    let names: Vec<(&str, &str, bool)> = cuts
        .iter()
        .map(|cut| (&line[..*cut], &line[cut + 2..], false))
        .collect();
    assert_eq!(pooled(&names), [0]);
}

#[test]
fn properties_and_qualified_names_share_a_pool() {
    // [m::x, this.p] where p's name is the text m::x and its getter and setter
    // are x and m::x again: names m+x, then x.
    //  0 LoadNamed 0 at 31, 1 CheckSize 0 at 2, 2 Chain 0 at 3, 3 CheckSize 1 at
    //  3, 4 MakeArray 2 at 1
    let nodes = [
        [ARRAY, 5, 2, 0, 0, 0, 0, 0],
        [VARIABLE, 1, 0, 0, 0, 0, 2, 31],
        [DOT, 3, 2, 0, 0, 0, 0, 0],
        [THIS, 1, 0, 0, 0, 0, 0, 0],
        [PROPERTY, 1, 0, 2, 0, 2, 0, 0],
    ];
    let sheet = sheet_of(&nodes, &[1, 2, 3, 4, 5], &["x", "m", "m::x"], &[]);
    #[rustfmt::skip]
    assert_eq!(words(&sheet), [
        5, 0, 2, 0, 0, 1, 1, 0, 0, 0, 5, 2,
        5, 0, 0, 0,
        22, 0, 0, 0,
        23, 0, 0, 0,
        22, 1, 0, 0,
        21, 2, 0, 0,
        31, 2, 3, 3, 1,
        0, 0, 2,
        0, 0, 0,
        2, 0, 4, 0, 1, 0,
        1, 0, 1, 0, 0, 5,
    ]);
}

// ---- A2.6: variables ----

#[test]
fn a_qualified_variable_is_no_local() {
    // m::x alone, at 31, with a local x, a local m and a local m::x.
    let nodes = [[VARIABLE, 1, 0, 0, 0, 0, 2, 31]];
    let sheet = sheet_of(&nodes, &[7], &["x", "m", "m::x"], &[0, 1, 2]);
    assert_eq!(
        words(&sheet),
        [1, 0, 1, 0, 0, 0, 0, 0, 0, 0, 1, 1, 5, 0, 0, 0, 31, 0, 0, 2]
    );
    // The unqualified m::x is local 2.
    let nodes = [[VARIABLE, 1, 0, 2, 0, 0, 0, 0]];
    let sheet = sheet_of(&nodes, &[7], &["x", "m", "m::x"], &[0, 1, 2]);
    assert_eq!(
        words(&sheet),
        [1, 0, 0, 0, 0, 0, 0, 0, 0, 0, 1, 1, 4, 2, 0, 0, 0]
    );
}

#[test]
fn operands_load_at_the_namespace_and_jump_at_their_own_position() {
    // m::x && this, with a local x: LoadNamed 0 at 31, JumpIfFalse 6 at 8,
    // LoadThis, JumpIfFalse 6, Bool 1, Jump 7, Bool 0.
    for (kind, jump, last) in [(AND, 10, 1), (OR, 9, 0)] {
        let nodes = [
            [kind, 3, 2, 0, 0, 0, 0, 0],
            [VARIABLE, 1, 0, 0, 0, 0, 2, 31],
            [THIS, 1, 0, 0, 0, 0, 0, 0],
        ];
        #[rustfmt::skip]
        assert_eq!(words(&sheet_of(&nodes, &[7, 8, 9], &["x", "m"], &[0])), [
            7, 0, 1, 0, 0, 0, 0, 0, 0, 0, 7, 1,
            5, 0, 0, 0,
            jump, 6, 0, 0,
            6, 0, 0, 0,
            jump, 6, 0, 0,
            3, last, 0, 0,
            8, 7, 0, 0,
            3, 1 - last, 0, 0,
            31, 8, 9, 9, 0, 0, 0,
            0, 0, 2,
        ]);
    }
    // m::x ?? m::x: LoadNamed 0 at 31, SkipIfNotUnit 4 at 8, Pop at 8,
    // LoadNamed 0 at 32.
    let nodes = [
        [COALESCE, 3, 2, 0, 0, 0, 0, 0],
        [VARIABLE, 1, 0, 0, 0, 0, 2, 31],
        [VARIABLE, 1, 0, 0, 0, 0, 2, 32],
    ];
    #[rustfmt::skip]
    assert_eq!(words(&sheet_of(&nodes, &[7, 8, 9], &["x", "m"], &[0])), [
        4, 0, 1, 0, 0, 0, 0, 0, 0, 0, 4, 1,
        5, 0, 0, 0,
        11, 4, 0, 0,
        7, 0, 0, 0,
        5, 0, 0, 0,
        31, 8, 8, 32,
        0, 0, 2,
    ]);
    // An interpolation: InterpolateAppend at the own position.
    let nodes = [
        [INTERPOLATED, 2, 1, 0, 0, 0, 0, 0],
        [VARIABLE, 1, 0, 0, 0, 0, 2, 31],
    ];
    #[rustfmt::skip]
    assert_eq!(words(&sheet_of(&nodes, &[7, 8], &["x", "m"], &[0])), [
        4, 0, 1, 0, 0, 0, 0, 0, 0, 0, 4, 2,
        18, 0, 0, 0,
        5, 0, 0, 0,
        19, 0, 0, 0,
        20, 0, 0, 0,
        0, 31, 8, 0,
        0, 0, 2,
    ]);
    // Fn(m::x), where Fn itself is unqualified: MakeFnPtr at the argument's own
    // position.
    let nodes = [
        [CALL, 2, 1, 2, 0, 0, 0, 0],
        [VARIABLE, 1, 0, 0, 0, 0, 2, 31],
    ];
    #[rustfmt::skip]
    assert_eq!(words(&sheet_of(&nodes, &[7, 8], &["x", "m", "Fn"], &[0])), [
        2, 0, 1, 0, 0, 0, 0, 0, 0, 0, 2, 1,
        5, 0, 0, 0,
        16, 0, 0, 0,
        31, 8,
        0, 0, 2,
    ]);
}

#[test]
fn a_qualified_chain_root_is_a_temporary() {
    // m::x[m::y], locals x and y: the operand m::y at 32, then the root m::x at
    // 31, then Chain 0 with one operand. The step's position is the start of
    // m::y, which is 32; the bracket's is node 0's.
    let nodes = [
        [INDEX, 3, 2, 0, 0, 0, 0, 0],
        [VARIABLE, 1, 0, 0, 0, 0, 3, 31],
        [VARIABLE, 1, 0, 1, 0, 0, 3, 32],
    ];
    let sheet = sheet_of(&nodes, &[10, 11, 12], &["x", "y", "m"], &[0, 1]);
    #[rustfmt::skip]
    assert_eq!(words(&sheet), [
        3, 0, 2, 0, 0, 1, 1, 0, 0, 0, 3, 2,
        5, 0, 0, 0,
        5, 1, 0, 0,
        23, 0, 0, 0,
        32, 31, 10,
        1, 0, 3,
        0, 0, 3,
        3, 0, 0, 0, 1, 1,
        0, 0, 0, 32, 10, 0,
    ]);
}

#[test]
fn a_chain_starts_at_its_roots_namespace() {
    // this[m::y.p] with BREAK: the index is the chain m::y.p. Names: p, then
    // m::y. LoadNamed 1 at 32, Chain 0 (Temporary, p) at 12, Chain 1 (This,
    // index) at 10. The index starts where its first child does: at 32.
    let nodes = [
        [INDEX, 5, 2, 2, 0, 0, 0, 0],
        [THIS, 1, 0, 0, 0, 0, 0, 0],
        [DOT, 3, 2, 0, 0, 0, 0, 0],
        [VARIABLE, 1, 0, 0, 0, 0, 2, 32],
        [PROPERTY, 1, 0, 2, 2, 2, 0, 0],
    ];
    let sheet = sheet_of(&nodes, &[10, 11, 12, 13, 14], &["y", "m", "p"], &[0]);
    #[rustfmt::skip]
    assert_eq!(words(&sheet), [
        3, 0, 2, 0, 0, 2, 2, 0, 0, 0, 3, 1,
        5, 1, 0, 0,
        23, 0, 0, 0,
        23, 1, 0, 0,
        32, 12, 10,
        2, 0, 0,
        0, 0, 2,
        3, 0, 0, 0, 1, 0,
        2, 0, 11, 1, 1, 1,
        1, 0, 0, 0, 0, 14,
        0, 0, 0, 32, 10, 0,
    ]);
}

#[test]
fn a_qualified_call_starts_at_its_own_position() {
    // this[m::g()], the call at 12 with its namespace at 32: Call 0 at 12,
    // Chain 0 at 10, the step's position 12.
    let nodes = [
        [INDEX, 3, 2, 0, 0, 0, 0, 0],
        [THIS, 1, 0, 0, 0, 0, 0, 0],
        [CALL, 1, 0, 0, 0, 0, 2, 32],
    ];
    let sheet = sheet_of(&nodes, &[10, 11, 12], &["g", "m"], &[]);
    #[rustfmt::skip]
    assert_eq!(words(&sheet), [
        2, 0, 1, 0, 0, 1, 1, 0, 0, 0, 2, 1,
        12, 0, 0, 0,
        23, 0, 0, 0,
        12, 10,
        0, 0, 2,
        2, 0, 11, 0, 1, 1,
        0, 0, 0, 12, 10, 0,
    ]);
}

#[test]
fn a_qualified_variable_is_no_receiver() {
    // g(m::v, 1), v a local: all arguments, then Call. Names: m::v, then g.
    let nodes = [
        [CALL, 3, 2, 0, 0, 0, 0, 0],
        [VARIABLE, 1, 0, 1, 0, 0, 3, 31],
        [INT, 1, 0, 5, 0, 0, 0, 0],
    ];
    let sheet = sheet_of(&nodes, &[7, 8, 9], &["g", "v", "m"], &[1]);
    #[rustfmt::skip]
    assert_eq!(words(&sheet), [
        3, 1, 2, 0, 0, 0, 0, 0, 0, 0, 3, 2,
        5, 0, 0, 0,
        1, 0, 0, 0,
        12, 1, 2, 0,
        31, 0, 7,
        3, 5, 0,
        1, 0, 3,
        0, 0, 0,
    ]);
}

// ---- A2.7 to A2.9: calls ----

/// m::g of a first argument and further ones, with texts g, v, m, w.
fn call(b: u32, c: u32, arguments: &[[u32; 8]], locals: &[u32]) -> Vec<u32> {
    let count = arguments.len() as u32;
    let mut nodes = vec![[CALL, count + 1, count, 0, b, c, 3, 40]];
    nodes.extend_from_slice(arguments);
    let positions: Vec<u32> = (7..7 + nodes.len() as u32).collect();
    words(&sheet_of(&nodes, &positions, &["g", "v", "m", "w"], locals))
}

const V: [u32; 8] = [VARIABLE, 1, 0, 1, 0, 0, 0, 0];
const W: [u32; 8] = [VARIABLE, 1, 0, 3, 0, 0, 0, 0];
const FIVE: [u32; 8] = [INT, 1, 0, 5, 0, 0, 0, 0];

#[test]
fn a_named_receiver_is_loaded_first() {
    // m::g(v, w): names m::g, v, w. LoadNamed 1 at 8, LoadNamed 2 at 9, CallRef
    // 0, 2 + 256, 1 at 7. No Rotate.
    #[rustfmt::skip]
    assert_eq!(call(0, 0, &[V, W], &[]), [
        3, 0, 3, 0, 0, 0, 0, 0, 0, 0, 3, 2,
        5, 1, 0, 0,
        5, 2, 0, 0,
        13, 0, 258, 1,
        8, 9, 7,
        0, 0, 3,
        1, 0, 0,
        3, 0, 0,
    ]);
    // m::g(v).
    #[rustfmt::skip]
    assert_eq!(call(0, 0, &[V], &[]), [
        2, 0, 2, 0, 0, 0, 0, 0, 0, 0, 2, 1,
        5, 1, 0, 0,
        13, 0, 257, 1,
        8, 7,
        0, 0, 3,
        1, 0, 0,
    ]);
    // One instruction less than g(v, 5) unqualified, which has a Rotate.
    for (space, position, emitted) in [(3, 40, 3), (0, 0, 4)] {
        let nodes = [[CALL, 3, 2, 0, 0, 0, space, position], V, FIVE];
        let sheet = sheet_of(&nodes, &[7, 8, 9], &["g", "v", "m"], &[]);
        let needed = 16 * emitted + 16 * 3 + 4_096;
        assert_eq!(oracle::needs(&sheet), (0, needed));
    }
}

#[test]
fn this_is_loaded_first_and_a_local_not_at_all() {
    // m::g(this, 5): LoadThis at 8, Const 0, CallRef 0, 2 + 512, 0.
    #[rustfmt::skip]
    assert_eq!(call(0, 0, &[[THIS, 1, 0, 0, 0, 0, 0, 0], FIVE], &[]), [
        3, 1, 1, 0, 0, 0, 0, 0, 0, 0, 3, 2,
        6, 0, 0, 0,
        1, 0, 0, 0,
        13, 0, 514, 0,
        8, 0, 7,
        3, 5, 0,
        0, 0, 3,
    ]);
    // m::g(v, 5), v local 0: Const 0, CallRef 0, 2, 0.
    #[rustfmt::skip]
    assert_eq!(call(0, 0, &[V, FIVE], &[1]), [
        2, 1, 1, 0, 0, 0, 0, 0, 0, 0, 2, 1,
        1, 0, 0, 0,
        13, 0, 2, 0,
        0, 7,
        3, 5, 0,
        0, 0, 3,
    ]);
    // m::g(v), v local 1, behind a local v that it hides.
    #[rustfmt::skip]
    assert_eq!(call(0, 0, &[V], &[1, 1]), [
        1, 0, 1, 0, 0, 0, 0, 0, 0, 0, 1, 1,
        13, 0, 1, 1,
        7,
        0, 0, 3,
    ]);
}

#[test]
fn without_a_receiver_all_arguments_come_first() {
    // m::g(m::v, 5): names m::g, m::v. LoadNamed 1 at 41, Const 0, Call 0, 2.
    #[rustfmt::skip]
    assert_eq!(call(0, 0, &[[VARIABLE, 1, 0, 1, 0, 0, 3, 41], FIVE], &[1]), [
        3, 1, 2, 0, 0, 0, 0, 0, 0, 0, 3, 2,
        5, 1, 0, 0,
        1, 0, 0, 0,
        12, 0, 2, 0,
        41, 0, 7,
        3, 5, 0,
        0, 0, 3,
        1, 0, 3,
    ]);
    // m::g().
    #[rustfmt::skip]
    assert_eq!(call(0, 0, &[], &[]), [
        1, 0, 1, 0, 0, 0, 0, 0, 0, 0, 1, 1,
        12, 0, 0, 0,
        7,
        0, 0, 3,
    ]);
    // The call's own name is pooled before what its arguments pool: m::g([w], v)
    // has the names m::g, w, v.
    let array = [[ARRAY, 2, 1, 0, 0, 0, 0, 0], W, V];
    let mut nodes = vec![[CALL, 4, 2, 0, 0, 0, 3, 40]];
    nodes.extend(array);
    let sheet = sheet_of(&nodes, &[7, 8, 9, 10], &["g", "v", "m", "w"], &[]);
    #[rustfmt::skip]
    assert_eq!(words(&sheet), [
        5, 0, 3, 0, 0, 0, 0, 0, 0, 0, 5, 2,
        5, 1, 0, 0,
        22, 0, 0, 0,
        21, 1, 0, 0,
        5, 2, 0, 0,
        12, 0, 2, 0,
        9, 9, 8, 10, 7,
        0, 0, 3,
        3, 0, 0,
        1, 0, 0,
    ]);
}

#[test]
fn capture_stays_and_no_operator_is_stored() {
    // Operator 40, with 0 to 3 arguments: no token, no receiver. Without and
    // with capture: 256 is added, and the name has its mark.
    for capture in [0, 1] {
        for count in 0..=3usize {
            let image = call(capture, 40, &[V, FIVE, FIVE][..count], &[1]);
            let arguments = count as u32;
            let mut expected = match count {
                0 => vec![1, 0, 1, 0, 0, 0, 0, 0, 0, 0, 1, 1],
                1 => vec![2, 0, 1, 0, 0, 0, 0, 0, 0, 0, 2, 1],
                2 => vec![3, 1, 1, 0, 0, 0, 0, 0, 0, 0, 3, 2],
                _ => vec![4, 1, 1, 0, 0, 0, 0, 0, 0, 0, 4, 3],
            };
            let code = [[4, 0, 0, 0], [1, 0, 0, 0], [1, 0, 0, 0]];
            expected.extend(code[..count].iter().flatten());
            expected.extend([12, 0, arguments + 256 * capture, 0]);
            expected.extend(vec![0; count]);
            expected.push(7);
            if count > 1 {
                expected.extend([3, 5, 0]);
            }
            expected.extend([0, capture, 3]);
            assert_eq!(image, expected, "{capture} {count}");
        }
    }
    // Capture without an operator: no receiver either.
    #[rustfmt::skip]
    assert_eq!(call(1, 0, &[V, FIVE], &[]), [
        3, 1, 2, 0, 0, 0, 0, 0, 0, 0, 3, 2,
        5, 1, 0, 0,
        1, 0, 0, 0,
        12, 0, 258, 0,
        8, 0, 7,
        3, 5, 0,
        0, 1, 3,
        1, 0, 0,
    ]);
}

// ---- A2.10 and A2.11: keywords ----

#[test]
fn qualified_keywords_are_residuals() {
    // [m::Fn(v), m::Fn(), m::call(), m::call(v, v), m::curry(), m::curry(v)]:
    // six residuals, and v is not pooled. Nodes 1, 3, 4, 5, 8, 9.
    let named = |span: u32, text: u32| [CALL, span, span - 1, text, 0, 0, 5, 40];
    let nodes = [
        [ARRAY, 11, 6, 0, 0, 0, 0, 0],
        named(2, 0),
        V_OF,
        named(1, 0),
        named(1, 1),
        named(3, 1),
        V_OF,
        V_OF,
        named(1, 2),
        named(2, 2),
        V_OF,
    ];
    let positions = [10, 11, 12, 13, 14, 15, 16, 17, 18, 19, 20];
    let texts = ["Fn", "call", "curry", "v", "m"];
    #[rustfmt::skip]
    assert_eq!(words(&sheet_of(&nodes, &positions, &texts, &[])), [
        13, 0, 0, 0, 6, 0, 0, 0, 0, 0, 13, 6,
        24, 0, 0, 0,
        22, 0, 0, 0,
        24, 1, 0, 0,
        22, 1, 0, 0,
        24, 2, 0, 0,
        22, 2, 0, 0,
        24, 3, 0, 0,
        22, 3, 0, 0,
        24, 4, 0, 0,
        22, 4, 0, 0,
        24, 5, 0, 0,
        22, 5, 0, 0,
        21, 6, 0, 0,
        0, 11, 0, 13, 0, 14, 0, 15, 0, 18, 0, 19, 10,
        1, 3, 4, 5, 8, 9,
    ]);
}

/// The variable v, where it is text 3.
const V_OF: [u32; 8] = [VARIABLE, 1, 0, 3, 0, 0, 0, 0];

/// A call of this name with so many Units, and its first words of the image.
fn many(space: u32, name: &str, count: u32) -> Vec<u32> {
    let mut nodes = vec![[CALL, count + 1, count, 0, 0, 0, space, 0]];
    nodes.extend(std::iter::repeat_n(U, count as usize));
    let positions = vec![1; nodes.len()];
    words(&sheet_of(&nodes, &positions, &[name, "m"], &[]))[..12].to_vec()
}

#[test]
fn how_many_arguments() {
    let residual = [1, 0, 0, 0, 1, 0, 0, 0, 0, 0, 1, 1];
    assert_eq!(
        many(2, "g", 255),
        [256, 0, 1, 0, 0, 0, 0, 0, 0, 0, 256, 255]
    );
    assert_eq!(many(2, "g", 256), residual);
    assert_eq!(many(0, "g", 256), residual);
    // `call` lowers to 256 arguments, qualified not at all.
    assert_eq!(
        many(0, "call", 256),
        [257, 0, 0, 0, 0, 0, 0, 0, 0, 0, 257, 256]
    );
    for count in [0, 1, 2, 255, 256, 257] {
        assert_eq!(many(2, "call", count), residual);
        assert_eq!(many(2, "Fn", count), residual);
    }
}

#[test]
fn number_8_qualified_curry() {
    let curry = |space: u32, count: u32, name: &str| {
        let mut nodes = vec![[CALL, count + 1, count, 0, 0, 0, space, 0]];
        nodes.extend(std::iter::repeat_n(U, count as usize));
        number_of(&nodes, &[name, "m", ""])
    };
    for space in [0, 2, 3] {
        for (count, expected) in [(0, 0), (1, 0), (2, 8), (300, 8)] {
            assert_eq!(curry(space, count, "curry"), expected, "{space} {count}");
            assert_eq!(curry(space, count, "m::curry"), 0);
            assert_eq!(curry(space, count, "::curry"), 0);
        }
    }
    // A namespace `curry` means nothing.
    let nodes = [[CALL, 3, 2, 0, 0, 0, 2, 0], U, U];
    assert_eq!(number_of(&nodes, &["g", "curry"]), 0);
}

#[test]
fn number_9_qualified_eval() {
    let eval = |name: &str, space: &str| number_of(&[[CALL, 1, 0, 0, 0, 0, 2, 5]], &[name, space]);
    assert_eq!(eval("eval", "m"), 9);
    assert_eq!(eval("eval", ""), 9);
    assert_eq!(eval("eval", "eval"), 9);
    // By the own name alone.
    assert_eq!(eval("g", "eval"), 0);
    assert_eq!(eval("m::eval", "m"), 0);
    assert_eq!(eval("eval!", "m"), 0);
    assert_eq!(number_of(&[[CALL, 1, 0, 0, 0, 0, 0, 0]], &["m::eval"]), 0);
    // A qualified variable eval is none.
    assert_eq!(
        number_of(&[[VARIABLE, 1, 0, 0, 0, 0, 2, 5]], &["eval", "m"]),
        0
    );
    // In the arguments of m::g it is reached, up to 255 of them; in those of
    // m::call, m::Fn and m::curry it is not.
    let inside = |name: &str, count: u32| {
        let mut nodes = vec![[CALL, count + 1, count, 1, 0, 0, 3, 0]];
        nodes.extend(std::iter::repeat_n(U, count as usize - 1));
        nodes.push([CALL, 1, 0, 0, 0, 0, 3, 0]);
        number_of(&nodes, &["eval", name, "m"])
    };
    assert_eq!(inside("g", 1), 9);
    assert_eq!(inside("g", 255), 9);
    assert_eq!(inside("g", 256), 0);
    assert_eq!(inside("call", 1), 0);
    assert_eq!(inside("Fn", 1), 0);
    assert_eq!(inside("curry", 1), 0);
    // As an index behind a qualified root.
    let nodes = [
        [INDEX, 3, 2, 0, 0, 0, 0, 0],
        [VARIABLE, 1, 0, 0, 0, 0, 2, 0],
        [CALL, 1, 0, 0, 0, 0, 2, 0],
    ];
    assert_eq!(number_of(&nodes, &["eval", "m"]), 9);
}

#[test]
fn a_failed_chain_with_a_qualified_root() {
    // m::x[5].Fn(): the root is a Temporary, so nothing of it is pooled before
    // the method fails. Const is taken back: two emitted.
    let nodes = [
        [INDEX, 5, 2, 0, 0, 0, 0, 0],
        [VARIABLE, 1, 0, 0, 0, 0, 2, 31],
        [DOT, 3, 2, 0, 0, 0, 0, 0],
        FIVE,
        [METHOD, 1, 0, 2, 0, 0, 0, 0],
    ];
    let sheet = sheet_of(&nodes, &[1, 2, 3, 4, 5], &["x", "m", "Fn"], &[]);
    #[rustfmt::skip]
    assert_eq!(words(&sheet), [
        1, 1, 0, 0, 1, 0, 0, 0, 0, 0, 2, 1,
        24, 0, 0, 0,
        0,
        3, 5, 0,
        0,
    ]);
}

#[test]
fn guards_and_bodies() {
    // switch m::s { 1 => [0] } with the guard m::v and the body m::g(v), no
    // default. Names: m::s, m::v, m::g, v. The guard's JumpIfTrue has the
    // guard's own position, 8.
    //  0 LoadNamed 0 at 41, 1 Switch 0, 2 LoadNamed 1 at 42, 3 JumpIfTrue 5 at
    //  8, 4 Jump 8, 5 LoadNamed 3 at 10, 6 CallRef 2, 1 + 256, 3 at 9, 7 Jump 9,
    //  8 Unit, 9 Rotate 1, 10 Pop. Texts: 0 s, 1 v, 2 m, 3 g.
    let nodes = [
        [SWITCH, 8, 4, 1, 1, 0, 0, 0],
        [VARIABLE, 1, 0, 0, 0, 0, 3, 41],
        [VARIABLE, 1, 0, 1, 0, 0, 3, 42],
        [CALL, 2, 1, 3, 0, 0, 3, 43],
        V,
        [CASE, 3, 2, 0, 0, 0, 0, 0],
        [INT, 1, 0, 1, 0, 0, 0, 0],
        [REF, 1, 0, 0, 0, 0, 0, 0],
    ];
    let positions = [6, 7, 8, 9, 10, 11, 12, 13];
    let sheet = sheet_of(&nodes, &positions, &["s", "v", "m", "g"], &[]);
    #[rustfmt::skip]
    assert_eq!(words(&sheet), [
        11, 1, 4, 0, 0, 0, 0, 1, 1, 0, 11, 2,
        5, 0, 0, 0,
        15, 0, 0, 0,
        5, 1, 0, 0,
        9, 5, 0, 0,
        8, 8, 0, 0,
        5, 3, 0, 0,
        13, 2, 257, 3,
        8, 9, 0, 0,
        2, 0, 0, 0,
        14, 1, 0, 0,
        7, 0, 0, 0,
        41, 0, 42, 8, 0, 10, 9, 0, 0, 0, 0,
        3, 1, 0,
        0, 0, 3,
        1, 0, 3,
        3, 0, 3,
        1, 0, 0,
        0, 0, 1, 8,
        2, 0,
    ]);
}

//! The rows of document 01, and further sheets whose words were worked out by
//! hand from it. Each image is: twelve sizes, code, positions, then the pools.

mod common;
use common::*;
use oracle::grain::compile::split;
use oracle::grain::eval::RangeCase;

#[test]
fn one_unit_any_position() {
    for position in [0, 1, 65_537, u32::MAX] {
        let sheet = sheet(&[[UNIT, 1, 0, 0, 0, 0]], &[position], &[], &[]);
        assert_eq!(
            words(&sheet),
            [1, 0, 0, 0, 0, 0, 0, 0, 0, 0, 1, 1, 2, 0, 0, 0, 0]
        );
    }
}

#[test]
fn one_unit_from_raw_bytes() {
    // N 1, X 0, B 0, L 0; kind 2, span 1, count 0, a, b, c, namespace and its
    // position; the node's position.
    let mut bytes = Vec::new();
    for word in [1u32, 0, 0, 0, 2, 1, 0, 0, 0, 0, 0, 0, 99] {
        bytes.extend_from_slice(&word.to_le_bytes());
    }
    assert_eq!(
        words(&bytes),
        [1, 0, 0, 0, 0, 0, 0, 0, 0, 0, 1, 1, 2, 0, 0, 0, 0]
    );
}

#[test]
fn and_of_bool_1() {
    // Operand, JumpIfFalse over the true result, Bool 1, Jump over the false
    // result, Bool 0. The jump has the operand's position, 9.
    let sheet = sheet(
        &[[AND, 2, 1, 0, 0, 0], [BOOL, 1, 0, 1, 0, 0]],
        &[7, 9],
        &[],
        &[],
    );
    #[rustfmt::skip]
    assert_eq!(words(&sheet), [
        5, 0, 0, 0, 0, 0, 0, 0, 0, 0, 5, 1,
        3, 1, 0, 0,
        10, 4, 0, 0,
        3, 1, 0, 0,
        8, 5, 0, 0,
        3, 0, 0, 0,
        0, 9, 0, 0, 0,
    ]);
}

#[test]
fn coalesce_of_unit() {
    let sheet = sheet(
        &[[COALESCE, 2, 1, 0, 0, 0], [UNIT, 1, 0, 0, 0, 0]],
        &[7, 9],
        &[],
        &[],
    );
    assert_eq!(
        words(&sheet),
        [1, 0, 0, 0, 0, 0, 0, 0, 0, 0, 1, 1, 2, 0, 0, 0, 0]
    );
}

/// Entries of the split as (from, to, inclusive, blocks).
fn entries(ranges: &[(i64, i64, bool, usize)]) -> Vec<(i64, i64, bool, Vec<usize>)> {
    let ranges: Vec<RangeCase> = ranges
        .iter()
        .map(|(start, end, inclusive, block)| {
            if *inclusive {
                RangeCase::InclusiveInt(*start..=*end, *block)
            } else {
                RangeCase::ExclusiveInt(*start..*end, *block)
            }
        })
        .collect();
    split(&ranges)
        .into_iter()
        .map(|(range, blocks)| (range.from, range.to, range.inclusive, blocks))
        .collect()
}

#[test]
fn ranges_that_start_alike() {
    assert_eq!(
        entries(&[(0, 0, true, 0), (0, 255, true, 1)]),
        [(0, 0, true, vec![0, 1]), (0, 255, true, vec![1])]
    );
    // The whole image. Guards This at 20 and 21, bodies Unit and Bool 1, no
    // default:
    //  0 Unit           subject
    //  1 Switch 0       no case: default 2
    //  2 Switch 1       rows 3 and 8, default 15
    //  3 LoadThis       list [0, 1]
    //  4 JumpIfTrue 11
    //  5 LoadThis
    //  6 JumpIfTrue 13
    //  7 Jump 15
    //  8 LoadThis       list [1]
    //  9 JumpIfTrue 13
    // 10 Jump 15
    // 11 Unit           body 0
    // 12 Jump 16
    // 13 Bool 1         body 1
    // 14 Jump 16
    // 15 Unit           missing default
    // 16 Rotate 1
    // 17 Pop
    let sheet = sheet(
        &[
            [SWITCH, 12, 7, 2, 0, 0],
            [UNIT, 1, 0, 0, 0, 0],
            [THIS, 1, 0, 0, 0, 0],
            [UNIT, 1, 0, 0, 0, 0],
            [THIS, 1, 0, 0, 0, 0],
            [BOOL, 1, 0, 1, 0, 0],
            [RANGE, 3, 2, 1, 0, 0],
            [INT, 1, 0, 0, 0, 0],
            [INT, 1, 0, 0, 0, 0],
            [RANGE, 3, 2, 1, 1, 0],
            [INT, 1, 0, 0, 0, 0],
            [INT, 1, 0, 255, 0, 0],
        ],
        &[1, 2, 20, 3, 21, 4, 5, 5, 5, 6, 6, 6],
        &[],
        &[],
    );
    #[rustfmt::skip]
    assert_eq!(words(&sheet), [
        18, 0, 0, 0, 0, 0, 0, 2, 0, 2, 18, 2,
        2, 0, 0, 0,
        15, 0, 0, 0,
        15, 1, 0, 0,
        6, 0, 0, 0,
        9, 11, 0, 0,
        6, 0, 0, 0,
        9, 13, 0, 0,
        8, 15, 0, 0,
        6, 0, 0, 0,
        9, 13, 0, 0,
        8, 15, 0, 0,
        2, 0, 0, 0,
        8, 16, 0, 0,
        3, 1, 0, 0,
        8, 16, 0, 0,
        2, 0, 0, 0,
        14, 1, 0, 0,
        7, 0, 0, 0,
        0, 0, 0, 20, 20, 21, 21, 0, 21, 21, 0, 0, 0, 0, 0, 0, 0, 0,
        0, 0, 0, 2,
        1, 0, 2, 15,
        0, 0, 0, 0, 1, 3,
        0, 0, 255, 0, 1, 8,
    ]);
}

#[test]
fn empty_ranges() {
    assert_eq!(entries(&[(5, 5, false, 0), (9, 3, true, 0)]), []);
    // No range table: Unit, Switch, Unit, Rotate 1, Pop.
    let sheet = sheet(
        &[
            [SWITCH, 10, 5, 1, 0, 0],
            [UNIT, 1, 0, 0, 0, 0],
            [THIS, 1, 0, 0, 0, 0],
            [UNIT, 1, 0, 0, 0, 0],
            [RANGE, 3, 2, 0, 0, 0],
            [INT, 1, 0, 5, 0, 0],
            [INT, 1, 0, 5, 0, 0],
            [RANGE, 3, 2, 1, 0, 0],
            [INT, 1, 0, 9, 0, 0],
            [INT, 1, 0, 3, 0, 0],
        ],
        &[1, 2, 3, 4, 5, 6, 7, 8, 9, 10],
        &[],
        &[],
    );
    #[rustfmt::skip]
    assert_eq!(words(&sheet), [
        5, 0, 0, 0, 0, 0, 0, 1, 0, 0, 5, 2,
        2, 0, 0, 0,
        15, 0, 0, 0,
        2, 0, 0, 0,
        14, 1, 0, 0,
        7, 0, 0, 0,
        0, 0, 0, 0, 0,
        0, 0, 0, 2,
    ]);
}

#[test]
fn least_to_greatest() {
    assert_eq!(
        entries(&[(i64::MIN, i64::MAX, true, 0)]),
        [(i64::MIN, i64::MAX, true, vec![0])]
    );
    // The guard is Bool 1, so the row goes to the body:
    // 0 Unit, 1 Switch 0, 2 Switch 1, 3 Unit (body), 4 Jump 6, 5 Unit
    // (missing default), 6 Rotate 1, 7 Pop.
    let sheet = sheet(
        &[
            [SWITCH, 7, 4, 1, 0, 0],
            [UNIT, 1, 0, 0, 0, 0],
            [BOOL, 1, 0, 1, 0, 0],
            [UNIT, 1, 0, 0, 0, 0],
            [RANGE, 3, 2, 1, 0, 0],
            [INT, 1, 0, 0, 0x8000_0000, 0],
            [INT, 1, 0, 0xFFFF_FFFF, 0x7FFF_FFFF, 0],
        ],
        &[1, 2, 3, 4, 5, 6, 7],
        &[],
        &[],
    );
    #[rustfmt::skip]
    assert_eq!(words(&sheet), [
        8, 0, 0, 0, 0, 0, 0, 2, 0, 1, 8, 2,
        2, 0, 0, 0,
        15, 0, 0, 0,
        15, 1, 0, 0,
        2, 0, 0, 0,
        8, 6, 0, 0,
        2, 0, 0, 0,
        14, 1, 0, 0,
        7, 0, 0, 0,
        0, 0, 0, 0, 0, 0, 0, 0,
        0, 0, 0, 2,
        1, 0, 1, 5,
        0, 2147483648, 4294967295, 2147483647, 1, 3,
    ]);
}

#[test]
fn ranges_that_overlap() {
    assert_eq!(
        entries(&[(4, 6, false, 0), (5, 6, true, 1)]),
        [
            (4, 5, false, vec![0]),
            (5, 6, false, vec![0, 1]),
            (6, 6, true, vec![1])
        ]
    );
}

#[test]
fn ranges_that_touch() {
    // 1..3 and 3..=5 of one block join; of two blocks they meet at 3.
    assert_eq!(
        entries(&[(1, 3, false, 0), (3, 5, true, 0)]),
        [(1, 5, true, vec![0])]
    );
    assert_eq!(
        entries(&[(1, 3, false, 0), (3, 5, true, 1)]),
        [(1, 3, false, vec![0]), (3, 5, true, vec![1])]
    );
    // 1..=3 and 4..=5: between 3 and 4 there is nothing, so they do not join.
    assert_eq!(
        entries(&[(1, 3, true, 0), (4, 5, true, 0)]),
        [(1, 3, true, vec![0]), (4, 5, true, vec![0])]
    );
    // The same range twice is the list [0, 0].
    assert_eq!(
        entries(&[(1, 2, true, 0), (1, 2, true, 0)]),
        [(1, 2, true, vec![0, 0])]
    );
}

#[test]
fn call_of_a_local() {
    // CallRef: name 0, one argument, receiver Local, slot 0. Nothing else is
    // emitted, and v is not pooled.
    let sheet = sheet(
        &[[CALL, 2, 1, 0, 0, 0], [VARIABLE, 1, 0, 1, 0, 0]],
        &[7, 9],
        &["g", "v"],
        &[1],
    );
    #[rustfmt::skip]
    assert_eq!(words(&sheet), [
        1, 0, 1, 0, 0, 0, 0, 0, 0, 0, 1, 1,
        13, 0, 1, 0,
        7,
        0, 0, 0,
    ]);
}

#[test]
fn call_of_a_name_and_1() {
    // v is pooled first, then g: names 1 and 0. Const 0, LoadNamed 0, Rotate
    // 1, CallRef name 1 with 2 arguments (2 + 256 * Named) and v, name 0.
    let sheet = sheet(
        &[
            [CALL, 3, 2, 0, 0, 0],
            [VARIABLE, 1, 0, 1, 0, 0],
            [INT, 1, 0, 1, 0, 0],
        ],
        &[7, 8, 9],
        &["g", "v"],
        &[],
    );
    #[rustfmt::skip]
    assert_eq!(words(&sheet), [
        4, 1, 2, 0, 0, 0, 0, 0, 0, 0, 4, 2,
        1, 0, 0, 0,
        5, 0, 0, 0,
        14, 1, 0, 0,
        13, 1, 258, 0,
        0, 8, 0, 7,
        3, 1, 0,
        1, 0, 0,
        0, 0, 0,
    ]);
}

#[test]
fn empty_switch_on_unit() {
    let sheet = sheet(
        &[[SWITCH, 2, 1, 0, 0, 0], [UNIT, 1, 0, 0, 0, 0]],
        &[7, 9],
        &[],
        &[],
    );
    #[rustfmt::skip]
    assert_eq!(words(&sheet), [
        5, 0, 0, 0, 0, 0, 0, 1, 0, 0, 5, 2,
        2, 0, 0, 0,
        15, 0, 0, 0,
        2, 0, 0, 0,
        14, 1, 0, 0,
        7, 0, 0, 0,
        0, 0, 0, 0, 0,
        0, 0, 0, 2,
    ]);
}

#[test]
fn switch_with_a_default() {
    // The body's jump to the end is taken back: five instructions, six
    // emitted. The guard of the default does not matter.
    for guard in [
        [BOOL, 1, 0, 0, 0, 0],
        [BOOL, 1, 0, 1, 0, 0],
        [THIS, 1, 0, 0, 0, 0],
    ] {
        let sheet = sheet(
            &[
                [SWITCH, 4, 3, 1, 0, 1],
                [UNIT, 1, 0, 0, 0, 0],
                guard,
                [BOOL, 1, 0, 1, 0, 0],
            ],
            &[7, 8, 9, 10],
            &[],
            &[],
        );
        #[rustfmt::skip]
        assert_eq!(words(&sheet), [
            5, 0, 0, 0, 0, 0, 0, 1, 0, 0, 6, 2,
            2, 0, 0, 0,
            15, 0, 0, 0,
            3, 1, 0, 0,
            14, 1, 0, 0,
            7, 0, 0, 0,
            0, 0, 0, 0, 0,
            0, 0, 0, 2,
        ]);
    }
}

#[test]
fn method_eval() {
    // One EvalAst of residual 0, which is node 0; name p stays.
    for flags in 0..4 {
        let sheet = sheet(
            &[
                [DOT, 3, 2, flags, 0, 0],
                [VARIABLE, 1, 0, 0, 0, 0],
                [METHOD, 1, 0, 1, 0, 0],
            ],
            &[7, 8, 9],
            &["p", "eval"],
            &[],
        );
        #[rustfmt::skip]
        assert_eq!(words(&sheet), [
            1, 0, 1, 0, 1, 0, 0, 0, 0, 0, 1, 1,
            24, 0, 0, 0,
            0,
            0, 0, 0,
            0,
        ]);
    }
}

// ---- further sheets ----

#[test]
fn or_of_two() {
    // x || this: LoadNamed 0, JumpIfTrue 6, LoadThis, JumpIfTrue 6, Bool 0,
    // Jump 7, Bool 1.
    let sheet = sheet(
        &[
            [OR, 3, 2, 0, 0, 0],
            [VARIABLE, 1, 0, 0, 0, 0],
            [THIS, 1, 0, 0, 0, 0],
        ],
        &[7, 8, 9],
        &["x"],
        &[],
    );
    #[rustfmt::skip]
    assert_eq!(words(&sheet), [
        7, 0, 1, 0, 0, 0, 0, 0, 0, 0, 7, 1,
        5, 0, 0, 0,
        9, 6, 0, 0,
        6, 0, 0, 0,
        9, 6, 0, 0,
        3, 0, 0, 0,
        8, 7, 0, 0,
        3, 1, 0, 0,
        8, 8, 9, 9, 0, 0, 0,
        0, 0, 0,
    ]);
}

#[test]
fn coalesce_of_three() {
    // x ?? 1 ?? y, y local 1 (the last of two): LoadNamed 0 at 11,
    // SkipIfNotUnit 7 at 11, Pop at 11, Const 0, SkipIfNotUnit 7 at 12, Pop at
    // 12, LoadLocal 1.
    let sheet = sheet(
        &[
            [COALESCE, 4, 3, 0, 0, 0],
            [VARIABLE, 1, 0, 0, 0, 0],
            [INT, 1, 0, 1, 0, 0],
            [VARIABLE, 1, 0, 1, 0, 0],
        ],
        &[10, 11, 12, 13],
        &["x", "y"],
        &[1, 1],
    );
    #[rustfmt::skip]
    assert_eq!(words(&sheet), [
        7, 1, 1, 0, 0, 0, 0, 0, 0, 0, 7, 1,
        5, 0, 0, 0,
        11, 7, 0, 0,
        7, 0, 0, 0,
        1, 0, 0, 0,
        11, 7, 0, 0,
        7, 0, 0, 0,
        4, 1, 0, 0,
        11, 11, 11, 0, 12, 12, 0,
        3, 1, 0,
        0, 0, 0,
    ]);
}

#[test]
fn array_and_interpolation() {
    // [`a{true}`, "a"]: InterpolateStart, Const 0, Append at the String's
    // position 12, Bool 1, Append at 13, End, CheckSize 0 at 11, Const 0 (the
    // same text), CheckSize 1 at 14, MakeArray 2 at 10. Text 1 has the bytes of
    // text 0, and the pool keeps text 0. Depth: the buffer and a segment, 2;
    // then the first element and the second, 2.
    let sheet = sheet(
        &[
            [ARRAY, 5, 2, 0, 0, 0],
            [INTERPOLATED, 3, 2, 0, 0, 0],
            [STRING, 1, 0, 0, 0, 0],
            [BOOL, 1, 0, 1, 0, 0],
            [STRING, 1, 0, 1, 0, 0],
        ],
        &[10, 11, 12, 13, 14],
        &["a", "a"],
        &[],
    );
    #[rustfmt::skip]
    assert_eq!(words(&sheet), [
        10, 1, 0, 0, 0, 0, 0, 0, 0, 0, 10, 2,
        18, 0, 0, 0,
        1, 0, 0, 0,
        19, 0, 0, 0,
        3, 1, 0, 0,
        19, 0, 0, 0,
        20, 0, 0, 0,
        22, 0, 0, 0,
        1, 0, 0, 0,
        22, 1, 0, 0,
        21, 2, 0, 0,
        0, 0, 12, 0, 13, 0, 11, 0, 14, 10,
        6, 0, 0,
    ]);
}

#[test]
fn constants_by_kind_and_bits() {
    // [97, 'a', 97.bits as Float, 97]: three constants.
    let sheet = sheet(
        &[
            [ARRAY, 5, 4, 0, 0, 0],
            [INT, 1, 0, 97, 0, 0],
            [CHAR, 1, 0, 97, 0, 0],
            [FLOAT, 1, 0, 97, 0, 0],
            [INT, 1, 0, 97, 0, 0],
        ],
        &[1, 2, 3, 4, 5],
        &[],
        &[],
    );
    #[rustfmt::skip]
    assert_eq!(words(&sheet), [
        9, 3, 0, 0, 0, 0, 0, 0, 0, 0, 9, 4,
        1, 0, 0, 0,
        22, 0, 0, 0,
        1, 1, 0, 0,
        22, 1, 0, 0,
        1, 2, 0, 0,
        22, 2, 0, 0,
        1, 0, 0, 0,
        22, 3, 0, 0,
        21, 4, 0, 0,
        0, 2, 0, 3, 0, 4, 0, 5, 1,
        3, 97, 0,
        5, 97, 0,
        4, 97, 0,
    ]);
}

#[test]
fn operator_and_capture() {
    // 1 + 2 with operator 40 and capture: the operator wins, no mark. Then the
    // same name with capture and no operator: the name with `!`, and 256 added.
    // Text 2 is `+!` without a mark and equals it. FnCall with operator and
    // three arguments: no token, capture stays, no receiver.
    //  0 Const 0, 1 Const 1, 2 Call name 0, 2, token 0 + 1
    //  3 CheckSize 0
    //  4 Call name 1, 0 + 256, 0
    //  5 CheckSize 1
    //  6 LoadNamed 1            variable `+!`
    //  7 CheckSize 2
    //  8 LoadThis, 9 Unit, 10 Unit, 11 Call name 1, 3 + 256, 0
    // 12 CheckSize 3
    // 13 MakeArray 4
    let sheet = sheet(
        &[
            [ARRAY, 10, 4, 0, 0, 0],
            [CALL, 3, 2, 0, 1, 40],
            [INT, 1, 0, 1, 0, 0],
            [INT, 1, 0, 2, 0, 0],
            [CALL, 1, 0, 0, 1, 0],
            [VARIABLE, 1, 0, 1, 0, 0],
            [CALL, 4, 3, 0, 1, 7],
            [THIS, 1, 0, 0, 0, 0],
            [UNIT, 1, 0, 0, 0, 0],
            [UNIT, 1, 0, 0, 0, 0],
        ],
        &[1, 2, 3, 4, 5, 6, 7, 8, 9, 10],
        &["+", "+!"],
        &[],
    );
    #[rustfmt::skip]
    assert_eq!(words(&sheet), [
        14, 2, 2, 1, 0, 0, 0, 0, 0, 0, 14, 6,
        1, 0, 0, 0,
        1, 1, 0, 0,
        12, 0, 2, 1,
        22, 0, 0, 0,
        12, 1, 256, 0,
        22, 1, 0, 0,
        5, 1, 0, 0,
        22, 2, 0, 0,
        6, 0, 0, 0,
        2, 0, 0, 0,
        2, 0, 0, 0,
        12, 1, 259, 0,
        22, 3, 0, 0,
        21, 4, 0, 0,
        0, 0, 2, 2, 5, 5, 6, 6, 8, 0, 0, 7, 7, 1,
        3, 1, 0,
        3, 2, 0,
        0, 0, 0,
        0, 1, 0,
        40,
    ]);
}

#[test]
fn function_pointers() {
    // [Fn(x), call(f, 1), Fn(), curry(x)] with capture on `call`:
    //  0 LoadNamed 0 (x), 1 MakeFnPtr at the argument's position
    //  2 CheckSize 0
    //  3 LoadNamed 1 (f), 4 Const 0, 5 CallFnPtr 1, capture 1
    //  6 CheckSize 1
    //  7 EvalAst 0 (node 6), 8 CheckSize 2
    //  9 EvalAst 1 (node 7), 10 CheckSize 3
    // 11 MakeArray 4
    let sheet = sheet(
        &[
            [ARRAY, 9, 4, 0, 0, 0],
            [CALL, 2, 1, 0, 0, 0],
            [VARIABLE, 1, 0, 3, 0, 0],
            [CALL, 3, 2, 1, 1, 9],
            [VARIABLE, 1, 0, 4, 0, 0],
            [INT, 1, 0, 1, 0, 0],
            [CALL, 1, 0, 0, 0, 0],
            [CALL, 2, 1, 2, 0, 0],
            [VARIABLE, 1, 0, 3, 0, 0],
        ],
        &[1, 2, 3, 4, 5, 6, 7, 8, 9],
        &["Fn", "call", "curry", "x", "f"],
        &[],
    );
    #[rustfmt::skip]
    assert_eq!(words(&sheet), [
        12, 1, 2, 0, 2, 0, 0, 0, 0, 0, 12, 4,
        5, 0, 0, 0,
        16, 0, 0, 0,
        22, 0, 0, 0,
        5, 1, 0, 0,
        1, 0, 0, 0,
        17, 1, 1, 0,
        22, 1, 0, 0,
        24, 0, 0, 0,
        22, 2, 0, 0,
        24, 1, 0, 0,
        22, 3, 0, 0,
        21, 4, 0, 0,
        3, 3, 2, 5, 0, 4, 4, 0, 7, 0, 8, 1,
        3, 1, 0,
        3, 0, 0,
        4, 0, 0,
        6, 7,
    ]);
}

#[test]
fn call_on_this() {
    // g(this, 1): LoadThis first, then Const, CallRef name 0, 2 + 512, 0.
    let sheet = sheet(
        &[
            [CALL, 3, 2, 0, 0, 0],
            [THIS, 1, 0, 0, 0, 0],
            [INT, 1, 0, 1, 0, 0],
        ],
        &[7, 8, 9],
        &["g"],
        &[],
    );
    #[rustfmt::skip]
    assert_eq!(words(&sheet), [
        3, 1, 1, 0, 0, 0, 0, 0, 0, 0, 3, 2,
        6, 0, 0, 0,
        1, 0, 0, 0,
        13, 0, 514, 0,
        8, 0, 7,
        3, 1, 0,
        0, 0, 0,
    ]);
}

#[test]
fn chain_of_three_steps() {
    // a?.p[x].m(1): Dot(a, Index(p, Dot(x, m(1)))), flags 1, 0, 2. The first
    // node's step is p with SKIP_IF_UNIT; the second's is the index x, taken
    // inside node 2 (position 12); the third's the method. x is local 0.
    // Names: a, then p, get, set, then m. Operands: x, 1. Code: LoadLocal 0,
    // Const 0, Chain 0 at node 0's position.
    let sheet = sheet(
        &[
            [DOT, 8, 2, 1, 0, 0],
            [VARIABLE, 1, 0, 0, 0, 0],
            [INDEX, 6, 2, 0, 0, 0],
            [PROPERTY, 1, 0, 1, 2, 3],
            [DOT, 4, 2, 2, 0, 0],
            [VARIABLE, 1, 0, 4, 0, 0],
            [METHOD, 2, 1, 5, 0, 0],
            [INT, 1, 0, 1, 0, 0],
        ],
        &[10, 11, 12, 13, 14, 15, 16, 17],
        &["a", "p", "get$p", "set$p", "x", "m"],
        &[4],
    );
    #[rustfmt::skip]
    assert_eq!(words(&sheet), [
        3, 1, 5, 0, 0, 1, 3, 0, 0, 0, 3, 2,
        4, 0, 0, 0,
        1, 0, 0, 0,
        23, 0, 0, 0,
        0, 0, 10,
        3, 1, 0,
        0, 0, 0,
        1, 0, 0,
        2, 0, 0,
        3, 0, 0,
        5, 0, 0,
        1, 0, 11, 0, 3, 2,
        1, 1, 2, 3, 1, 13,
        0, 0, 0, 15, 12, 0,
        2, 4, 1, 1, 0, 16,
    ]);
}

#[test]
fn index_with_break_takes_the_whole_right_side() {
    // a[b[c]] with BREAK on the outer: the inner chain is the index. a is
    // local 0, b local 1; c is a name. The outer pools its root's name a
    // first; then the inner chain pools b, lowers c and becomes chain 0 with
    // step 0; the outer is chain 1 with step 1. The index step's position is
    // the start of b[c], which is b's position 13; its bracket is node 0's.
    let nodes = |flags: u32| {
        [
            [INDEX, 5, 2, flags, 0, 0],
            [VARIABLE, 1, 0, 0, 0, 0],
            [INDEX, 3, 2, 0, 0, 0],
            [VARIABLE, 1, 0, 1, 0, 0],
            [VARIABLE, 1, 0, 2, 0, 0],
        ]
    };
    let positions = [10, 11, 12, 13, 14];
    let texts = ["a", "b", "c"];
    #[rustfmt::skip]
    assert_eq!(words(&sheet(&nodes(2), &positions, &texts, &[0, 1])), [
        3, 0, 3, 0, 0, 2, 2, 0, 0, 0, 3, 1,
        5, 2, 0, 0,
        23, 0, 0, 0,
        23, 1, 0, 0,
        14, 12, 10,
        0, 0, 0,
        1, 0, 0,
        2, 0, 0,
        0, 1, 1, 0, 1, 1,
        0, 0, 0, 1, 1, 1,
        0, 0, 0, 14, 12, 0,
        0, 0, 0, 13, 10, 0,
    ]);
    // Without BREAK it is a[b][c]: one chain, indices b and c.
    #[rustfmt::skip]
    assert_eq!(words(&sheet(&nodes(0), &positions, &texts, &[0, 1])), [
        3, 0, 2, 0, 0, 1, 2, 0, 0, 0, 3, 2,
        4, 1, 0, 0,
        5, 1, 0, 0,
        23, 0, 0, 0,
        0, 14, 10,
        0, 0, 0,
        2, 0, 0,
        0, 0, 0, 0, 2, 2,
        0, 0, 0, 13, 10, 0,
        0, 1, 0, 14, 12, 0,
    ]);
}

#[test]
fn temporary_root_goes_last() {
    // [][x] (an empty array indexed): LoadNamed x, MakeArray 0, Chain with
    // root Temporary and one operand, which pops two.
    let sheet = sheet(
        &[
            [INDEX, 3, 2, 0, 0, 0],
            [ARRAY, 1, 0, 0, 0, 0],
            [VARIABLE, 1, 0, 0, 0, 0],
        ],
        &[10, 11, 12],
        &["x"],
        &[],
    );
    #[rustfmt::skip]
    assert_eq!(words(&sheet), [
        3, 0, 1, 0, 0, 1, 1, 0, 0, 0, 3, 2,
        5, 0, 0, 0,
        21, 0, 0, 0,
        23, 0, 0, 0,
        12, 11, 10,
        0, 0, 0,
        3, 0, 0, 0, 1, 1,
        0, 0, 0, 12, 10, 0,
    ]);
}

#[test]
fn equal_chains_are_one() {
    // [this.p, this.p] with equal positions: one chain, one step. With other
    // positions of the Dot nodes still one; with another position of `this`,
    // two.
    let sheet_with = |dot: u32, this: u32| {
        sheet(
            &[
                [ARRAY, 7, 2, 0, 0, 0],
                [DOT, 3, 2, 0, 0, 0],
                [THIS, 1, 0, 0, 0, 0],
                [PROPERTY, 1, 0, 0, 0, 0],
                [DOT, 3, 2, 0, 0, 0],
                [THIS, 1, 0, 0, 0, 0],
                [PROPERTY, 1, 0, 0, 0, 0],
            ],
            &[1, 2, 3, 4, dot, this, 4],
            &["p"],
            &[],
        )
    };
    for dot in [2, 5] {
        #[rustfmt::skip]
        assert_eq!(words(&sheet_with(dot, 3)), [
            5, 0, 1, 0, 0, 1, 1, 0, 0, 0, 5, 2,
            23, 0, 0, 0,
            22, 0, 0, 0,
            23, 0, 0, 0,
            22, 1, 0, 0,
            21, 2, 0, 0,
            2, 2, dot, dot, 1,
            0, 0, 0,
            2, 0, 3, 0, 1, 0,
            1, 0, 0, 0, 0, 4,
        ]);
    }
    let two = words(&sheet_with(2, 6));
    assert_eq!(&two[5..7], [2, 2]);
}

#[test]
fn failed_chain_keeps_its_pools() {
    // x[1].Fn(): the root's name x and the constant 1 are pooled, then the
    // method fails. Const is taken back, so the code is one EvalAst; emitted
    // are two.
    let first = sheet(
        &[
            [INDEX, 5, 2, 0, 0, 0],
            [VARIABLE, 1, 0, 0, 0, 0],
            [DOT, 3, 2, 0, 0, 0],
            [INT, 1, 0, 1, 0, 0],
            [METHOD, 1, 0, 1, 0, 0],
        ],
        &[1, 2, 3, 4, 5],
        &["x", "Fn"],
        &[],
    );
    #[rustfmt::skip]
    assert_eq!(words(&first), [
        1, 1, 1, 0, 1, 0, 0, 0, 0, 0, 2, 1,
        24, 0, 0, 0,
        0,
        3, 1, 0,
        0, 0, 0,
        0,
    ]);
    // x.(1): a dot onto an Int is no chain at all; nothing is pooled.
    let second = sheet(
        &[
            [DOT, 3, 2, 0, 0, 0],
            [VARIABLE, 1, 0, 0, 0, 0],
            [INT, 1, 0, 1, 0, 0],
        ],
        &[1, 2, 3],
        &["x"],
        &[],
    );
    #[rustfmt::skip]
    assert_eq!(words(&second), [
        1, 0, 0, 0, 1, 0, 0, 0, 0, 0, 1, 1,
        24, 0, 0, 0,
        0,
        0,
    ]);
    // The same for a Dot with BREAK onto a chain node.
    let third = sheet(
        &[
            [DOT, 5, 2, 2, 0, 0],
            [VARIABLE, 1, 0, 0, 0, 0],
            [DOT, 3, 2, 0, 0, 0],
            [PROPERTY, 1, 0, 0, 0, 0],
            [PROPERTY, 1, 0, 0, 0, 0],
        ],
        &[1, 2, 3, 4, 5],
        &["x"],
        &[],
    );
    #[rustfmt::skip]
    assert_eq!(words(&third), [
        1, 0, 0, 0, 1, 0, 0, 0, 0, 0, 1, 1,
        24, 0, 0, 0,
        0,
        0,
    ]);
}

#[test]
fn property_and_method_outside_a_chain() {
    // [p, m(this)] as Property and MethodCall: two residuals, children unseen.
    let sheet = sheet(
        &[
            [ARRAY, 4, 2, 0, 0, 0],
            [PROPERTY, 1, 0, 0, 0, 0],
            [METHOD, 2, 1, 0, 0, 0],
            [THIS, 1, 0, 0, 0, 0],
        ],
        &[1, 2, 3, 4],
        &["p"],
        &[],
    );
    #[rustfmt::skip]
    assert_eq!(words(&sheet), [
        5, 0, 0, 0, 2, 0, 0, 0, 0, 0, 5, 2,
        24, 0, 0, 0,
        22, 0, 0, 0,
        24, 1, 0, 0,
        22, 1, 0, 0,
        21, 2, 0, 0,
        0, 2, 0, 3, 1,
        1, 2,
    ]);
}

#[test]
fn cases_go_on_to_the_ranges() {
    // switch this { 1 | "s" => [0], 'c' => [1], range 0..9 => block 0,
    // default block 2 }. Guards: 0 is x, 1 is Bool 0, 2 is Bool 1.
    // The list [1] has only a constant false guard: it emits nothing, and its
    // row goes to the ranges. So the Jump of list [0] is the last instruction
    // before the ranges and is taken back, as is the Jump of the last body:
    //  0 LoadThis, 1 Switch 0, 2 LoadNamed 0, 3 JumpIfTrue 8,
    //  4 Switch 1, 5 LoadNamed 0, 6 JumpIfTrue 8, 7 Jump 10,
    //  8 Unit, 9 Jump 11, 10 Bool 1, 11 Rotate 1, 12 Pop.
    // Emitted 13 and the two taken back. Depth: subject 1, guard 2, body 2.
    // Rows: 1 and "s" to 2, 'c' to 4; default 4.
    let sheet = sheet(
        &[
            [SWITCH, 20, 11, 3, 3, 3],
            [THIS, 1, 0, 0, 0, 0],
            [VARIABLE, 1, 0, 0, 0, 0],
            [UNIT, 1, 0, 0, 0, 0],
            [BOOL, 1, 0, 0, 0, 0],
            [THIS, 1, 0, 0, 0, 0],
            [BOOL, 1, 0, 1, 0, 0],
            [BOOL, 1, 0, 1, 0, 0],
            [CASE, 3, 2, 0, 0, 0],
            [INT, 1, 0, 1, 0, 0],
            [REF, 1, 0, 0, 0, 0],
            [CASE, 3, 2, 0, 0, 0],
            [STRING, 1, 0, 1, 0, 0],
            [REF, 1, 0, 0, 0, 0],
            [CASE, 3, 2, 0, 0, 0],
            [CHAR, 1, 0, 99, 0, 0],
            [REF, 1, 0, 1, 0, 0],
            [RANGE, 3, 2, 0, 0, 0],
            [INT, 1, 0, 0, 0, 0],
            [INT, 1, 0, 9, 0, 0],
        ],
        &[
            1, 2, 30, 4, 5, 6, 7, 8, 9, 10, 11, 12, 13, 14, 15, 16, 17, 18, 19, 20,
        ],
        &["x", "s"],
        &[],
    );
    #[rustfmt::skip]
    assert_eq!(words(&sheet), [
        13, 3, 1, 0, 0, 0, 0, 2, 3, 1, 15, 2,
        6, 0, 0, 0,
        15, 0, 0, 0,
        5, 0, 0, 0,
        9, 8, 0, 0,
        15, 1, 0, 0,
        5, 0, 0, 0,
        9, 8, 0, 0,
        8, 10, 0, 0,
        2, 0, 0, 0,
        8, 11, 0, 0,
        3, 1, 0, 0,
        14, 1, 0, 0,
        7, 0, 0, 0,
        2, 0, 30, 30, 0, 30, 30, 0, 0, 0, 0, 0, 0,
        3, 1, 0,
        6, 1, 0,
        5, 99, 0,
        0, 0, 0,
        0, 0, 3, 4,
        1, 0, 1, 10,
        2, 0,
        2, 1,
        4, 2,
        0, 0, 9, 0, 0, 5,
    ]);
}

#[test]
fn repeated_blocks_and_shared_lists() {
    // No ranges, no default. Case 1: [0, 0]; case 2: [0]; case 3: [0, 0] again;
    // case 4: none; case 5: [0, 1]. Guard 0 is this, guard 1 is Bool 1.
    //  0 Unit, 1 Switch 0
    //  list [0, 0]: 2 LoadThis, 3 JumpIfTrue 13, 4 LoadThis, 5 JumpIfTrue 13,
    //               6 Jump 17
    //  list [0]:    7 LoadThis, 8 JumpIfTrue 13, 9 Jump 17
    //  list []:     nothing
    //  list [0, 1]: 10 LoadThis, 11 JumpIfTrue 13, 12 Jump 15
    // 13 Bool 0 (body 0), 14 Jump 18
    // 15 Bool 1 (body 1), 16 Jump 18
    // 17 Unit (missing default)
    // 18 Rotate 1, 19 Pop
    // No jump is taken back: there are no ranges and no default.
    let sheet = sheet(
        &[
            [SWITCH, 23, 10, 2, 5, 0],
            [UNIT, 1, 0, 0, 0, 0],
            [THIS, 1, 0, 0, 0, 0],
            [BOOL, 1, 0, 0, 0, 0],
            [BOOL, 1, 0, 1, 0, 0],
            [BOOL, 1, 0, 1, 0, 0],
            [CASE, 4, 3, 0, 0, 0],
            [INT, 1, 0, 1, 0, 0],
            [REF, 1, 0, 0, 0, 0],
            [REF, 1, 0, 0, 0, 0],
            [CASE, 3, 2, 0, 0, 0],
            [INT, 1, 0, 2, 0, 0],
            [REF, 1, 0, 0, 0, 0],
            [CASE, 4, 3, 0, 0, 0],
            [INT, 1, 0, 3, 0, 0],
            [REF, 1, 0, 0, 0, 0],
            [REF, 1, 0, 0, 0, 0],
            [CASE, 2, 1, 0, 0, 0],
            [INT, 1, 0, 4, 0, 0],
            [CASE, 4, 3, 0, 0, 0],
            [INT, 1, 0, 5, 0, 0],
            [REF, 1, 0, 0, 0, 0],
            [REF, 1, 0, 1, 0, 0],
        ],
        &[9; 23],
        &[],
        &[],
    );
    #[rustfmt::skip]
    assert_eq!(words(&sheet), [
        20, 5, 0, 0, 0, 0, 0, 1, 5, 0, 20, 2,
        2, 0, 0, 0,
        15, 0, 0, 0,
        6, 0, 0, 0,
        9, 13, 0, 0,
        6, 0, 0, 0,
        9, 13, 0, 0,
        8, 17, 0, 0,
        6, 0, 0, 0,
        9, 13, 0, 0,
        8, 17, 0, 0,
        6, 0, 0, 0,
        9, 13, 0, 0,
        8, 15, 0, 0,
        3, 0, 0, 0,
        8, 18, 0, 0,
        3, 1, 0, 0,
        8, 18, 0, 0,
        2, 0, 0, 0,
        14, 1, 0, 0,
        7, 0, 0, 0,
        0, 0, 9, 9, 9, 9, 0, 9, 9, 0, 9, 9, 0, 0, 0, 0, 0, 0, 0, 0,
        3, 1, 0,
        3, 2, 0,
        3, 3, 0,
        3, 4, 0,
        3, 5, 0,
        0, 0, 5, 17,
        2, 0,
        7, 1,
        2, 2,
        17, 3,
        10, 4,
    ]);
}

#[test]
fn array_of_65_535_behind_one_argument() {
    // g((), [() x 65,535]): 1 + 2 * 65,535 + 1 + 1 emitted, so max_stack is
    // capped at 65,535; the depth reaches 65,536.
    let mut nodes = vec![[CALL, 65_538, 2, 0, 0, 0], [UNIT, 1, 0, 0, 0, 0]];
    nodes.push([ARRAY, 65_536, 65_535, 0, 0, 0]);
    nodes.extend(std::iter::repeat_n([UNIT, 1, 0, 0, 0, 0], 65_535));
    let positions = vec![1; nodes.len()];
    let image = oracle::lower_sheet(&sheet(&nodes, &positions, &["g"], &[]))
        .ok()
        .unwrap()
        .words;
    assert_eq!(
        &image[..12],
        [131_073, 0, 1, 0, 0, 0, 0, 0, 0, 0, 65_535, 65_536]
    );
}

//! Names without bytes: 14, at its place between 4 and 5, and what else may be empty.

use sheet_lower::{check, check_image, lower, needs, scratch_words, Refused};

const STRING: u32 = 6;
const ARRAY: u32 = 8;
const VARIABLE: u32 = 9;
const PROPERTY: u32 = 11;
const METHOD_CALL: u32 = 12;
const FN_CALL: u32 = 13;

/// A node without children: its kind, its fields a, b and c, and its namespace's word.
fn leaf(kind: u32, [a, b, c]: [u32; 3], namespace: u32) -> [u32; 8] {
    [kind, 1, 0, a, b, c, namespace, 0]
}

/// A sheet of these nodes and locals, with two texts: text 0 has no bytes, and text 1 is `x`.
fn sheet(nodes: &[[u32; 8]], locals: &[u32]) -> Vec<u8> {
    let mut words = vec![nodes.len() as u32, 2, 1, locals.len() as u32];
    words.extend(nodes.iter().flatten());
    words.extend(nodes.iter().map(|_| 9));
    words.extend([0, 0, 0, 1, u32::from(b'x')]);
    words.extend(locals);
    words.iter().flat_map(|word| word.to_le_bytes()).collect()
}

fn variable(name: u32) -> [u32; 8] {
    leaf(VARIABLE, [name, 0, 0], 0)
}

/// A variable in so many arrays, one in the other.
fn deep(arrays: u32, name: u32) -> Vec<[u32; 8]> {
    let array = |inside| [ARRAY, inside + 1, 1, 0, 0, 0, 0, 0];
    (1..=arrays).rev().map(array).chain([variable(name)]).collect()
}

#[test]
fn an_empty_name_is_14_and_nothing_is_written() {
    let sheet = sheet(&[variable(0)], &[]);
    assert_eq!(check(&sheet), Err(Refused(14)));
    assert_eq!(needs(&sheet), Err(Refused(14)));
    for (room, lent) in [(20, scratch_words(1, 1)), (20, 0), (0, scratch_words(1, 1)), (0, 0)] {
        let (mut image, mut scratch) = (vec![7; room], vec![8; lent]);
        assert_eq!(lower(&sheet, &mut image, &mut scratch), Err(Refused(14)));
        assert!(image.iter().all(|word| *word == 7) && scratch.iter().all(|word| *word == 8));
    }
    assert_eq!(Refused(14).cause(), "a Variable, Property, MethodCall, FnCall or local has a name of no bytes");
    assert_eq!(Refused(14).to_string(), "refused 14");
}

#[test]
fn an_image_beside_it_is_not_looked_at() {
    let sheet = sheet(&[variable(0)], &[]);
    // A well made image, of one Unit, and words that are none; a scratch that is too short, and one that is not.
    let unit = [1, 0, 0, 0, 0, 0, 0, 0, 0, 0, 1, 1, 2, 0, 0, 0, 0];
    for image in [&unit[..], &unit[..3], &[]] {
        for lent in [0, 17, 20] {
            let mut scratch = vec![8; lent];
            assert_eq!(check_image(&sheet, image, &mut scratch), Err(Refused(14)));
            assert!(scratch.iter().all(|word| *word == 8));
        }
    }
}

#[test]
fn own_names_have_bytes() {
    for kind in [VARIABLE, PROPERTY, METHOD_CALL, FN_CALL] {
        assert_eq!(check(&sheet(&[leaf(kind, [0, 0, 0], 0)], &[])), Err(Refused(14)), "kind {kind}");
        assert_eq!(check(&sheet(&[leaf(kind, [1, 0, 0], 0)], &[])), Ok(()), "kind {kind}");
    }
    // In a namespace too, and a local that nothing uses.
    assert_eq!(check(&sheet(&[leaf(VARIABLE, [0, 0, 0], 2)], &[])), Err(Refused(14)));
    assert_eq!(check(&sheet(&[leaf(FN_CALL, [0, 0, 0], 2)], &[])), Err(Refused(14)));
    assert_eq!(check(&sheet(&[variable(1)], &[1, 0])), Err(Refused(14)));
    assert_eq!(check(&sheet(&[variable(1)], &[1, 1])), Ok(()));
}

#[test]
fn other_texts_may_be_empty() {
    let accepted = [
        ("a String", leaf(STRING, [0, 0, 0], 0)),
        ("a getter", leaf(PROPERTY, [1, 0, 1], 0)),
        ("a setter", leaf(PROPERTY, [1, 1, 0], 0)),
        ("a namespace", leaf(VARIABLE, [1, 0, 0], 1)),
        ("a text that nothing names", variable(1)),
    ];
    for (what, node) in accepted {
        assert_eq!(check(&sheet(&[node], &[])), Ok(()), "{what}");
    }
}

#[test]
fn it_goes_between_4_and_5() {
    // Text 2 does not exist.
    assert_eq!(check(&sheet(&[variable(0)], &[2])), Err(Refused(4)));
    assert_eq!(check(&sheet(&[variable(2)], &[0])), Err(Refused(4)));
    assert_eq!(check(&sheet(&deep(64, 0), &[])), Err(Refused(14)));
    assert_eq!(check(&sheet(&deep(64, 1), &[0])), Err(Refused(14)));
    assert_eq!(check(&sheet(&deep(64, 1), &[])), Err(Refused(5)));
    assert_eq!(check(&sheet(&deep(63, 0), &[])), Err(Refused(14)));
    assert_eq!(check(&sheet(&deep(63, 1), &[])), Ok(()));
}

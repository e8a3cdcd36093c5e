//! The sheets of `samples/`, on which programs and examples are run.

use crate::draft::Draft;
use crate::format::*;

/// The sheet of this name.
pub fn sample(name: &str) -> Option<Vec<u8>> {
    match name {
        "unit" => Some(unit()),
        "port" => Some(port()),
        "twice" => Some(twice()),
        _ => None,
    }
}

fn at(line: u32, column: u32) -> u32 {
    65_536 * line + column
}

/// One Unit node.
fn unit() -> Vec<u8> {
    let mut draft = Draft::new();
    draft.leaf(UNIT, [0; 3], at(1, 1));
    draft.to_bytes()
}

/// `switch port { 0 => open(port), 1..=9 => closed(port), _ => log(port, 7) }`,
/// where port is a local.
fn port() -> Vec<u8> {
    let mut draft = Draft::new();
    let [port, open, closed, log] =
        [&b"port"[..], b"open", b"closed", b"log"].map(|name| draft.text(name));
    draft.locals = vec![port];
    draft.open(SWITCH, [3, 1, 3], at(1, 1));
    draft.leaf(VARIABLE, [port, 0, 0], at(1, 2));
    for (name, guard) in [(open, at(1, 3)), (closed, at(1, 6)), (log, at(2, 1))] {
        draft.leaf(BOOL, [1, 0, 0], guard);
        draft.open(FN_CALL, [name, 0, 0], guard + 1);
        draft.leaf(VARIABLE, [port, 0, 0], guard + 2);
        if name == log {
            draft.int(7, guard + 3);
        }
        draft.close();
    }
    draft.open(CASE, [0; 3], at(2, 5));
    draft.int(0, at(2, 6));
    draft.leaf(REF, [0; 3], at(2, 7));
    draft.close();
    draft.open(RANGE, [1, 1, 0], at(2, 8));
    draft.int(1, at(3, 1));
    draft.int(9, at(3, 2));
    draft.close();
    draft.close();
    draft.to_bytes()
}

/// `switch port { 7 => accept(), 7 => accept() }` with a case for each 7: equal
/// cases.
fn twice() -> Vec<u8> {
    let mut draft = Draft::new();
    let [port, accept] = [&b"port"[..], b"accept"].map(|name| draft.text(name));
    draft.open(SWITCH, [1, 2, 0], at(1, 1));
    draft.leaf(VARIABLE, [port, 0, 0], at(1, 2));
    draft.leaf(BOOL, [1, 0, 0], at(1, 3));
    draft.leaf(FN_CALL, [accept, 0, 0], at(1, 4));
    for case in [at(1, 5), at(1, 8)] {
        draft.open(CASE, [0; 3], case);
        draft.int(7, case + 1);
        draft.leaf(REF, [0; 3], case + 2);
        draft.close();
    }
    draft.close();
    draft.to_bytes()
}

//! Sheets to time the check on. All but the sample are made here, always the same.

use oracle::draft::Draft;
use oracle::format::*;
use oracle::random::Random;

/// A sheet with a name and the number that it must get.
pub struct Workload {
    pub name: &'static str,
    pub sheet: Vec<u8>,
    pub number: u32,
}

impl Workload {
    fn new(name: &'static str, sheet: Vec<u8>, number: u32) -> Self {
        Workload {
            name,
            sheet,
            number,
        }
    }

    /// N, as the sheet says.
    pub fn nodes(&self) -> u32 {
        u32::from_le_bytes(self.sheet[..4].try_into().unwrap())
    }
}

const NODES: usize = MAX_NODES as usize;
const LOCALS: usize = MAX_LOCALS as usize;
const TEXTS: usize = MAX_TEXTS as usize;
const BYTES: usize = MAX_TEXT_BYTES as usize;

/// The names of the workloads, in order.
pub const NAMES: &[&str] = &[
    "units",
    "deep",
    "calls",
    "switch",
    "text ascii",
    "text mixed",
    "text multi-byte",
    "texts short",
    "rule",
    "port",
    "hostile levels",
    "hostile overlap",
    "hostile overlap halves",
    "hostile overlap ends",
    "hostile cases",
    "hostile counts",
    "hostile names",
    "hostile last name",
];

/// The workload of a name.
pub fn workload(name: &'static str) -> Workload {
    match name {
        "units" => Workload::new(name, units(), 0),
        "deep" => Workload::new(name, deep(), 0),
        "calls" => Workload::new(name, calls(), 0),
        "switch" => Workload::new(name, switch(), 0),
        "text ascii" => Workload::new(name, one_text(&text(BYTES, &["a"])), 0),
        "text mixed" => {
            let pieces = [
                "The ",
                "width ",
                "größe ",
                "of ",
                "длина ",
                "is ",
                "4 ",
                "→ ",
                "end. ",
            ];
            Workload::new(name, one_text(&text(BYTES, &pieces)), 0)
        }
        "text multi-byte" => Workload::new(
            name,
            one_text(&text(BYTES, &["ö", "д", "語", "→", "🐍"])),
            0,
        ),
        "texts short" => Workload::new(name, texts_short(), 0),
        "rule" => Workload::new(name, rule(), 0),
        "port" => Workload::new(name, include_bytes!("../../samples/port.sheet").to_vec(), 0),
        "hostile levels" => Workload::new(name, levels(), REFUSED_DEPTH),
        "hostile overlap" => Workload::new(name, overlap(), 0),
        "hostile overlap halves" => Workload::new(name, overlap_halves(), 0),
        "hostile overlap ends" => Workload::new(name, overlap_ends(), 0),
        "hostile cases" => Workload::new(name, long_cases(), 0),
        "hostile counts" => Workload::new(name, counts(), REFUSED_NODE),
        "hostile names" => Workload::new(name, own_names(NODES, LOCALS, TEXTS, false), 0),
        "hostile last name" => {
            Workload::new(name, own_names(NODES, LOCALS, TEXTS, true), REFUSED_NAME)
        }
        _ => panic!("no workload {name}"),
    }
}

/// Well-formed text of so many bytes from pieces in random order; ASCII fills the end.
fn text(bytes: usize, pieces: &[&str]) -> Vec<u8> {
    let mut random = Random::new(1);
    let mut out = Vec::with_capacity(bytes);
    while bytes - out.len() > 8 {
        let piece = random.pick(pieces).as_bytes();
        out.extend_from_slice(piece);
    }
    out.resize(bytes, b'.');
    out
}

/// An Array of Units.
fn units() -> Vec<u8> {
    let mut draft = Draft::new();
    draft.open(ARRAY, [0; 3], 1);
    for _ in 1..NODES {
        draft.leaf(UNIT, [0; 3], 2);
    }
    draft.close();
    draft.to_bytes()
}

/// An Array of trees that go down to depth 64 by calls, chains and indexes.
fn deep() -> Vec<u8> {
    let mut draft = Draft::new();
    let name = draft.text(b"area");
    let property = draft.text(b"width");
    draft.open(ARRAY, [0; 3], 1);
    while NODES - draft.nodes.len() > 110 {
        nest(&mut draft, MAX_DEPTH - 1, name, property);
    }
    while draft.nodes.len() < NODES {
        draft.leaf(UNIT, [0; 3], 2);
    }
    draft.close();
    draft.to_bytes()
}

/// A tree of so many levels.
fn nest(draft: &mut Draft, levels: usize, name: u32, property: u32) {
    if levels == 1 {
        draft.leaf(VARIABLE, [name, 0, 0], 2);
        return;
    }
    match levels % 3 {
        0 => {
            draft.open(FN_CALL, [name, 0, 0], 2);
            nest(draft, levels - 1, name, property);
        }
        1 => {
            draft.open(DOT, [0; 3], 2);
            nest(draft, levels - 1, name, property);
            draft.leaf(PROPERTY, [property; 3], 2);
        }
        _ => {
            draft.open(INDEX, [0; 3], 2);
            nest(draft, levels - 1, name, property);
            draft.int(levels as i64, 2);
        }
    }
    draft.close();
}

/// A name of 3 to 12 letters, or one near `curry`.
fn name(random: &mut Random) -> Vec<u8> {
    if random.chance(1, 8) {
        return b"currx".to_vec();
    }
    let length = random.between(3, 12);
    (0..length).map(|_| b'a' + random.below(26) as u8).collect()
}

/// Calls with names of their own: 32,768 texts, and calls of two to five arguments.
fn calls() -> Vec<u8> {
    let mut random = Random::new(2);
    let mut draft = Draft::new();
    let texts = 32_768;
    for _ in 0..texts {
        let bytes = name(&mut random);
        draft.text(&bytes);
    }
    let any = |random: &mut Random| random.below(texts) as u32;
    draft.locals = (0..1000).map(|_| any(&mut random)).collect();
    draft.open(ARRAY, [0; 3], 1);
    while NODES - draft.nodes.len() > 12 {
        draft.open(FN_CALL, [any(&mut random), 0, random.below(100) as u32], 2);
        for _ in 0..random.between(2, 5) {
            match random.below(5) {
                0 => draft.leaf(VARIABLE, [any(&mut random), 0, 0], 3),
                1 => draft.leaf(STRING, [any(&mut random), 0, 0], 3),
                2 => draft.int(random.word() as i64, 3),
                3 => {
                    draft.open(FN_CALL, [any(&mut random), 0, 0], 3);
                    draft.leaf(THIS, [0; 3], 3);
                    draft.close();
                }
                _ => draft.leaf(BOOL, [1, 0, 0], 3),
            }
        }
        draft.close();
    }
    while draft.nodes.len() < NODES {
        draft.leaf(UNIT, [0; 3], 2);
    }
    draft.close();
    draft.to_bytes()
}

/// A Switch of 64 blocks with big bodies, 64 cases with 64 Refs each, and 64 ranges.
fn switch() -> Vec<u8> {
    let mut random = Random::new(3);
    let mut draft = Draft::new();
    let subject = draft.text(b"kind");
    let arms = MAX_ARMS as u32;
    for index in 0..arms {
        draft.text(format!("case number {index}").as_bytes());
    }
    draft.open(SWITCH, [arms, arms, 1], 1);
    draft.leaf(VARIABLE, [subject, 0, 0], 2);
    // Cases and ranges: 64 * (2 + 64) + 64 * 3 nodes.
    let below = NODES - 64 * 66 - 64 * 3;
    for block in 0..MAX_ARMS as usize {
        draft.leaf(VARIABLE, [subject, 0, 0], 3);
        let end = draft.nodes.len() + (below - draft.nodes.len()) / (64 - block);
        let end = end - (MAX_ARMS as usize - 1 - block).min(1);
        draft.open(INTERPOLATED, [0; 3], 3);
        while draft.nodes.len() < end {
            if end - draft.nodes.len() > 8 && random.chance(1, 2) {
                draft.open(AND, [0; 3], 4);
                for _ in 0..random.between(1, 6) {
                    draft.leaf(VARIABLE, [subject, 0, 0], 5);
                }
                draft.close();
            } else {
                draft.int(random.word() as i64, 4);
            }
        }
        draft.close();
    }
    for case in 0..arms {
        draft.open(CASE, [0; 3], 6);
        match case % 3 {
            0 => draft.int(case as i64, 6),
            1 => draft.leaf(CHAR, [case, 0, 0], 6),
            _ => draft.leaf(STRING, [1 + case, 0, 0], 6),
        }
        for block in 0..arms {
            draft.leaf(REF, [block, 0, 0], 6);
        }
        draft.close();
    }
    for range in 0..arms {
        draft.open(RANGE, [range % 2, range, 0], 7);
        draft.int(range as i64, 7);
        draft.int(range as i64 + 10, 7);
        draft.close();
    }
    draft.close();
    assert_eq!(draft.nodes.len(), NODES);
    draft.to_bytes()
}

/// A String of one text.
fn one_text(bytes: &[u8]) -> Vec<u8> {
    let mut draft = Draft::new();
    let number = draft.text(bytes);
    draft.leaf(STRING, [number, 0, 0], 1);
    draft.to_bytes()
}

/// 65,536 texts of 0 to 31 bytes, every eighth not ASCII.
fn texts_short() -> Vec<u8> {
    let mut random = Random::new(4);
    let mut draft = Draft::new();
    for _ in 0..TEXTS {
        let length = random.between(0, 31);
        let bytes = if random.chance(1, 8) {
            "größe".as_bytes().to_vec()
        } else {
            (0..length).map(|_| b'a' + random.below(26) as u8).collect()
        };
        draft.text(&bytes);
    }
    draft.leaf(UNIT, [0; 3], 1);
    draft.to_bytes()
}

/// `port.open && (port.number > 1024 || allowed(port.name, "admin", 3)) && limits[port.class] ?? default(port) != 0 && ..`, 40 nodes.
fn rule() -> Vec<u8> {
    let mut draft = Draft::new();
    let port = draft.text(b"port");
    let [open, number, name, class] =
        [b"open".as_slice(), b"number", b"name", b"class"].map(|name| draft.text(name));
    let [greater, allowed, admin, limits, fallback, unequal] = [
        b">".as_slice(),
        b"allowed",
        b"admin",
        b"limits",
        b"fallback",
        b"!=",
    ]
    .map(|name| draft.text(name));
    draft.locals = vec![port, limits];
    let property = |draft: &mut Draft, name: u32| {
        draft.open(DOT, [0; 3], 1);
        draft.leaf(VARIABLE, [port, 0, 0], 1);
        draft.leaf(PROPERTY, [name; 3], 1);
        draft.close();
    };
    draft.open(AND, [0; 3], 1);
    property(&mut draft, open);
    draft.open(OR, [0; 3], 1);
    draft.open(FN_CALL, [greater, 0, 1], 1);
    property(&mut draft, number);
    draft.int(1024, 1);
    draft.close();
    draft.open(FN_CALL, [allowed, 0, 0], 1);
    property(&mut draft, name);
    draft.leaf(STRING, [admin, 0, 0], 1);
    draft.int(3, 1);
    draft.close();
    draft.close();
    draft.open(FN_CALL, [unequal, 0, 2], 1);
    draft.open(COALESCE, [0; 3], 1);
    draft.open(INDEX, [0; 3], 1);
    draft.leaf(VARIABLE, [limits, 0, 0], 1);
    property(&mut draft, class);
    draft.close();
    draft.open(FN_CALL, [fallback, 0, 0], 1);
    draft.leaf(VARIABLE, [port, 0, 0], 1);
    draft.close();
    draft.close();
    draft.int(0, 1);
    draft.close();
    draft.open(INTERPOLATED, [0; 3], 1);
    property(&mut draft, name);
    draft.leaf(STRING, [admin, 0, 0], 1);
    property(&mut draft, number);
    draft.close();
    draft.open(ARRAY, [0; 3], 1);
    draft.leaf(BOOL, [1, 0, 0], 1);
    draft.leaf(CHAR, [97, 0, 0], 1);
    draft.close();
    draft.close();
    draft.to_bytes()
}

/// 131,072 levels: Arrays of one child.
fn levels() -> Vec<u8> {
    let mut draft = Draft::new();
    for _ in 1..NODES {
        draft.open(ARRAY, [0; 3], 1);
    }
    draft.leaf(UNIT, [0; 3], 1);
    for _ in 1..NODES {
        draft.close();
    }
    draft.to_bytes()
}

/// 65,536 texts that are each the whole of 1 MiB.
fn overlap() -> Vec<u8> {
    let mut draft = Draft::new();
    draft.bytes = text(BYTES, &["a", "b", "c"]);
    draft.texts = vec![(0, BYTES as u32); TEXTS];
    draft.leaf(UNIT, [0; 3], 1);
    draft.to_bytes()
}

/// The same with a byte in the middle that belongs to no text: the texts are the two halves, in turn, less a few bytes.
fn overlap_halves() -> Vec<u8> {
    let mut draft = Draft::new();
    let half = BYTES as u32 / 2;
    draft.bytes = text(BYTES, &["a", "b", "c"]);
    draft.bytes[half as usize] = 0xFF;
    draft.texts = (0..TEXTS as u32)
        .map(|index| {
            let from = index % 7;
            if index % 2 == 0 {
                (from, half - from)
            } else {
                (half + 1 + from, half - 1 - from)
            }
        })
        .collect();
    draft.leaf(UNIT, [0; 3], 1);
    draft.to_bytes()
}

/// 65,536 texts of two-byte characters that reach over the ends of two blocks of 2,048 bytes and hold none whole.
fn overlap_ends() -> Vec<u8> {
    let mut draft = Draft::new();
    draft.bytes = "ö".as_bytes().repeat(BYTES / 2);
    draft.texts = (0..TEXTS as u32)
        .map(|index| (index % 510 * 2048 + 6, 4088))
        .collect();
    draft.leaf(UNIT, [0; 3], 1);
    draft.to_bytes()
}

/// 64 String cases of 0.5 MiB each that differ only in their last 64 bytes.
fn long_cases() -> Vec<u8> {
    let mut draft = Draft::new();
    let arms = MAX_ARMS as u32;
    let length = BYTES / 2;
    draft.bytes = vec![b'a'; length];
    draft.bytes.extend(vec![b'b'; arms as usize]);
    draft.texts = (0..arms).map(|start| (start, length as u32)).collect();
    draft.open(SWITCH, [0, arms, 0], 1);
    draft.leaf(UNIT, [0; 3], 1);
    for case in 0..arms {
        draft.open(CASE, [0; 3], 1);
        draft.leaf(STRING, [case, 0, 0], 1);
        draft.close();
    }
    draft.close();
    draft.to_bytes()
}

/// An Array that says it has 2^32 - 1 children, of which the sheet has 131,071.
fn counts() -> Vec<u8> {
    let mut draft = Draft::new();
    draft.open(ARRAY, [0; 3], 1);
    for _ in 1..NODES {
        draft.leaf(UNIT, [0; 3], 2);
    }
    draft.close();
    draft.nodes[0][2] = u32::MAX;
    draft.to_bytes()
}

/// An Array of leaves, of so many nodes in all, each leaf with an own name, and so many locals. Of so many texts all but the last have one
/// byte, and nodes and locals name them in turn. The last has no bytes, so that all texts are looked at, and then all names: nothing names it,
/// or the last local does.
pub fn own_names(nodes: usize, locals: usize, texts: usize, last: bool) -> Vec<u8> {
    let mut draft = Draft::new();
    let named = texts - 1;
    for _ in 0..named {
        draft.text(b"x");
    }
    let none = draft.text(b"");
    draft.locals = (0..locals).map(|local| (local % named) as u32).collect();
    if last {
        draft.locals[locals - 1] = none;
    }
    draft.open(ARRAY, [0; 3], 1);
    for node in 1..nodes {
        let name = (node % named) as u32;
        match node % 4 {
            0 => draft.leaf(VARIABLE, [name, 0, 0], 2),
            1 => draft.leaf(PROPERTY, [name; 3], 2),
            2 => draft.leaf(METHOD_CALL, [name, 0, 0], 2),
            _ => draft.leaf(FN_CALL, [name, 0, 0], 2),
        }
    }
    draft.close();
    draft.to_bytes()
}

//! Sheets to time the lowering on, and hostile ones. All but the sample are made here, always the same.

use crate::workloads;
use oracle::draft::Draft;
use oracle::format::*;
use oracle::random::Random;

pub const NODES: usize = MAX_NODES as usize;
pub const LOCALS: usize = MAX_LOCALS as usize;

/// A sheet with a name.
pub type Named = (String, Vec<u8>);

/// The sheets that the lowering is timed on.
pub fn timed() -> Vec<Named> {
    let mut all: Vec<Named> = vec![
        ("rule".into(), rule()),
        ("port".into(), port()),
        ("switch".into(), switch(true)),
        ("switch with guards".into(), switch(false)),
        ("wide calls".into(), wide()),
        ("deep chain".into(), deep_chain()),
        ("index chain".into(), index_chain()),
        ("full, mixed".into(), mixed(NODES)),
        ("full, no pools".into(), unpooled(NODES)),
    ];
    for count in [1_000, 5_000, 20_000] {
        all.push((format!("names {count}"), names(count)));
    }
    // The same with a namespace before each variable and call.
    for (name, sheet) in [
        ("rule", rule()),
        ("wide calls", wide()),
        ("index chain", index_chain()),
        ("full, mixed", mixed(NODES)),
    ] {
        all.push((format!("{name}, modules"), modules(&sheet)));
    }
    for count in [1_000, 5_000, 20_000] {
        all.push((format!("names {count}, modules"), modules(&names(count))));
    }
    for count in [1_000, 5_000, 20_000] {
        all.push((format!("constants {count}"), constants(count)));
    }
    for count in [1_000, 5_000, 20_000] {
        all.push((format!("strings {count}"), strings(count)));
    }
    for count in [1_000, 5_000, 20_000] {
        all.push((format!("chains {count}"), chains(count)));
    }
    for count in [1_000, 5_000, 20_000] {
        all.push((format!("operators {count}"), operators(count)));
    }
    for count in [100, 1_000, 10_000] {
        all.push((format!("locals {count}"), locals(count, 5_000)));
    }
    for (name, sheet) in PER_NODE {
        for nodes in [1_000, 4_000, 16_000, 65_536, NODES] {
            all.push((format!("{name} {nodes}"), sheet(nodes)));
        }
    }
    all
}

/// A sheet of so many nodes.
type Sized = fn(usize) -> Vec<u8>;

/// The sheets whose cost per node is looked at, from 1,000 to 131,072 nodes.
pub const PER_NODE: [(&str, Sized); 4] = [
    ("nodes", mixed),
    ("no pools", unpooled),
    ("growing pools", growing),
    ("growing fast", growing_fast),
];

/// The sheets that the stack is measured on: all depths and tables full.
pub fn deep() -> Vec<Named> {
    let list: Vec<(&str, Vec<u8>)> = vec![
        ("refused with 1", vec![0]),
        ("rule", rule()),
        ("64 arrays", levels(ARRAY)),
        ("64 interpolated", levels(INTERPOLATED)),
        ("64 calls", levels(FN_CALL)),
        ("64 ands", levels(AND)),
        ("64 coalesces", levels(COALESCE)),
        ("64 dots by roots", levels(DOT)),
        ("64 indexes by roots", levels(INDEX)),
        ("64 indexes by operands", operand_levels()),
        ("62 methods", method_levels()),
        ("63 links", deep_chain()),
        ("switch, full tables", tables(true, 64)),
        ("switch, calls in bodies", full_switch(FN_CALL)),
        ("switch, ands in bodies", full_switch(AND)),
        ("switch, coalesces in bodies", full_switch(COALESCE)),
    ];
    list.into_iter()
        .map(|(name, sheet)| (name.to_string(), sheet))
        .collect()
}

/// A typical rule of 37 nodes.
pub fn rule() -> Vec<u8> {
    workloads::workload("rule").sheet
}

/// samples/port.sheet.
pub fn port() -> Vec<u8> {
    workloads::workload("port").sheet
}

/// 64 cases and 64 ranges over 64 blocks. `plain`: constant true guards, a Ref for each case and ranges that do not meet. Else every
/// second guard is tried, a case has eight Refs, and each range meets its eight neighbours.
pub fn switch(plain: bool) -> Vec<u8> {
    let mut draft = Draft::new();
    let subject = draft.text(b"kind");
    let test = draft.text(b"allowed");
    let texts: Vec<u32> = (0..64)
        .map(|case| draft.text(format!("case {case}").as_bytes()))
        .collect();
    draft.locals = vec![subject];
    draft.open(SWITCH, [64, 64, 1], 1);
    draft.leaf(VARIABLE, [subject, 0, 0], 1);
    for block in 0..64 {
        if plain || block % 2 == 0 {
            draft.leaf(BOOL, [1, 0, 0], 2);
        } else {
            draft.open(FN_CALL, [test, 0, 0], 2);
            draft.leaf(VARIABLE, [subject, 0, 0], 2);
            draft.int(block, 2);
            draft.close();
        }
        draft.leaf(STRING, [texts[block as usize], 0, 0], 3);
    }
    for case in 0..64u32 {
        draft.open(CASE, [0; 3], 4);
        match case % 3 {
            0 => draft.int(i64::from(case), 4),
            1 => draft.leaf(CHAR, [case, 0, 0], 4),
            _ => draft.leaf(STRING, [texts[case as usize], 0, 0], 4),
        }
        for next in 0..if plain { 1 } else { 8 } {
            // Tried guards first, and one that is constant true at the end.
            let block = if next == 7 {
                case / 2 * 2
            } else {
                ((case + 2 * next) % 64) | 1
            };
            draft.leaf(REF, [if plain { case } else { block }, 0, 0], 4);
        }
        draft.close();
    }
    for range in 0..64u32 {
        let start = 1000 + 10 * i64::from(range);
        let end = start + if plain { 9 } else { 83 };
        draft.open(
            RANGE,
            [range % 2, if plain { range } else { range | 1 }, 0],
            5,
        );
        draft.int(start, 5);
        draft.int(end, 5);
        draft.close();
    }
    draft.close();
    draft.to_bytes()
}

/// A sheet of many kinds of nodes over few names, ten of them locals.
struct Mixed {
    draft: Draft,
    random: Random,
    names: u32,
    properties: u32,
    /// In every ten nodes, so many entries that no pool has yet.
    in_ten: usize,
    /// How many such entries there are.
    fresh: usize,
}

impl Mixed {
    fn new() -> Self {
        let mut draft = Draft::new();
        for index in 0..40 {
            draft.text(format!("name_{index}").as_bytes());
        }
        draft.locals = (0..10).collect();
        Mixed {
            draft,
            random: Random::new(11),
            names: 40,
            properties: 8,
            in_ten: 0,
            fresh: 0,
        }
    }

    fn name(&mut self) -> u32 {
        self.random.below(self.names as usize) as u32
    }

    /// In turn a new name, number, string, and chain `v.p` at a position of its own.
    fn entry(&mut self) {
        let number = self.fresh as u32;
        self.fresh += 1;
        match number % 4 {
            0 => {
                let name = self.draft.text(format!("new_{number}").as_bytes());
                self.draft.leaf(VARIABLE, [name, 0, 0], 7);
            }
            1 => self.draft.int(1_000 + i64::from(number), 7),
            2 => {
                let text = self.draft.text(format!("text {number}").as_bytes());
                self.draft.leaf(STRING, [text, 0, 0], 7);
            }
            _ => self.dot(8 + number),
        }
    }

    fn leaf(&mut self) {
        if self.draft.nodes.len() * self.in_ten / 10 > self.fresh {
            return self.entry();
        }
        match self.random.below(6) {
            0 | 1 => {
                let name = self.name();
                self.draft.leaf(VARIABLE, [name, 0, 0], 7);
            }
            2 => {
                let value = self.random.below(100) as i64;
                self.draft.int(value, 7);
            }
            3 => {
                let name = self.name();
                self.draft.leaf(STRING, [name, 0, 0], 7);
            }
            4 => self.draft.leaf(BOOL, [1, 0, 0], 7),
            _ => self.draft.leaf(UNIT, [0; 3], 7),
        }
    }

    /// `v.p` with few names, which is shared with those at the same position.
    fn dot(&mut self, position: u32) {
        let name = self.random.below(10) as u32;
        let property = self.random.below(self.properties as usize) as u32;
        self.draft.open(DOT, [0; 3], 7);
        self.draft.leaf(VARIABLE, [name, 0, 0], 7);
        self.draft.leaf(PROPERTY, [property; 3], position);
        self.draft.close();
    }

    fn call(&mut self, levels: usize) {
        let (name, operator) = (self.name(), self.random.below(8) as u32);
        self.draft.open(FN_CALL, [name, 0, operator], 7);
        for _ in 0..self.random.between(2, 5) {
            match self.random.below(8) {
                0 | 1 if levels > 0 => self.call(levels - 1),
                2 if levels > 0 => self.dot(7),
                3 if levels > 0 => {
                    let kind = *self.random.pick(&[AND, OR, COALESCE]);
                    self.draft.open(kind, [0; 3], 7);
                    for _ in 0..self.random.between(1, 3) {
                        self.leaf();
                    }
                    self.draft.close();
                }
                _ => self.leaf(),
            }
        }
        self.draft.close();
    }
}

/// So many nodes under an Interpolated; the two numbers are more than a call of two levels, and of none, can have.
fn filled(mut mixed: Mixed, nodes: usize, calls: usize, call: usize) -> Vec<u8> {
    mixed.draft.open(INTERPOLATED, [0; 3], 1);
    while nodes - mixed.draft.nodes.len() > calls {
        mixed.call(2);
    }
    while nodes - mixed.draft.nodes.len() > call {
        mixed.call(0);
    }
    while mixed.draft.nodes.len() < nodes {
        mixed.draft.leaf(UNIT, [0; 3], 7);
    }
    mixed.draft.close();
    mixed.draft.to_bytes()
}

/// Calls, chains, And, Or, Coalesce and leaves over 40 names and 100 numbers, with so many nodes.
pub fn mixed(nodes: usize) -> Vec<u8> {
    filled(Mixed::new(), nodes, 160, 6)
}

/// The same with a new name, number, string or chain, in turn, in every tenth node, so that the pools grow with the sheet.
pub fn growing(nodes: usize) -> Vec<u8> {
    let mut mixed = Mixed::new();
    mixed.in_ten = 1;
    filled(mixed, nodes, 240, 16)
}

/// The same with one of each, so four new entries, in every ten nodes.
pub fn growing_fast(nodes: usize) -> Vec<u8> {
    let mut mixed = Mixed::new();
    mixed.in_ten = 4;
    filled(mixed, nodes, 240, 16)
}

/// A call of 100 calls with 100 arguments each, of which every tenth is a call of two, over 40 names.
pub fn wide() -> Vec<u8> {
    let mut mixed = Mixed::new();
    mixed.draft.open(FN_CALL, [0, 0, 0], 1);
    for _ in 0..100 {
        let name = mixed.name();
        mixed.draft.open(FN_CALL, [name, 0, 0], 2);
        for place in 0..100 {
            if place % 10 == 0 {
                let name = mixed.name();
                mixed.draft.open(FN_CALL, [name, 0, 1], 3);
                mixed.leaf();
                mixed.leaf();
                mixed.draft.close();
            } else {
                mixed.leaf();
            }
        }
        mixed.draft.close();
    }
    mixed.draft.close();
    mixed.draft.to_bytes()
}

/// A sheet with every variable and call qualified, each by one of eight texts of 6 to 10 bytes.
pub fn modules(sheet: &[u8]) -> Vec<u8> {
    let mut random = Random::new(13);
    let mut draft = parts(sheet);
    let spaces: Vec<u32> = [
        "region",
        "routers",
        "policies",
        "allowance",
        "membership",
        "limits",
        "defaults",
        "a::ports",
    ]
    .iter()
    .map(|space| draft.text(space.as_bytes()))
    .collect();
    for node in &mut draft.nodes {
        if matches!(node[0], VARIABLE | FN_CALL) {
            let space = *random.pick(&spaces);
            (node[6], node[7]) = (space + 1, 6);
        }
    }
    draft.to_bytes()
}

/// The parts of a sheet.
fn parts(sheet: &[u8]) -> Draft {
    let read = oracle::sheet::read(sheet).expect("an accepted sheet");
    let word = |at: usize| u32::from_le_bytes(sheet[4 * at..4 * at + 4].try_into().unwrap());
    let (nodes, texts) = (read.nodes, read.texts);
    let mut draft = Draft::new();
    for node in 0..nodes {
        let first = SHEET_SIZES + NODE_WORDS * node;
        draft
            .nodes
            .push(std::array::from_fn(|field| word(first + field)));
    }
    draft.positions = (0..nodes).map(|node| read.position(node)).collect();
    draft.texts = (0..texts)
        .map(|text| read.text_bounds(text))
        .map(|(start, length)| (start as u32, length as u32))
        .collect();
    let bytes = 4 * (SHEET_SIZES + (NODE_WORDS + 1) * nodes + 2 * texts);
    draft.bytes = sheet[bytes..bytes + word(2) as usize].to_vec();
    draft.locals = (0..read.locals).map(|local| read.local(local)).collect();
    draft
}

/// One chain of 63 links: `port.name[1].find(2).name[1] ..`.
pub fn deep_chain() -> Vec<u8> {
    links(false)
}

/// The same with `[port]` in place of `[1]`.
pub fn index_chain() -> Vec<u8> {
    links(true)
}

fn links(named: bool) -> Vec<u8> {
    let mut draft = Draft::new();
    let [root, property, method] =
        [b"port".as_slice(), b"name", b"find"].map(|name| draft.text(name));
    let links = 63;
    let operand = |which: usize, draft: &mut Draft| match which {
        0 => draft.leaf(PROPERTY, [property; 3], 3),
        1 if named => draft.leaf(VARIABLE, [root, 0, 0], 3),
        1 => draft.int(1, 3),
        // A method's argument would be one level more than depth 64 allows at the end.
        _ => draft.leaf(METHOD_CALL, [method, 0, 0], 3),
    };
    // The root, and then the operand of each link is the left side of the next.
    for link in 0..links {
        let kind = if link % 3 == 1 { INDEX } else { DOT };
        draft.open(kind, [0; 3], 2);
        if link == 0 {
            draft.leaf(VARIABLE, [root, 0, 0], 1);
        } else {
            operand((link - 1) % 3, &mut draft);
        }
    }
    operand((links - 1) % 3, &mut draft);
    for _ in 0..links {
        draft.close();
    }
    draft.to_bytes()
}

/// An Array of so many leaves of a kind, each with a text of its own.
fn texts(kind: u32, stem: &str, count: usize) -> Vec<u8> {
    let mut draft = Draft::new();
    draft.open(ARRAY, [0; 3], 1);
    for index in 0..count {
        let text = draft.text(format!("{stem}_{index:05}").as_bytes());
        draft.leaf(kind, [text, 0, 0], 2);
    }
    draft.close();
    draft.to_bytes()
}

/// An Array of variables with so many names of their own, which are no locals.
pub fn names(count: usize) -> Vec<u8> {
    texts(VARIABLE, "name", count)
}

/// So many integers, all different.
pub fn constants(count: usize) -> Vec<u8> {
    let mut draft = Draft::new();
    draft.open(INTERPOLATED, [0; 3], 1);
    for index in 0..count {
        draft.int(index as i64 * 7_919, 2);
    }
    draft.close();
    draft.to_bytes()
}

/// An Array of so many Strings, all different.
pub fn strings(count: usize) -> Vec<u8> {
    texts(STRING, "text", count)
}

/// An Array of so many chains `this.p`, all different by their positions.
pub fn chains(count: usize) -> Vec<u8> {
    let mut draft = Draft::new();
    let property = draft.text(b"width");
    draft.open(ARRAY, [0; 3], 1);
    for index in 0..count {
        draft.open(DOT, [0; 3], 2);
        draft.leaf(THIS, [0; 3], 2);
        draft.leaf(PROPERTY, [property; 3], index as u32);
        draft.close();
    }
    draft.close();
    draft.to_bytes()
}

/// An Array of calls with so many operators, all different.
pub fn operators(count: usize) -> Vec<u8> {
    let mut draft = Draft::new();
    let name = draft.text(b"+");
    draft.open(ARRAY, [0; 3], 1);
    for index in 0..count {
        draft.open(FN_CALL, [name, 0, 1 + index as u32], 2);
        draft.leaf(UNIT, [0; 3], 2);
        draft.close();
    }
    draft.close();
    draft.to_bytes()
}

/// An Array of so many variables beside so many locals; the names are of one length, and none is found.
pub fn locals(locals: usize, variables: usize) -> Vec<u8> {
    let mut draft = Draft::new();
    let [other, name] = [b"other".as_slice(), b"names"].map(|name| draft.text(name));
    draft.locals = vec![other; locals];
    draft.open(ARRAY, [0; 3], 1);
    for _ in 0..variables {
        draft.leaf(VARIABLE, [name, 0, 0], 2);
    }
    draft.close();
    draft.to_bytes()
}

/// Texts of so many bytes that start with the same bytes and differ near their ends, and overlap.
fn long_texts(draft: &mut Draft, count: usize, length: usize) {
    draft.bytes = vec![b'a'; length];
    draft.bytes.extend(vec![b'b'; count]);
    draft.texts = (0..count as u32)
        .map(|start| (start, length as u32))
        .collect();
}

/// Variables with so many names of so many bytes, which differ near their ends.
pub fn long_names(count: usize, length: usize) -> Vec<u8> {
    long_names_again(count, length, 1)
}

/// Strings in place of the variables.
pub fn long_strings(count: usize, length: usize) -> Vec<u8> {
    let mut draft = Draft::new();
    long_texts(&mut draft, count, length);
    each_text(draft, STRING, 1)
}

/// The variables so many times over, all names one after the other.
pub fn long_names_again(count: usize, length: usize, times: usize) -> Vec<u8> {
    let mut draft = Draft::new();
    long_texts(&mut draft, count, length);
    each_text(draft, VARIABLE, times)
}

/// An Array of a leaf of a kind for each text of a draft, so many times over.
fn each_text(mut draft: Draft, kind: u32, times: usize) -> Vec<u8> {
    draft.open(ARRAY, [0; 3], 1);
    for _ in 0..times {
        for text in 0..draft.texts.len() as u32 {
            draft.leaf(kind, [text, 0, 0], 2);
        }
    }
    draft.close();
    draft.to_bytes()
}

/// Variables with so many names of one line of so many bytes, all equal when they are joined, each cut at a separator of its own.
pub fn split_names(count: usize, length: usize) -> Vec<u8> {
    let mut draft = Draft::new();
    let names = split_texts(&mut draft, count, length);
    each_name(draft, &names)
}

/// The same with two lines that differ in the last byte, in turn: neighbours are equal but for that byte, and cut at other places.
pub fn split_names_last(count: usize, length: usize) -> Vec<u8> {
    let mut draft = Draft::new();
    let names = split_texts(&mut draft, count, length / 2);
    let again = draft.bytes.clone();
    draft.bytes.extend(again);
    *draft.bytes.last_mut().expect("bytes") = b'b';
    let half = (length / 2) as u32;
    for (index, (_, name)) in names.iter().enumerate() {
        if index % 2 == 1 {
            draft.texts[*name as usize].0 += half;
        }
    }
    each_name(draft, &names)
}

/// The texts of a line that is cut at so many separators: namespaces and own names.
fn split_texts(draft: &mut Draft, count: usize, length: usize) -> Vec<(u32, u32)> {
    let apart = length / (count + 1);
    assert!(apart > 2);
    draft.bytes = vec![b'a'; length];
    (1..=count)
        .map(|cut| {
            let at = cut * apart - 2;
            draft.bytes[at..at + 2].copy_from_slice(b"::");
            draft.texts.push((0, at as u32));
            draft.texts.push((at as u32 + 2, (length - at - 2) as u32));
            let name = draft.texts.len() as u32 - 1;
            (name - 1, name)
        })
        .collect()
}

/// Variables with so many namespaces of so many bytes, the same bytes at other places; all have one own name, or each its own.
pub fn equal_spaces(count: usize, length: usize, own: bool) -> Vec<u8> {
    let mut draft = Draft::new();
    draft.bytes = vec![b'a'; length + count];
    draft.texts = (0..count as u32)
        .map(|start| (start, length as u32))
        .collect();
    let one = draft.text(b"v");
    let names: Vec<(u32, u32)> = (0..count)
        .map(|index| match own {
            true => draft.text(format!("{index:05}").as_bytes()),
            false => one,
        })
        .enumerate()
        .map(|(space, name)| (space as u32, name))
        .collect();
    each_name(draft, &names)
}

/// Variables with so many namespaces and own names of `:` alone, no two the same and all equal when they are joined, each so many times over.
pub fn colons(count: usize, length: usize, times: usize) -> Vec<u8> {
    let mut draft = Draft::new();
    draft.bytes = vec![b':'; length];
    let least = length - count;
    for more in 0..count {
        draft.texts.push((0, (least + more) as u32));
        draft.texts.push((0, (least + count - more) as u32));
    }
    let names: Vec<(u32, u32)> = (0..count as u32).map(|at| (2 * at, 2 * at + 1)).collect();
    draft.open(ARRAY, [0; 3], 1);
    for _ in 0..times {
        draft.open(ARRAY, [0; 3], 1);
        for (space, name) in &names {
            draft.leaf_in(VARIABLE, [*name, 0, 0], 2, (*space, 3));
        }
        draft.close();
    }
    draft.close();
    draft.to_bytes()
}

/// Variables with so many own names, all of five bytes, below one namespace of so many bytes.
pub fn one_space(count: usize, length: usize) -> Vec<u8> {
    let mut draft = Draft::new();
    let space = draft.text(&vec![b'a'; length]);
    let names: Vec<(u32, u32)> = (0..count)
        .map(|index| (space, draft.text(format!("{index:05}").as_bytes())))
        .collect();
    each_name(draft, &names)
}

/// An Array of a variable for each namespace and own name.
pub fn each_name(mut draft: Draft, names: &[(u32, u32)]) -> Vec<u8> {
    draft.open(ARRAY, [0; 3], 1);
    for (space, name) in names {
        draft.leaf_in(VARIABLE, [*name, 0, 0], 2, (*space, 3));
    }
    draft.close();
    draft.to_bytes()
}

/// So many nested Ands around an Array of so many calls `g(v)`, with so many locals that are none of `v`.
pub fn nested(levels: usize, calls: usize, locals: usize) -> Vec<u8> {
    let mut draft = Draft::new();
    let [other, name] = [b"other".as_slice(), b"names"].map(|name| draft.text(name));
    draft.locals = vec![other; locals];
    for _ in 0..levels {
        draft.open(AND, [0; 3], 1);
    }
    draft.open(ARRAY, [0; 3], 1);
    for _ in 0..calls {
        draft.open(FN_CALL, [name, 0, 0], 2);
        draft.leaf(VARIABLE, [name, 0, 0], 2);
        draft.close();
    }
    draft.close();
    for _ in 0..levels {
        draft.close();
    }
    draft.to_bytes()
}

/// The same where each `v` has a name of its own.
pub fn receivers(levels: usize, calls: usize, locals: usize) -> Vec<u8> {
    let mut draft = Draft::new();
    let other = draft.text(b"other");
    draft.locals = vec![other; locals];
    for _ in 0..levels {
        draft.open(AND, [0; 3], 1);
    }
    draft.open(ARRAY, [0; 3], 1);
    for index in 0..calls {
        let name = draft.text(format!("{index:05}").as_bytes());
        draft.open(FN_CALL, [other, 0, 0], 2);
        draft.leaf(VARIABLE, [name, 0, 0], 2);
        draft.close();
    }
    draft.close();
    for _ in 0..levels {
        draft.close();
    }
    draft.to_bytes()
}

/// So many variables, each with a name of its own, beside so many locals that are none of them.
pub fn other_locals(locals: usize, variables: usize) -> Vec<u8> {
    let mut draft = Draft::new();
    let other = draft.text(b"other");
    draft.locals = vec![other; locals];
    draft.open(ARRAY, [0; 3], 1);
    for index in 0..variables {
        let name = draft.text(format!("{index:05}").as_bytes());
        draft.leaf(VARIABLE, [name, 0, 0], 2);
    }
    draft.close();
    draft.to_bytes()
}

/// A leaf of a kind for each of so many texts of so many bytes, all with the same bytes at other places, so many times over.
pub fn equal_places(kind: u32, count: usize, length: usize, times: usize) -> Vec<u8> {
    let mut draft = Draft::new();
    draft.bytes = vec![b'a'; length + count];
    draft.texts = (0..count as u32)
        .map(|start| (start, length as u32))
        .collect();
    each_text(draft, kind, times)
}

/// So many nested Ands around an Array of Units.
pub fn nested_units(levels: usize, units: usize) -> Vec<u8> {
    let mut draft = Draft::new();
    for _ in 0..levels {
        draft.open(AND, [0; 3], 1);
    }
    draft.open(INTERPOLATED, [0; 3], 1);
    for _ in 0..units {
        draft.leaf(UNIT, [0; 3], 2);
    }
    draft.close();
    for _ in 0..levels {
        draft.close();
    }
    draft.to_bytes()
}

/// So many chains `v.p` that differ only in the position of `v`, with so many locals that are none of `v`.
pub fn roots(chains: usize, locals: usize) -> Vec<u8> {
    let mut draft = Draft::new();
    let [other, name] = [b"other".as_slice(), b"names"].map(|name| draft.text(name));
    draft.locals = vec![other; locals];
    draft.open(ARRAY, [0; 3], 1);
    for index in 0..chains {
        draft.open(DOT, [0; 3], 2);
        draft.leaf(VARIABLE, [name, 0, 0], index as u32);
        draft.leaf(PROPERTY, [name; 3], 3);
        draft.close();
    }
    draft.close();
    draft.to_bytes()
}

/// So many chains `this.p` without positions, each with a property of its own.
pub fn unplaced_chains(count: usize) -> Vec<u8> {
    chains_of(count, (THIS, None), |draft, index| {
        [draft.text(format!("p{index:05}").as_bytes()); 3]
    })
}

/// So many chains `this.p` without positions that differ only in the setter's text.
pub fn setters(count: usize) -> Vec<u8> {
    chains_of(count, (THIS, None), |draft, index| {
        if index == 0 {
            draft.text(b"get");
        }
        [0, 0, draft.text(format!("s{index:05}").as_bytes())]
    })
}

/// So many chains without positions whose root is the same local, and which differ in the property's name.
pub fn equal_roots(count: usize) -> Vec<u8> {
    chains_of(count, (VARIABLE, Some(b"port")), |draft, index| {
        [draft.text(format!("p{index:05}").as_bytes()); 3]
    })
}

/// An Array of so many chains of one link, all positions 0: a root, with the local that it names, and the three texts of each property.
fn chains_of(
    count: usize,
    root: (u32, Option<&[u8]>),
    mut property: impl FnMut(&mut Draft, usize) -> [u32; 3],
) -> Vec<u8> {
    let mut draft = Draft::new();
    let (kind, name) = root;
    let local = name.map_or(0, |name| draft.text(name));
    draft.locals = name.map(|_| local).into_iter().collect();
    draft.open(ARRAY, [0; 3], 0);
    for index in 0..count {
        let texts = property(&mut draft, index);
        draft.open(DOT, [0; 3], 0);
        draft.leaf(kind, [local, 0, 0], 0);
        draft.leaf(PROPERTY, texts, 0);
        draft.close();
    }
    draft.close();
    draft.to_bytes()
}

/// So many chains with so many links each that differ only in the position of their root.
pub fn long_chains(count: usize, links: usize) -> Vec<u8> {
    let mut draft = Draft::new();
    let texts: Vec<u32> = (0..links)
        .map(|link| draft.text(format!("p{link:02}").as_bytes()))
        .collect();
    let again: Vec<u32> = (0..links)
        .map(|link| draft.text(format!("p{link:02}").as_bytes()))
        .collect();
    draft.open(ARRAY, [0; 3], 1);
    for index in 0..count {
        let names = if index % 2 == 0 { &texts } else { &again };
        for link in 0..links {
            draft.open(DOT, [0; 3], 2);
            if link == 0 {
                draft.leaf(THIS, [0; 3], index as u32);
            } else {
                draft.leaf(PROPERTY, [names[link - 1]; 3], 3);
            }
        }
        draft.leaf(PROPERTY, [names[links - 1]; 3], 3);
        for _ in 0..links {
            draft.close();
        }
    }
    draft.close();
    draft.to_bytes()
}

/// So many chains over names that fill the pool first, so that each name is found at its end.
pub fn late_names(names: usize, chains: usize) -> Vec<u8> {
    let mut draft = Draft::new();
    draft.open(ARRAY, [0; 3], 1);
    let mut last = 0;
    for index in 0..names {
        last = draft.text(format!("name_{index:05}").as_bytes());
        draft.leaf(VARIABLE, [last, 0, 0], 2);
    }
    for index in 0..chains {
        draft.open(DOT, [0; 3], 2);
        draft.leaf(THIS, [0; 3], 2);
        draft.leaf(PROPERTY, [last; 3], index as u32);
        draft.close();
    }
    draft.close();
    draft.to_bytes()
}

/// 64 staggered ranges and, if `cases`, 64 cases of 64 Refs that differ in the last; every guard is `this`, so tried. Ranges: range k
/// goes from k to 64 + k, so that 128 points cut 255 pieces with 254 or so different lists.
pub fn tables(cases: bool, ranges: usize) -> Vec<u8> {
    let mut draft = Draft::new();
    draft.open(SWITCH, [64, if cases { 64 } else { 0 }, 1], 1);
    draft.leaf(UNIT, [0; 3], 1);
    for _ in 0..64 {
        draft.leaf(THIS, [0; 3], 2);
        draft.leaf(UNIT, [0; 3], 2);
    }
    if cases {
        for case in 0..64u32 {
            draft.open(CASE, [0; 3], 3);
            draft.int(i64::from(case) + 1_000_000, 3);
            for place in 0..64 {
                draft.leaf(REF, [if place == 63 { case } else { 0 }, 0, 0], 3);
            }
            draft.close();
        }
    }
    for range in 0..ranges as u32 {
        draft.open(RANGE, [range % 2, range, 0], 4);
        draft.int(10 * i64::from(range), 4);
        draft.int(10 * i64::from(range) + 10 * ranges as i64 + 5, 4);
        draft.close();
    }
    draft.close();
    draft.to_bytes()
}

/// The same with constant guards: false for all blocks but the last.
pub fn tables_constant() -> Vec<u8> {
    let mut draft = Draft::new();
    draft.open(SWITCH, [64, 64, 1], 1);
    draft.leaf(UNIT, [0; 3], 1);
    for block in 0..64 {
        draft.leaf(BOOL, [u32::from(block == 63), 0, 0], 2);
        draft.leaf(UNIT, [0; 3], 2);
    }
    for case in 0..64u32 {
        draft.open(CASE, [0; 3], 3);
        draft.int(i64::from(case) + 1_000_000, 3);
        for place in 0..64 {
            draft.leaf(REF, [if place == 63 { case } else { 0 }, 0, 0], 3);
        }
        draft.close();
    }
    for range in 0..64u32 {
        draft.open(RANGE, [range % 2, range, 0], 4);
        draft.int(10 * i64::from(range), 4);
        draft.int(10 * i64::from(range) + 645, 4);
        draft.close();
    }
    draft.close();
    draft.to_bytes()
}

/// 64 cases over a pool of so many constants: each case's value is looked for in all of them, twice.
pub fn late_cases(constants: usize) -> Vec<u8> {
    let mut draft = Draft::new();
    draft.open(SWITCH, [1, 64, 1], 1);
    draft.open(ARRAY, [0; 3], 1);
    for index in 0..constants {
        draft.int(index as i64, 2);
    }
    draft.close();
    draft.leaf(BOOL, [1, 0, 0], 2);
    draft.leaf(UNIT, [0; 3], 2);
    for case in 0..64 {
        draft.open(CASE, [0; 3], 3);
        draft.int(case + 1_000_000, 3);
        draft.leaf(REF, [0, 0, 0], 3);
        draft.close();
    }
    draft.close();
    draft.to_bytes()
}

/// Levels of a node of one kind, each the first operand of the one above it, 64 in all.
pub fn levels(kind: u32) -> Vec<u8> {
    let mut draft = Draft::new();
    let name = draft.text(b"area");
    for _ in 0..63 {
        let fields = if kind == FN_CALL {
            [name, 0, 0]
        } else {
            [0; 3]
        };
        draft.open(kind, fields, 1);
    }
    draft.leaf(UNIT, [0; 3], 1);
    for _ in 0..63 {
        if kind == DOT {
            draft.leaf(PROPERTY, [name; 3], 1);
        } else if kind == INDEX {
            draft.leaf(UNIT, [0; 3], 1);
        }
        draft.close();
    }
    draft.to_bytes()
}

/// Index chains whose operand is a chain again: 64 levels, each an operand of its own.
pub fn operand_levels() -> Vec<u8> {
    let mut draft = Draft::new();
    for _ in 0..63 {
        // With BREAK the right side is an operand, not a further link.
        draft.open(INDEX, [BREAK, 0, 0], 1);
        draft.leaf(THIS, [0; 3], 1);
    }
    draft.leaf(UNIT, [0; 3], 1);
    for _ in 0..63 {
        draft.close();
    }
    draft.to_bytes()
}

/// The same inside methods: `this.m(this.m(..))`.
pub fn method_levels() -> Vec<u8> {
    let mut draft = Draft::new();
    let name = draft.text(b"area");
    for _ in 0..31 {
        draft.open(DOT, [0; 3], 1);
        draft.leaf(THIS, [0; 3], 1);
        draft.open(METHOD_CALL, [name, 0, 0], 1);
    }
    draft.leaf(UNIT, [0; 3], 1);
    for _ in 0..31 {
        draft.close();
        draft.close();
    }
    draft.to_bytes()
}

/// A switch with all tables full whose bodies are sheets of 63 levels.
pub fn full_switch(kind: u32) -> Vec<u8> {
    let mut draft = Draft::new();
    let name = draft.text(b"area");
    let nest = |draft: &mut Draft| {
        for _ in 0..62 {
            let fields = if kind == FN_CALL {
                [name, 0, 0]
            } else {
                [0; 3]
            };
            draft.open(kind, fields, 1);
        }
        draft.leaf(UNIT, [0; 3], 1);
        for _ in 0..62 {
            draft.close();
        }
    };
    draft.open(SWITCH, [64, 64, 1], 1);
    nest(&mut draft);
    for block in 0..64 {
        if block % 8 == 0 {
            nest(&mut draft);
        } else {
            draft.leaf(THIS, [0; 3], 1);
        }
        nest(&mut draft);
    }
    for case in 0..64u32 {
        draft.open(CASE, [0; 3], 3);
        draft.int(i64::from(case), 3);
        for place in 0..8 {
            draft.leaf(REF, [(case + place) % 64, 0, 0], 3);
        }
        draft.close();
    }
    for range in 0..64u32 {
        draft.open(RANGE, [range % 2, range, 0], 4);
        draft.int(10 * i64::from(range), 4);
        draft.int(10 * i64::from(range) + 85, 4);
        draft.close();
    }
    draft.close();
    draft.to_bytes()
}

/// So many calls `g(v)` and so many locals whose names, of so many bytes, differ from `v` in the last byte.
pub fn long_locals(calls: usize, locals: usize, length: usize) -> Vec<u8> {
    let mut draft = Draft::new();
    long_texts(&mut draft, 2, length);
    let name = draft.text(b"g");
    draft.locals = vec![0; locals];
    draft.open(ARRAY, [0; 3], 1);
    for _ in 0..calls {
        draft.open(FN_CALL, [name, 0, 0], 2);
        draft.leaf(VARIABLE, [1, 0, 0], 2);
        draft.close();
    }
    draft.close();
    draft.to_bytes()
}

/// 64 String cases of so many bytes that differ only near their ends.
pub fn long_cases(length: usize) -> Vec<u8> {
    let mut draft = Draft::new();
    long_texts(&mut draft, 64, length);
    draft.open(SWITCH, [0, 64, 0], 1);
    draft.leaf(UNIT, [0; 3], 1);
    for case in 0..64 {
        draft.open(CASE, [0; 3], 1);
        draft.leaf(STRING, [case, 0, 0], 1);
        draft.close();
    }
    draft.close();
    draft.to_bytes()
}

/// The chains of `roots` where the names of root and locals have so many bytes and differ in the last.
pub fn long_roots(chains: usize, locals: usize, length: usize) -> Vec<u8> {
    let mut draft = Draft::new();
    long_texts(&mut draft, 2, length);
    let name = draft.text(b"p");
    draft.locals = vec![0; locals];
    draft.open(ARRAY, [0; 3], 1);
    for index in 0..chains {
        draft.open(DOT, [0; 3], 2);
        draft.leaf(VARIABLE, [1, 0, 0], index as u32);
        draft.leaf(PROPERTY, [name; 3], 3);
        draft.close();
    }
    draft.close();
    draft.to_bytes()
}

/// Calls of one name, Arrays, And, Or and Coalesce over leaves that go into no pool, with so many nodes.
pub fn unpooled(nodes: usize) -> Vec<u8> {
    let mut random = Random::new(12);
    let mut draft = Draft::new();
    let name = draft.text(b"area");
    draft.open(INTERPOLATED, [0; 3], 1);
    while nodes - draft.nodes.len() > 8 {
        let kind = *random.pick(&[FN_CALL, FN_CALL, FN_CALL, ARRAY, AND, COALESCE]);
        let fields = if kind == FN_CALL {
            [name, 0, 0]
        } else {
            [0; 3]
        };
        draft.open(kind, fields, 2);
        for _ in 0..random.between(3, 7) {
            let kind = *random.pick(&[UNIT, THIS]);
            draft.leaf(kind, [0; 3], 3);
        }
        draft.close();
    }
    while draft.nodes.len() < nodes {
        draft.leaf(UNIT, [0; 3], 2);
    }
    draft.close();
    draft.to_bytes()
}

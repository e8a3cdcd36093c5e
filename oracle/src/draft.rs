//! A sheet being built, as parts that can still be changed.

use crate::format::*;

#[derive(Clone, Default)]
pub struct Draft {
    pub nodes: Vec<[u32; NODE_WORDS]>,
    pub positions: Vec<u32>,
    /// Start and length of each text.
    pub texts: Vec<(u32, u32)>,
    pub bytes: Vec<u8>,
    pub locals: Vec<u32>,
    open: Vec<usize>,
}

impl Draft {
    pub fn new() -> Self {
        Self::default()
    }

    /// Begin a node; what is added before its `close` is below it.
    pub fn open(&mut self, kind: u32, fields: [u32; 3], position: u32) {
        if let Some(&parent) = self.open.last() {
            self.nodes[parent][2] += 1;
        }
        self.open.push(self.nodes.len());
        let [a, b, c] = fields;
        self.nodes.push([kind, 0, 0, a, b, c, 0, 0]);
        self.positions.push(position);
    }

    /// Qualify the node opened last by a text, with the namespace's position.
    pub fn qualify(&mut self, text: u32, position: u32) {
        let node = self.nodes.last_mut().expect("a node");
        (node[6], node[7]) = (text + 1, position);
    }

    /// `open` with a namespace: its text and position.
    pub fn open_in(&mut self, kind: u32, fields: [u32; 3], position: u32, space: (u32, u32)) {
        self.open(kind, fields, position);
        self.qualify(space.0, space.1);
    }

    pub fn close(&mut self) {
        let node = self.open.pop().expect("an open node");
        self.nodes[node][1] = (self.nodes.len() - node) as u32;
    }

    pub fn leaf(&mut self, kind: u32, fields: [u32; 3], position: u32) {
        self.open(kind, fields, position);
        self.close();
    }

    /// `leaf` with a namespace: its text and position.
    pub fn leaf_in(&mut self, kind: u32, fields: [u32; 3], position: u32, space: (u32, u32)) {
        self.open_in(kind, fields, position, space);
        self.close();
    }

    pub fn int(&mut self, value: i64, position: u32) {
        self.leaf(INT, [value as u32, (value >> 32) as u32, 0], position);
    }

    /// Add a text with bytes of its own and return its number.
    pub fn text(&mut self, bytes: &[u8]) -> u32 {
        let start = self.bytes.len() as u32;
        self.bytes.extend_from_slice(bytes);
        self.texts.push((start, bytes.len() as u32));
        (self.texts.len() - 1) as u32
    }

    pub fn to_bytes(&self) -> Vec<u8> {
        let mut words: Vec<u32> = vec![
            self.nodes.len() as u32,
            self.texts.len() as u32,
            self.bytes.len() as u32,
            self.locals.len() as u32,
        ];
        words.extend(self.nodes.iter().flatten());
        words.extend(&self.positions);
        words.extend(self.texts.iter().map(|(start, _)| *start));
        words.extend(self.texts.iter().map(|(_, length)| *length));
        let mut out: Vec<u8> = words.iter().flat_map(|word| word.to_le_bytes()).collect();
        out.extend_from_slice(&self.bytes);
        while !out.len().is_multiple_of(4) {
            out.push(0);
        }
        out.extend(self.locals.iter().flat_map(|text| text.to_le_bytes()));
        out
    }
}

impl Draft {
    /// Kind and children so far of the node opened last.
    pub fn innermost(&self) -> (u32, u32) {
        let node = &self.nodes[*self.open.last().expect("an open node")];
        (node[0], node[2])
    }
}

//! The sheet reader, with the refusals 1 to 8, of which 14 is one. Written from
//! documents 01 and 02.
//!
//! Each number is one predicate over the whole sheet. None of them recurses.

use crate::format::*;

/// One node's words.
#[derive(Clone, Copy, Debug, Default, PartialEq, Eq)]
pub struct Node {
    pub kind: u32,
    pub span: u32,
    pub count: u32,
    pub a: u32,
    pub b: u32,
    pub c: u32,
    /// The number of the namespace's text plus 1; 0 where there is none.
    pub space: u32,
    /// The position of the namespace.
    pub space_position: u32,
}

const NODE_BYTES: usize = NODE_WORDS * 4;

/// A sheet whose sizes fit its bytes.
#[derive(Clone, Copy)]
pub struct Sheet<'a> {
    /// N.
    pub nodes: usize,
    /// X.
    pub texts: usize,
    /// L.
    pub locals: usize,
    node_part: &'a [u8],
    position_part: &'a [u8],
    start_part: &'a [u8],
    length_part: &'a [u8],
    byte_part: &'a [u8],
    local_part: &'a [u8],
}

#[inline(always)]
fn word(part: &[u8], index: usize) -> u32 {
    let at = index * 4;
    u32::from_le_bytes(part[at..at + 4].try_into().unwrap())
}

impl<'a> Sheet<'a> {
    /// Number 1: the sizes, the length and the padding.
    pub fn sized(sheet: &'a [u8]) -> Option<Self> {
        if sheet.len() < SHEET_SIZES * 4 {
            return None;
        }
        let n = word(sheet, 0);
        let x = word(sheet, 1);
        let b = word(sheet, 2);
        let l = word(sheet, 3);
        if n == 0 || n > MAX_NODES || x > MAX_TEXTS || b > MAX_TEXT_BYTES || l > MAX_LOCALS {
            return None;
        }
        let (n, x, b, l) = (n as usize, x as usize, b as usize, l as usize);
        let padded = b.div_ceil(4) * 4;
        let (_, rest) = sheet.split_at(SHEET_SIZES * 4);
        if rest.len() != (NODE_WORDS + 1) * 4 * n + 2 * 4 * x + padded + 4 * l {
            return None;
        }
        let (node_part, rest) = rest.split_at(NODE_BYTES * n);
        let (position_part, rest) = rest.split_at(4 * n);
        let (start_part, rest) = rest.split_at(4 * x);
        let (length_part, rest) = rest.split_at(4 * x);
        let (byte_part, rest) = rest.split_at(b);
        let (padding, local_part) = rest.split_at(padded - b);
        if padding.iter().any(|byte| *byte != 0) {
            return None;
        }
        Some(Sheet {
            nodes: n,
            texts: x,
            locals: l,
            node_part,
            position_part,
            start_part,
            length_part,
            byte_part,
            local_part,
        })
    }

    #[inline(always)]
    pub fn node(&self, index: usize) -> Node {
        let at = index * NODE_BYTES;
        let w = &self.node_part[at..at + NODE_BYTES];
        Node {
            kind: word(w, 0),
            span: word(w, 1),
            count: word(w, 2),
            a: word(w, 3),
            b: word(w, 4),
            c: word(w, 5),
            space: word(w, 6),
            space_position: word(w, 7),
        }
    }

    /// The number of the text that a node's name is qualified by. A namespace
    /// text of no bytes counts as none. Only after number 4.
    #[inline(always)]
    pub fn namespace(&self, node: &Node) -> Option<u32> {
        let text = node.space.checked_sub(1)?;
        (!self.text(text).is_empty()).then_some(text)
    }

    #[inline(always)]
    fn kind_and_span(&self, index: usize) -> (u32, u32) {
        let at = index * NODE_BYTES;
        let w = &self.node_part[at..at + 8];
        (word(w, 0), word(w, 1))
    }

    #[inline(always)]
    pub fn position(&self, index: usize) -> u32 {
        word(self.position_part, index)
    }

    #[inline(always)]
    pub fn local(&self, index: usize) -> u32 {
        word(self.local_part, index)
    }

    /// The start and the length of a text.
    #[inline(always)]
    pub fn text_bounds(&self, index: usize) -> (usize, usize) {
        (
            word(self.start_part, index) as usize,
            word(self.length_part, index) as usize,
        )
    }

    /// A text, as its own part of the sheet. Only after number 3 and 4.
    #[inline(always)]
    pub fn text(&self, index: u32) -> &'a [u8] {
        let (start, length) = self.text_bounds(index as usize);
        &self.byte_part[start..start + length]
    }

    /// The numbers of a node's children. Only after number 2.
    pub fn children(&self, index: usize) -> Children<'a> {
        Children {
            sheet: *self,
            at: index + 1,
            left: self.node(index).count as usize,
        }
    }

    // ---- number 2 ----

    /// Whether kinds, shapes and fields of all nodes are right.
    pub fn shape_ok(&self) -> bool {
        let (kind, span) = self.kind_and_span(0);
        if span as usize != self.nodes || !(is_expression(kind) || kind == SWITCH) {
            return false;
        }
        (0..self.nodes).all(|index| {
            let node = self.node(index);
            fields_ok(&node) && self.children_ok(index, &node)
        })
    }

    /// Whether a node's children fill its span, are as many as it says and
    /// have kinds that may stand there. Since every node but node 0 is the
    /// child of one other, this also settles where a kind may stand.
    #[inline(always)]
    fn children_ok(&self, index: usize, node: &Node) -> bool {
        let span = node.span as usize;
        if span == 0 || span > self.nodes - index {
            return false;
        }
        match node.kind {
            INTERPOLATED | ARRAY | METHOD_CALL | FN_CALL => {
                self.children_are(index, node, |_, kind| is_expression(kind))
            }
            AND | OR | COALESCE => {
                node.count >= 1 && self.children_are(index, node, |_, kind| is_expression(kind))
            }
            DOT | INDEX => {
                node.count == 2 && self.children_are(index, node, |_, kind| is_expression(kind))
            }
            SWITCH => {
                let expressions = 1 + 2 * u64::from(node.a);
                let cases = expressions + u64::from(node.b);
                u64::from(node.count) >= cases
                    && self.children_are(index, node, |place, kind| {
                        if place < expressions {
                            is_expression(kind)
                        } else if place < cases {
                            kind == CASE
                        } else {
                            kind == RANGE
                        }
                    })
            }
            CASE => {
                node.count >= 1
                    && self.children_are(index, node, |place, kind| {
                        if place == 0 {
                            matches!(kind, INT | CHAR | STRING)
                        } else {
                            kind == REF
                        }
                    })
            }
            RANGE => node.count == 2 && self.children_are(index, node, |_, kind| kind == INT),
            _ => node.count == 0 && span == 1,
        }
    }

    #[inline(always)]
    fn children_are(&self, index: usize, node: &Node, fits: impl Fn(u64, u32) -> bool) -> bool {
        let end = index + node.span as usize;
        let mut at = index + 1;
        for place in 0..node.count {
            if at >= end {
                return false;
            }
            let (kind, span) = self.kind_and_span(at);
            if span == 0 || span as usize > end - at || !fits(u64::from(place), kind) {
                return false;
            }
            at += span as usize;
        }
        at == end
    }

    // ---- number 3 ----

    /// Whether all texts lie inside the bytes and are well-formed UTF-8.
    pub fn texts_ok(&self) -> bool {
        let bytes = self.byte_part.len();
        let mut total = 0u64;
        for index in 0..self.texts {
            let (start, length) = self.text_bounds(index);
            if start > bytes || length > bytes - start {
                return false;
            }
            total += length as u64;
        }
        // Texts may overlap. Where they do so many times over, each byte is
        // looked at once instead of once for each text.
        if total > 8 * bytes as u64 {
            return self.overlapping_texts_ok();
        }
        (0..self.texts).all(|index| {
            let (start, length) = self.text_bounds(index);
            std::str::from_utf8(&self.byte_part[start..start + length]).is_ok()
        })
    }

    /// For each byte, where the characters that begin there and follow one
    /// another without a fault end. A text is well-formed if it ends at or
    /// before that place and not inside a character.
    fn overlapping_texts_ok(&self) -> bool {
        let bytes = self.byte_part;
        let mut reach = vec![0u32; bytes.len() + 1];
        reach[bytes.len()] = bytes.len() as u32;
        for at in (0..bytes.len()).rev() {
            let length = character_length(&bytes[at..]);
            reach[at] = if length == 0 {
                at as u32
            } else {
                reach[at + length]
            };
        }
        (0..self.texts).all(|index| {
            let (start, length) = self.text_bounds(index);
            let end = start + length;
            let last = reach[start] as usize;
            length == 0 || end == last || (end < last && bytes[end] & 0xC0 != 0x80)
        })
    }

    // ---- number 4 ----

    /// Whether all text numbers and block numbers exist.
    pub fn numbers_ok(&self) -> bool {
        let texts = self.texts as u32;
        let root = self.node(0);
        let blocks = if root.kind == SWITCH { root.a } else { 0 };
        (0..self.nodes).all(|index| {
            let node = self.node(index);
            node.space <= texts
                && match node.kind {
                    STRING | VARIABLE | METHOD_CALL | FN_CALL => node.a < texts,
                    PROPERTY => node.a < texts && node.b < texts && node.c < texts,
                    SWITCH => node.c <= blocks,
                    RANGE => node.b < blocks,
                    REF => node.a < blocks,
                    _ => true,
                }
        }) && (0..self.locals).all(|index| self.local(index) < texts)
    }

    // ---- number 14 ----

    /// Whether all own names have bytes: those of Variables, Properties,
    /// MethodCalls, FnCalls and locals. Only after number 4.
    pub fn names_ok(&self) -> bool {
        let has_bytes = |text: u32| self.text_bounds(text as usize).1 > 0;
        (0..self.nodes).all(|index| {
            let node = self.node(index);
            match node.kind {
                VARIABLE | PROPERTY | METHOD_CALL | FN_CALL => has_bytes(node.a),
                _ => true,
            }
        }) && (0..self.locals).all(|index| has_bytes(self.local(index)))
    }

    // ---- number 5 ----

    /// Whether the tree is at most 64 deep.
    pub fn depth_ok(&self) -> bool {
        let mut ends = [0usize; MAX_DEPTH];
        let mut open = 0;
        for index in 0..self.nodes {
            while open > 0 && ends[open - 1] <= index {
                open -= 1;
            }
            if open == MAX_DEPTH {
                return false;
            }
            let (_, span) = self.kind_and_span(index);
            ends[open] = index + span as usize;
            open += 1;
        }
        true
    }

    // ---- numbers 6 and 7 ----

    fn case_nodes(&self) -> impl Iterator<Item = usize> + 'a {
        let root = self.node(0);
        let (skipped, cases) = if root.kind == SWITCH {
            (1 + 2 * root.a as usize, root.b as usize)
        } else {
            (usize::MAX, 0)
        };
        self.children(0).skip(skipped).take(cases)
    }

    /// Whether blocks, cases, ranges and each case's Refs are at most 64.
    pub fn arms_ok(&self) -> bool {
        let root = self.node(0);
        if root.kind != SWITCH {
            return true;
        }
        let (blocks, cases) = (u64::from(root.a), u64::from(root.b));
        let ranges = u64::from(root.count) - 1 - 2 * blocks - cases;
        blocks <= MAX_ARMS
            && cases <= MAX_ARMS
            && ranges <= MAX_ARMS
            && self
                .case_nodes()
                .all(|case| u64::from(self.node(case).count) - 1 <= MAX_ARMS)
    }

    /// Whether no two cases have equal kind and value. Only after number 6.
    pub fn cases_ok(&self) -> bool {
        let mut seen = [Node::default(); MAX_ARMS as usize];
        for (count, case) in self.case_nodes().enumerate() {
            let value = self.node(case + 1);
            if seen[..count]
                .iter()
                .any(|other| self.equal_values(other, &value))
            {
                return false;
            }
            seen[count] = value;
        }
        true
    }

    /// Whether two constants are equal by kind and bits or text bytes.
    pub fn equal_values(&self, one: &Node, two: &Node) -> bool {
        if one.kind != two.kind {
            return false;
        }
        match one.kind {
            STRING => one.a == two.a || self.text(one.a) == self.text(two.a),
            _ => one.a == two.a && one.b == two.b,
        }
    }

    // ---- number 8 ----

    /// Whether there is no kind 23, 24 or 25 and no FnCall `curry` with over
    /// one argument.
    pub fn kinds_ok(&self) -> bool {
        (0..self.nodes).all(|index| {
            let node = self.node(index);
            match node.kind {
                MAP | BLOCK | DYNAMIC => false,
                FN_CALL => node.count <= 1 || self.text(node.a) != KEYWORD_FN_PTR_CURRY,
                _ => true,
            }
        })
    }
}

/// A node's children in order.
pub struct Children<'a> {
    sheet: Sheet<'a>,
    at: usize,
    left: usize,
}

impl Iterator for Children<'_> {
    type Item = usize;

    #[inline]
    fn next(&mut self) -> Option<usize> {
        if self.left == 0 {
            return None;
        }
        self.left -= 1;
        let index = self.at;
        self.at += self.sheet.kind_and_span(index).1 as usize;
        Some(index)
    }
}

/// Kinds that may stand where an expression is asked for.
#[inline(always)]
pub fn is_expression(kind: u32) -> bool {
    matches!(kind, BOOL..=COALESCE | MAP..=DYNAMIC)
}

/// Whether the fields of a node are right by themselves. Text and block
/// numbers are number 4's.
#[inline(always)]
fn fields_ok(node: &Node) -> bool {
    let Node { a, b, c, .. } = *node;
    let qualified = match node.kind {
        VARIABLE | FN_CALL => node.space != 0 || node.space_position == 0,
        _ => node.space == 0 && node.space_position == 0,
    };
    qualified
        && match node.kind {
            BOOL => a <= 1 && b == 0 && c == 0,
            INT | FLOAT => c == 0,
            CHAR => char::from_u32(a).is_some() && b == 0 && c == 0,
            STRING | VARIABLE | METHOD_CALL | REF => b == 0 && c == 0,
            PROPERTY | SWITCH => true,
            FN_CALL => b <= 1 && c <= MAX_OPERATOR,
            DOT | INDEX => a <= (NEGATED | BREAK) && b == 0 && c == 0,
            RANGE => a <= 1 && c == 0,
            UNIT | INTERPOLATED | ARRAY | THIS | AND | OR | COALESCE | CASE | MAP | BLOCK
            | DYNAMIC => a == 0 && b == 0 && c == 0,
            _ => false,
        }
}

/// The length of the well-formed UTF-8 character at the front, or 0.
fn character_length(bytes: &[u8]) -> usize {
    let tail = |index: usize, low: u8, high: u8| {
        bytes
            .get(index)
            .is_some_and(|byte| (low..=high).contains(byte))
    };
    let (length, low, high) = match bytes[0] {
        0x00..=0x7F => return 1,
        0xC2..=0xDF => (2, 0x80, 0xBF),
        0xE0 => (3, 0xA0, 0xBF),
        0xE1..=0xEC | 0xEE..=0xEF => (3, 0x80, 0xBF),
        0xED => (3, 0x80, 0x9F),
        0xF0 => (4, 0x90, 0xBF),
        0xF1..=0xF3 => (4, 0x80, 0xBF),
        0xF4 => (4, 0x80, 0x8F),
        _ => return 0,
    };
    if tail(1, low, high) && (2..length).all(|index| tail(index, 0x80, 0xBF)) {
        length
    } else {
        0
    }
}

/// Read a sheet, or say which of the numbers 1 to 8 refuses it: the first that
/// fits in the order 1 to 4, 14, 5 to 8.
pub fn read(sheet: &[u8]) -> Result<Sheet<'_>, u32> {
    let sheet = Sheet::sized(sheet).ok_or(REFUSED_SIZE)?;
    if !sheet.shape_ok() {
        return Err(REFUSED_NODE);
    }
    if !sheet.texts_ok() {
        return Err(REFUSED_TEXT);
    }
    if !sheet.numbers_ok() {
        return Err(REFUSED_NUMBER);
    }
    if !sheet.names_ok() {
        return Err(REFUSED_NAME);
    }
    if !sheet.depth_ok() {
        return Err(REFUSED_DEPTH);
    }
    if !sheet.arms_ok() {
        return Err(REFUSED_ARMS);
    }
    if !sheet.cases_ok() {
        return Err(REFUSED_EQUAL_CASES);
    }
    if !sheet.kinds_ok() {
        return Err(REFUSED_KIND);
    }
    Ok(sheet)
}

/// 0, or which of the numbers 1 to 8 or 14 refuses the sheet.
pub fn check(sheet: &[u8]) -> u32 {
    match read(sheet) {
        Ok(_) => 0,
        Err(number) => number,
    }
}

//! Stand-ins for types that the borrowed files lean on. Ours.

use std::hash::{Hash, Hasher};

use crate::format;
use crate::grain::ast::BinaryExpr;
use crate::grain::bytecode::names::SEPARATOR;
use crate::grain::eval::RangeCase;

pub type INT = i64;

/// A position word, and the number of the node that has it, so that a
/// residual can name its node. Only the word takes part in equality.
#[derive(Debug, Clone, Copy)]
pub struct Position {
    pub word: u32,
    pub node: u32,
}

impl Position {
    pub const NONE: Self = Position {
        word: 0,
        node: u32::MAX,
    };
}

impl PartialEq for Position {
    fn eq(&self, other: &Self) -> bool {
        self.word == other.word
    }
}

impl Eq for Position {}

impl Hash for Position {
    fn hash<H: Hasher>(&self, state: &mut H) {
        self.word.hash(state);
    }
}

/// The namespace of a name: a text of the sheet, and its position.
#[derive(Debug, Clone, Copy)]
pub struct Namespace<'a> {
    /// The text's number plus 1; 0 where there is none.
    text: u32,
    part: &'a [u8],
    pos: Position,
}

impl<'a> Namespace<'a> {
    pub const NONE: Self = Namespace {
        text: 0,
        part: b"",
        pos: Position::NONE,
    };

    pub fn new(text: u32, part: &'a [u8], pos: Position) -> Self {
        Namespace {
            text: text + 1,
            part,
            pos,
        }
    }

    pub const fn is_empty(&self) -> bool {
        self.part.is_empty()
    }

    pub const fn position(&self) -> Position {
        self.pos
    }
}

/// A text of the sheet, and whether `!` is added to it. Equal by whole bytes,
/// `!` included.
#[derive(Debug, Clone, Copy)]
pub struct ImmutableString<'a> {
    pub text: u32,
    part: &'a [u8],
    pub mark: bool,
}

impl<'a> ImmutableString<'a> {
    pub fn new(text: u32, part: &'a [u8]) -> Self {
        ImmutableString {
            text,
            part,
            mark: false,
        }
    }

    /// The text with `!` added.
    pub fn marked(self) -> Self {
        ImmutableString { mark: true, ..self }
    }

    /// The bytes of a text without a mark.
    pub fn as_bytes(&self) -> &'a [u8] {
        debug_assert!(!self.mark);
        self.part
    }

    fn len(&self) -> usize {
        self.part.len() + usize::from(self.mark)
    }
}

impl PartialEq for ImmutableString<'_> {
    fn eq(&self, other: &Self) -> bool {
        if self.mark == other.mark {
            return self.text == other.text || self.part == other.part;
        }
        let (marked, plain) = if self.mark {
            (self, other)
        } else {
            (other, self)
        };
        matches!(plain.part.split_last(), Some((b'!', rest)) if rest == marked.part)
    }
}

impl Eq for ImmutableString<'_> {}

impl Hash for ImmutableString<'_> {
    fn hash<H: Hasher>(&self, state: &mut H) {
        let byte = |index: usize| self.part.get(index).copied().unwrap_or(b'!');
        hash_bytes(self.len(), byte, state);
    }
}

/// All bytes of a short text; of a long one the length and some bytes at the
/// front, in the middle and at the end. Equal texts have them equal.
fn hash_bytes<H: Hasher>(length: usize, byte: impl Fn(usize) -> u8, state: &mut H) {
    const SOME: usize = 64;
    let mut bytes = [0; 3 * SOME];
    let mut used = 0;
    let mut take = |from: usize, to: usize| {
        for index in from..to {
            bytes[used] = byte(index);
            used += 1;
        }
    };
    if length <= 3 * SOME {
        take(0, length);
    } else {
        take(0, SOME);
        take(length / 2, length / 2 + SOME);
        take(length - SOME, length);
    }
    state.write_usize(length);
    state.write(&bytes[..used]);
}

/// A name of the pool: a text, and the text of the namespace that qualifies
/// it. Equal by the bytes of namespace, separator, text and `!`, joined; they
/// are compared piece by piece.
#[derive(Debug, Clone, Copy)]
pub struct Name<'a> {
    pub own: ImmutableString<'a>,
    /// The number of the namespace's text plus 1; 0 where there is none.
    pub namespace: u32,
    /// The namespace's bytes: none exactly where `namespace` is 0.
    space: &'a [u8],
}

impl<'a> From<ImmutableString<'a>> for Name<'a> {
    fn from(own: ImmutableString<'a>) -> Self {
        Name {
            own,
            namespace: 0,
            space: b"",
        }
    }
}

impl<'a> Name<'a> {
    pub fn qualified(namespace: &Namespace<'a>, own: ImmutableString<'a>) -> Self {
        debug_assert!(!namespace.is_empty());
        Name {
            own,
            namespace: namespace.text,
            space: namespace.part,
        }
    }

    /// The name with `!` added.
    pub fn marked(self) -> Self {
        Name {
            own: self.own.marked(),
            ..self
        }
    }

    /// The bytes in front of the own name.
    fn front(&self) -> usize {
        match self.namespace {
            0 => 0,
            _ => self.space.len() + SEPARATOR.len(),
        }
    }

    /// Namespace, separator, text and `!`.
    fn pieces(&self) -> [&'a [u8]; 4] {
        let separator = match self.namespace {
            0 => "",
            _ => SEPARATOR,
        };
        let mark = if self.own.mark { "!" } else { "" };
        [
            self.space,
            separator.as_bytes(),
            self.own.part,
            mark.as_bytes(),
        ]
    }
}

impl PartialEq for Name<'_> {
    fn eq(&self, other: &Self) -> bool {
        if self.namespace == other.namespace {
            return self.own == other.own;
        }
        if self.front() + self.own.len() != other.front() + other.own.len() {
            return false;
        }
        // The two are as long, so they end together.
        let (mine, theirs) = (self.pieces(), other.pieces());
        let (mut mine, mut theirs) = (mine.into_iter(), theirs.into_iter());
        let (mut left, mut right): (&[u8], &[u8]) = (b"", b"");
        loop {
            while left.is_empty() {
                match mine.next() {
                    Some(piece) => left = piece,
                    None => return true,
                }
            }
            while right.is_empty() {
                right = theirs.next().expect("as many bytes on both sides");
            }
            let common = left.len().min(right.len());
            if left[..common] != right[..common] {
                return false;
            }
            (left, right) = (&left[common..], &right[common..]);
        }
    }
}

impl Eq for Name<'_> {}

impl Hash for Name<'_> {
    fn hash<H: Hasher>(&self, state: &mut H) {
        let front = self.front();
        if front == 0 {
            return self.own.hash(state);
        }
        let byte = |index: usize| {
            if index >= front {
                let own = self.own.part.get(index - front);
                own.copied().unwrap_or(b'!')
            } else {
                let separator = index.wrapping_sub(self.space.len());
                let space = self.space.get(index).copied();
                space.unwrap_or_else(|| SEPARATOR.as_bytes()[separator])
            }
        };
        hash_bytes(front + self.own.len(), byte, state);
    }
}

/// A constant: its words as they stand in the image, and the text's bytes for
/// a String. Equal by kind and bits or text bytes.
#[derive(Debug, Clone, Copy)]
pub struct Dynamic<'a> {
    pub kind: u32,
    pub a: u32,
    pub b: u32,
    text: &'a [u8],
}

impl<'a> Dynamic<'a> {
    pub fn from_int(value: INT) -> Self {
        Self::from_bits(format::INT, value as u64)
    }

    pub fn from_float_bits(value: u64) -> Self {
        Self::from_bits(format::FLOAT, value)
    }

    pub fn from_char(value: char) -> Self {
        Self::from_bits(format::CHAR, u64::from(u32::from(value)))
    }

    pub fn from_string(value: ImmutableString<'a>) -> Self {
        Dynamic {
            kind: format::STRING,
            a: value.text,
            b: 0,
            text: value.as_bytes(),
        }
    }

    fn from_bits(kind: u32, bits: u64) -> Self {
        Dynamic {
            kind,
            a: bits as u32,
            b: (bits >> 32) as u32,
            text: b"",
        }
    }
}

impl PartialEq for Dynamic<'_> {
    fn eq(&self, other: &Self) -> bool {
        if self.kind != other.kind {
            return false;
        }
        if self.kind == format::STRING {
            self.a == other.a || self.text == other.text
        } else {
            self.a == other.a && self.b == other.b
        }
    }
}

impl Eq for Dynamic<'_> {}

impl Hash for Dynamic<'_> {
    fn hash<H: Hasher>(&self, state: &mut H) {
        self.kind.hash(state);
        if self.kind == format::STRING {
            ImmutableString::new(0, self.text).hash(state);
        } else {
            self.a.hash(state);
            self.b.hash(state);
        }
    }
}

/// An operator: the field c of its FnCall.
#[derive(Debug, Clone, Copy, PartialEq, Eq)]
pub struct Token(pub u32);

/// A `switch` case, with a list of blocks that share the same condition.
#[derive(Debug, Clone)]
pub struct CaseBlocksList<'a> {
    /// Condition value (must be constant).
    pub value: Dynamic<'a>,
    /// List of blocks that share the same condition.
    pub blocks: Vec<usize>,
}

/// All cases for a `switch` statement. The cases are a list in sheet order
/// where the Rust has a map by hash.
#[derive(Debug, Clone)]
pub struct SwitchCasesCollection<'a> {
    /// List of conditional expressions: LHS = condition, RHS = expression.
    pub expressions: Vec<BinaryExpr<'a>>,
    /// The cases, in sheet order.
    pub cases: Vec<CaseBlocksList<'a>>,
    /// List of range cases.
    pub ranges: Vec<RangeCase>,
    /// Statements block for the default case (there can be no condition for the default case).
    pub def_case: Option<usize>,
}

/// Where a guard's code begins, and the jump that pops its value.
#[derive(Debug, Clone, Copy, PartialEq, Eq)]
pub struct GuardMark {
    pub block: usize,
    pub at: u32,
    pub site: u32,
}

/// Kept beside the lowering for the self-test and for the count of emitted
/// instructions; nothing in the lowering reads it.
#[derive(Debug, Clone, Default)]
pub struct Marks {
    /// Every instruction emitted, those taken back included.
    pub emitted: u64,
    pub guards: Vec<GuardMark>,
    /// Each body's block and first instruction.
    pub bodies: Vec<(usize, u32)>,
    /// The Unit emitted in place of a missing default.
    pub missing_default: Option<u32>,
}

#[cfg(test)]
mod tests {
    use super::*;
    use std::collections::hash_map::DefaultHasher;

    /// Every way to cut a line into namespace, own name and `!`, with numbers of their own.
    fn cuts<'a>(line: &'a [u8], number: &mut u32, names: &mut Vec<Name<'a>>) {
        // The last one is for the namespace.
        let mut own = |part: &'a [u8]| {
            *number += 3;
            let whole = ImmutableString::new(*number, part);
            match part.split_last() {
                Some((b'!', rest)) => {
                    vec![whole, ImmutableString::new(*number + 1, rest).marked()]
                }
                _ => vec![whole],
            }
        };
        names.extend(own(line).into_iter().map(Name::from));
        for at in 1..line.len() - 1 {
            if &line[at..at + 2] == SEPARATOR.as_bytes() {
                let parts = own(&line[at + 2..]);
                let space = Namespace::new(parts[0].text + 2, &line[..at], Position::NONE);
                names.extend(parts.into_iter().map(|own| Name::qualified(&space, own)));
            }
        }
    }

    fn hash(name: &Name) -> u64 {
        let mut state = DefaultHasher::new();
        name.hash(&mut state);
        state.finish()
    }

    #[test]
    fn names_are_one_exactly_if_their_joined_bytes_are() {
        let line: Vec<u8> = b"ab::c:::!d".iter().copied().cycle().take(249).collect();
        let mut lines = vec![line.clone(), [&line[..], b"!"].concat()];
        for at in [0, 80, 128, 248] {
            let mut other = line.clone();
            other[at] ^= 1;
            lines.push(other);
        }
        let (mut number, mut names) = (0, Vec::new());
        for line in &lines {
            cuts(line, &mut number, &mut names);
        }
        let mut equal = 0;
        for a in &names {
            for b in &names {
                let same = a.pieces().concat() == b.pieces().concat();
                assert_eq!(a == b, same);
                if same {
                    assert_eq!(hash(a), hash(b));
                    equal += 1;
                }
            }
        }
        assert!(equal > 10 * names.len() && equal < names.len() * names.len() / 2);
    }
}

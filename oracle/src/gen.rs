//! Random sheets by seed and profile.

use crate::draft::Draft;
use crate::format::*;
use crate::random::Random;

/// The profiles, without `all`, which takes them in turn.
pub const PROFILES: &[&str] = &[
    "expressions",
    "chains",
    "calls",
    "switches",
    "texts",
    "modules",
    "names",
    "damaged",
    "limits",
];

/// The profiles whose sheets are random and mostly accepted.
pub const ACCEPTED: &[&str] = PROFILES.split_at(7).0;

/// How large the random sheets become.
#[derive(Clone, Copy)]
pub struct Size {
    /// About how many nodes a random sheet has at most.
    pub nodes: usize,
    /// Few texts, and no calls with hundreds of arguments.
    pub small: bool,
}

impl Size {
    pub const NORMAL: Size = Size {
        nodes: 120,
        small: false,
    };
    pub const SMALL: Size = Size {
        nodes: 10,
        small: true,
    };
}

/// The sheet number `index` of a series.
pub fn sheet(profile: &str, seed: u64, index: u64, size: Size) -> Vec<u8> {
    let mut random = Random::for_index(seed, index);
    match profile {
        "all" => {
            // The limits are slow to make, so they come less often.
            let names = &PROFILES[..PROFILES.len() - 1];
            let name = if !size.small && random.chance(1, 200) {
                "limits"
            } else {
                names[(index % names.len() as u64) as usize]
            };
            sheet(name, seed ^ 0x5EED, index, size)
        }
        "texts" => texts(random, size).to_bytes(),
        "names" => names(random, size),
        "damaged" => damaged(random, size),
        "limits" => crate::limits::sheet(index, random),
        _ => {
            let mut gen = Gen::new(profile, random, size, Wishes::default());
            gen.whole();
            gen.draft.to_bytes()
        }
    }
}

/// What a damaged sheet is to contain beside its damage.
#[derive(Clone, Copy, Default)]
pub struct Wishes {
    pub too_deep: bool,
    pub too_many: bool,
    pub equal_cases: bool,
    pub refused_kind: bool,
    pub eval: bool,
}

pub struct Gen {
    pub random: Random,
    pub draft: Draft,
    size: Size,
    profile: String,
    wishes: Wishes,
    /// Nodes left.
    left: isize,
    /// Texts that are not `eval` and have bytes.
    names: Vec<u32>,
    /// Texts with special meaning, by keyword.
    eval: u32,
    curry: u32,
    keywords: Vec<u32>,
    /// Texts for namespaces; none in a sheet without modules.
    spaces: Vec<u32>,
    /// Parts of names with equal or nearly equal joined bytes.
    splits: Vec<Split>,
    /// How often a variable or call is qualified, in 100.
    qualified: usize,
    /// How often an FnCall is an `eval`, in 100.
    evals: usize,
    /// 0: few positions, 1: plain ones, 2: any word.
    position_mode: usize,
}

/// A namespace's text, if any, an own name, and whether `!` is added.
#[derive(Clone, Copy)]
struct Split {
    space: Option<u32>,
    name: u32,
    mark: bool,
}

const SPACES: &[&str] = &[
    "m", "n", "a", "a::b", "a::b::c", "rules", "ports", "ü", "日本", "m:", ":", "::", "m!", "!",
    "eval", "Fn", "call", "curry", "v", "g", "x", "",
];

/// Own names that look qualified.
const LOOKALIKES: &[&str] = &[
    "m::eval", "m::call", "m::Fn", "m::curry", "eval::m", "a::b", "::", "::a", "a::", "m::x",
    "m::g!", "b::c",
];

/// Joined names, cut at each of their separators.
const JOINED: &[&str] = &[
    "a::b::c",
    "m::g!",
    "m::g",
    "a:::b",
    "a::::b",
    "a::b::c::d!",
    "::",
    "a::",
    "::a",
    "m::!",
    "m::!!",
    "ü::日本::x",
    "m::m::m::m",
];

const NAMES: &[&str] = &[
    "x",
    "y",
    "v",
    "g",
    "f",
    "g!",
    "x!",
    "get$x",
    "set$x",
    "ü",
    "日本",
    "𝄞",
    "+",
    "-",
    "is_shared",
    "Call",
    "fn",
    "eva",
    "evall",
    "curr",
    "curryy",
    "!",
    "print",
    "x",
    "g",
    "v",
];

pub const INTEGERS: &[i64] = &[
    0,
    1,
    -1,
    2,
    3,
    4,
    5,
    6,
    7,
    8,
    9,
    10,
    97,
    255,
    256,
    -2,
    -3,
    -128,
    65_535,
    65_536,
    i64::MIN,
    i64::MIN + 1,
    i64::MAX,
    i64::MAX - 1,
    i32::MIN as i64,
    i32::MAX as i64,
    i32::MAX as i64 + 1,
    i32::MIN as i64 - 1,
    u32::MAX as i64,
    u32::MAX as i64 + 1,
    1 << 62,
    -(1 << 62),
];

const CHARACTERS: &[u32] = &[
    97, 0, 48, 0x7F, 0x80, 0x7FF, 0x800, 0xD7FF, 0xE000, 0xFFFF, 0x1_0000, 0x10_FFFF,
];

impl Gen {
    pub fn new(profile: &str, mut random: Random, size: Size, wishes: Wishes) -> Self {
        let evals = match wishes.eval {
            true => 40,
            false if random.chance(1, 10) => 8,
            false => 0,
        };
        let position_mode = random.below(3);
        let qualified = match (profile, random.below(10)) {
            ("modules", 0..=3) => 100,
            ("modules", _) => *random.pick(&[20, 50, 50, 80]),
            (_, 0..=3) => *random.pick(&[20, 20, 40]),
            _ => 0,
        };
        let least = match profile {
            "modules" => (size.nodes / 2).min(12),
            _ => 1,
        };
        let left = random.between(least, size.nodes.max(least)) as isize;
        let mut gen = Gen {
            random,
            draft: Draft::new(),
            size,
            profile: profile.to_string(),
            wishes,
            left,
            names: Vec::new(),
            eval: 0,
            curry: 0,
            keywords: Vec::new(),
            spaces: Vec::new(),
            splits: Vec::new(),
            qualified,
            evals,
            position_mode,
        };
        gen.make_texts();
        gen
    }

    fn add_text(&mut self, bytes: &[u8]) -> u32 {
        // Sometimes a part of the bytes that are there already.
        if self.random.chance(1, 3) {
            let found = self
                .draft
                .bytes
                .windows(bytes.len().max(1))
                .position(|window| window == bytes);
            if let Some(start) = found {
                self.draft.texts.push((start as u32, bytes.len() as u32));
                return (self.draft.texts.len() - 1) as u32;
            }
        }
        self.draft.text(bytes)
    }

    fn make_texts(&mut self) {
        let plain = if self.size.small {
            self.random.between(1, 3)
        } else {
            self.random.between(3, 14)
        };
        for _ in 0..plain {
            let name = *self.random.pick(NAMES);
            let text = self.add_text(name.as_bytes());
            self.names.push(text);
        }
        let one = self.random.below(6);
        for (index, keyword) in [KEYWORD_FN_PTR_CALL, KEYWORD_FN_PTR, KEYWORD_FN_PTR_CURRY]
            .iter()
            .enumerate()
        {
            if !self.size.small || one == index || one == 5 {
                let text = self.add_text(keyword);
                self.keywords.push(text);
                if index == 2 {
                    self.curry = text;
                }
            }
        }
        if self.curry == 0 {
            self.curry = u32::MAX;
        }
        if !self.size.small || self.evals > 0 || self.random.chance(1, 8) {
            self.eval = self.add_text(KEYWORD_EVAL);
        } else {
            self.eval = u32::MAX;
        }
        if self.random.chance(1, 3) {
            self.draft.text(b"");
        }
        if self.qualified > 0 {
            self.make_spaces();
        }
        let locals = match self.random.below(4) {
            0 => 0,
            1 | 2 => self.random.between(1, 2),
            _ => self.random.below(if self.size.small { 3 } else { 6 }),
        };
        for _ in 0..locals {
            let text = self.named();
            self.draft.locals.push(text);
        }
    }

    /// Any text.
    fn any(&mut self) -> u32 {
        self.random.below(self.draft.texts.len()) as u32
    }

    /// Any text that has bytes.
    fn named(&mut self) -> u32 {
        loop {
            let text = self.any();
            if self.draft.texts[text as usize].1 > 0 {
                return text;
            }
        }
    }

    /// Texts for namespaces, and joined names with their parts.
    fn make_spaces(&mut self) {
        let small = self.size.small;
        for _ in 0..self.random.between(1, if small { 2 } else { 5 }) {
            let space = *self.random.pick(SPACES);
            let text = self.add_text(space.as_bytes());
            self.spaces.push(text);
        }
        if self.random.chance(1, 3) {
            let name = *self.random.pick(LOOKALIKES);
            let text = self.add_text(name.as_bytes());
            self.names.push(text);
        }
        if small && self.random.chance(1, 2) {
            return;
        }
        for _ in 0..self.random.between(1, if small { 1 } else { 3 }) {
            let joined = self.joined();
            self.split(&joined);
        }
    }

    /// The bytes of a joined name.
    fn joined(&mut self) -> Vec<u8> {
        match self.random.below(6) {
            0 if !self.size.small => {
                // A long one, with separators as far from each other as small
                // numbers of bytes.
                let mut joined = vec![b'x'; self.random.between(0, 700)];
                for _ in 0..self.random.between(2, 6) {
                    joined.extend_from_slice(b"::");
                    let more = self.random.below(70);
                    joined.extend(std::iter::repeat_n(b'y', more));
                }
                if self.random.chance(1, 2) {
                    joined.push(b'!');
                }
                joined
            }
            0..=3 => self.random.pick(JOINED).as_bytes().to_vec(),
            _ => {
                let pieces = ["a", "b", ":", "::", "::", "!", "ü", "m"];
                let mut joined = String::new();
                for _ in 0..self.random.between(2, 7) {
                    joined.push_str(pieces[self.random.below(pieces.len())]);
                }
                joined.into_bytes()
            }
        }
    }

    /// All ways to put these bytes together from a namespace, an own name and
    /// a mark, and some that give nearly the same bytes.
    fn split(&mut self, joined: &[u8]) {
        let start = self.draft.bytes.len();
        self.draft.bytes.extend_from_slice(joined);
        let part = |gen: &mut Gen, from: usize, to: usize| {
            gen.draft
                .texts
                .push(((start + from) as u32, (to - from) as u32));
            (gen.draft.texts.len() - 1) as u32
        };
        let length = joined.len();
        let marked = joined.last() == Some(&b'!');
        let mut cuts: Vec<usize> = (1..length.saturating_sub(1))
            .filter(|at| joined[*at..].starts_with(b"::"))
            .collect();
        while self.size.small && cuts.len() > 2 {
            cuts.remove(self.random.below(cuts.len()));
        }
        let mut all = vec![(None, 0)];
        for cut in cuts {
            let space = part(self, 0, cut);
            self.spaces.push(space);
            all.push((Some(space), cut + 2));
        }
        for (space, from) in all {
            if from == length {
                continue;
            }
            let name = part(self, from, length);
            self.names.push(name);
            let mark = self.random.chance(1, 4);
            self.splits.push(Split { space, name, mark });
            if marked && from + 1 < length {
                let name = part(self, from, length - 1);
                for mark in [true, true, false] {
                    self.splits.push(Split { space, name, mark });
                }
            }
        }
    }

    /// For a variable or call that is to be qualified, the text and position
    /// of its namespace.
    fn space(&mut self) -> Option<(u32, u32)> {
        if self.qualified == 0 || !self.random.chance(self.qualified, 100) {
            return None;
        }
        let index = self.random.below(self.spaces.len());
        let text = if self.random.chance(1, 20) {
            self.any()
        } else {
            self.spaces[index]
        };
        Some((text, self.position()))
    }

    /// One of the names that are split in several ways, for a variable or call
    /// that is to be qualified.
    fn split_name(&mut self) -> Option<Split> {
        if self.splits.is_empty() || self.random.chance(1, 2) {
            return None;
        }
        Some(*self.random.pick(&self.splits))
    }

    /// Begin a Variable or FnCall, qualified or not.
    fn open_named(&mut self, kind: u32, fields: [u32; 3], space: Option<(u32, u32)>) {
        let position = self.position();
        self.draft.open(kind, fields, position);
        if let Some((text, position)) = space {
            self.draft.qualify(text, position);
        }
    }

    fn variable_leaf(&mut self) {
        let mut name = self.variable();
        let mut space = self.space();
        if let Some((_, position)) = space {
            if let Some(split) = self.split_name() {
                name = split.name;
                space = split.space.map(|text| (text, position));
            }
        }
        self.open_named(VARIABLE, [name, 0, 0], space);
        self.draft.close();
    }

    /// Begin an FnCall. Gives whether it is `curry`, which has at most one
    /// argument, and whether it is a residual whatever its arguments.
    fn open_call(&mut self, capture: u32) -> (bool, bool) {
        let (mut name, mut is_curry) = self.call_name();
        let mut capture = capture;
        let mut space = self.space();
        if let Some((_, position)) = space {
            if let Some(split) = self.split_name() {
                (name, is_curry) = (split.name, false);
                space = split.space.map(|text| (text, position));
                capture = u32::from(split.mark);
            }
        }
        let operator = self.operator();
        self.open_named(FN_CALL, [name, capture, operator], space);
        let named = |text: (u32, u32)| self.draft.texts[text.0 as usize].1 > 0;
        let residual = space.is_some_and(named) && self.keywords.contains(&name);
        (is_curry, residual)
    }

    pub fn position(&mut self) -> u32 {
        match self.position_mode {
            0 => *self.random.pick(&[0, 65_537, 65_538]),
            1 => (self.random.between(1, 9) * 65_536 + self.random.between(1, 40)) as u32,
            _ => self.random.word(),
        }
    }

    /// A name for a variable: often a local's.
    fn variable(&mut self) -> u32 {
        if !self.draft.locals.is_empty() && self.random.chance(2, 5) {
            let index = self.random.below(self.draft.locals.len());
            self.draft.locals[index]
        } else {
            self.name()
        }
    }

    fn name(&mut self) -> u32 {
        if self.random.chance(1, 12) {
            self.named()
        } else {
            let index = self.random.below(self.names.len());
            self.names[index]
        }
    }

    /// A name for an FnCall, and whether it is `curry`.
    fn call_name(&mut self) -> (u32, bool) {
        let name = if self.eval != u32::MAX && self.random.chance(self.evals, 100) {
            self.eval
        } else if !self.keywords.is_empty() && self.random.chance(1, 3) {
            let index = self.random.below(self.keywords.len());
            self.keywords[index]
        } else {
            let index = self.random.below(self.names.len());
            self.names[index]
        };
        (name, name == self.curry)
    }

    fn integer(&mut self) -> i64 {
        match self.random.below(6) {
            0 => self.random.next() as i64,
            1 | 2 => self.random.between(0, 12) as i64,
            _ => *self.random.pick(INTEGERS),
        }
    }

    fn leaf(&mut self) {
        self.left -= 1;
        let position = self.position();
        match self.random.below(24) {
            0..=2 => {
                let truth = self.random.below(2) as u32;
                self.draft.leaf(BOOL, [truth, 0, 0], position)
            }
            3..=5 => self.draft.leaf(UNIT, [0, 0, 0], position),
            6..=8 => {
                let value = self.integer();
                self.draft.int(value, position)
            }
            9 => {
                let bits = *self.random.pick(&[
                    0u64,
                    1 << 63,
                    0x3FF0_0000_0000_0000,
                    0x7FF8_0000_0000_0000,
                    0x7FF8_0000_0000_0001,
                    0xFFF8_0000_0000_0000,
                    0x7FF0_0000_0000_0000,
                    1,
                    97,
                ]);
                self.draft
                    .leaf(FLOAT, [bits as u32, (bits >> 32) as u32, 0], position)
            }
            10 => {
                let value = *self.random.pick(CHARACTERS);
                self.draft.leaf(CHAR, [value, 0, 0], position)
            }
            11..=13 => {
                let text = self.any();
                self.draft.leaf(STRING, [text, 0, 0], position)
            }
            14..=17 => self.variable_leaf(),
            18..=19 => self.draft.leaf(THIS, [0, 0, 0], position),
            20 => self.property(position),
            21 => {
                let kind = *self.random.pick(&[INTERPOLATED, ARRAY]);
                self.draft.leaf(kind, [0, 0, 0], position)
            }
            22 => {
                let capture = self.random.below(2) as u32;
                self.open_call(capture);
                self.draft.close();
            }
            _ => {
                let name = self.named();
                self.draft.leaf(METHOD_CALL, [name, 0, 0], position)
            }
        }
    }

    fn property(&mut self, position: u32) {
        let fields = [self.name(), self.accessor(), self.accessor()];
        self.draft.leaf(PROPERTY, fields, position)
    }

    /// A text for a getter or setter, which may have no bytes.
    fn accessor(&mut self) -> u32 {
        if self.random.chance(1, 6) {
            self.any()
        } else {
            self.name()
        }
    }

    fn operator(&mut self) -> u32 {
        if self.random.chance(1, 4) {
            *self.random.pick(&[1, 2, 3, 40, 65_534, 65_535])
        } else {
            0
        }
    }

    /// One expression, at most `levels` deep.
    pub fn expression(&mut self, levels: usize) {
        if self.wishes.refused_kind && self.random.chance(1, 6) {
            self.left -= 1;
            let position = self.position();
            if self.random.chance(1, 3) && self.curry != u32::MAX && levels > 1 {
                let arguments = self.random.between(1, 3);
                let space = match self.spaces.first() {
                    Some(text) if self.random.chance(1, 3) => Some((*text, 9)),
                    _ => self.space(),
                };
                self.open_named(FN_CALL, [self.curry, 0, 0], space);
                for _ in 0..arguments {
                    self.expression(levels - 1);
                }
                self.draft.close();
            } else {
                let kind = *self.random.pick(&[MAP, BLOCK, DYNAMIC]);
                self.draft.leaf(kind, [0, 0, 0], position);
            }
            return;
        }
        if self.wishes.eval && self.eval != u32::MAX && self.random.chance(1, 8) {
            self.left -= 1;
            let space = self.space();
            self.open_named(FN_CALL, [self.eval, 0, 0], space);
            self.draft.close();
            return;
        }
        if levels <= 1 || self.left <= 1 || self.random.chance(1, 8) {
            self.leaf();
            return;
        }
        let [plain, calls, chains] = match self.profile.as_str() {
            "chains" => [3, 2, 8],
            "calls" => [2, 8, 1],
            "modules" => [3, 6, 3],
            _ => [8, 2, 1],
        };
        let choice = self.random.below(plain + calls + chains);
        if choice < plain {
            self.plain(levels);
        } else if choice < plain + calls {
            self.call(levels);
        } else {
            self.chain(levels);
        }
    }

    fn some(&mut self, low: usize) -> usize {
        let most = self.left.clamp(low as isize, 5) as usize;
        self.random.between(low, most.max(low))
    }

    fn plain(&mut self, levels: usize) {
        self.left -= 1;
        let position = self.position();
        let kind = *self.random.pick(&[INTERPOLATED, ARRAY, AND, OR, COALESCE]);
        let low = usize::from(kind >= AND);
        let children = self.some(low);
        self.draft.open(kind, [0, 0, 0], position);
        for _ in 0..children {
            self.expression(levels - 1);
        }
        self.draft.close();
    }

    fn arguments(&mut self, count: usize, levels: usize) {
        for index in 0..count {
            if index == 0 && self.random.chance(1, 2) {
                self.left -= 1;
                if self.random.chance(1, 4) {
                    let position = self.position();
                    self.draft.leaf(THIS, [0, 0, 0], position);
                } else {
                    self.variable_leaf();
                }
            } else if count > 50 {
                self.leaf();
            } else {
                self.expression(levels - 1);
            }
        }
    }

    fn count_of_arguments(&mut self) -> usize {
        if !self.size.small && self.random.chance(1, 60) {
            return self.random.between(253, 258);
        }
        match self.random.below(10) {
            0 => 0,
            1..=4 => 1,
            5..=7 => 2,
            8 => 3,
            _ => self.some(2),
        }
    }

    fn call(&mut self, levels: usize) {
        self.left -= 1;
        let count = self.count_of_arguments();
        let capture = u32::from(self.random.chance(1, 5));
        let (is_curry, residual) = self.open_call(capture);
        let mut count = if is_curry { count.min(1) } else { count };
        if residual && self.eval != u32::MAX && count > 0 && self.random.chance(1, 4) {
            // Not reached.
            count -= 1;
            self.left -= 1;
            let space = self.space();
            self.open_named(FN_CALL, [self.eval, 0, 0], space);
            self.draft.close();
        }
        self.arguments(count, levels);
        self.draft.close();
    }

    fn chain(&mut self, levels: usize) {
        let steps = self.random.between(1, 4).min(levels - 1);
        let kinds: Vec<u32> = (0..steps)
            .map(|_| *self.random.pick(&[DOT, DOT, INDEX]))
            .collect();
        let spoiled = self.random.chance(1, 8);
        self.chain_node(&kinds, 0, levels, spoiled);
        self.chain_root(levels);
        self.chain_rest(&kinds, 0, levels, spoiled);
        self.draft.close();
    }

    fn chain_node(&mut self, kinds: &[u32], at: usize, _levels: usize, spoiled: bool) {
        self.left -= 1;
        let mut flags = 0;
        if self.random.chance(1, 3) {
            flags |= NEGATED;
        }
        let last = at + 1 == kinds.len();
        if last && self.random.chance(2, 3) || spoiled && self.random.chance(1, 3) {
            flags |= BREAK;
        }
        let position = self.position();
        self.draft.open(kinds[at], [flags, 0, 0], position);
    }

    fn chain_root(&mut self, levels: usize) {
        match self.random.below(6) {
            0..=2 => {
                self.left -= 1;
                self.variable_leaf();
            }
            3 => {
                self.left -= 1;
                let position = self.position();
                self.draft.leaf(THIS, [0, 0, 0], position);
            }
            _ => self.expression(levels - 1),
        }
    }

    /// The right side of the chain node that step `at` belongs to.
    fn chain_rest(&mut self, kinds: &[u32], at: usize, levels: usize, spoiled: bool) {
        let levels = levels.saturating_sub(1).max(1);
        if at + 1 == kinds.len() {
            self.chain_operand(kinds[at], levels, spoiled);
        } else {
            self.chain_node(kinds, at + 1, levels, spoiled);
            self.chain_operand(kinds[at], levels, spoiled);
            self.chain_rest(kinds, at + 1, levels, spoiled);
            self.draft.close();
        }
    }

    fn chain_operand(&mut self, kind: u32, levels: usize, spoiled: bool) {
        if kind == INDEX || spoiled && self.random.chance(1, 4) {
            self.expression(levels.saturating_sub(1).max(1));
            return;
        }
        self.left -= 1;
        let position = self.position();
        if self.random.chance(1, 2) {
            self.property(position);
            return;
        }
        let name = match self.random.below(12) {
            0 if self.eval != u32::MAX => self.eval,
            1 | 2 if !self.keywords.is_empty() => {
                let index = self.random.below(self.keywords.len());
                self.keywords[index]
            }
            _ => {
                let index = self.random.below(self.names.len());
                self.names[index]
            }
        };
        let mut count = self.count_of_arguments();
        if levels <= 1 {
            count = 0;
        }
        self.draft.open(METHOD_CALL, [name, 0, 0], position);
        self.arguments(count, levels);
        self.draft.close();
    }

    /// The whole sheet.
    pub fn whole(&mut self) {
        if self.wishes.too_deep && self.profile != "switches" {
            self.too_deep();
        } else if self.profile == "switches"
            || self.profile == "modules" && self.random.chance(1, 4)
        {
            self.switch();
        } else {
            let levels = self.levels();
            self.expression(levels);
        }
    }

    fn levels(&mut self) -> usize {
        if self.random.chance(1, 20) && !self.size.small {
            self.random.between(30, 64)
        } else {
            self.random.between(2, 9)
        }
    }

    /// Nodes one inside the other, 63 to 70 levels.
    fn too_deep(&mut self) {
        let levels = self.random.between(62, 70);
        self.deep(levels);
    }

    fn deep(&mut self, levels: usize) {
        let mut opened = 0;
        while opened + 1 < levels {
            let position = self.position();
            let kind = *self
                .random
                .pick(&[AND, OR, COALESCE, ARRAY, INTERPOLATED, DOT, INDEX]);
            self.draft.open(kind, [0, 0, 0], position);
            if (kind == DOT || kind == INDEX) && self.random.chance(1, 2) {
                // The first child is a leaf, the second goes on.
                self.leaf();
            }
            opened += 1;
        }
        self.leaf();
        // Close from the inside, giving each Dot and Index its second child.
        for _ in 0..opened {
            let (kind, count) = self.draft.innermost();
            if (kind == DOT || kind == INDEX) && count < 2 {
                self.leaf();
            }
            self.draft.close();
        }
    }

    fn end_point(&mut self) -> i64 {
        match self.random.below(8) {
            0 => *self
                .random
                .pick(&[i64::MIN, i64::MAX, i64::MIN + 1, i64::MAX - 1]),
            1 => *self.random.pick(INTEGERS),
            2 => self.random.next() as i64,
            _ => self.random.between(0, 14) as i64 - 3,
        }
    }

    fn guard(&mut self, levels: usize) {
        match self.random.below(10) {
            0..=2 => {
                self.left -= 1;
                let position = self.position();
                self.draft.leaf(BOOL, [1, 0, 0], position)
            }
            3 => {
                self.left -= 1;
                let position = self.position();
                self.draft.leaf(BOOL, [0, 0, 0], position)
            }
            4 | 5 => self.leaf(),
            _ => self.expression(levels),
        }
    }

    /// A Switch at node 0.
    pub fn switch(&mut self) {
        let crowded = !self.size.small && self.random.chance(1, 12);
        let most = if crowded {
            64
        } else if self.size.small {
            2
        } else {
            6
        };
        let mut blocks = self.random.between(0, most);
        let mut cases = self.random.between(0, most);
        let mut ranges = self
            .random
            .between(0, if self.size.small { 3 } else { most });
        let mut refs = if self.size.small { 2 } else { 4 };
        if self.wishes.too_many {
            let more = self.random.between(64, 66);
            match self.random.below(4) {
                0 => blocks = more,
                1 => cases = more,
                2 => ranges = more,
                _ => {
                    refs = more;
                    cases = cases.max(1);
                }
            }
        }
        if self.wishes.equal_cases {
            cases = cases.max(2);
        }
        if blocks == 0 && ranges > 0 {
            if self.random.chance(3, 4) || self.wishes.too_many {
                blocks = 1;
            } else {
                ranges = 0;
            }
        }
        let default = if blocks > 0 && self.random.chance(1, 2) {
            self.random.between(1, blocks)
        } else {
            0
        };
        let position = self.position();
        self.left -= 1;
        self.draft.open(
            SWITCH,
            [blocks as u32, cases as u32, default as u32],
            position,
        );
        let levels = if self.size.small {
            3
        } else {
            self.random.between(2, 5)
        };
        if self.wishes.too_deep {
            let deep = self.random.between(62, 68);
            self.deep(deep);
        } else if self.random.chance(1, 2) {
            self.leaf();
        } else {
            self.expression(levels);
        }
        // The nodes left are shared out, so that late blocks are not all leaves.
        let share = (self.left / (2 * blocks as isize + 1)).max(2);
        for _ in 0..blocks {
            self.left = share;
            self.guard(levels);
            self.left = share;
            self.expression(levels);
        }
        self.cases(cases, refs, blocks);
        for _ in 0..ranges {
            let position = self.position();
            let inclusive = self.random.below(2) as u32;
            let block = self.random.below(blocks) as u32;
            let start = self.end_point();
            let end = match self.random.below(6) {
                0 => start,
                1 => start.saturating_add(1),
                _ => self.end_point(),
            };
            let (start, end) = if start > end && self.random.chance(3, 4) {
                (end, start)
            } else {
                (start, end)
            };
            self.draft.open(RANGE, [inclusive, block, 0], position);
            let position = self.position();
            self.draft.int(start, position);
            self.draft.int(end, position);
            self.draft.close();
        }
        self.draft.close();
    }

    fn cases(&mut self, cases: usize, refs: usize, blocks: usize) {
        let mut seen: Vec<(u32, Vec<u8>)> = Vec::new();
        let mut lists: Vec<Vec<u32>> = Vec::new();
        for case in 0..cases {
            let (kind, fields, value) = loop {
                let (kind, fields, value) = match self.random.below(6) {
                    0 => {
                        let text = self.random.below(self.draft.texts.len());
                        let (start, length) = self.draft.texts[text];
                        let bytes = &self.draft.bytes[start as usize..(start + length) as usize];
                        (STRING, [text as u32, 0, 0], bytes.to_vec())
                    }
                    1 => {
                        let value = if self.random.chance(1, 2) {
                            *self.random.pick(CHARACTERS)
                        } else {
                            self.random.between(0, 0xD7FF) as u32
                        };
                        (CHAR, [value, 0, 0], value.to_le_bytes().to_vec())
                    }
                    _ => {
                        let value = if self.random.chance(1, 10) {
                            self.integer()
                        } else if cases > 20 {
                            self.random.next() as i64
                        } else {
                            self.end_point()
                        };
                        (
                            INT,
                            [value as u32, (value >> 32) as u32, 0],
                            value.to_le_bytes().to_vec(),
                        )
                    }
                };
                let known = seen.contains(&(kind, value.clone()));
                if !known || self.wishes.equal_cases && self.random.chance(1, 2) {
                    break (kind, fields, value);
                }
            };
            // With the wish for equal cases the last repeats an earlier one.
            let (kind, fields, value) =
                if self.wishes.equal_cases && case + 1 == cases && self.random.chance(3, 4) {
                    let at = self.random.below(seen.len());
                    let (kind, value) = seen[at].clone();
                    let fields = match kind {
                        STRING => {
                            let text = self.add_text(&value);
                            [text, 0, 0]
                        }
                        CHAR => [u32::from_le_bytes(value[..4].try_into().unwrap()), 0, 0],
                        _ => [
                            u32::from_le_bytes(value[..4].try_into().unwrap()),
                            u32::from_le_bytes(value[4..8].try_into().unwrap()),
                            0,
                        ],
                    };
                    (kind, fields, value)
                } else {
                    (kind, fields, value)
                };
            seen.push((kind, value));
            let position = self.position();
            self.draft.open(CASE, [0, 0, 0], position);
            self.draft.leaf(kind, fields, position);
            let list: Vec<u32> = if blocks == 0 {
                Vec::new()
            } else if !lists.is_empty() && self.random.chance(1, 4) {
                self.random.pick(&lists).clone()
            } else {
                let count = if refs > 60 && case + 1 == cases {
                    refs
                } else {
                    self.random.between(0, refs.min(6))
                };
                (0..count)
                    .map(|_| self.random.below(blocks) as u32)
                    .collect()
            };
            for block in &list {
                self.draft.leaf(REF, [*block, 0, 0], position);
            }
            lists.push(list);
            self.draft.close();
        }
    }
}

// ---- texts ----

const GOOD: &[&[u8]] = &[
    b"a",
    b"x",
    b"\x00",
    b"\x7F",
    "\u{80}".as_bytes(),
    "\u{7FF}".as_bytes(),
    "\u{800}".as_bytes(),
    "\u{D7FF}".as_bytes(),
    "\u{E000}".as_bytes(),
    "\u{FFFF}".as_bytes(),
    "\u{10000}".as_bytes(),
    "\u{10FFFF}".as_bytes(),
    "é".as_bytes(),
    "日".as_bytes(),
    "\u{FFFD}".as_bytes(),
    "\u{FEFF}".as_bytes(),
    b"call",
    b"eval",
];

const BAD: &[&[u8]] = &[
    b"\x80",
    b"\xBF",
    b"\xC0\x80",
    b"\xC1\xBF",
    b"\xC2",
    b"\xC2\x00",
    b"\xC2\xC0",
    b"\xDF\x7F",
    b"\xE0\x80\x80",
    b"\xE0\x9F\xBF",
    b"\xE0\xA0",
    b"\xE1\x80",
    b"\xE1\x80\xC0",
    b"\xE1\x7F\x80",
    b"\xED\xA0\x80",
    b"\xED\xBF\xBF",
    b"\xEF\xBF",
    b"\xF0\x80\x80\x80",
    b"\xF0\x8F\xBF\xBF",
    b"\xF0\x90\x80",
    b"\xF0\x9F\x92",
    b"\xF1\x80\x80\x7F",
    b"\xF1\x80\xC0\x80",
    b"\xF4\x90\x80\x80",
    b"\xF4\xBF\xBF\xBF",
    b"\xF5\x80\x80\x80",
    b"\xF8\x88\x80\x80\x80",
    b"\xFE",
    b"\xFF",
    b"\xC2\x80\x80",
];

/// A sheet about its texts: an Array of Strings and Variables.
fn texts(mut random: Random, size: Size) -> Draft {
    let mut draft = Draft::new();
    let mode = random.below(4);
    let pieces = random.between(0, if size.small { 5 } else { 16 });
    let mut cuts = vec![0usize];
    for _ in 0..pieces {
        let piece = if mode == 3 && random.chance(1, 4) {
            *random.pick(BAD)
        } else {
            *random.pick(GOOD)
        };
        draft.bytes.extend_from_slice(piece);
        cuts.push(draft.bytes.len());
    }
    let bytes = draft.bytes.len();
    let most = if size.small {
        4
    } else if random.chance(1, 4) {
        40
    } else {
        10
    };
    let count = random.between(0, most);
    for _ in 0..count {
        let (mut start, mut end) = if random.chance(1, 3) {
            (0, bytes)
        } else {
            (*random.pick(&cuts), *random.pick(&cuts))
        };
        if start > end {
            std::mem::swap(&mut start, &mut end);
        }
        draft.texts.push((start as u32, (end - start) as u32));
    }
    if mode == 2 && count > 0 {
        // One text is moved off its boundaries.
        let index = random.below(count);
        let (start, length) = draft.texts[index];
        draft.texts[index] = match random.below(6) {
            0 => (start + 1, length.saturating_sub(1)),
            1 => (start, length.saturating_sub(1)),
            2 => (start.saturating_sub(1), length + 1),
            3 => (start, length + 1),
            4 => (random.below(bytes + 2) as u32, 0),
            _ => (
                random.below(bytes + 1) as u32,
                random.below(bytes + 1) as u32,
            ),
        };
    }
    draft.open(ARRAY, [0, 0, 0], 65_537);
    if count > 0 {
        let named: Vec<u32> = (0..count as u32)
            .filter(|text| draft.texts[*text as usize].1 > 0)
            .collect();
        let modules = random.chance(2, 5);
        for _ in 0..random.between(0, if size.small { 4 } else { 10 }) {
            let kind = *random.pick(&[STRING, VARIABLE, FN_CALL, METHOD_CALL]);
            let (kind, text) = match kind {
                STRING => (kind, random.below(count) as u32),
                _ if named.is_empty() => (STRING, random.below(count) as u32),
                _ => (kind, *random.pick(&named)),
            };
            draft.leaf(kind, [text, 0, 0], 65_538);
            if modules && matches!(kind, VARIABLE | FN_CALL) && random.chance(1, 2) {
                draft.qualify(random.below(count) as u32, 65_539);
            }
        }
        if !named.is_empty() {
            for _ in 0..random.below(3) {
                draft.locals.push(*random.pick(&named));
            }
        }
    }
    draft.close();
    draft
}

// ---- names ----

/// Where a text is named.
#[derive(Clone, Copy)]
enum Site {
    /// A node and its field.
    Node(usize, usize),
    Local(usize),
}

/// What a text is for.
#[derive(Clone, Copy, PartialEq, Eq)]
enum Use {
    /// Own names, of nodes by their kind and whether they have a namespace.
    Own(u32, bool),
    Local,
    /// What may have no bytes.
    Getter,
    Setter,
    String,
    Case,
    Space(u32),
    Unused,
}

/// Own names of each sort.
const OWN: &[Use] = &[
    Use::Own(VARIABLE, false),
    Use::Own(VARIABLE, true),
    Use::Own(PROPERTY, false),
    Use::Own(METHOD_CALL, false),
    Use::Own(FN_CALL, false),
    Use::Own(FN_CALL, true),
    Use::Local,
];

/// Texts that may have no bytes, of each sort.
const FREE: &[Use] = &[
    Use::Getter,
    Use::Setter,
    Use::String,
    Use::Case,
    Use::Space(VARIABLE),
    Use::Space(FN_CALL),
    Use::Unused,
];

/// Where the texts of a use are named.
fn sites(draft: &Draft, use_: Use) -> Vec<Site> {
    let nodes = |field: usize, fits: &dyn Fn(usize, &[u32; NODE_WORDS]) -> bool| {
        let all = draft.nodes.iter().enumerate();
        all.filter(|(index, node)| fits(*index, node))
            .map(|(index, _)| Site::Node(index, field))
            .collect()
    };
    let is_value = |index: usize| index > 0 && draft.nodes[index - 1][0] == CASE;
    match use_ {
        Use::Own(kind, space) => nodes(3, &|_, node| node[0] == kind && (node[6] != 0) == space),
        Use::Local => (0..draft.locals.len()).map(Site::Local).collect(),
        Use::Getter => nodes(4, &|_, node| node[0] == PROPERTY),
        Use::Setter => nodes(5, &|_, node| node[0] == PROPERTY),
        Use::String => nodes(3, &|index, node| node[0] == STRING && !is_value(index)),
        Use::Case => nodes(3, &|index, _| is_value(index)),
        Use::Space(kind) => nodes(6, &|_, node| node[0] == kind && node[6] != 0),
        Use::Unused => Vec::new(),
    }
}

/// The number of a text of no bytes: one that is there, or a new one.
fn empty_text(draft: &mut Draft, random: &mut Random) -> u32 {
    let known = draft.texts.iter().position(|text| text.1 == 0);
    match known {
        Some(text) if random.chance(1, 2) => text as u32,
        _ => {
            // It may stand anywhere, also inside a character.
            let start = random.below(draft.bytes.len() + 1) as u32;
            draft.texts.push((start, 0));
            draft.texts.len() as u32 - 1
        }
    }
}

/// Lets a site name a text of no bytes. With `whole` the text that it names loses
/// its bytes, and with it all its sites.
fn empty_at(draft: &mut Draft, random: &mut Random, site: Site, whole: bool) {
    // A namespace's word is the number plus 1.
    let plus = u32::from(matches!(site, Site::Node(_, 6)));
    let named = match site {
        Site::Node(node, field) => draft.nodes[node][field],
        Site::Local(local) => draft.locals[local],
    };
    let known = named.wrapping_sub(plus) as usize;
    if whole && known < draft.texts.len() {
        draft.texts[known].1 = 0;
        return;
    }
    let text = empty_text(draft, random) + plus;
    match site {
        Site::Node(node, field) => draft.nodes[node][field] = text,
        Site::Local(local) => draft.locals[local] = text,
    }
}

/// The first place, the last one or any.
fn some_site(random: &mut Random, sites: &[Site]) -> Site {
    match random.below(4) {
        0 => sites[0],
        1 => sites[sites.len() - 1],
        _ => *random.pick(sites),
    }
}

/// An own name without bytes, of any sort that is there.
fn damage_name(draft: &mut Draft, random: &mut Random) {
    let mut all: Vec<Vec<Site>> = OWN.iter().map(|use_| sites(draft, *use_)).collect();
    all.retain(|sites| !sites.is_empty());
    if all.is_empty() {
        let text = empty_text(draft, random);
        draft.locals.push(text);
        return;
    }
    let sites = &all[random.below(all.len())];
    let (site, whole) = (some_site(random, sites), random.chance(1, 4));
    empty_at(draft, random, site, whole);
}

/// A sheet in which a text of some use has no bytes: half of them an own name.
/// One in four has another cause beside it.
fn names(mut random: Random, size: Size) -> Vec<u8> {
    let own = random.chance(1, 2);
    let use_ = *random.pick(if own { OWN } else { FREE });
    let cause = if random.chance(1, 4) {
        random.between(2, 9) as u32
    } else {
        0
    };
    let mut draft = with_use(&mut random, size, use_, cause);
    let all = sites(&draft, use_);
    if all.is_empty() {
        empty_text(&mut draft, &mut random);
    } else {
        let site = some_site(&mut random, &all);
        if let (Use::Case, Site::Node(value, _)) = (use_, site) {
            draft.nodes[value] = [STRING, 1, 0, 0, 0, 0, 0, 0];
        }
        let whole = own && random.chance(1, 4);
        empty_at(&mut draft, &mut random, site, whole);
    }
    match cause {
        REFUSED_NODE => damage_node(&mut draft, &mut random),
        REFUSED_TEXT => damage_text(&mut draft, &mut random),
        REFUSED_NUMBER => damage_number(&mut draft, &mut random),
        _ => (),
    }
    draft.to_bytes()
}

/// A sheet that mostly has the use, and the cause if that is one of 5 to 9.
fn with_use(random: &mut Random, size: Size, use_: Use, cause: u32) -> Draft {
    let wishes = Wishes {
        too_deep: cause == REFUSED_DEPTH,
        too_many: cause == REFUSED_ARMS,
        equal_cases: cause == REFUSED_EQUAL_CASES,
        refused_kind: cause == REFUSED_KIND,
        eval: cause == REFUSED_EVAL,
    };
    let profile = match use_ {
        _ if wishes.too_many || wishes.equal_cases => "switches",
        Use::Case => "switches",
        Use::Own(_, true) | Use::Space(_) => "modules",
        Use::Own(FN_CALL, _) => "calls",
        Use::Own(..) | Use::Getter | Use::Setter => "chains",
        Use::String => "expressions",
        Use::Local | Use::Unused => *random.pick(&["expressions", "calls", "switches", "modules"]),
    };
    if cause == 0 && random.chance(1, 8) {
        return alone(random, use_);
    }
    for _ in 0..20 {
        let mut gen = Gen::new(profile, Random::new(random.next()), size, wishes);
        gen.whole();
        if use_ == Use::Unused || !sites(&gen.draft, use_).is_empty() {
            return gen.draft;
        }
    }
    alone(random, use_)
}

/// One node, which has the use if a node without children can have it, and
/// sometimes a local: always where the use is a local's.
fn alone(random: &mut Random, use_: Use) -> Draft {
    let mut draft = Draft::new();
    let name = *random.pick(&["x", "g", "call", "ü"]);
    draft.text(name.as_bytes());
    draft.text(b"m");
    let (kind, space) = match use_ {
        Use::Own(kind, space) => (kind, space),
        Use::Space(kind) => (kind, true),
        Use::Getter | Use::Setter => (PROPERTY, false),
        Use::String | Use::Case => (STRING, false),
        Use::Local | Use::Unused => (UNIT, false),
    };
    draft.leaf(kind, [0, 0, 0], random.word());
    if space {
        draft.qualify(1, random.word());
    }
    if use_ == Use::Local || random.chance(1, 2) {
        draft.locals.push(0);
    }
    draft
}

// ---- damaged sheets ----

/// A sheet with one to four causes to refuse it.
fn damaged(mut random: Random, size: Size) -> Vec<u8> {
    let causes = match random.below(10) {
        0..=3 => 1,
        4..=6 => 2,
        7..=8 => 3,
        _ => 4,
    };
    let mut wishes = Wishes::default();
    let mut later = Vec::new();
    for _ in 0..causes {
        // The first numbers hide the others, so they come less often.
        match random.below(23) {
            0 => later.push(REFUSED_SIZE),
            1 | 2 => later.push(REFUSED_NODE),
            3 | 4 => later.push(REFUSED_TEXT),
            5..=7 => later.push(REFUSED_NUMBER),
            8..=10 => later.push(REFUSED_NAME),
            11 | 12 => wishes.too_deep = true,
            13 | 14 => wishes.too_many = true,
            15..=17 => wishes.equal_cases = true,
            18 | 19 => wishes.refused_kind = true,
            _ => wishes.eval = true,
        }
    }
    let flips = random.chance(1, 8);
    let switch = wishes.too_many || wishes.equal_cases || random.chance(1, 3);
    let profile = if switch {
        "switches"
    } else {
        *random.pick(&["expressions", "chains", "calls", "modules"])
    };
    let inner = Random::new(random.next());
    let mut gen = Gen::new(profile, inner, size, wishes);
    if wishes.refused_kind || wishes.eval {
        gen.left = gen.left.max(6);
    }
    gen.whole();
    let mut draft = gen.draft;
    let mut raw = 0;
    let mut narrow = false;
    for cause in later {
        match cause {
            REFUSED_SIZE if random.chance(1, 4) => narrow = true,
            REFUSED_SIZE => raw += 1,
            REFUSED_NODE => damage_node(&mut draft, &mut random),
            REFUSED_TEXT => damage_text(&mut draft, &mut random),
            REFUSED_NUMBER => damage_number(&mut draft, &mut random),
            _ => damage_name(&mut draft, &mut random),
        }
    }
    let mut bytes = draft.to_bytes();
    if narrow {
        bytes = six_words(&draft, &bytes);
    }
    for _ in 0..raw {
        damage_size(&mut bytes, &mut random);
    }
    if flips {
        for _ in 0..random.between(1, 3) {
            if !bytes.is_empty() {
                let at = random.below(bytes.len());
                bytes[at] ^= 1 << random.below(8);
            }
        }
    }
    bytes
}

/// The sheet with six words a node: as before namespaces.
fn six_words(draft: &Draft, bytes: &[u8]) -> Vec<u8> {
    let (front, rest) = bytes.split_at(4 * SHEET_SIZES);
    let (nodes, rest) = rest.split_at(4 * NODE_WORDS * draft.nodes.len());
    let mut out = front.to_vec();
    for node in nodes.chunks(4 * NODE_WORDS) {
        out.extend_from_slice(&node[..24]);
    }
    out.extend_from_slice(rest);
    out
}

fn damage_size(bytes: &mut Vec<u8>, random: &mut Random) {
    match random.below(8) {
        0 => {
            let cut = random.between(1, 8).min(bytes.len());
            bytes.truncate(bytes.len() - cut);
        }
        1 => {
            let more = random.between(1, 8);
            bytes.extend(std::iter::repeat_n(0, more));
        }
        2 if bytes.len() >= 16 => {
            let at = 4 * random.below(4);
            let word = u32::from_le_bytes(bytes[at..at + 4].try_into().unwrap());
            let word = match random.below(5) {
                0 => word.wrapping_add(1),
                1 => word.wrapping_sub(1),
                2 => 0,
                3 => u32::MAX,
                _ => [MAX_NODES, MAX_TEXTS, MAX_TEXT_BYTES, MAX_LOCALS][at / 4] + 1,
            };
            bytes[at..at + 4].copy_from_slice(&word.to_le_bytes());
        }
        3 => bytes.truncate(random.below(20)),
        4 if bytes.len() >= 16 => bytes[..4].copy_from_slice(&0u32.to_le_bytes()),
        _ if bytes.len() >= 16 => {
            // A byte of the padding, where there is any.
            let size = |at: usize| u32::from_le_bytes(bytes[at..at + 4].try_into().unwrap());
            let (n, x, b) = (size(0) as usize, size(4) as usize, size(8) as usize);
            let start = (4 * SHEET_SIZES)
                .saturating_add(n.saturating_mul(4 * (NODE_WORDS + 1)))
                .saturating_add(x.saturating_mul(8))
                .saturating_add(b);
            let padding = (4 - b % 4) % 4;
            if padding == 0 {
                bytes.push(0);
            } else if let Some(byte) = bytes.get_mut(start.saturating_add(random.below(padding))) {
                *byte = random.between(1, 255) as u8;
            }
        }
        _ => bytes.push(1),
    }
}

fn damage_node(draft: &mut Draft, random: &mut Random) {
    if draft.nodes.is_empty() {
        return;
    }
    let at = if random.chance(1, 4) {
        0
    } else {
        random.below(draft.nodes.len())
    };
    let node = &mut draft.nodes[at];
    match random.below(13) {
        // A namespace on any kind, and a position without a namespace.
        10 => node[6] = *random.pick(&[1, 1, 2, u32::MAX]),
        11 => node[7] = *random.pick(&[1, 65_537, u32::MAX]),
        12 => {
            if node[6] != 0 && random.chance(1, 2) {
                node[6] = 0;
            } else {
                (node[6], node[7]) = (1, random.below(3) as u32);
            }
        }
        0 => node[0] = random.between(0, 27) as u32,
        1 => {
            node[1] = match random.below(5) {
                0 => 0,
                1 => node[1].wrapping_add(1),
                2 => u32::MAX,
                _ => node[1].wrapping_sub(1),
            }
        }
        2 => {
            node[2] = match random.below(5) {
                0 => 0,
                1 => u32::MAX,
                2 => node[2].wrapping_sub(1),
                _ => node[2].wrapping_add(1),
            }
        }
        3 | 4 => {
            let field = random.between(3, 5);
            node[field] = match random.below(4) {
                0 => 1,
                1 => 0x8000_0000,
                2 => u32::MAX,
                _ => node[field].wrapping_add(1),
            }
        }
        5 => {
            // Whole subtree rights, but another kind.
            node[0] = match node[0] {
                CASE => RANGE,
                RANGE => CASE,
                REF => UNIT,
                SWITCH => ARRAY,
                UNIT => REF,
                ARRAY => SWITCH,
                AND => DOT,
                DOT => AND,
                INDEX => CASE,
                kind => kind ^ 1,
            }
        }
        6 => {
            draft.nodes.remove(at);
            draft.positions.remove(at);
        }
        7 => {
            draft.nodes.insert(at, [UNIT, 1, 0, 0, 0, 0, 0, 0]);
            draft.positions.insert(at, 1);
        }
        8 => {
            // Fields at their edges.
            let kinds = [BOOL, CHAR, FN_CALL, DOT, INDEX, RANGE, SWITCH];
            let all: Vec<usize> = (0..draft.nodes.len())
                .filter(|i| kinds.contains(&draft.nodes[*i][0]))
                .collect();
            if all.is_empty() {
                return;
            }
            let at = *random.pick(&all);
            let node = &mut draft.nodes[at];
            match node[0] {
                BOOL | RANGE => node[3] = 2,
                CHAR => {
                    node[3] = *random.pick(&[0xD800, 0xDFFF, 0xD7FF, 0xE000, 0x10_FFFF, 0x11_0000])
                }
                FN_CALL => {
                    if random.chance(1, 2) {
                        node[4] = 2
                    } else {
                        node[5] = *random.pick(&[65_535, 65_536, u32::MAX])
                    }
                }
                SWITCH => {
                    let field = random.between(3, 4);
                    node[field] = *random.pick(&[
                        node[field].wrapping_add(1),
                        node[field].wrapping_sub(1),
                        0x7FFF_FFFF,
                        0x8000_0000,
                        u32::MAX,
                    ]);
                }
                _ => node[3] = *random.pick(&[3, 4, 7]),
            }
        }
        _ => {
            // Two nodes change places.
            let other = random.below(draft.nodes.len());
            draft.nodes.swap(at, other);
        }
    }
}

fn damage_text(draft: &mut Draft, random: &mut Random) {
    let bytes = draft.bytes.len();
    if draft.texts.is_empty() {
        draft.texts.push((0, 0));
    }
    let at = random.below(draft.texts.len());
    let (start, length) = draft.texts[at];
    match random.below(7) {
        0 => draft.texts[at] = (bytes as u32 + 1, 0),
        1 => draft.texts[at] = (start, bytes as u32 - start.min(bytes as u32) + 1),
        2 => draft.texts[at] = (u32::MAX, 1),
        3 => draft.texts[at] = (start, u32::MAX - random.below(3) as u32),
        4 => draft.texts[at] = (start.wrapping_add(1), length),
        5 if bytes > 0 => {
            let at = random.below(bytes);
            draft.bytes[at] = *random.pick(&[0x80, 0xC0, 0xFF, 0xE0, 0xF0, 0xED]);
        }
        _ => {
            let bad: &[u8] = BAD[random.below(BAD.len())];
            draft.text(bad);
        }
    }
}

fn damage_number(draft: &mut Draft, random: &mut Random) {
    let texts = draft.texts.len() as u32;
    let blocks = match draft.nodes.first() {
        Some(node) if node[0] == SWITCH => node[3],
        _ => 0,
    };
    // Node and field, and whether the field counts blocks.
    let mut all: Vec<(usize, usize, bool)> = Vec::new();
    for (index, node) in draft.nodes.iter().enumerate() {
        match node[0] {
            VARIABLE | FN_CALL if random.chance(1, 3) => all.push((index, 6, false)),
            STRING | VARIABLE | METHOD_CALL | FN_CALL => all.push((index, 3, false)),
            PROPERTY => all.push((index, 3 + random.below(3), false)),
            SWITCH => all.push((index, 5, true)),
            RANGE => all.push((index, 4, true)),
            REF => all.push((index, 3, true)),
            _ => (),
        }
    }
    let far = random.chance(1, 3);
    if all.is_empty() || random.chance(1, 8) {
        draft.locals.push(if far { u32::MAX } else { texts });
        return;
    }
    let (index, field, is_block) = *random.pick(&all);
    let value = match (is_block, draft.nodes[index][0]) {
        (true, SWITCH) => blocks.wrapping_add(1),
        (true, _) => blocks,
        // The number of the last text plus 1 is still right.
        _ if field == 6 && random.chance(1, 8) => texts,
        _ if field == 6 => texts + 1,
        _ => texts,
    };
    draft.nodes[index][field] = if far {
        u32::MAX - random.below(2) as u32
    } else {
        value
    };
}

//! Random images beside sheets, by seed and family.

use crate::depth;
use crate::draft::Draft;
use crate::format::*;
use crate::gen::{self, Size};
use crate::image::*;
use crate::image_check;
use crate::image_draft::ImageDraft;
use crate::random::Random;
use crate::sheet::{self, Sheet};

/// The families, in the order in which the indices take them.
pub const FAMILIES: &[&str] = &[
    // What lowering makes.
    "lowered", // Well made, and such as lowering never makes.
    "built",   // Either of these with one word changed.
    "changed",
    // Either of these with one thing broken that concerns more than a word.
    "broken", // Any words behind plausible sizes.
    "words",  // Words too many, too few, or sizes past all lengths.
    "lengths",
    // Any of these beside a sheet that is refused, or that lowering refuses.
    "refused",
];

/// How often each family comes, in 32.
const WEIGHTS: [usize; 7] = [3, 5, 12, 8, 1, 2, 1];

pub struct Pair {
    pub family: &'static str,
    pub sheet: Vec<u8>,
    pub image: Vec<u32>,
}

/// How large the images become.
#[derive(Clone, Copy)]
pub struct ImageSize {
    /// About how many nodes a sheet has at most.
    pub nodes: usize,
    /// About how many instructions a built image has at most.
    pub instructions: usize,
    /// Whether some images are far larger.
    pub large: bool,
}

impl ImageSize {
    pub const NORMAL: ImageSize = ImageSize {
        nodes: 20,
        instructions: 40,
        large: true,
    };
    pub const SMALL: ImageSize = ImageSize {
        nodes: 5,
        instructions: 10,
        large: false,
    };
}

/// The pair number `index` of a series.
pub fn pair(seed: u64, index: u64, size: ImageSize) -> Pair {
    let mut random = Random::for_index(seed ^ 0x1A6E, index);
    let random = &mut random;
    let family = family(random);
    let sheet = match family {
        "refused" => refused_sheet(random, size),
        _ => accepted(random, size),
    };
    let image = image(family, &sheet, random, size);
    Pair {
        family,
        sheet,
        image,
    }
}

/// The sheet number `index` of a series, accepted, with so many images.
pub fn group(seed: u64, index: u64, size: ImageSize, count: usize) -> (Vec<u8>, Vec<Vec<u32>>) {
    let mut random = Random::for_index(seed ^ 0x1A6F, index);
    let random = &mut random;
    let sheet = accepted(random, size);
    let images = (0..count)
        .map(|_| image(family(random), &sheet, random, size))
        .collect();
    (sheet, images)
}

fn family(random: &mut Random) -> &'static str {
    let mut at = random.below(WEIGHTS.iter().sum());
    let mut family = 0;
    while at >= WEIGHTS[family] {
        at -= WEIGHTS[family];
        family += 1;
    }
    FAMILIES[family]
}

/// An image of a family beside a sheet. Beside a refused one it is an image of
/// another sheet.
fn image(family: &str, bytes: &[u8], random: &mut Random, size: ImageSize) -> Vec<u32> {
    let other;
    let (bytes, sheet) = match sheet::read(bytes) {
        Ok(sheet) => (bytes, sheet),
        Err(_) => {
            other = accepted(random, size);
            (&other[..], sheet::read(&other).expect("an accepted sheet"))
        }
    };
    match family {
        "lowered" => lowered(bytes, &sheet, random, size),
        "built" => Builder::new(&sheet, random, size).build(),
        "words" => words(random),
        _ => {
            let mut image = if random.chance(1, 3) {
                lowered(bytes, &sheet, random, size)
            } else {
                Builder::new(&sheet, random, size).build()
            };
            match family {
                "changed" => change(&sheet, &mut image, random),
                "broken" => image = broken(&sheet, &image, random),
                "lengths" => lengths(&mut image, random),
                _ => (),
            }
            image
        }
    }
}

// ---- sheets ----

/// A sheet that none of 1 to 8 refuses.
fn accepted(random: &mut Random, size: ImageSize) -> Vec<u8> {
    if random.chance(1, 4) {
        return plain(random);
    }
    loop {
        let profile = *random.pick(gen::ACCEPTED);
        let sheet = gen::sheet(profile, random.next(), 0, sheet_size(random, size));
        if sheet::check(&sheet) == 0 {
            return sheet;
        }
    }
}

fn sheet_size(random: &mut Random, size: ImageSize) -> Size {
    if size.large && random.chance(1, 200) {
        return Size {
            nodes: 600,
            small: false,
        };
    }
    Size {
        nodes: size.nodes,
        small: !size.large || random.chance(3, 4),
    }
}

/// One Unit, with a few texts and locals or none.
fn plain(random: &mut Random) -> Vec<u8> {
    let mut draft = Draft::new();
    draft.leaf(UNIT, [0, 0, 0], random.word());
    for _ in 0..random.below(3) {
        let bytes = *random.pick(&["a", "", "xy"]);
        draft.text(bytes.as_bytes());
    }
    let named: Vec<u32> = (0..draft.texts.len() as u32)
        .filter(|text| draft.texts[*text as usize].1 > 0)
        .collect();
    if !named.is_empty() {
        for _ in 0..random.below(4) {
            draft.locals.push(*random.pick(&named));
        }
    }
    draft.to_bytes()
}

// ---- right images ----

/// What lowering makes, or a built image where lowering refuses the sheet.
fn lowered(bytes: &[u8], sheet: &Sheet<'_>, random: &mut Random, size: ImageSize) -> Vec<u32> {
    match crate::lower_sheet(bytes) {
        Ok(image) => image.words,
        Err(_) => Builder::new(sheet, random, size).build(),
    }
}

/// A word that has a target.
#[derive(Clone, Copy, PartialEq, Eq)]
enum Site {
    Code(usize),
    Default(usize),
    Case(usize),
    Range(usize),
}

/// A target not yet chosen: the depth that runs bring there, if any do.
struct Open {
    site: Site,
    depth: Option<i64>,
}

/// Builds a well made image instruction by instruction. Targets are chosen
/// when a place with their depth comes up.
struct Builder<'r> {
    random: &'r mut Random,
    draft: ImageDraft,
    nodes: usize,
    texts: usize,
    locals: usize,
    open: Vec<Open>,
    /// The depth at the next place, none where no run comes.
    depth: Option<i64>,
    /// How many instructions, at least.
    length: usize,
    /// The depth that is not gone far above.
    deepest: i64,
    /// Many Switches, on few tables and rows.
    switchy: bool,
}

const BITS: &[u32] = &[0, 1, 5, 97, 0x7FF8_0000, 0xFFF8_0001, 0x8000_0000, u32::MAX];

impl<'r> Builder<'r> {
    fn new(sheet: &Sheet<'_>, random: &'r mut Random, size: ImageSize) -> Self {
        let length = random.between(1, size.instructions);
        let deepest = *random.pick(&[1, 2, 3, 5, 9]);
        let (length, deepest) = match random.below(4_000) {
            0 if size.large => (65_600, 65_560),
            1..=3 if size.large => (2_000, 40),
            4..=60 if size.large => (length + 300, 290),
            _ => (length, deepest),
        };
        let switchy = random.chance(1, 6) && length < 400;
        Builder {
            random,
            draft: ImageDraft::default(),
            nodes: sheet.nodes,
            texts: sheet.texts,
            locals: sheet.locals,
            open: Vec::new(),
            depth: Some(0),
            length,
            deepest,
            switchy,
        }
    }

    fn build(mut self) -> Vec<u32> {
        self.pools();
        while self.draft.code.len() < self.length {
            self.land();
            self.emit();
        }
        self.finish();
        let code = self.draft.code.len();
        self.draft.positions = (0..code).map(|_| self.random.word()).collect();
        self.draft.max_stack = match self.random.below(4) {
            0 => self.random.word(),
            1 => *self.random.pick(&[0, 65_535, 65_536, u32::MAX]),
            _ => code as u32,
        };
        let mut words = self.draft.words();
        words[IMAGE_SIZES - 1] = depth::greatest(&words);
        words
    }

    /// A few entries, sometimes none.
    fn some(&mut self) -> usize {
        match self.random.below(4) {
            0 => 0,
            1 => 1,
            _ => self.random.between(1, 4),
        }
    }

    fn pools(&mut self) {
        for _ in 0..self.some() {
            let constant = match self.random.below(4) {
                kind @ (0 | 1) => {
                    let (low, high) = (*self.random.pick(BITS), *self.random.pick(BITS));
                    [kind as u32 + INT, low, high]
                }
                2 => {
                    let scalars = [0, 97, 0xD7FF, 0xE000, 0x10_FFFF];
                    [CHAR, *self.random.pick(&scalars), 0]
                }
                _ if self.texts == 0 => [INT, 7, 0],
                _ => [STRING, self.random.below(self.texts) as u32, 0],
            };
            self.draft.constants.push(constant);
        }
        if self.texts > 0 {
            for _ in 0..self.some() {
                let name = [
                    self.random.below(self.texts) as u32,
                    self.random.below(2) as u32,
                    self.random.below(self.texts + 1) as u32,
                ];
                self.draft.names.push(name);
            }
        }
        for _ in 0..self.some() {
            let token = *self.random.pick(&[1, 2, 77, 65_534, 65_535]);
            self.draft.tokens.push(token);
        }
        for _ in 0..self.some() {
            let node = self.random.below(self.nodes) as u32;
            self.draft.residuals.push(node);
        }
        self.steps_and_chains();
        if self.deepest > 65_000 {
            let steps = self.draft.steps.len() as u32;
            self.draft.chains.push([2, 0, 9, steps, 0, 65_535]);
            self.draft.chains.push([3, 0, 0, steps, 0, 65_535]);
        }
    }

    fn name(&mut self) -> u32 {
        self.random.below(self.draft.names.len()) as u32
    }

    fn steps_and_chains(&mut self) {
        let named = !self.draft.names.is_empty();
        for _ in 0..self.random.below(7) {
            let flag = self.random.below(2) as u32;
            let operand = match self.random.below(8) {
                0 => self.random.between(4, 300) as u32,
                _ => self.random.below(3) as u32,
            };
            let pos = self.random.word();
            let step = match self.random.below(3) {
                1 if named => [1, self.name(), self.name(), self.name(), flag, pos],
                2 if named => {
                    let argc = *self.random.pick(&[0, 0, 1, 1, 2, 3, 254, 255]);
                    [2, self.name(), argc, operand, flag, pos]
                }
                _ => [0, operand, flag, pos, pos / 3, 0],
            };
            self.draft.steps.push(step);
        }
        let steps = self.draft.steps.len();
        let mut in_chain = vec![false; steps];
        for _ in 0..self.some() + 1 {
            let first = self.random.between(0, steps);
            let mut count = self.random.between(0, steps - first);
            if self.random.chance(1, 2) {
                count = count.min(2);
            }
            in_chain[first..first + count].fill(true);
            let asked = self.draft.steps[first..first + count]
                .iter()
                .map(|step| match step[0] {
                    0 => step[1] + 1,
                    2 => step[2] + step[3],
                    _ => 0,
                })
                .max()
                .unwrap_or(0);
            let operands = match self.random.below(12) {
                0 => *self.random.pick(&[65_535, 65_534]),
                1 | 2 => asked + self.random.below(3) as u32,
                _ => asked,
            };
            let [kind, one, two] = match self.random.below(4) {
                0 if named && self.locals > 0 => {
                    [0, self.random.below(self.locals) as u32, self.name()]
                }
                1 if named => [1, self.name(), self.random.word()],
                2 => [2, 0, self.random.word()],
                _ => [3, 0, 0],
            };
            self.draft
                .chains
                .push([kind, one, two, first as u32, count as u32, operands]);
        }
        // Steps in no chain may have any operand.
        for (step, inside) in self.draft.steps.iter_mut().zip(in_chain) {
            if !inside && self.random.chance(1, 2) {
                let operand = *self.random.pick(&[65_535, 65_536, u32::MAX, 4]);
                match step[0] {
                    0 => step[1] = operand,
                    2 => step[3] = operand,
                    _ => (),
                }
            }
        }
    }

    /// Lets open targets come to the next place.
    fn land(&mut self) {
        let place = self.draft.code.len();
        if self.depth.is_none() && self.random.chance(2, 3) {
            let known: Vec<i64> = self.open.iter().filter_map(|open| open.depth).collect();
            if !known.is_empty() {
                self.depth = Some(*self.random.pick(&known));
                self.take(place, 1, 1);
                return;
            }
        }
        self.take(place, 1, if self.switchy { 12 } else { 3 });
    }

    /// Lets some of the open targets that fit come to a place.
    fn take(&mut self, place: usize, part: usize, whole: usize) {
        let mut kept = Vec::new();
        for open in std::mem::take(&mut self.open) {
            let fits = open.depth.is_none() || open.depth == self.depth;
            if fits && self.random.chance(part, whole) {
                self.set(open.site, place);
            } else {
                kept.push(open);
            }
        }
        self.open = kept;
    }

    fn set(&mut self, site: Site, place: usize) {
        let place = place as u32;
        match site {
            Site::Code(at) => self.draft.code[at][1] = place,
            Site::Default(table) => self.draft.tables[table][3] = place,
            Site::Case(row) => self.draft.cases[row][0] = place,
            Site::Range(row) => self.draft.ranges[row][5] = place,
        }
    }

    /// One more instruction, of any kind that can stand here.
    fn emit(&mut self) {
        if self.switchy && self.depth.is_some_and(|depth| depth > 0) && self.random.chance(1, 2) {
            // A Switch with a way past it.
            let past = self.draft.code.len() as u32 + 2;
            let depth = self.depth;
            self.draft.code.push([SKIP_IF_NOT_UNIT, past, 0, 0]);
            let table = self.table();
            self.push([OP_SWITCH, table, 0, 0]);
            self.depth = depth;
            return;
        }
        let kind = match self.depth {
            Some(depth) if depth < self.deepest && self.random.chance(1, 3) => {
                *self.random.pick(&[CONST, OP_UNIT, OP_BOOL, LOAD_THIS])
            }
            Some(depth) if depth > self.deepest => {
                *self.random.pick(&[POP, POP, MAKE_ARRAY, CALL, CALL_REF])
            }
            // Towards a deep stack first.
            Some(depth) if self.deepest > 255 && depth < 256 => OP_UNIT,
            Some(depth) if self.deepest > 65_000 && depth < 65_540 => OP_UNIT,
            _ => self.random.between(CONST as usize, EVAL_AST as usize) as u32,
        };
        let most = self.depth.unwrap_or(70_000).max(0) as u32;
        if let Some(op) = self.instruction(kind, most) {
            self.push(op);
        } else if self.random.chance(1, 2) {
            self.push([OP_UNIT, 0, 0, 0]);
        }
    }

    /// A count up to the limit and to what is there, often the greatest.
    fn count(&mut self, most: u32, limit: u32) -> u32 {
        let most = most.min(limit);
        match self.random.below(4) {
            0 => most,
            1 => most.saturating_sub(1),
            _ => self.random.below(most.min(4) as usize + 1) as u32,
        }
    }

    /// An instruction of this kind that finds what it needs in `most` values.
    /// Targets are left open.
    fn instruction(&mut self, kind: u32, most: u32) -> Option<[u32; CODE_WORDS]> {
        let random = &mut *self.random;
        let draft = &self.draft;
        let any = |size: usize, random: &mut Random| (size > 0).then(|| random.below(size) as u32);
        Some(match kind {
            CONST => [kind, any(draft.constants.len(), random)?, 0, 0],
            OP_BOOL => [kind, random.below(2) as u32, 0, 0],
            LOAD_LOCAL => [kind, any(self.locals, random)?, 0, 0],
            LOAD_NAMED => [kind, any(draft.names.len(), random)?, 0, 0],
            POP | JUMP_IF_TRUE | JUMP_IF_FALSE | SKIP_IF_NOT_UNIT | MAKE_FN_PTR
            | INTERPOLATE_END
                if most < 1 =>
            {
                return None
            }
            INTERPOLATE_APPEND if most < 2 => return None,
            OP_UNIT | LOAD_THIS | POP | MAKE_FN_PTR | INTERPOLATE_START | INTERPOLATE_APPEND
            | INTERPOLATE_END | JUMP | JUMP_IF_TRUE | JUMP_IF_FALSE | SKIP_IF_NOT_UNIT => {
                [kind, 0, 0, 0]
            }
            CALL => {
                let name = any(draft.names.len(), random)?;
                let token = random.below(draft.tokens.len() + 1) as u32;
                let capture = random.below(2) as u32;
                [kind, name, self.count(most, 255) + 256 * capture, token]
            }
            CALL_REF => {
                let name = any(draft.names.len(), random)?;
                let receiver = random.below(3) as u32;
                let word = match receiver {
                    0 => any(self.locals, random)?,
                    1 => any(draft.names.len(), random)?,
                    _ => 0,
                };
                let here = most + u32::from(receiver == 0);
                let argc = self.count(here, 255).max(1);
                if argc > here {
                    return None;
                }
                [kind, name, argc + 256 * receiver, word]
            }
            ROTATE if most < 1 => return None,
            ROTATE => [kind, self.count(most - 1, 255), 0, 0],
            OP_SWITCH if most < 1 => return None,
            OP_SWITCH => [kind, self.table(), 0, 0],
            CALL_FN_PTR if most < 1 => return None,
            CALL_FN_PTR => {
                let capture = random.below(2) as u32;
                [kind, self.count(most - 1, 255), capture, 0]
            }
            MAKE_ARRAY => [kind, self.count(most, 65_535), 0, 0],
            CHECK_SIZE if most < 1 => return None,
            CHECK_SIZE => [kind, *random.pick(&[0, 1, 65_534, 65_535]), 0, 0],
            OP_CHAIN => {
                let index = any(draft.chains.len(), random)?;
                let chain = draft.chains[index as usize];
                if most < chain[5] + u32::from(chain[0] == 3) {
                    return None;
                }
                [kind, index, 0, 0]
            }
            _ => [EVAL_AST, any(draft.residuals.len(), random)?, 0, 0],
        })
    }

    /// Adds an instruction and goes on to the place after it.
    fn push(&mut self, op: [u32; CODE_WORDS]) {
        let place = self.draft.code.len();
        self.draft.code.push(op);
        let after = self.depth.map(|depth| {
            let pops = match op[0] {
                POP | JUMP_IF_TRUE | JUMP_IF_FALSE | MAKE_FN_PTR | INTERPOLATE_END => 1,
                INTERPOLATE_APPEND => 2,
                CALL => op[2] % 256,
                CALL_REF => op[2] % 256 - u32::from(op[2] < 256),
                CALL_FN_PTR => op[1] + 1,
                MAKE_ARRAY => op[1],
                OP_CHAIN => {
                    let chain = self.draft.chains[op[1] as usize];
                    chain[5] + u32::from(chain[0] == 3)
                }
                _ => 0,
            };
            let pushes = !matches!(
                op[0],
                POP | JUMP
                    | JUMP_IF_TRUE
                    | JUMP_IF_FALSE
                    | SKIP_IF_NOT_UNIT
                    | ROTATE
                    | OP_SWITCH
                    | CHECK_SIZE
            );
            depth - i64::from(pops) + i64::from(pushes)
        });
        if (JUMP..=SKIP_IF_NOT_UNIT).contains(&op[0]) {
            self.open.push(Open {
                site: Site::Code(place),
                depth: after,
            });
        }
        self.depth = after;
        if matches!(op[0], JUMP | OP_SWITCH) {
            self.depth = None;
        }
    }

    /// Whether a Switch here may have this target: it is open, and no run
    /// brings another depth there than it would from here.
    fn is_open(&self, site: Site) -> bool {
        self.open.iter().any(|open| {
            let fits = self.depth.is_none() || open.depth.is_none() || open.depth == self.depth;
            open.site == site && fits
        })
    }

    fn row_site(kind: u32, row: usize) -> Site {
        if kind == 0 {
            Site::Case(row)
        } else {
            Site::Range(row)
        }
    }

    /// Whether a Switch here may name the table.
    fn may_name(&self, index: usize) -> bool {
        let table = self.draft.tables[index];
        self.is_open(Site::Default(index))
            && (table[1]..table[1] + table[2])
                .all(|row| self.is_open(Self::row_site(table[0], row as usize)))
    }

    /// A table for a Switch at the next place: one named before, a new one over
    /// rows that are there, or a new one with rows of its own.
    fn table(&mut self) -> u32 {
        let tables = self.draft.tables.len();
        let mut index = None;
        if tables > 0 && self.random.chance(1, 2) {
            let at = self.random.below(tables);
            if self.may_name(at) {
                index = Some(at);
            }
        }
        let index = index.unwrap_or_else(|| self.new_table());
        // What was open for any depth now has this one.
        if let Some(depth) = self.depth {
            let table = self.draft.tables[index];
            let rows = table[1]..table[1] + table[2];
            let sites: Vec<Site> = rows
                .map(|row| Self::row_site(table[0], row as usize))
                .chain([Site::Default(index)])
                .collect();
            for open in &mut self.open {
                if sites.contains(&open.site) {
                    open.depth = Some(depth);
                }
            }
        }
        index as u32
    }

    fn new_table(&mut self) -> usize {
        let kind = if self.draft.constants.is_empty() {
            1
        } else {
            self.random.below(2) as u32
        };
        let there = if kind == 0 {
            self.draft.cases.len()
        } else {
            self.draft.ranges.len()
        };
        let mut first = there;
        let mut count = 0;
        // Rows at the end that are still open can be shared.
        if self.random.chance(1, 2) {
            while first > 0
                && count < 4
                && self.is_open(Self::row_site(kind, first - 1))
                && self.random.chance(3, 4)
            {
                first -= 1;
                count += 1;
            }
        }
        if self.random.chance(3, 4) {
            for _ in 0..self.random.below(4) {
                self.new_row(kind);
                count += 1;
            }
        }
        if count == 0 {
            first = self.random.between(0, there);
        }
        let index = self.draft.tables.len();
        self.draft
            .tables
            .push([kind, first as u32, count as u32, 0]);
        self.open.push(Open {
            site: Site::Default(index),
            depth: None,
        });
        index
    }

    fn new_row(&mut self, kind: u32) {
        let row = if kind == 0 {
            let constant = self.random.below(self.draft.constants.len()) as u32;
            self.draft.cases.push([0, constant]);
            self.draft.cases.len() - 1
        } else {
            let random = &mut *self.random;
            let bits = |random: &mut Random| *random.pick(BITS);
            let range = [
                bits(random),
                bits(random),
                bits(random),
                bits(random),
                random.below(2) as u32,
                0,
            ];
            self.draft.ranges.push(range);
            self.draft.ranges.len() - 1
        };
        self.open.push(Open {
            site: Self::row_site(kind, row),
            depth: None,
        });
    }

    /// Brings the depth here to 1.
    fn level(&mut self) {
        let Some(mut depth) = self.depth else {
            return;
        };
        if depth == 0 {
            self.push([OP_UNIT, 0, 0, 0]);
            return;
        }
        while depth > 1 {
            if self.random.chance(1, 2) || depth > 40 {
                let count = depth.min(65_535) as u32;
                self.push([MAKE_ARRAY, count, 0, 0]);
                depth -= i64::from(count) - 1;
            } else {
                self.push([POP, 0, 0, 0]);
                depth -= 1;
            }
        }
    }

    /// Ends the code so that one value remains, wherever runs come from.
    fn finish(&mut self) {
        self.level();
        while let Some(depth) = self.open.iter().find_map(|open| {
            let depth = open.depth?;
            (depth != 1).then_some(depth)
        }) {
            if self.depth.is_some() {
                self.push([JUMP, 0, 0, 0]);
            }
            self.depth = Some(depth);
            let place = self.draft.code.len();
            self.take(place, 1, 1);
            self.level();
        }
        if self.random.chance(1, 2) && self.depth.is_some() {
            // Rows and tables that nothing names.
            for _ in 0..self.random.below(3) {
                self.new_row(1);
            }
            self.new_table();
        }
        let end = self.draft.code.len();
        let open = std::mem::take(&mut self.open);
        for Open { site, depth } in open {
            let named = match site {
                Site::Default(table) => self.named(table),
                Site::Case(row) => self.rows_named(0, row),
                Site::Range(row) => self.rows_named(1, row),
                Site::Code(_) => true,
            };
            let place = if depth.is_none() && !named {
                self.random.between(0, end)
            } else {
                end
            };
            self.set(site, place);
        }
    }

    fn named(&self, table: usize) -> bool {
        self.draft
            .code
            .iter()
            .any(|op| op[0] == OP_SWITCH && op[1] as usize == table)
    }

    fn rows_named(&self, kind: u32, row: usize) -> bool {
        (0..self.draft.tables.len()).any(|index| {
            let table = self.draft.tables[index];
            let rows = table[1] as usize..(table[1] + table[2]) as usize;
            table[0] == kind && rows.contains(&row) && self.named(index)
        })
    }
}

// ---- one word changed ----

/// Boundary words of every field.
const EDGES: &[u32] = &[
    0,
    1,
    2,
    3,
    4,
    6,
    7,
    23,
    24,
    25,
    254,
    255,
    256,
    257,
    511,
    512,
    513,
    766,
    767,
    768,
    769,
    0xD7FF,
    0xD800,
    0xDFFF,
    0xE000,
    65_534,
    65_535,
    65_536,
    0x10_FFFF,
    0x11_0000,
    0x7FFF_FFFF,
    0x8000_0000,
    u32::MAX - 1,
    u32::MAX,
];

/// The sections of an image.
#[derive(Clone, Copy, PartialEq, Eq)]
enum Part {
    Sizes,
    Code,
    Constants,
    Names,
    Tokens,
    Residuals,
    Chains,
    Steps,
    Tables,
    Cases,
    Ranges,
}

/// Changes one word: first the section is picked, then the record and the word.
fn change(sheet: &Sheet<'_>, image: &mut [u32], random: &mut Random) {
    let at = depth::Sections::of(image);
    let sections = [
        (Part::Code, at.code_at, CODE_WORDS, at.instructions),
        (Part::Code, at.code_at, CODE_WORDS, at.instructions),
        (Part::Code, at.code_at, CODE_WORDS, at.instructions),
        (
            Part::Constants,
            at.constants_at,
            CONSTANT_WORDS,
            at.constants,
        ),
        (Part::Names, at.names_at, NAME_WORDS, at.names),
        (Part::Tokens, at.tokens_at, 1, at.tokens),
        (Part::Residuals, at.residuals_at, 1, at.residuals),
        (Part::Chains, at.chains_at, CHAIN_WORDS, at.chains),
        (Part::Steps, at.steps_at, STEP_WORDS, at.steps),
        (Part::Tables, at.switches_at, SWITCH_WORDS, at.switches),
        (Part::Cases, at.cases_at, CASE_WORDS, at.cases),
        (Part::Ranges, at.ranges_at, RANGE_WORDS, at.ranges),
    ];
    let (part, start, width, count) = if random.chance(1, 40) {
        (Part::Sizes, 0, 1, IMAGE_SIZES)
    } else {
        loop {
            let section = *random.pick(&sections);
            if section.3 > 0 {
                break section;
            }
        }
    };
    let mut record = random.below(count);
    if part == Part::Code && random.chance(1, 2) {
        // An instruction of a kind that is picked first.
        let kind = random.between(1, 24) as u32;
        let all: Vec<usize> = (0..count)
            .filter(|place| image[start + width * place] == kind)
            .collect();
        if !all.is_empty() {
            record = *random.pick(&all);
        }
    }
    change_record(sheet, image, (part, start, width), record, random);
}

/// Changes a word of one record, mostly to one next to where it turns wrong.
fn change_record(
    sheet: &Sheet<'_>,
    image: &mut [u32],
    (part, start, width): (Part, usize, usize),
    record: usize,
    random: &mut Random,
) {
    let at = depth::Sections::of(image);
    let first = start + width * record;
    // The kind is left alone more often than the other words.
    let word = if width > 2 && random.chance(3, 4) {
        random.between(1, width - 1)
    } else {
        random.below(width)
    };
    let old = image[first + word];
    let limits = limits(sheet, &at, part, &image[first..first + width], word);
    let place = record as u32;
    let own = [
        place.wrapping_sub(1),
        place,
        place + 1,
        at.instructions as u32,
        at.instructions as u32 + 1,
    ];
    image[first + word] = match random.below(8) {
        0..=3 if !limits.is_empty() => {
            let limit = *random.pick(&limits);
            *random.pick(&[limit.wrapping_sub(1), limit, limit, limit.wrapping_add(1)])
        }
        4 => *random.pick(&own),
        5 => *random.pick(&[old.wrapping_add(1), old.wrapping_sub(1), old ^ 1]),
        _ => *random.pick(EDGES),
    };
}

/// The numbers next to which a word of a record turns from right to wrong.
fn limits(
    sheet: &Sheet<'_>,
    sizes: &depth::Sections,
    part: Part,
    record: &[u32],
    word: usize,
) -> Vec<u32> {
    let (texts, locals) = (sheet.texts as u32, sheet.locals as u32);
    let (names, constants) = (sizes.names as u32, sizes.constants as u32);
    let steps = sizes.steps as u32;
    let end = sizes.instructions as u32 + 1;
    let kind = record[0];
    match (part, word) {
        (Part::Sizes, _) => vec![kind],
        (Part::Code, 0) => vec![1, 25],
        (Part::Code, 1) => match kind {
            CONST => vec![constants],
            OP_BOOL => vec![2],
            LOAD_LOCAL => vec![locals],
            LOAD_NAMED | CALL | CALL_REF => vec![names],
            JUMP..=SKIP_IF_NOT_UNIT => vec![end],
            ROTATE | CALL_FN_PTR => vec![256],
            OP_SWITCH => vec![sizes.switches as u32],
            MAKE_ARRAY | CHECK_SIZE => vec![65_536],
            OP_CHAIN => vec![sizes.chains as u32],
            EVAL_AST => vec![sizes.residuals as u32],
            _ => vec![1],
        },
        (Part::Code, 2) => match kind {
            CALL => vec![512],
            CALL_REF => vec![1, 256, 257, 512, 513, 768],
            CALL_FN_PTR => vec![2],
            _ => vec![1],
        },
        (Part::Code, _) => match kind {
            CALL => vec![sizes.tokens as u32 + 1],
            CALL_REF if record[2] < 256 => vec![locals],
            CALL_REF if record[2] < 512 => vec![names],
            _ => vec![1],
        },
        (Part::Constants, 0) => vec![3, 7],
        (Part::Constants, 1) if kind == CHAR => vec![0xD800, 0xE000, 0x11_0000],
        (Part::Constants, 1) if kind == STRING => vec![texts],
        (Part::Constants, _) => vec![1],
        (Part::Names, 0) => vec![texts],
        (Part::Names, 1) => vec![2],
        (Part::Names, _) => vec![texts + 1],
        (Part::Tokens, _) => vec![1, 65_536],
        (Part::Residuals, _) => vec![sheet.nodes as u32],
        (Part::Chains, 0) => vec![4],
        (Part::Chains, 1) => vec![[locals, names, 1, 1][kind as usize]],
        (Part::Chains, 2) => vec![[names, 0, 0, 1][kind as usize]],
        (Part::Chains, 3) => vec![steps - record[4] + 1],
        (Part::Chains, 4) => vec![steps - record[3] + 1],
        (Part::Chains, _) => vec![65_536, record[5]],
        (Part::Steps, 0) => vec![3],
        (Part::Steps, 1) if kind > 0 => vec![names],
        (Part::Steps, 2) => vec![[2, names, 256][kind as usize]],
        (Part::Steps, 3) if kind == 1 => vec![names],
        (Part::Steps, 4) => vec![2],
        (Part::Steps, 5) => vec![1],
        (Part::Steps, _) => vec![record[word].saturating_add(1)],
        (Part::Tables, 0) => vec![2],
        (Part::Tables, 1 | 2) => {
            let rows = [sizes.cases, sizes.ranges][kind as usize] as u32;
            vec![rows - record[3 - word] + 1]
        }
        (Part::Cases, 1) => vec![constants],
        (Part::Ranges, 4) => vec![2],
        (Part::Tables, _) | (Part::Cases, _) | (Part::Ranges, _) => vec![end],
    }
}

// ---- one thing broken ----

const WAYS: usize = 18;

/// A right image with one thing broken, or brought to its edge.
fn broken(sheet: &Sheet<'_>, image: &[u32], random: &mut Random) -> Vec<u32> {
    let mut draft = ImageDraft::of(image);
    if random.chance(1, 4) {
        return extended(sheet, draft, random);
    }
    let depths = image_check::depths(sheet, image);
    for _ in 0..8 {
        let way = random.below(WAYS);
        if break_one(way, &mut draft, &depths, sheet, random) {
            return draft.words();
        }
    }
    draft.words()
}

/// A place, the end too, that some run comes to, and the depth there.
fn reached(depths: &[Option<i64>], random: &mut Random) -> (usize, i64) {
    loop {
        let place = random.below(depths.len());
        if let Some(depth) = depths[place] {
            return (place, depth);
        }
    }
}

const UNIT_OP: [u32; CODE_WORDS] = [OP_UNIT, 0, 0, 0];
const POP_OP: [u32; CODE_WORDS] = [POP, 0, 0, 0];

/// The reported depth where the code now goes so deep.
fn report_depth(draft: &mut ImageDraft, at_least: i64) {
    draft.depth = draft.depth.max(at_least.max(0) as u32);
}

/// An instruction that changes the depth so, and Units or Pops that change it
/// back.
fn insert_and_put_back(
    draft: &mut ImageDraft,
    place: usize,
    op: [u32; CODE_WORDS],
    (before, after): (i64, i64),
) {
    let back = if after < before { UNIT_OP } else { POP_OP };
    let mut code = vec![op];
    code.extend(std::iter::repeat_n(back, before.abs_diff(after) as usize));
    draft.insert(place, &code);
    report_depth(draft, after);
}

/// True if there was something to break in this way.
fn break_one(
    way: usize,
    draft: &mut ImageDraft,
    depths: &[Option<i64>],
    sheet: &Sheet<'_>,
    random: &mut Random,
) -> bool {
    let (place, depth) = reached(depths, random);
    let count = draft.code.len();
    match way {
        // The reported depth one off, or far off.
        0 => {
            let values = [
                draft.depth.wrapping_add(1),
                draft.depth.wrapping_sub(1),
                0,
                u32::MAX,
                draft.max_stack,
            ];
            draft.depth = *random.pick(&values);
        }
        // A value more or less at the end, for all runs.
        1 => {
            let more = random.between(1, 2);
            if random.chance(1, 2) {
                draft.insert(count, &[UNIT_OP; 2][..more]);
                report_depth(draft, 1 + more as i64);
            } else {
                draft.insert(count, &[POP_OP; 2][..1]);
            }
        }
        // A value more or less at one join: a jump taken to a place of another
        // depth, by one where there is such a place.
        2 | 3 => {
            let jumps: Vec<usize> = (0..count)
                .filter(|at| {
                    (JUMP..=SKIP_IF_NOT_UNIT).contains(&draft.code[*at][0]) && depths[*at].is_some()
                })
                .collect();
            if jumps.is_empty() {
                return false;
            }
            let jump = *random.pick(&jumps);
            let old = depths[draft.code[jump][1] as usize].unwrap();
            let others: Vec<usize> = (jump + 1..=count)
                .filter(|to| depths[*to].is_some_and(|depth| depth != old))
                .collect();
            let near: Vec<usize> = others
                .iter()
                .copied()
                .filter(|to| (depths[*to].unwrap() - old).abs() == 1)
                .collect();
            let from = if near.is_empty() { others } else { near };
            if from.is_empty() {
                return false;
            }
            draft.code[jump][1] = *random.pick(&from) as u32;
        }
        // A row or default taken to a place of another depth.
        4 => {
            let switches: Vec<usize> = (0..count)
                .filter(|at| draft.code[*at][0] == OP_SWITCH && depths[*at].is_some())
                .collect();
            if switches.is_empty() {
                return false;
            }
            let switch = *random.pick(&switches);
            let table = draft.tables[draft.code[switch][1] as usize];
            let depth = depths[switch];
            let others: Vec<usize> = (switch + 1..=count)
                .filter(|to| depths[*to].is_some() && depths[*to] != depth)
                .collect();
            if others.is_empty() {
                return false;
            }
            let to = *random.pick(&others) as u32;
            let row = table[1] as usize + random.below(table[2] as usize + 1);
            if row == (table[1] + table[2]) as usize {
                draft.tables[draft.code[switch][1] as usize][3] = to;
            } else if table[0] == 0 {
                draft.cases[row][0] = to;
            } else {
                draft.ranges[row][5] = to;
            }
        }
        // One value more than is there, or as many, needed and kept.
        5 => {
            let needs = (depth + random.below(2) as i64) as u32;
            let op = match random.below(5) {
                _ if needs == 0 => return false,
                0 if needs == 1 => [CHECK_SIZE, 7, 0, 0],
                1 if needs == 1 => [SKIP_IF_NOT_UNIT, place as u32 + 1, 0, 0],
                2 if needs == 1 => {
                    // A Switch that goes on.
                    let table = draft.tables.len() as u32;
                    draft.insert(place, &[[OP_SWITCH, table, 0, 0]]);
                    let rows = draft.cases.len() as u32;
                    draft.tables.push([0, rows, 0, place as u32 + 1]);
                    return true;
                }
                _ if needs <= 256 => [ROTATE, needs - 1, 0, 0],
                _ => return false,
            };
            draft.insert(place, &[op]);
        }
        // One value more than is there, or as many, popped, and put back.
        6 | 7 => {
            let pops = (depth + random.below(2) as i64) as u32;
            let named = !draft.names.is_empty();
            let op = match random.below(6) {
                0 if named && pops <= 255 => [CALL, 0, pops + 256 * random.below(2) as u32, 0],
                1 if named && (1..=255).contains(&pops) => [CALL_REF, 0, pops + 512, 0],
                2 if named && sheet.locals > 0 && pops < 255 => [CALL_REF, 0, pops + 1, 0],
                3 if named && (1..=255).contains(&pops) => [CALL_REF, 0, pops + 256, 0],
                4 if (1..=256).contains(&pops) => [CALL_FN_PTR, pops - 1, 1, 0],
                _ if pops <= 65_535 => [MAKE_ARRAY, pops, 0, 0],
                _ => return false,
            };
            if depth > 300 {
                return false;
            }
            let after = depth - i64::from(pops) + 1;
            insert_and_put_back(draft, place, op, (depth, after));
        }
        // A single pop, a pair of values appended, or an end, with what is
        // there or without; put back.
        8 => {
            let (op, back) = match random.below(5) {
                0 => (POP_OP, 1),
                1 => ([INTERPOLATE_APPEND, 0, 0, 0], 1),
                2 => ([INTERPOLATE_END, 0, 0, 0], 0),
                3 => ([MAKE_FN_PTR, 0, 0, 0], 0),
                _ => {
                    let kind = *random.pick(&[JUMP_IF_TRUE, JUMP_IF_FALSE]);
                    ([kind, place as u32 + 1, 0, 0], 1)
                }
            };
            draft.insert(place, &[op, UNIT_OP][..1 + back]);
        }
        // A chain that pops one more than is there, or as many.
        9 => {
            let pops = (depth + random.below(2) as i64) as u32;
            if depth > 300 {
                return false;
            }
            let temporary = random.chance(1, 2) && pops > 0;
            let chain = if temporary {
                [3, 0, 0, draft.steps.len() as u32, 0, pops - 1]
            } else {
                [2, 0, 5, draft.steps.len() as u32, 0, pops]
            };
            let index = draft.chains.len() as u32;
            draft.chains.push(chain);
            let after = depth - i64::from(pops) + 1;
            insert_and_put_back(draft, place, [OP_CHAIN, index, 0, 0], (depth, after));
        }
        // A second Switch on a table, in code that no run comes to, at any
        // place: before all the table's targets, or not.
        10 | 11 => {
            if draft.tables.is_empty() {
                return false;
            }
            let table = random.below(draft.tables.len());
            let near = nearest(draft, table).min(count);
            let at = match random.below(4) {
                0 => near.saturating_sub(1),
                1 => near,
                2 => (near + 1).min(count),
                _ => random.between(0, count),
            };
            let switch = [OP_SWITCH, table as u32, 0, 0];
            draft.insert(at, &[[JUMP, at as u32 + 2, 0, 0], switch]);
        }
        // A second Switch on a table, come to by runs: a value, the Switch, and
        // its targets all at the place after it; then one of them behind.
        12 => {
            let rows = random.below(3);
            let first = draft.ranges.len() as u32;
            let table = draft.tables.len() as u32;
            let switch = [OP_SWITCH, table, 0, 0];
            draft.insert(
                place,
                &[
                    UNIT_OP,
                    [SKIP_IF_NOT_UNIT, place as u32 + 3, 0, 0],
                    switch,
                    switch,
                    POP_OP,
                ],
            );
            let behind = place as u32 + 4;
            for _ in 0..rows {
                draft.ranges.push([0, 0, 9, 0, 1, behind]);
            }
            draft.tables.push([1, first, rows as u32, behind]);
            if random.chance(2, 3) {
                let between = behind - random.between(1, 2) as u32;
                match random.below(rows + 1) {
                    0 => draft.tables[table as usize][3] = between,
                    row => draft.ranges[first as usize + row - 1][5] = between,
                }
            }
            report_depth(draft, depth + 1);
        }
        // A jump to itself, before itself, or to the next instruction.
        13 | 14 => {
            let jumps: Vec<usize> = (0..count)
                .filter(|at| (JUMP..=SKIP_IF_NOT_UNIT).contains(&draft.code[*at][0]))
                .collect();
            if jumps.is_empty() {
                return false;
            }
            let jump = *random.pick(&jumps);
            let targets = [jump, jump + 1, jump.saturating_sub(1), 0];
            draft.code[jump][1] = *random.pick(&targets) as u32;
        }
        // A CallRef that no run comes to, with no argument or any receiver.
        15 => {
            if draft.names.is_empty() {
                return false;
            }
            let words = [0, 1, 256, 257, 512, 513, 767, 768, 769, 1_025];
            let b = *random.pick(&words);
            if b < 256 && sheet.locals == 0 {
                return false;
            }
            let jump = [JUMP, place as u32 + 2, 0, 0];
            draft.insert(place, &[jump, [CALL_REF, 0, b, 0]]);
        }
        // Two Switches at depths one apart, on tables that share a row or not;
        // the second's default gives the value more back.
        16 => {
            let (first, tables) = (draft.cases.len() as u32, draft.tables.len() as u32);
            if draft.constants.is_empty() {
                return false;
            }
            let at = place as u32;
            draft.insert(
                place,
                &[
                    UNIT_OP,
                    [SKIP_IF_NOT_UNIT, at + 3, 0, 0],
                    [OP_SWITCH, tables, 0, 0],
                    UNIT_OP,
                    [OP_SWITCH, tables + 1, 0, 0],
                    POP_OP,
                    POP_OP,
                ],
            );
            draft.cases.push([at + 6, 0]);
            draft.tables.push([0, first, 1, at + 6]);
            let rows = random.below(2) as u32;
            draft.tables.push([0, first, rows, at + 5]);
            report_depth(draft, depth + 2);
        }
        // A step in two chains, with as many operands or one less in one.
        _ => {
            let step = draft.steps.len() as u32;
            let operand = random.below(4) as u32;
            let argc = *random.pick(&[0, 1, 2, 255]);
            let (record, asked) = if random.chance(1, 2) && !draft.names.is_empty() {
                ([2, 0, argc, operand, 1, 9], operand + argc)
            } else {
                ([0, operand, 1, 8, 9, 0], operand + 1)
            };
            draft.steps.push(record);
            draft.chains.push([2, 0, 1, step, 1, asked]);
            let less = random.below(2) as u32;
            draft
                .chains
                .push([2, 0, 2, step, 1, asked.saturating_sub(less)]);
        }
    }
    true
}

/// A right image with a record more that nothing uses, at the edges of its
/// fields: an instruction that no run comes to, or a row of a pool. Mostly one
/// word of it is then changed.
fn extended(sheet: &Sheet<'_>, mut draft: ImageDraft, random: &mut Random) -> Vec<u32> {
    let (texts, locals) = (sheet.texts as u32, sheet.locals as u32);
    let (names, constants) = (draft.names.len() as u32, draft.constants.len() as u32);
    let (named, bit) = (names > 0, random.below(2) as u32);
    let any = *random.pick(EDGES);
    // Some place in the code, and the record that stands there afterwards.
    let place = random.between(0, draft.code.len());
    let code = |draft: &mut ImageDraft, op: [u32; CODE_WORDS]| {
        draft.insert(place, &[[JUMP, place as u32 + 2, 0, 0], op]);
        Part::Code
    };
    let part = match random.below(32) {
        0..=3 if named => {
            let argc = *random.pick(&[1, 255]);
            let op = match random.below(3) {
                0 if locals > 0 => [CALL_REF, names - 1, argc, locals - 1],
                1 => [CALL_REF, names - 1, argc + 256, names - 1],
                _ => [CALL_REF, names - 1, argc + 512, 0],
            };
            code(&mut draft, op)
        }
        4 if named => {
            let tokens = draft.tokens.len() as u32;
            let call = [CALL, names - 1, 255 + 256 * bit, tokens];
            code(&mut draft, call)
        }
        5 => code(&mut draft, [ROTATE, 255, 0, 0]),
        6 => code(&mut draft, [CALL_FN_PTR, 255, 1, 0]),
        7 => code(
            &mut draft,
            [*random.pick(&[MAKE_ARRAY, CHECK_SIZE]), 65_535, 0, 0],
        ),
        8 if locals > 0 => code(&mut draft, [LOAD_LOCAL, locals - 1, 0, 0]),
        9 if named => code(&mut draft, [LOAD_NAMED, names - 1, 0, 0]),
        10 if !draft.chains.is_empty() => {
            let index = draft.chains.len() as u32 - 1;
            code(&mut draft, [OP_CHAIN, index, 0, 0])
        }
        11 | 12 => {
            let kind = random.between(JUMP as usize, SKIP_IF_NOT_UNIT as usize) as u32;
            code(&mut draft, [kind, place as u32 + 2, 0, 0])
        }
        13 => {
            let plain = [OP_UNIT, LOAD_THIS, POP, MAKE_FN_PTR];
            let kinds = [INTERPOLATE_START, INTERPOLATE_APPEND, INTERPOLATE_END];
            let kind = if bit == 0 {
                *random.pick(&plain)
            } else {
                *random.pick(&kinds)
            };
            code(&mut draft, [kind, 0, 0, 0])
        }
        14..=17 => {
            let scalar = *random.pick(&[0, 0xD7FF, 0xE000, 0x10_FFFF]);
            draft.constants.push([CHAR, scalar, 0]);
            Part::Constants
        }
        18 => {
            let constant = match texts {
                0 => [FLOAT, any, any],
                _ => [STRING, texts - 1, 0],
            };
            draft.constants.push(constant);
            Part::Constants
        }
        19 if texts > 0 => {
            draft.names.push([texts - 1, 1, texts]);
            Part::Names
        }
        20 => {
            draft.residuals.push(sheet.nodes as u32 - 1);
            Part::Residuals
        }
        21 | 22 => {
            let steps = draft.steps.len() as u32;
            let [kind, one, two] = match random.below(4) {
                0 if named && locals > 0 => [0, locals - 1, names - 1],
                1 if named => [1, names - 1, any],
                2 => [2, 0, any],
                _ => [3, 0, 0],
            };
            draft.chains.push([kind, one, two, steps, 0, 65_535]);
            Part::Chains
        }
        23 | 24 => {
            let step = match random.below(3) {
                1 if named => [1, names - 1, names - 1, names - 1, 1, any],
                2 if named => [2, names - 1, 255, any, 1, any],
                _ => [0, any, 1, any, any, 0],
            };
            draft.steps.push(step);
            Part::Steps
        }
        25 | 26 => {
            let rows = [draft.cases.len(), draft.ranges.len()][bit as usize] as u32;
            let end = draft.code.len() as u32;
            draft.tables.push([bit, rows, 0, end]);
            Part::Tables
        }
        27 if constants > 0 => {
            draft.cases.push([draft.code.len() as u32, constants - 1]);
            Part::Cases
        }
        28 | 29 => {
            let end = draft.code.len() as u32;
            draft.ranges.push([any, any, any, any, 1, end]);
            Part::Ranges
        }
        _ => {
            draft.tokens.push(65_535);
            Part::Tokens
        }
    };
    let mut words = draft.words();
    let at = depth::Sections::of(&words);
    if random.chance(2, 3) {
        let (start, width, record) = match part {
            Part::Code => (at.code_at, CODE_WORDS, place + 1),
            Part::Constants => (at.constants_at, CONSTANT_WORDS, at.constants - 1),
            Part::Names => (at.names_at, NAME_WORDS, at.names - 1),
            Part::Residuals => (at.residuals_at, 1, at.residuals - 1),
            Part::Chains => (at.chains_at, CHAIN_WORDS, at.chains - 1),
            Part::Steps => (at.steps_at, STEP_WORDS, at.steps - 1),
            Part::Tables => (at.switches_at, SWITCH_WORDS, at.switches - 1),
            Part::Cases => (at.cases_at, CASE_WORDS, at.cases - 1),
            Part::Ranges => (at.ranges_at, RANGE_WORDS, at.ranges - 1),
            _ => (at.tokens_at, 1, at.tokens - 1),
        };
        change_record(sheet, &mut words, (part, start, width), record, random);
    }
    words
}

/// The least target of a table.
fn nearest(draft: &ImageDraft, table: usize) -> usize {
    let [kind, first, count, default] = draft.tables[table];
    (first as usize..(first + count) as usize)
        .map(|row| {
            if kind == 0 {
                draft.cases[row][0]
            } else {
                draft.ranges[row][5]
            }
        })
        .fold(default, u32::min) as usize
}

// ---- any words, wrong lengths, refused sheets ----

/// Words behind sizes that fit them: mostly kinds and small numbers.
fn words(random: &mut Random) -> Vec<u32> {
    let mut draft = ImageDraft::default();
    let few = |random: &mut Random| random.below(3);
    let wild = random.chance(1, 3);
    let word = |random: &mut Random| match random.below(16) {
        0 if wild => random.word(),
        1 if wild => *random.pick(EDGES),
        2..=4 => random.below(4) as u32,
        _ => 0,
    };
    let instructions = random.between(1, 6);
    for _ in 0..instructions {
        let kind = match random.below(8) {
            0 if wild => random.below(27) as u32,
            1..=3 => random.between(1, 24) as u32,
            _ => *random.pick(&[OP_UNIT, OP_UNIT, OP_BOOL, LOAD_THIS, POP, MAKE_ARRAY]),
        };
        draft
            .code
            .push([kind, word(random), word(random), word(random)]);
    }
    draft.positions = (0..instructions).map(|_| random.word()).collect();
    for _ in 0..few(random) {
        draft.constants.push([
            random.between(3, 6 + usize::from(wild)) as u32,
            word(random),
            word(random),
        ]);
    }
    for _ in 0..few(random) {
        draft.names.push([word(random), word(random), word(random)]);
    }
    for _ in 0..few(random) {
        draft.tokens.push(word(random).wrapping_add(1));
    }
    for _ in 0..few(random) {
        draft.residuals.push(word(random));
    }
    for _ in 0..few(random) {
        let mut chain = [0; CHAIN_WORDS].map(|_| word(random));
        chain[0] = random.below(4) as u32;
        draft.chains.push(chain);
    }
    for _ in 0..few(random) {
        let mut step = [0; STEP_WORDS].map(|_| word(random));
        step[0] = random.below(3) as u32;
        draft.steps.push(step);
    }
    for _ in 0..few(random) {
        let default = random.between(0, instructions) as u32;
        draft
            .tables
            .push([random.below(2) as u32, word(random), word(random), default]);
    }
    for _ in 0..few(random) {
        let target = random.between(0, instructions) as u32;
        draft.cases.push([target, word(random)]);
    }
    for _ in 0..few(random) {
        let mut range = [0; RANGE_WORDS].map(|_| word(random));
        range[5] = random.between(0, instructions) as u32;
        draft.ranges.push(range);
    }
    draft.max_stack = random.word();
    draft.depth = random.between(1, 3) as u32;
    draft.words()
}

/// Words too many or too few, and sizes whose sum passes 2^32.
fn lengths(image: &mut Vec<u32>, random: &mut Random) {
    match random.below(8) {
        0 => {
            image.pop();
        }
        1 => image.push(random.word()),
        2 => image.truncate(random.below(13)),
        3 => {
            let cut = random.between(1, image.len());
            image.truncate(image.len() - cut);
        }
        4 => {
            // As many words as before to 32 bits: 4 times 2^30, 2 times 2^31,
            // and 6 times 2^31.
            let (at, more) =
                *random.pick(&[(7, 1 << 30), (2, 1 << 31), (8, 1 << 31), (5, 1 << 31)]);
            image[at] = image[at].wrapping_add(more);
        }
        5 => {
            // A row more of one pool and as many words less of another.
            let moves = [
                (1, 3, 3, 3),
                (2, 4, 2, 2),
                (8, 2, 1, 1),
                (5, 6, 1, 1),
                (9, 5, 1, 1),
            ];
            let (to, from, one, other) = *random.pick(&moves);
            image[to] = image[to].wrapping_add(one);
            image[from] = image[from].wrapping_sub(other);
        }
        6 => {
            let at = random.below(10);
            image[at] = *random.pick(&[0, u32::MAX, 1 << 31, image[at].wrapping_add(1)]);
        }
        _ => {
            let at = random.below(10);
            image[at] = image[at].wrapping_sub(1);
        }
    }
}

/// A sheet that is refused, or one that only lowering refuses.
fn refused_sheet(random: &mut Random, size: ImageSize) -> Vec<u8> {
    if size.large && random.chance(1, 3_000) {
        // At a limit or past it; some emit too many instructions.
        let index = random.below(2 * crate::limits::EDGES.len()) as u64;
        return crate::limits::sheet(index, Random::new(random.next()));
    }
    if random.chance(1, 5) {
        // A reached `eval`.
        let mut draft = Draft::new();
        let text = draft.text(KEYWORD_EVAL);
        draft.leaf(FN_CALL, [text, 0, 0], 1);
        return draft.to_bytes();
    }
    if size.large && random.chance(1, 60) {
        return too_many(random);
    }
    let size = Size {
        nodes: size.nodes,
        small: true,
    };
    gen::sheet("damaged", random.next(), 0, size)
}

/// A switch whose cases repeat a guard until too many instructions are emitted.
fn too_many(random: &mut Random) -> Vec<u8> {
    let mut draft = Draft::new();
    draft.open(SWITCH, [1, 64, 0], 1);
    draft.leaf(UNIT, [0, 0, 0], 2);
    // Emits 3 for each operand but the last, and is named 2,080 times.
    draft.open(COALESCE, [0, 0, 0], 3);
    for _ in 0..random.between(43, 50) {
        draft.leaf(THIS, [0, 0, 0], 4);
    }
    draft.close();
    draft.leaf(UNIT, [0, 0, 0], 5);
    for case in 0..64 {
        draft.open(CASE, [0, 0, 0], 6);
        draft.int(case, 7);
        for _ in 0..=case {
            draft.leaf(REF, [0, 0, 0], 8);
        }
        draft.close();
    }
    draft.close();
    draft.to_bytes()
}

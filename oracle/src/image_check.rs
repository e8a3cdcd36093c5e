//! Whether an image is well made beside its sheet: request A1 of document 02,
//! as docs/DECISIONS.md reads it. Each clause is a function of its own, and
//! says which of `Clause` it finds.

use std::collections::BTreeSet;

use crate::depth::{effect, Sections};
use crate::format::*;
use crate::image::*;
use crate::sheet::{self, Sheet};

/// The clauses, in the order of 02.
#[derive(Clone, Copy, Debug, PartialEq, Eq, PartialOrd, Ord, Hash)]
pub enum Clause {
    /// Sizes agree with the length. If not, nothing else is asked.
    Sizes,
    /// Kinds are 01's.
    Kind,
    /// Flags are 0 or 1, a receiver 0 to 2.
    Flag,
    /// Operators are 1 to 65,535.
    Operator,
    /// A Char is a Unicode scalar value.
    Constant,
    /// Counts fit the Rust's widths.
    Width,
    /// A CallRef has an argument.
    Argument,
    /// Unused words are 0.
    Unused,
    /// Every index lies in its pool.
    PoolIndex,
    /// Every text, node and slot lies in the sheet.
    SheetIndex,
    /// Every run of steps or rows lies in its pool.
    Run,
    /// The operands of a chain's steps lie in the chain.
    Operand,
    /// A jump goes forward.
    Forward,
    /// A table's targets go forward from each Switch naming it.
    TableForward,
    /// Targets are at most the code's length.
    End,
    /// All runs agree on the depth at each instruction.
    Agree,
    /// Each step finds what it pops or needs.
    Needs,
    /// One value remains at the end.
    Remains,
    /// The reported depth is the greatest.
    Depth,
}

pub const CLAUSES: &[Clause] = &[
    Clause::Sizes,
    Clause::Kind,
    Clause::Flag,
    Clause::Operator,
    Clause::Constant,
    Clause::Width,
    Clause::Argument,
    Clause::Unused,
    Clause::PoolIndex,
    Clause::SheetIndex,
    Clause::Run,
    Clause::Operand,
    Clause::Forward,
    Clause::TableForward,
    Clause::End,
    Clause::Agree,
    Clause::Needs,
    Clause::Remains,
    Clause::Depth,
];

/// A clause that fails, and the word of the image that it fails at: the word
/// itself, or for clauses about runs the instruction's first.
#[derive(Clone, Copy, Debug, PartialEq, Eq)]
pub struct Fault {
    pub clause: Clause,
    pub word: usize,
}

#[derive(Default)]
struct Faults(Vec<Fault>);

impl Faults {
    fn unless(&mut self, good: bool, clause: Clause, word: usize) {
        if !good {
            self.0.push(Fault { clause, word });
        }
    }
}

/// The number for a sheet, an image and a lent scratch, and what becomes of
/// the scratch.
pub fn check_image(sheet: &[u8], image: &[u32], scratch: &mut [u32]) -> u32 {
    let sheet = match sheet::read(sheet) {
        Ok(sheet) => sheet,
        Err(number) => return number,
    };
    if scratch.len() < image.len() {
        return REFUSED_SCRATCH;
    }
    scratch.fill(0);
    if faults(&sheet, image).is_empty() {
        0
    } else {
        NOT_WELL_MADE
    }
}

/// The clauses that fail. Those about runs are asked only where all others
/// hold, and those after `Agree` only where it holds.
pub fn failing(sheet: &Sheet<'_>, image: &[u32]) -> BTreeSet<Clause> {
    faults(sheet, image)
        .iter()
        .map(|fault| fault.clause)
        .collect()
}

/// The first clause that fails.
pub fn first_failing(sheet: &Sheet<'_>, image: &[u32]) -> Option<Clause> {
    faults(sheet, image).iter().map(|fault| fault.clause).min()
}

/// Everything that is wrong, as far as it can be said.
pub fn faults(sheet: &Sheet<'_>, image: &[u32]) -> Vec<Fault> {
    let mut found = Faults::default();
    if !sizes_agree(image) {
        found.unless(false, Clause::Sizes, 0);
        return found.0;
    }
    let parts = Parts::of(sheet, image);
    parts.kinds(&mut found);
    parts.flags(&mut found);
    parts.operators(&mut found);
    parts.characters(&mut found);
    parts.widths(&mut found);
    parts.arguments(&mut found);
    parts.unused(&mut found);
    parts.pool_indexes(&mut found);
    parts.sheet_indexes(&mut found);
    parts.runs(&mut found);
    parts.operands(&mut found);
    parts.forward(&mut found);
    parts.table_forward(&mut found);
    parts.end(&mut found);
    if !found.0.is_empty() {
        return found.0;
    }
    let depths = parts.depths();
    parts.agree(&depths, &mut found);
    if !found.0.is_empty() {
        return found.0;
    }
    parts.needs(&depths, &mut found);
    parts.remains(&depths, &mut found);
    parts.reported(&depths, &mut found);
    found.0
}

/// The depth at each place that a run comes to, of an image that is well made.
pub fn depths(sheet: &Sheet<'_>, image: &[u32]) -> Vec<Option<i64>> {
    Parts::of(sheet, image).depths()
}

/// `Sizes`.
fn sizes_agree(image: &[u32]) -> bool {
    const WIDTHS: [usize; 10] = [
        CODE_WORDS + 1,
        CONSTANT_WORDS,
        NAME_WORDS,
        1,
        1,
        CHAIN_WORDS,
        STEP_WORDS,
        SWITCH_WORDS,
        CASE_WORDS,
        RANGE_WORDS,
    ];
    if image.len() < IMAGE_SIZES {
        return false;
    }
    let rows: u64 = WIDTHS
        .iter()
        .zip(image)
        .map(|(width, size)| *width as u64 * u64::from(*size))
        .sum();
    image.len() as u64 == IMAGE_SIZES as u64 + rows
}

/// An image whose sizes agree, and the sizes of its sheet.
struct Parts<'i> {
    image: &'i [u32],
    at: Sections,
    nodes: u64,
    texts: u64,
    locals: u64,
}

fn receiver(op: &[u32]) -> u32 {
    op[2] / 256
}

/// Whether an instruction has a target of its own.
fn jumps(kind: u32) -> bool {
    matches!(kind, JUMP | JUMP_IF_TRUE | JUMP_IF_FALSE | SKIP_IF_NOT_UNIT)
}

/// The unused words of an instruction.
fn unused_words(op: &[u32]) -> &'static [usize] {
    match op[0] {
        CONST | OP_BOOL | LOAD_LOCAL | LOAD_NAMED | JUMP | JUMP_IF_TRUE | JUMP_IF_FALSE
        | SKIP_IF_NOT_UNIT | ROTATE | OP_SWITCH | MAKE_ARRAY | CHECK_SIZE | OP_CHAIN | EVAL_AST => {
            &[2, 3]
        }
        OP_UNIT | LOAD_THIS | POP | MAKE_FN_PTR | INTERPOLATE_START | INTERPOLATE_APPEND
        | INTERPOLATE_END => &[1, 2, 3],
        CALL_FN_PTR => &[3],
        CALL_REF if receiver(op) == 2 => &[3],
        _ => &[],
    }
}

impl<'i> Parts<'i> {
    fn of(sheet: &Sheet<'_>, image: &'i [u32]) -> Self {
        Parts {
            image,
            at: Sections::of(image),
            nodes: sheet.nodes as u64,
            texts: sheet.texts as u64,
            locals: sheet.locals as u64,
        }
    }

    /// The records of a section, each with the place of its first word.
    fn records(
        &self,
        at: usize,
        width: usize,
        count: usize,
    ) -> impl Iterator<Item = (usize, &'i [u32])> {
        self.image[at..at + width * count]
            .chunks_exact(width)
            .enumerate()
            .map(move |(index, record)| (at + width * index, record))
    }

    fn code(&self) -> impl Iterator<Item = (usize, &'i [u32])> {
        self.records(self.at.code_at, CODE_WORDS, self.at.instructions)
    }

    fn constants(&self) -> impl Iterator<Item = (usize, &'i [u32])> {
        self.records(self.at.constants_at, CONSTANT_WORDS, self.at.constants)
    }

    fn names(&self) -> impl Iterator<Item = (usize, &'i [u32])> {
        self.records(self.at.names_at, NAME_WORDS, self.at.names)
    }

    fn chains(&self) -> impl Iterator<Item = (usize, &'i [u32])> {
        self.records(self.at.chains_at, CHAIN_WORDS, self.at.chains)
    }

    fn steps(&self) -> impl Iterator<Item = (usize, &'i [u32])> {
        self.records(self.at.steps_at, STEP_WORDS, self.at.steps)
    }

    fn tables(&self) -> impl Iterator<Item = (usize, &'i [u32])> {
        self.records(self.at.switches_at, SWITCH_WORDS, self.at.switches)
    }

    fn cases(&self) -> impl Iterator<Item = (usize, &'i [u32])> {
        self.records(self.at.cases_at, CASE_WORDS, self.at.cases)
    }

    fn ranges(&self) -> impl Iterator<Item = (usize, &'i [u32])> {
        self.records(self.at.ranges_at, RANGE_WORDS, self.at.ranges)
    }

    /// `Kind`.
    fn kinds(&self, found: &mut Faults) {
        for (at, op) in self.code() {
            found.unless((CONST..=EVAL_AST).contains(&op[0]), Clause::Kind, at);
        }
        for (at, constant) in self.constants() {
            found.unless((INT..=STRING).contains(&constant[0]), Clause::Kind, at);
        }
        for (at, chain) in self.chains() {
            found.unless(chain[0] <= 3, Clause::Kind, at);
        }
        for (at, step) in self.steps() {
            found.unless(step[0] <= 2, Clause::Kind, at);
        }
        for (at, table) in self.tables() {
            found.unless(table[0] <= 1, Clause::Kind, at);
        }
    }

    /// `Flag`.
    fn flags(&self, found: &mut Faults) {
        for (at, op) in self.code() {
            match op[0] {
                OP_BOOL => found.unless(op[1] <= 1, Clause::Flag, at + 1),
                CALL => found.unless(op[2] / 256 <= 1, Clause::Flag, at + 2),
                CALL_REF => found.unless(receiver(op) <= 2, Clause::Flag, at + 2),
                CALL_FN_PTR => found.unless(op[2] <= 1, Clause::Flag, at + 2),
                _ => (),
            }
        }
        for (at, name) in self.names() {
            found.unless(name[1] <= 1, Clause::Flag, at + 1);
        }
        for (at, step) in self.steps() {
            match step[0] {
                0 => found.unless(step[2] <= 1, Clause::Flag, at + 2),
                1 | 2 => found.unless(step[4] <= 1, Clause::Flag, at + 4),
                _ => (),
            }
        }
        for (at, range) in self.ranges() {
            found.unless(range[4] <= 1, Clause::Flag, at + 4);
        }
    }

    /// `Operator`.
    fn operators(&self, found: &mut Faults) {
        for (at, token) in self.records(self.at.tokens_at, 1, self.at.tokens) {
            let good = (1..=MAX_OPERATOR).contains(&token[0]);
            found.unless(good, Clause::Operator, at);
        }
    }

    /// `Constant`.
    fn characters(&self, found: &mut Faults) {
        for (at, constant) in self.constants() {
            if constant[0] == CHAR {
                let good = char::from_u32(constant[1]).is_some();
                found.unless(good, Clause::Constant, at + 1);
            }
        }
    }

    /// `Width`.
    fn widths(&self, found: &mut Faults) {
        for (at, op) in self.code() {
            match op[0] {
                CALL_FN_PTR | ROTATE => found.unless(op[1] <= MAX_U8, Clause::Width, at + 1),
                MAKE_ARRAY | CHECK_SIZE => found.unless(op[1] <= MAX_U16, Clause::Width, at + 1),
                _ => (),
            }
        }
        for (at, chain) in self.chains() {
            found.unless(chain[5] <= MAX_U16, Clause::Width, at + 5);
        }
        for (at, step) in self.steps() {
            if step[0] == 2 {
                found.unless(step[2] <= MAX_U8, Clause::Width, at + 2);
            }
        }
    }

    /// `Argument`.
    fn arguments(&self, found: &mut Faults) {
        for (at, op) in self.code() {
            if op[0] == CALL_REF {
                found.unless(op[2] % 256 > 0, Clause::Argument, at + 2);
            }
        }
    }

    /// `Unused`.
    fn unused(&self, found: &mut Faults) {
        let mut zero = |at: usize, record: &[u32], words: &[usize]| {
            for word in words {
                found.unless(record[*word] == 0, Clause::Unused, at + word);
            }
        };
        for (at, op) in self.code() {
            zero(at, op, unused_words(op));
        }
        for (at, constant) in self.constants() {
            if matches!(constant[0], CHAR | STRING) {
                zero(at, constant, &[2]);
            }
        }
        for (at, chain) in self.chains() {
            match chain[0] {
                2 => zero(at, chain, &[1]),
                3 => zero(at, chain, &[1, 2]),
                _ => (),
            }
        }
        for (at, step) in self.steps() {
            if step[0] == 0 {
                zero(at, step, &[5]);
            }
        }
    }

    /// `PoolIndex`.
    fn pool_indexes(&self, found: &mut Faults) {
        let mut below = |at: usize, index: u32, size: usize| {
            found.unless((index as usize) < size, Clause::PoolIndex, at);
        };
        let sizes = &self.at;
        for (at, op) in self.code() {
            match op[0] {
                CONST => below(at + 1, op[1], sizes.constants),
                LOAD_NAMED | CALL | CALL_REF => below(at + 1, op[1], sizes.names),
                OP_SWITCH => below(at + 1, op[1], sizes.switches),
                OP_CHAIN => below(at + 1, op[1], sizes.chains),
                EVAL_AST => below(at + 1, op[1], sizes.residuals),
                _ => (),
            }
            match op[0] {
                CALL => below(at + 3, op[3], sizes.tokens + 1),
                CALL_REF if receiver(op) == 1 => below(at + 3, op[3], sizes.names),
                _ => (),
            }
        }
        for (at, chain) in self.chains() {
            match chain[0] {
                0 => below(at + 2, chain[2], sizes.names),
                1 => below(at + 1, chain[1], sizes.names),
                _ => (),
            }
        }
        for (at, step) in self.steps() {
            let names = match step[0] {
                1 => 3,
                2 => 1,
                _ => 0,
            };
            for (word, name) in step.iter().enumerate().skip(1).take(names) {
                below(at + word, *name, sizes.names);
            }
        }
        for (at, case) in self.cases() {
            below(at + 1, case[1], sizes.constants);
        }
    }

    /// `SheetIndex`.
    fn sheet_indexes(&self, found: &mut Faults) {
        let mut below = |at: usize, index: u32, size: u64| {
            found.unless(u64::from(index) < size, Clause::SheetIndex, at);
        };
        for (at, op) in self.code() {
            match op[0] {
                LOAD_LOCAL => below(at + 1, op[1], self.locals),
                CALL_REF if receiver(op) == 0 => below(at + 3, op[3], self.locals),
                _ => (),
            }
        }
        for (at, constant) in self.constants() {
            if constant[0] == STRING {
                below(at + 1, constant[1], self.texts);
            }
        }
        for (at, name) in self.names() {
            below(at, name[0], self.texts);
            // The namespace's text is one less, or none.
            below(at + 2, name[2], self.texts + 1);
        }
        for (at, residual) in self.records(self.at.residuals_at, 1, self.at.residuals) {
            below(at, residual[0], self.nodes);
        }
        for (at, chain) in self.chains() {
            if chain[0] == 0 {
                below(at + 1, chain[1], self.locals);
            }
        }
    }

    /// Whether a run of `count` rows lies in a pool of `size` rows.
    fn inside(first: u32, count: u32, size: usize) -> bool {
        u64::from(first) + u64::from(count) <= size as u64
    }

    fn steps_inside(&self, chain: &[u32]) -> bool {
        Self::inside(chain[3], chain[4], self.at.steps)
    }

    fn rows_inside(&self, table: &[u32]) -> bool {
        match table[0] {
            0 => Self::inside(table[1], table[2], self.at.cases),
            1 => Self::inside(table[1], table[2], self.at.ranges),
            _ => false,
        }
    }

    /// `Run`.
    fn runs(&self, found: &mut Faults) {
        for (at, chain) in self.chains() {
            found.unless(self.steps_inside(chain), Clause::Run, at + 3);
        }
        for (at, table) in self.tables() {
            if table[0] <= 1 {
                found.unless(self.rows_inside(table), Clause::Run, at + 1);
            }
        }
    }

    /// `Operand`: the most operands that a step of the chain asks for.
    fn operands(&self, found: &mut Faults) {
        let asked = self.steps().map(|(_, step)| {
            let word = |index: usize| i64::from(step[index]);
            match step[0] {
                0 => word(1) + 1,
                2 => word(3) + word(2),
                _ => 0,
            }
        });
        let asked = Greatest::of(asked.collect());
        for (at, chain) in self.chains() {
            if self.steps_inside(chain) {
                let most = asked.over(chain[3], chain[4]).unwrap_or(0);
                found.unless(most <= i64::from(chain[5]), Clause::Operand, at + 5);
            }
        }
    }

    /// `Forward`.
    fn forward(&self, found: &mut Faults) {
        for (place, (at, op)) in self.code().enumerate() {
            if jumps(op[0]) {
                found.unless(op[1] as usize > place, Clause::Forward, at + 1);
            }
        }
    }

    /// `TableForward`: from the last Switch that names a table.
    fn table_forward(&self, found: &mut Faults) {
        let mut last: Vec<Option<usize>> = vec![None; self.at.switches];
        for (place, (_, op)) in self.code().enumerate() {
            if op[0] == OP_SWITCH {
                if let Some(last) = last.get_mut(op[1] as usize) {
                    *last = Some(place);
                }
            }
        }
        let least = self.row_targets().map(|targets| {
            Greatest::of(targets.iter().map(|target| -i64::from(*target)).collect())
        });
        for ((at, table), last) in self.tables().zip(last) {
            let Some(last) = last else {
                continue;
            };
            let last = last as i64;
            found.unless(i64::from(table[3]) > last, Clause::TableForward, at + 3);
            if self.rows_inside(table) {
                let nearest = least[table[0] as usize].over(table[1], table[2]);
                let good = nearest.is_none_or(|nearest| -nearest > last);
                found.unless(good, Clause::TableForward, at);
            }
        }
    }

    /// The targets of all cases and of all ranges.
    fn row_targets(&self) -> [Vec<u32>; 2] {
        [
            self.cases().map(|(_, case)| case[0]).collect(),
            self.ranges().map(|(_, range)| range[5]).collect(),
        ]
    }

    /// `End`.
    fn end(&self, found: &mut Faults) {
        let mut within = |at: usize, target: u32| {
            let good = target as usize <= self.at.instructions;
            found.unless(good, Clause::End, at);
        };
        for (at, op) in self.code() {
            if jumps(op[0]) {
                within(at + 1, op[1]);
            }
        }
        for (at, table) in self.tables() {
            within(at + 3, table[3]);
        }
        for (at, case) in self.cases() {
            within(at, case[0]);
        }
        for (at, range) in self.ranges() {
            within(at + 5, range[5]);
        }
    }

    // ---- runs: only where all clauses above hold ----

    /// The depth after the instruction, from the depth before it.
    fn after(&self, op: &[u32], before: i64) -> i64 {
        let (_, pops, pushes) = effect(self.image, &self.at, op);
        before - i64::from(pops) + i64::from(pushes)
    }

    /// For each place the depth that the first way found there has, or none
    /// where no run comes. The end is the last place. A row has one
    /// target, so each row is followed once, for its first Switch.
    fn depths(&self) -> Vec<Option<i64>> {
        let count = self.at.instructions;
        let mut depths: Vec<Option<i64>> = vec![None; count + 1];
        depths[0] = Some(0);
        let targets = self.row_targets();
        let mut rows = targets.each_ref().map(|targets| Unseen::of(targets.len()));
        for (place, (_, op)) in self.code().enumerate() {
            let Some(before) = depths[place] else {
                continue;
            };
            let after = self.after(op, before);
            let mut arrive = |to: usize| {
                depths[to].get_or_insert(after);
            };
            if jumps(op[0]) {
                arrive(op[1] as usize);
            }
            match op[0] {
                JUMP => (),
                OP_SWITCH => {
                    let table = self.at.switch(self.image, op[1]);
                    arrive(table[3] as usize);
                    let kind = table[0] as usize;
                    rows[kind].take(table[1], table[2], |row| {
                        arrive(targets[kind][row] as usize)
                    });
                }
                _ => arrive(place + 1),
            }
        }
        depths
    }

    /// All runs agree: every way to an instruction arrives with its depth. What
    /// arrives at the end is for `remains`.
    fn agree(&self, depths: &[Option<i64>], found: &mut Faults) {
        let end = self.at.instructions;
        let arrived = self.row_targets().map(|targets| {
            let known = |target: &u32| match *target as usize {
                target if target == end => None,
                target => depths[target],
            };
            let most = |target: &u32| known(target).unwrap_or(NONE);
            let least = |target: &u32| known(target).map_or(NONE, |depth| -depth);
            (
                Greatest::of(targets.iter().map(most).collect()),
                Greatest::of(targets.iter().map(least).collect()),
            )
        });
        for (place, (at, op)) in self.code().enumerate() {
            let Some(before) = depths[place] else {
                continue;
            };
            let after = self.after(op, before);
            let agrees = |to: usize| to == end || depths[to] == Some(after);
            let mut good = true;
            if jumps(op[0]) {
                good &= agrees(op[1] as usize);
            }
            match op[0] {
                JUMP => (),
                OP_SWITCH => {
                    let table = self.at.switch(self.image, op[1]);
                    good &= agrees(table[3] as usize);
                    let (most, least) = &arrived[table[0] as usize];
                    let most = most.over(table[1], table[2]).unwrap_or(NONE);
                    let least = least.over(table[1], table[2]).unwrap_or(NONE);
                    good &= most == NONE || (most == after && least == -after);
                }
                _ => good &= agrees(place + 1),
            }
            found.unless(good, Clause::Agree, at);
        }
    }

    /// Each step finds what it pops or needs.
    fn needs(&self, depths: &[Option<i64>], found: &mut Faults) {
        for (place, (at, op)) in self.code().enumerate() {
            if let Some(before) = depths[place] {
                let (needs, _, _) = effect(self.image, &self.at, op);
                found.unless(before >= i64::from(needs), Clause::Needs, at);
            }
        }
    }

    /// Every way to the end arrives with depth 1 (`Remains`).
    fn remains(&self, depths: &[Option<i64>], found: &mut Faults) {
        let end = self.at.instructions;
        found.unless(end > 0, Clause::Remains, 0);
        let at_end = self.row_targets().map(|targets| {
            let last = |target: &u32| i64::from(*target as usize == end);
            Greatest::of(targets.iter().map(last).collect())
        });
        for (place, (at, op)) in self.code().enumerate() {
            let Some(before) = depths[place] else {
                continue;
            };
            let mut ends = jumps(op[0]) && op[1] as usize == end;
            match op[0] {
                JUMP => (),
                OP_SWITCH => {
                    let table = self.at.switch(self.image, op[1]);
                    ends |= table[3] as usize == end;
                    ends |= at_end[table[0] as usize].over(table[1], table[2]) == Some(1);
                }
                _ => ends |= place + 1 == end,
            }
            found.unless(!ends || self.after(op, before) == 1, Clause::Remains, at);
        }
    }

    /// The reported depth is the greatest at the start and after every step
    /// (`Depth`).
    fn reported(&self, depths: &[Option<i64>], found: &mut Faults) {
        let mut greatest = 0;
        for (place, (_, op)) in self.code().enumerate() {
            if let Some(before) = depths[place] {
                greatest = greatest.max(self.after(op, before));
            }
        }
        let last = IMAGE_SIZES - 1;
        let good = i64::from(self.image[last]) == greatest;
        found.unless(good, Clause::Depth, last);
    }
}

/// Less than every number that is asked about.
const NONE: i64 = i64::MIN;

/// The greatest of any run of a list: level k has the greatest of each 2^k.
struct Greatest(Vec<Vec<i64>>);

impl Greatest {
    fn of(list: Vec<i64>) -> Self {
        let mut levels = vec![list];
        let mut width = 1;
        while 2 * width <= levels[0].len() {
            let below = levels.last().unwrap();
            let next = (0..below.len() - width)
                .map(|at| below[at].max(below[at + width]))
                .collect();
            levels.push(next);
            width *= 2;
        }
        Greatest(levels)
    }

    /// Over a run that lies in the list; none for a run of none.
    fn over(&self, first: u32, count: u32) -> Option<i64> {
        let (first, count) = (first as usize, count as usize);
        let level = count.checked_ilog2()?;
        let row = &self.0[level as usize];
        Some(row[first].max(row[first + count - (1 << level)]))
    }
}

/// The rows not yet followed: each knows the next such row, itself included.
struct Unseen(Vec<usize>);

impl Unseen {
    fn of(rows: usize) -> Self {
        Unseen((0..=rows).collect())
    }

    fn next(&mut self, row: usize) -> usize {
        let mut found = row;
        while self.0[found] != found {
            found = self.0[found];
        }
        let mut at = row;
        while at != found {
            at = std::mem::replace(&mut self.0[at], found);
        }
        found
    }

    /// Follows each row of a run that was not followed before.
    fn take(&mut self, first: u32, count: u32, mut follow: impl FnMut(usize)) {
        let end = first as usize + count as usize;
        let mut row = self.next(first as usize);
        while row < end {
            follow(row);
            self.0[row] = row + 1;
            row = self.next(row);
        }
    }
}

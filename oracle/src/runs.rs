//! Demand 3 by brute force: all runs of an image, and the source rule.
//! Written from document 01, "Runs and the source rule". It reads image words
//! with tables of its own and shares nothing with the lowering or with the
//! depth walk; only the marks say where guards and bodies begin.

use std::collections::{HashMap, HashSet};

use crate::format;
use crate::format::{CASE_WORDS, CHAIN_WORDS, CODE_WORDS, CONSTANT_WORDS, IMAGE_SIZES};
use crate::format::{NAME_WORDS, RANGE_WORDS, STEP_WORDS, SWITCH_WORDS};
use crate::grain::stand_in::Marks;
use crate::random::Random;
use crate::sheet::{Node, Sheet};

/// Pops and pushes of the kinds 1 to 24 where no count is named.
const EFFECTS: [(i64, i64); 25] = [
    (0, 0),
    (0, 1), // 1 Const
    (0, 1), // 2 Unit
    (0, 1), // 3 Bool
    (0, 1), // 4 LoadLocal
    (0, 1), // 5 LoadNamed
    (0, 1), // 6 LoadThis
    (1, 0), // 7 Pop
    (0, 0), // 8 Jump
    (1, 0), // 9 JumpIfTrue
    (1, 0), // 10 JumpIfFalse
    (0, 0), // 11 SkipIfNotUnit
    (0, 1), // 12 Call
    (0, 1), // 13 CallRef
    (0, 0), // 14 Rotate
    (0, 0), // 15 Switch
    (1, 1), // 16 MakeFnPtr
    (0, 1), // 17 CallFnPtr
    (0, 1), // 18 InterpolateStart
    (2, 1), // 19 InterpolateAppend
    (1, 1), // 20 InterpolateEnd
    (0, 1), // 21 MakeArray
    (0, 0), // 22 CheckSize
    (0, 1), // 23 Chain
    (0, 1), // 24 EvalAst
];

/// An image taken apart.
pub struct Program<'i> {
    pub(crate) sizes: &'i [u32],
    code: &'i [u32],
    pub(crate) constants: &'i [u32],
    pub(crate) names: &'i [u32],
    pub(crate) tokens: &'i [u32],
    pub(crate) residuals: &'i [u32],
    pub(crate) chains: &'i [u32],
    pub(crate) steps: &'i [u32],
    pub(crate) switches: &'i [u32],
    pub(crate) cases: &'i [u32],
    pub(crate) ranges: &'i [u32],
}

#[derive(Clone, Copy)]
pub(crate) struct Instruction {
    pub kind: u32,
    pub a: u32,
    pub b: u32,
    pub c: u32,
}

/// Record `index` of a section whose records have so many words.
pub(crate) fn record(section: &[u32], words: usize, index: usize) -> &[u32] {
    &section[words * index..words * (index + 1)]
}

impl<'i> Program<'i> {
    pub fn of(image: &'i [u32]) -> Result<Self, String> {
        let mut rest = image;
        let mut part = |words: usize| -> Result<&'i [u32], String> {
            if rest.len() < words {
                return Err("the image is shorter than its sizes".to_string());
            }
            let (front, back) = rest.split_at(words);
            rest = back;
            Ok(front)
        };
        let sizes = part(IMAGE_SIZES)?;
        let size = |index: usize| sizes[index] as usize;
        let code = part(CODE_WORDS * size(0))?;
        let _positions = part(size(0))?;
        let constants = part(CONSTANT_WORDS * size(1))?;
        let names = part(NAME_WORDS * size(2))?;
        let tokens = part(size(3))?;
        let residuals = part(size(4))?;
        let chains = part(CHAIN_WORDS * size(5))?;
        let steps = part(STEP_WORDS * size(6))?;
        let switches = part(SWITCH_WORDS * size(7))?;
        let cases = part(CASE_WORDS * size(8))?;
        let ranges = part(RANGE_WORDS * size(9))?;
        if !rest.is_empty() {
            return Err("the image is longer than its sizes".to_string());
        }
        Ok(Program {
            sizes,
            code,
            constants,
            names,
            tokens,
            residuals,
            chains,
            steps,
            switches,
            cases,
            ranges,
        })
    }

    fn count(&self) -> usize {
        self.sizes[0] as usize
    }

    pub(crate) fn instruction(&self, place: usize) -> Instruction {
        let words = record(self.code, CODE_WORDS, place);
        Instruction {
            kind: words[0],
            a: words[1],
            b: words[2],
            c: words[3],
        }
    }

    /// Pops, pushes and what must be there before.
    pub(crate) fn effect(&self, op: Instruction) -> (i64, i64, i64) {
        let (mut pops, pushes) = EFFECTS[op.kind as usize];
        match op.kind {
            12 => pops = i64::from(op.b % 256),
            13 => {
                pops = i64::from(op.b % 256);
                if op.b / 256 == 0 {
                    pops -= 1;
                }
            }
            17 => pops = i64::from(op.a) + 1,
            21 => pops = i64::from(op.a),
            23 => {
                let chain = record(self.chains, CHAIN_WORDS, op.a as usize);
                pops = i64::from(chain[5]);
                if chain[0] == 3 {
                    pops += 1;
                }
            }
            _ => (),
        }
        let needs = match op.kind {
            11 | 15 | 22 => 1,
            14 => i64::from(op.a) + 1,
            _ => pops,
        };
        (pops, pushes, needs)
    }

    /// The target of a row of a table of this kind.
    pub(crate) fn row_target(&self, kind: u32, row: usize) -> u32 {
        if kind == 0 {
            self.cases[CASE_WORDS * row]
        } else {
            record(self.ranges, RANGE_WORDS, row)[5]
        }
    }

    /// Every place that a step from here can go to.
    pub(crate) fn ways(&self, place: usize, op: Instruction) -> Vec<usize> {
        match op.kind {
            8 => vec![op.a as usize],
            9..=11 => vec![op.a as usize, place + 1],
            15 => {
                let table = record(self.switches, SWITCH_WORDS, op.a as usize);
                let (first, rows) = (table[1] as usize, table[2] as usize);
                let mut ways = vec![table[3] as usize];
                for row in first..first + rows {
                    ways.push(self.row_target(table[0], row) as usize);
                }
                ways
            }
            _ => vec![place + 1],
        }
    }

    /// Where a Switch sends an integer.
    fn dispatch(&self, op: Instruction, subject: i64) -> usize {
        let table = record(self.switches, SWITCH_WORDS, op.a as usize);
        let (first, rows) = (table[1] as usize, table[2] as usize);
        let signed = |low: u32, high: u32| (u64::from(high) << 32 | u64::from(low)) as i64;
        for row in first..first + rows {
            if table[0] == 0 {
                let case = record(self.cases, CASE_WORDS, row);
                let constant = record(self.constants, CONSTANT_WORDS, case[1] as usize);
                if constant[0] == 3 && signed(constant[1], constant[2]) == subject {
                    return case[0] as usize;
                }
            } else {
                let words = record(self.ranges, RANGE_WORDS, row);
                let from = signed(words[0], words[1]);
                let to = signed(words[2], words[3]);
                let inside = if words[4] == 1 {
                    subject <= to
                } else {
                    subject < to
                };
                if from <= subject && inside {
                    return words[5] as usize;
                }
            }
        }
        table[3] as usize
    }

    /// Whether kinds, indices and unused words are such as document 01 has
    /// them.
    fn well_made(&self, sheet: &Sheet<'_>) -> Result<(), String> {
        let size = |index: usize| self.sizes[index];
        for place in 0..self.count() {
            let op = self.instruction(place);
            let Instruction { kind, a, b, c } = op;
            let target = a as usize > place && a <= size(0);
            let good = match kind {
                1 => a < size(1) && b == 0 && c == 0,
                2 | 6 | 7 | 16 | 18 | 19 | 20 => a == 0 && b == 0 && c == 0,
                3 => a <= 1 && b == 0 && c == 0,
                4 => (a as usize) < sheet.locals && b == 0 && c == 0,
                5 => a < size(2) && b == 0 && c == 0,
                8..=11 => target && b == 0 && c == 0,
                12 => a < size(2) && b < 512 && c <= size(3),
                13 => {
                    let right = match b / 256 {
                        0 => (c as usize) < sheet.locals,
                        1 => c < size(2),
                        2 => c == 0,
                        _ => false,
                    };
                    a < size(2) && b % 256 > 0 && right
                }
                14 => (1..=254).contains(&a) && b == 0 && c == 0,
                15 => a < size(7) && b == 0 && c == 0,
                17 => a <= 255 && b <= 1 && c == 0,
                21 | 22 => a <= 65_535 && b == 0 && c == 0,
                23 => a < size(5) && b == 0 && c == 0,
                24 => a < size(4) && b == 0 && c == 0,
                _ => false,
            };
            if !good {
                return Err(format!("instruction {place} is not well made"));
            }
        }
        let mut first = 0;
        for chain in self.chains.chunks(CHAIN_WORDS) {
            let root = match chain[0] {
                0 => (chain[1] as usize) < sheet.locals && chain[2] < size(2),
                1 => chain[1] < size(2),
                2 => chain[1] == 0,
                3 => chain[1] == 0 && chain[2] == 0,
                _ => false,
            };
            if !root || chain[3] != first || chain[4] == 0 {
                return Err("a chain is not well made".to_string());
            }
            let mut operands = 0;
            for step in first..first + chain[4] {
                let step = record(self.steps, STEP_WORDS, step as usize);
                let good = match step[0] {
                    0 => {
                        operands += 1;
                        step[1] == operands - 1 && step[2] <= 1 && step[5] == 0
                    }
                    1 => step[1..4].iter().all(|name| *name < size(2)) && step[4] <= 1,
                    2 => {
                        operands += step[2];
                        step[1] < size(2)
                            && step[2] <= 255
                            && step[3] == operands - step[2]
                            && step[4] <= 1
                    }
                    _ => false,
                };
                if !good {
                    return Err("a step is not well made".to_string());
                }
            }
            if operands != chain[5] {
                return Err("a chain miscounts its operands".to_string());
            }
            first += chain[4];
        }
        if first != size(6) {
            return Err("a step stands in no chain".to_string());
        }
        Ok(())
    }
}

/// Everything demand 3 says of an image without its sheet, over all runs: the
/// states that some run comes to are gone through one by one.
pub fn all_runs(image: &[u32]) -> Result<(), String> {
    let program = Program::of(image)?;
    let count = program.count();
    let mut seen: HashSet<(usize, i64)> = HashSet::new();
    let mut depths: HashMap<usize, i64> = HashMap::new();
    let mut open = vec![(0usize, 0i64)];
    seen.insert((0, 0));
    let mut greatest = 0;
    while let Some((place, depth)) = open.pop() {
        greatest = greatest.max(depth);
        if *depths.entry(place).or_insert(depth) != depth {
            return Err(format!("two depths at place {place}"));
        }
        if place == count {
            if depth != 1 {
                return Err(format!("a run ends at depth {depth}"));
            }
            continue;
        }
        let op = program.instruction(place);
        let (pops, pushes, needs) = program.effect(op);
        if depth < needs {
            return Err(format!("instruction {place} misses what it needs"));
        }
        let after = depth - pops + pushes;
        for way in program.ways(place, op) {
            if way <= place || way > count {
                return Err(format!("instruction {place} goes to {way}"));
            }
            if seen.insert((way, after)) {
                open.push((way, after));
            }
        }
    }
    if depths.len() != count + 1 {
        return Err("some place is reached by no run".to_string());
    }
    if greatest != i64::from(image[11]) {
        return Err(format!("greatest depth is {greatest}, not {}", image[11]));
    }
    Ok(())
}

/// A few runs one by one, with random choices, step by step as document 01
/// tells it.
pub fn random_runs(image: &[u32], random: &mut Random, count: usize) -> Result<(), String> {
    let program = Program::of(image)?;
    for _ in 0..count {
        let (mut place, mut depth) = (0usize, 0i64);
        let mut steps = 0;
        while place != program.count() {
            let op = program.instruction(place);
            let (pops, pushes, needs) = program.effect(op);
            if depth < needs {
                return Err(format!("instruction {place} misses what it needs"));
            }
            depth = depth - pops + pushes;
            if depth > i64::from(image[11]) {
                return Err("a run goes deeper than the image says".to_string());
            }
            place = *random.pick(&program.ways(place, op));
            steps += 1;
            if steps > program.count() {
                return Err("a run does not end".to_string());
            }
        }
        if depth != 1 {
            return Err(format!("a run ends at depth {depth}"));
        }
    }
    Ok(())
}

/// What becomes of an integer subject: the blocks whose guards are tried, in
/// order, and the block whose body is reached, or none for a missing default.
#[derive(Clone, Debug, PartialEq, Eq, Hash, Default)]
pub struct Choice {
    pub tried: Vec<usize>,
    pub reached: Option<Reached>,
}

#[derive(Clone, Copy, Debug, PartialEq, Eq, Hash)]
pub enum Reached {
    Body(usize),
    MissingDefault,
}

fn signed(node: &Node) -> i64 {
    (u64::from(node.b) << 32 | u64::from(node.a)) as i64
}

/// The source rule, over the nodes of a switch sheet.
pub fn source_rule(sheet: &Sheet<'_>, subject: i64, answers: &[bool]) -> Choice {
    let root = sheet.node(0);
    let children: Vec<usize> = sheet.children(0).collect();
    let pairs = 2 * root.a as usize;
    let cases = root.b as usize;
    let mut list = Vec::new();
    for case in &children[1 + pairs..1 + pairs + cases] {
        let mut parts = sheet.children(*case);
        let value = sheet.node(parts.next().unwrap());
        if value.kind == format::INT && signed(&value) == subject {
            list.extend(parts.map(|part| sheet.node(part).a as usize));
        }
    }
    for range in &children[1 + pairs + cases..] {
        let node = sheet.node(*range);
        let mut ends = sheet.children(*range).map(|end| signed(&sheet.node(end)));
        let (start, end) = (ends.next().unwrap(), ends.next().unwrap());
        let below = if node.a == 1 {
            subject <= end
        } else {
            subject < end
        };
        if start <= subject && below {
            list.push(node.b as usize);
        }
    }
    let mut choice = Choice::default();
    let mut answers = answers.iter();
    for block in list {
        let guard = sheet.node(children[1 + 2 * block]);
        if guard.kind == format::BOOL {
            if guard.a == 1 {
                choice.reached = Some(Reached::Body(block));
                return choice;
            }
            continue;
        }
        choice.tried.push(block);
        if *answers.next().expect("an answer for each try") {
            choice.reached = Some(Reached::Body(block));
            return choice;
        }
    }
    choice.reached = Some(match root.c {
        0 => Reached::MissingDefault,
        c => Reached::Body(c as usize - 1),
    });
    choice
}

/// All choices that the runs of the image come to for one subject and these
/// answers, whichever way the free branches go.
fn choices(
    program: &Program<'_>,
    marks: &Marks,
    subject: i64,
    answers: &[bool],
) -> Result<HashSet<Choice>, String> {
    let guard_at: HashMap<usize, usize> = marks
        .guards
        .iter()
        .map(|guard| (guard.at as usize, guard.block))
        .collect();
    let sites: HashSet<usize> = marks
        .guards
        .iter()
        .map(|guard| guard.site as usize)
        .collect();
    let mut reached_at: HashMap<usize, Reached> = marks
        .bodies
        .iter()
        .map(|(block, at)| (*at as usize, Reached::Body(*block)))
        .collect();
    if let Some(at) = marks.missing_default {
        reached_at.insert(at as usize, Reached::MissingDefault);
    }
    let mut ends = HashSet::new();
    let mut seen: HashSet<(usize, usize, Choice)> = HashSet::new();
    let mut open = vec![(0usize, 0usize, Choice::default())];
    while let Some((place, used, mut choice)) = open.pop() {
        if !seen.insert((place, used, choice.clone())) {
            continue;
        }
        if let Some(block) = guard_at.get(&place) {
            if choice.reached.is_some() {
                return Err("a guard is tried after a body".to_string());
            }
            choice.tried.push(*block);
        }
        if let Some(reached) = reached_at.get(&place) {
            if choice.reached.is_some() {
                return Err("two bodies are reached".to_string());
            }
            choice.reached = Some(*reached);
        }
        if place == program.count() {
            if used != choice.tried.len() {
                return Err("a tried guard takes no answer".to_string());
            }
            ends.insert(choice);
            continue;
        }
        let op = program.instruction(place);
        if op.kind == 15 {
            open.push((program.dispatch(op, subject), used, choice));
        } else if sites.contains(&place) {
            let answer = *answers.get(used).ok_or("a guard is tried too often")?;
            let taken = match op.kind {
                9 => answer,
                10 => !answer,
                kind => return Err(format!("kind {kind} pops a guard")),
            };
            let next = if taken { op.a as usize } else { place + 1 };
            open.push((next, used + 1, choice));
        } else {
            for way in program.ways(place, op) {
                open.push((way, used, choice.clone()));
            }
        }
    }
    Ok(ends)
}

/// The integers worth asking about: end points and case values with their
/// neighbours, the extremes and some random ones.
pub fn subjects(sheet: &Sheet<'_>, random: &mut Random) -> Vec<i64> {
    let mut out = vec![i64::MIN, i64::MIN + 1, -1, 0, 1, i64::MAX - 1, i64::MAX];
    for child in sheet.children(0) {
        let node = sheet.node(child);
        let ends: Vec<i64> = match node.kind {
            format::RANGE => sheet
                .children(child)
                .map(|end| signed(&sheet.node(end)))
                .collect(),
            format::CASE if sheet.node(child + 1).kind == format::INT => {
                vec![signed(&sheet.node(child + 1))]
            }
            _ => Vec::new(),
        };
        for end in ends {
            out.extend([end.wrapping_sub(1), end, end.wrapping_add(1)]);
        }
    }
    for _ in 0..4 {
        out.push(random.next() as i64);
        out.push(random.below(40) as i64 - 10);
    }
    out.sort_unstable();
    out.dedup();
    out
}

/// Figures of a self-test.
#[derive(Clone, Copy, Debug, Default)]
pub struct Figures {
    pub images: u64,
    pub instructions: u64,
    pub switches: u64,
    /// Subjects times lists of answers.
    pub questions: u64,
    pub guards_tried: u64,
    pub defaults: u64,
}

/// Demand 3 for one accepted sheet and its image.
pub fn demand_3(
    sheet: &Sheet<'_>,
    image: &[u32],
    marks: &Marks,
    random: &mut Random,
    figures: &mut Figures,
) -> Result<(), String> {
    all_runs(image)?;
    random_runs(image, random, 8)?;
    let program = Program::of(image)?;
    program.well_made(sheet)?;
    figures.images += 1;
    figures.instructions += u64::from(image[0]);
    if sheet.node(0).kind != format::SWITCH {
        return Ok(());
    }
    figures.switches += 1;
    for subject in subjects(sheet, random) {
        for way in 0..4 {
            let answers: Vec<bool> = (0..256)
                .map(|_| match way {
                    0 => false,
                    1 => random.chance(1, 2),
                    2 => random.chance(1, 6),
                    _ => random.chance(1, 20),
                })
                .collect();
            let expected = source_rule(sheet, subject, &answers);
            let found = choices(&program, marks, subject, &answers)?;
            if found.len() != 1 || !found.contains(&expected) {
                return Err(format!(
                    "subject {subject}: {found:?} instead of {expected:?}"
                ));
            }
            figures.questions += 1;
            figures.guards_tried += expected.tried.len() as u64;
            let default = match sheet.node(0).c {
                0 => Reached::MissingDefault,
                c => Reached::Body(c as usize - 1),
            };
            figures.defaults += u64::from(expected.reached == Some(default));
        }
    }
    Ok(())
}

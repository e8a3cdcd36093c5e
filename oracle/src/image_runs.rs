//! Request A1 of document 02 by brute force, for small images: every run one
//! by one, as 01 tells it, and for the other clauses a loop for each chain and
//! step, and for each Switch and row. It writes kinds and limits out again, and
//! shares with the check only the names of the clauses and the widths of records.

use std::collections::{BTreeSet, HashMap};

use crate::format::{CASE_WORDS, CHAIN_WORDS, CONSTANT_WORDS, NAME_WORDS};
use crate::format::{RANGE_WORDS, STEP_WORDS, SWITCH_WORDS};
use crate::image_check::Clause;
use crate::runs::{record, Instruction, Program};
use crate::sheet::Sheet;

/// The clauses that fail, as `image_check::failing` gives them, or none if the
/// runs take more than `most` steps in all.
pub fn failing(sheet: &Sheet<'_>, image: &[u32], most: usize) -> Option<BTreeSet<Clause>> {
    let Ok(program) = Program::of(image) else {
        return Some(BTreeSet::from([Clause::Sizes]));
    };
    let found = words(sheet, &program);
    if found.is_empty() {
        runs(&program, most)
    } else {
        Some(found)
    }
}

/// Everything but the runs.
fn words(sheet: &Sheet<'_>, program: &Program<'_>) -> BTreeSet<Clause> {
    let mut found = BTreeSet::new();
    let mut bad = |when: bool, clause: Clause| {
        if when {
            found.insert(clause);
        }
    };
    let size = |index: usize| program.sizes[index];
    let (count, constants, names) = (size(0), size(1), size(2));
    let (texts, locals) = (sheet.texts as u32, sheet.locals as u32);

    for place in 0..count {
        let Instruction { kind, a, b, c } = program.instruction(place as usize);
        if kind == 0 || kind > 24 {
            bad(true, Clause::Kind);
            continue;
        }
        match kind {
            1 => bad(a >= constants, Clause::PoolIndex),
            3 => bad(a > 1, Clause::Flag),
            4 => bad(a >= locals, Clause::SheetIndex),
            5 => bad(a >= names, Clause::PoolIndex),
            8..=11 => {
                bad(a <= place, Clause::Forward);
                bad(a > count, Clause::End);
            }
            12 => {
                bad(a >= names, Clause::PoolIndex);
                bad(b > 511, Clause::Flag);
                bad(c > size(3), Clause::PoolIndex);
            }
            13 => {
                bad(a >= names, Clause::PoolIndex);
                bad(b & 255 == 0, Clause::Argument);
                match b >> 8 {
                    0 => bad(c >= locals, Clause::SheetIndex),
                    1 => bad(c >= names, Clause::PoolIndex),
                    2 => bad(c != 0, Clause::Unused),
                    _ => bad(true, Clause::Flag),
                }
            }
            14 => bad(a > 255, Clause::Width),
            15 => bad(a >= size(7), Clause::PoolIndex),
            17 => {
                bad(a > 255, Clause::Width);
                bad(b > 1, Clause::Flag);
                bad(c != 0, Clause::Unused);
            }
            21 | 22 => bad(a > 65_535, Clause::Width),
            23 => bad(a >= size(5), Clause::PoolIndex),
            24 => bad(a >= size(4), Clause::PoolIndex),
            // 2, 6, 7, 16, 18, 19 and 20.
            _ => bad(a != 0, Clause::Unused),
        }
        if ![12, 13, 17].contains(&kind) {
            bad(b != 0 || c != 0, Clause::Unused);
        }
    }

    for constant in program.constants.chunks(CONSTANT_WORDS) {
        match constant[0] {
            3 | 4 => (),
            5 => {
                let surrogate = (0xD800..=0xDFFF).contains(&constant[1]);
                bad(surrogate || constant[1] > 0x10_FFFF, Clause::Constant);
                bad(constant[2] != 0, Clause::Unused);
            }
            6 => {
                bad(constant[1] >= texts, Clause::SheetIndex);
                bad(constant[2] != 0, Clause::Unused);
            }
            _ => bad(true, Clause::Kind),
        }
    }
    for name in program.names.chunks(NAME_WORDS) {
        bad(name[0] >= texts, Clause::SheetIndex);
        bad(name[2] > texts, Clause::SheetIndex);
        bad(name[1] > 1, Clause::Flag);
    }
    for token in program.tokens {
        bad(*token == 0 || *token > 65_535, Clause::Operator);
    }
    for residual in program.residuals {
        bad(*residual as usize >= sheet.nodes, Clause::SheetIndex);
    }

    for chain in program.chains.chunks(CHAIN_WORDS) {
        match chain[0] {
            0 => {
                bad(chain[1] >= locals, Clause::SheetIndex);
                bad(chain[2] >= names, Clause::PoolIndex);
            }
            1 => bad(chain[1] >= names, Clause::PoolIndex),
            2 => bad(chain[1] != 0, Clause::Unused),
            3 => bad(chain[1] != 0 || chain[2] != 0, Clause::Unused),
            _ => bad(true, Clause::Kind),
        }
        bad(chain[5] > 65_535, Clause::Width);
        let (first, steps) = (chain[3] as usize, chain[4] as usize);
        if first + steps > size(6) as usize {
            bad(true, Clause::Run);
            continue;
        }
        for step in first..first + steps {
            let step = record(program.steps, STEP_WORDS, step);
            let operands = u64::from(chain[5]);
            match step[0] {
                0 => bad(u64::from(step[1]) >= operands, Clause::Operand),
                2 => {
                    let end = u64::from(step[3]) + u64::from(step[2]);
                    bad(end > operands, Clause::Operand);
                }
                _ => (),
            }
        }
    }
    for step in program.steps.chunks(STEP_WORDS) {
        match step[0] {
            0 => {
                bad(step[2] > 1, Clause::Flag);
                bad(step[5] != 0, Clause::Unused);
            }
            1 => {
                for name in &step[1..4] {
                    bad(*name >= names, Clause::PoolIndex);
                }
                bad(step[4] > 1, Clause::Flag);
            }
            2 => {
                bad(step[1] >= names, Clause::PoolIndex);
                bad(step[2] > 255, Clause::Width);
                bad(step[4] > 1, Clause::Flag);
            }
            _ => bad(true, Clause::Kind),
        }
    }

    for (index, table) in program.switches.chunks(SWITCH_WORDS).enumerate() {
        bad(table[3] > count, Clause::End);
        let rows = match table[0] {
            0 => size(8),
            1 => size(9),
            _ => {
                bad(true, Clause::Kind);
                0
            }
        };
        let (first, length) = (table[1] as usize, table[2] as usize);
        let inside = first + length <= rows as usize;
        bad(table[0] <= 1 && !inside, Clause::Run);
        for place in 0..count {
            let op = program.instruction(place as usize);
            if op.kind != 15 || op.a as usize != index {
                continue;
            }
            bad(table[3] <= place, Clause::TableForward);
            if table[0] <= 1 && inside {
                for row in first..first + length {
                    bad(
                        program.row_target(table[0], row) <= place,
                        Clause::TableForward,
                    );
                }
            }
        }
    }
    for case in program.cases.chunks(CASE_WORDS) {
        bad(case[0] > count, Clause::End);
        bad(case[1] >= constants, Clause::PoolIndex);
    }
    for range in program.ranges.chunks(RANGE_WORDS) {
        bad(range[4] > 1, Clause::Flag);
        bad(range[5] > count, Clause::End);
    }
    found
}

/// The clauses about runs: all runs, each to its end.
fn runs(program: &Program<'_>, most: usize) -> Option<BTreeSet<Clause>> {
    let count = program.sizes[0] as usize;
    let mut found = BTreeSet::new();
    let mut depths: HashMap<usize, i64> = HashMap::new();
    let mut greatest = 0;
    // The states from which some run is still to be gone on with.
    let mut open = vec![(0usize, 0i64)];
    let mut steps = 0;
    while let Some((place, depth)) = open.pop() {
        greatest = greatest.max(depth);
        if place == count {
            if depth != 1 {
                found.insert(Clause::Remains);
            }
            continue;
        }
        if *depths.entry(place).or_insert(depth) != depth {
            return Some(BTreeSet::from([Clause::Agree]));
        }
        steps += 1;
        if steps > most {
            return None;
        }
        let op = program.instruction(place);
        let (pops, pushes, needs) = program.effect(op);
        if depth < needs {
            found.insert(Clause::Needs);
        }
        for way in program.ways(place, op) {
            open.push((way, depth - pops + pushes));
        }
    }
    if greatest != i64::from(program.sizes[11]) {
        found.insert(Clause::Depth);
    }
    Some(found)
}

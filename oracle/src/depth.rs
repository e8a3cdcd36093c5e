//! The greatest depth of an image, by a walk over its words. Written from
//! document 01; it knows nothing of how the image came about.

use crate::format::*;
use crate::image::*;

/// Where the sections of an image begin.
#[derive(Clone, Copy, Debug)]
pub struct Sections {
    pub instructions: usize,
    pub constants: usize,
    pub names: usize,
    pub tokens: usize,
    pub residuals: usize,
    pub chains: usize,
    pub steps: usize,
    pub switches: usize,
    pub cases: usize,
    pub ranges: usize,
    pub code_at: usize,
    pub positions_at: usize,
    pub constants_at: usize,
    pub names_at: usize,
    pub tokens_at: usize,
    pub residuals_at: usize,
    pub chains_at: usize,
    pub steps_at: usize,
    pub switches_at: usize,
    pub cases_at: usize,
    pub ranges_at: usize,
    pub end: usize,
}

impl Sections {
    pub fn of(image: &[u32]) -> Self {
        let size = |index: usize| image[index] as usize;
        let code_at = IMAGE_SIZES;
        let positions_at = code_at + CODE_WORDS * size(0);
        let constants_at = positions_at + size(0);
        let names_at = constants_at + CONSTANT_WORDS * size(1);
        let tokens_at = names_at + NAME_WORDS * size(2);
        let residuals_at = tokens_at + size(3);
        let chains_at = residuals_at + size(4);
        let steps_at = chains_at + CHAIN_WORDS * size(5);
        let switches_at = steps_at + STEP_WORDS * size(6);
        let cases_at = switches_at + SWITCH_WORDS * size(7);
        let ranges_at = cases_at + CASE_WORDS * size(8);
        let end = ranges_at + RANGE_WORDS * size(9);
        Sections {
            instructions: size(0),
            constants: size(1),
            names: size(2),
            tokens: size(3),
            residuals: size(4),
            chains: size(5),
            steps: size(6),
            switches: size(7),
            cases: size(8),
            ranges: size(9),
            code_at,
            positions_at,
            constants_at,
            names_at,
            tokens_at,
            residuals_at,
            chains_at,
            steps_at,
            switches_at,
            cases_at,
            ranges_at,
            end,
        }
    }

    pub fn instruction<'i>(&self, image: &'i [u32], place: usize) -> &'i [u32] {
        let at = self.code_at + CODE_WORDS * place;
        &image[at..at + CODE_WORDS]
    }

    pub fn chain<'i>(&self, image: &'i [u32], index: u32) -> &'i [u32] {
        let at = self.chains_at + CHAIN_WORDS * index as usize;
        &image[at..at + CHAIN_WORDS]
    }

    pub fn switch<'i>(&self, image: &'i [u32], index: u32) -> &'i [u32] {
        let at = self.switches_at + SWITCH_WORDS * index as usize;
        &image[at..at + SWITCH_WORDS]
    }

    /// The targets of a table's rows.
    pub fn row_targets<'i>(
        &self,
        image: &'i [u32],
        table: &[u32],
    ) -> impl Iterator<Item = u32> + 'i {
        let (at, width, place) = if table[0] == 0 {
            (self.cases_at, CASE_WORDS, 0)
        } else {
            (self.ranges_at, RANGE_WORDS, RANGE_WORDS - 1)
        };
        let first = table[1] as usize;
        (first..first + table[2] as usize).map(move |row| image[at + width * row + place])
    }
}

/// What an instruction needs below it, pops and pushes.
pub fn effect(image: &[u32], sections: &Sections, op: &[u32]) -> (u32, u32, u32) {
    let (a, b) = (op[1], op[2]);
    match op[0] {
        CONST | OP_UNIT | OP_BOOL | LOAD_LOCAL | LOAD_NAMED | LOAD_THIS | INTERPOLATE_START
        | EVAL_AST => (0, 0, 1),
        POP | JUMP_IF_TRUE | JUMP_IF_FALSE => (1, 1, 0),
        JUMP => (0, 0, 0),
        SKIP_IF_NOT_UNIT | OP_SWITCH | CHECK_SIZE => (1, 0, 0),
        CALL => (b % 256, b % 256, 1),
        CALL_REF => {
            let pops = b % 256 - u32::from(b / 256 == 0);
            (pops, pops, 1)
        }
        ROTATE => (a + 1, 0, 0),
        MAKE_FN_PTR | INTERPOLATE_END => (1, 1, 1),
        CALL_FN_PTR => (a + 1, a + 1, 1),
        INTERPOLATE_APPEND => (2, 2, 1),
        MAKE_ARRAY => (a, a, 1),
        OP_CHAIN => {
            let chain = sections.chain(image, a);
            let pops = chain[5] + u32::from(chain[0] == 3);
            (pops, pops, 1)
        }
        kind => panic!("no instruction kind {kind}"),
    }
}

/// The greatest depth at the start and after every step, over all runs. Since
/// all targets go forward, one pass in order sees every way to a place before
/// the place itself.
pub fn greatest(image: &[u32]) -> u32 {
    let sections = Sections::of(image);
    let count = sections.instructions;
    const UNSEEN: u32 = u32::MAX;
    let mut depth_at = vec![UNSEEN; count + 1];
    depth_at[0] = 0;
    let mut greatest = 0;
    let meet = |depth_at: &mut Vec<u32>, from: usize, to: usize, depth: u32| {
        assert!(from < to && to <= count, "a target goes back or out");
        assert!(
            depth_at[to] == UNSEEN || depth_at[to] == depth,
            "two depths at one place"
        );
        depth_at[to] = depth;
    };
    for place in 0..count {
        let before = depth_at[place];
        if before == UNSEEN {
            continue;
        }
        let op = sections.instruction(image, place);
        let (needs, pops, pushes) = effect(image, &sections, op);
        assert!(before >= needs, "an instruction misses what it needs");
        let after = before - pops + pushes;
        greatest = greatest.max(after);
        let target = op[1] as usize;
        match op[0] {
            JUMP => meet(&mut depth_at, place, target, after),
            JUMP_IF_TRUE | JUMP_IF_FALSE | SKIP_IF_NOT_UNIT => {
                meet(&mut depth_at, place, target, after);
                meet(&mut depth_at, place, place + 1, after);
            }
            OP_SWITCH => {
                let table = sections.switch(image, op[1]);
                meet(&mut depth_at, place, table[3] as usize, after);
                for target in sections.row_targets(image, table) {
                    meet(&mut depth_at, place, target as usize, after);
                }
            }
            _ => meet(&mut depth_at, place, place + 1, after),
        }
    }
    greatest
}

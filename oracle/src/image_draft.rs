//! An image being built, as parts that can still be changed.

use crate::depth::Sections;
use crate::format::*;
use crate::image::*;

#[derive(Clone, Default)]
pub struct ImageDraft {
    pub code: Vec<[u32; CODE_WORDS]>,
    pub positions: Vec<u32>,
    pub constants: Vec<[u32; CONSTANT_WORDS]>,
    pub names: Vec<[u32; NAME_WORDS]>,
    pub tokens: Vec<u32>,
    pub residuals: Vec<u32>,
    pub chains: Vec<[u32; CHAIN_WORDS]>,
    pub steps: Vec<[u32; STEP_WORDS]>,
    pub tables: Vec<[u32; SWITCH_WORDS]>,
    pub cases: Vec<[u32; CASE_WORDS]>,
    pub ranges: Vec<[u32; RANGE_WORDS]>,
    pub max_stack: u32,
    pub depth: u32,
}

impl ImageDraft {
    /// The parts of an image whose sizes agree.
    pub fn of(words: &[u32]) -> Self {
        fn records<const W: usize>(words: &[u32], at: usize, count: usize) -> Vec<[u32; W]> {
            words[at..at + W * count]
                .chunks_exact(W)
                .map(|record| record.try_into().unwrap())
                .collect()
        }
        let at = Sections::of(words);
        ImageDraft {
            code: records(words, at.code_at, at.instructions),
            positions: words[at.positions_at..at.constants_at].to_vec(),
            constants: records(words, at.constants_at, at.constants),
            names: records(words, at.names_at, at.names),
            tokens: words[at.tokens_at..at.residuals_at].to_vec(),
            residuals: words[at.residuals_at..at.chains_at].to_vec(),
            chains: records(words, at.chains_at, at.chains),
            steps: records(words, at.steps_at, at.steps),
            tables: records(words, at.switches_at, at.switches),
            cases: records(words, at.cases_at, at.cases),
            ranges: records(words, at.ranges_at, at.ranges),
            max_stack: words[IMAGE_SIZES - 2],
            depth: words[IMAGE_SIZES - 1],
        }
    }

    /// All words. Missing positions are 0.
    pub fn words(&self) -> Vec<u32> {
        let mut out: Vec<u32> = [
            self.code.len(),
            self.constants.len(),
            self.names.len(),
            self.tokens.len(),
            self.residuals.len(),
            self.chains.len(),
            self.steps.len(),
            self.tables.len(),
            self.cases.len(),
            self.ranges.len(),
        ]
        .iter()
        .map(|size| *size as u32)
        .collect();
        out.extend([self.max_stack, self.depth]);
        out.extend(self.code.iter().flatten());
        let position = |place: usize| self.positions.get(place).copied().unwrap_or(0);
        out.extend((0..self.code.len()).map(position));
        out.extend(self.constants.iter().flatten());
        out.extend(self.names.iter().flatten());
        out.extend(&self.tokens);
        out.extend(&self.residuals);
        out.extend(self.chains.iter().flatten());
        out.extend(self.steps.iter().flatten());
        out.extend(self.tables.iter().flatten());
        out.extend(self.cases.iter().flatten());
        out.extend(self.ranges.iter().flatten());
        out
    }

    /// Every word that is a target.
    pub fn targets(&mut self) -> impl Iterator<Item = &mut u32> {
        let code = self
            .code
            .iter_mut()
            .filter(|op| (JUMP..=SKIP_IF_NOT_UNIT).contains(&op[0]))
            .map(|op| &mut op[1]);
        code.chain(self.tables.iter_mut().map(|table| &mut table[3]))
            .chain(self.cases.iter_mut().map(|case| &mut case[0]))
            .chain(self.ranges.iter_mut().map(|range| &mut range[5]))
    }

    /// Puts instructions at a place. All ways to that place then come to the
    /// first of them; all other targets stay with their instructions.
    pub fn insert(&mut self, place: usize, code: &[[u32; CODE_WORDS]]) {
        for target in self.targets() {
            if *target as usize > place {
                *target += code.len() as u32;
            }
        }
        self.code.splice(place..place, code.iter().copied());
        let at = place.min(self.positions.len());
        self.positions
            .splice(at..at, std::iter::repeat_n(7, code.len()));
    }
}

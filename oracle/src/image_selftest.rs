//! The self-test of the image check: random images, each decided by the check
//! and by brute force, and counts of what came up.

use std::collections::BTreeMap;

use crate::depth::Sections;
use crate::format::*;
use crate::image_check::{self, Clause, Fault};
use crate::image_gen::{self, ImageSize, Pair};
use crate::image_runs;
use crate::sheet;

/// Steps that brute force takes at most for an image.
const MOST_STEPS: usize = 3_000;

#[derive(Default)]
pub struct ImageFigures {
    pub pairs: u64,
    /// Decided by brute force too.
    pub decided: u64,
    pub families: BTreeMap<&'static str, [u64; 2]>,
    pub numbers: [u64; COUNTS],
    /// By the first clause that fails.
    pub clauses: BTreeMap<Clause, u64>,
    /// Images in which only one clause fails, by that clause and the kind of
    /// the first word that it fails at.
    pub places: BTreeMap<(Clause, String), u64>,
}

impl ImageFigures {
    /// Counts a pair, with a scratch that is long enough.
    pub fn count(&mut self, pair: &Pair, number: u32, faults: &[Fault]) {
        self.pairs += 1;
        self.numbers[number as usize] += 1;
        let family = self.families.entry(pair.family).or_default();
        family[usize::from(number != 0)] += 1;
        let Some(first) = faults.iter().min_by_key(|fault| fault.clause) else {
            return;
        };
        *self.clauses.entry(first.clause).or_default() += 1;
        if faults.iter().all(|fault| fault.clause == first.clause) {
            let place = described(&pair.image, first);
            *self.places.entry((first.clause, place)).or_default() += 1;
        }
    }

    /// Lines of counts.
    pub fn lines(&self, places: bool) -> String {
        let mut out = String::new();
        let list = |all: Vec<String>| all.join(", ");
        let families = self.families.iter();
        out += &format!(
            "families (accepted and not): {}\n",
            list(
                families
                    .map(|(name, [good, bad])| format!("{name} {good} {bad}"))
                    .collect()
            )
        );
        let numbers = ANSWERS.map(|number| (number, self.numbers[number as usize]));
        out += &format!(
            "answers: {}\n",
            list(
                numbers
                    .into_iter()
                    .filter(|(_, count)| *count > 0)
                    .map(|(number, count)| format!("{number}: {count}"))
                    .collect()
            )
        );
        out += &format!(
            "first clause that fails: {}\n",
            list(
                image_check::CLAUSES
                    .iter()
                    .map(|clause| {
                        let count = self.clauses.get(clause).unwrap_or(&0);
                        format!("{clause:?} {count}")
                    })
                    .collect()
            )
        );
        if places {
            for ((clause, place), count) in &self.places {
                out += &format!("{clause:?}, {place}: {count}\n");
            }
        }
        out
    }
}

/// What kind of word a fault is at.
pub fn described(image: &[u32], fault: &Fault) -> String {
    if image.len() < IMAGE_SIZES || fault.clause == Clause::Sizes || fault.word < IMAGE_SIZES {
        return format!("size {}", fault.word);
    }
    let at = Sections::of(image);
    let word = fault.word;
    let sections = [
        ("range", at.ranges_at, RANGE_WORDS),
        ("case", at.cases_at, CASE_WORDS),
        ("table", at.switches_at, SWITCH_WORDS),
        ("step", at.steps_at, STEP_WORDS),
        ("chain", at.chains_at, CHAIN_WORDS),
        ("residual", at.residuals_at, 1),
        ("token", at.tokens_at, 1),
        ("name", at.names_at, NAME_WORDS),
        ("constant", at.constants_at, CONSTANT_WORDS),
        ("instruction", at.code_at, CODE_WORDS),
    ];
    let (name, start, width) = sections
        .into_iter()
        .find(|(_, start, _)| *start <= word)
        .expect("a section");
    let index = (word - start) % width;
    let kind = image[word - index];
    match name {
        "instruction" if index == 3 && kind == 13 => {
            format!("instruction 13, receiver {}, word 3", image[word - 1] / 256)
        }
        "instruction" | "constant" | "chain" | "step" | "table" if index > 0 => {
            format!("{name} {kind}, word {index}")
        }
        "instruction" if fault.clause > Clause::End => format!("{name} {kind}"),
        _ => format!("{name}, word {index}"),
    }
}

/// Checks one pair in both ways; the error says what is wrong.
pub fn one(pair: &Pair, figures: &mut ImageFigures) -> Result<u32, String> {
    let mut scratch = vec![9; pair.image.len() + 1];
    let number = crate::check_image(&pair.sheet, &pair.image, &mut scratch);
    let right = if number == 0 || number == NOT_WELL_MADE {
        0
    } else {
        9
    };
    if scratch.iter().any(|word| *word != right) {
        return Err("the scratch is not as it must be".to_string());
    }
    let Ok(sheet) = sheet::read(&pair.sheet) else {
        figures.count(pair, number, &[]);
        return Ok(number);
    };
    let faults = image_check::faults(&sheet, &pair.image);
    if (number == 0) != faults.is_empty() {
        return Err("number and faults differ".to_string());
    }
    figures.count(pair, number, &faults);
    if pair.image.len() > 3_000 {
        return Ok(number);
    }
    if let Some(slow) = image_runs::failing(&sheet, &pair.image, MOST_STEPS) {
        figures.decided += 1;
        let fast = image_check::failing(&sheet, &pair.image);
        if fast != slow {
            return Err(format!("the check finds {fast:?}, brute force {slow:?}"));
        }
    }
    Ok(number)
}

/// A series of pairs.
pub fn series(
    seed: u64,
    first: u64,
    count: u64,
    size: ImageSize,
    figures: &mut ImageFigures,
) -> Result<(), String> {
    for index in first..first + count {
        let pair = image_gen::pair(seed, index, size);
        one(&pair, figures).map_err(|error| {
            let family = pair.family;
            format!("{family} seed {seed} index {index}: {error}")
        })?;
        let sound = match pair.family {
            "lowered" | "built" => figures.families[pair.family][1] == 0,
            _ => true,
        };
        if !sound {
            return Err(format!(
                "{} seed {seed} index {index} is refused",
                pair.family
            ));
        }
    }
    Ok(())
}

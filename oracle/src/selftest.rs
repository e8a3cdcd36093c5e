//! The self-test: random sheets, each answer checked by other means than the
//! one that gave it.

use crate::format::*;
use crate::gen::{self, Size};
use crate::random::Random;
use crate::runs::{self, Figures};
use crate::{count, image, lower_sheet, run, sheet};

/// Check one sheet; the error says what is wrong.
pub fn one(bytes: &[u8], random: &mut Random, figures: &mut Figures) -> Result<u32, String> {
    let sheet = match sheet::read(bytes) {
        Ok(sheet) => sheet,
        Err(number) => return Ok(number),
    };
    let count = count::whole(&sheet);
    // The lowering itself, where it ends soon.
    if count.emitted <= 16 * MAX_EMITTED {
        let lowering = run(&sheet);
        if lowering.defeated != count.eval {
            return Err("the count and the lowering differ about eval".to_string());
        }
        if !lowering.defeated && lowering.marks.emitted != count.emitted {
            return Err("the count and the lowering differ".to_string());
        }
        for text in 0..sheet.texts.min(64) as u32 {
            let name = crate::tree::name(&sheet, text);
            if lowering.slots.resolve(&name) != lowering.slots.resolve_by_scan(&name) {
                return Err("a slot is resolved in two ways".to_string());
            }
        }
    }
    let lowered = match lower_sheet(bytes) {
        Ok(lowered) => lowered,
        Err(number) => return Ok(number),
    };
    if u64::from(lowered.words[10]) != count.emitted.min(65_535) {
        return Err("max_stack is not the capped count".to_string());
    }
    pools_distinct(&sheet, &lowered.words)?;
    runs::demand_3(&sheet, &lowered.words, &lowered.marks, random, figures)?;
    buffers(bytes, &lowered.words, lowered.scratch_needed(), random)?;
    Ok(0)
}

/// What becomes of lent buffers at the edges of 11 and 12.
fn buffers(bytes: &[u8], words: &[u32], needed: u64, random: &mut Random) -> Result<(), String> {
    if needed > 100_000 {
        return Ok(());
    }
    let mark = random.word() | 1;
    for (image_words, scratch_words) in [
        (words.len(), needed as usize),
        (words.len() + 5, needed as usize + 3),
        (words.len() - 1, needed as usize),
        (words.len(), needed as usize - 1),
        (words.len() - 1, needed as usize - 1),
    ] {
        let mut image = vec![mark; image_words];
        let mut scratch = vec![mark; scratch_words];
        let answer = crate::lower(bytes, &mut image, &mut scratch);
        let (expected, image_good, scratch_good) = if (scratch_words as u64) < needed {
            let kept = scratch.iter().all(|word| *word == mark);
            (
                (REFUSED_SCRATCH, 0),
                image.iter().all(|word| *word == mark),
                kept,
            )
        } else {
            let zeroed = scratch.iter().all(|word| *word == 0);
            if image_words < words.len() {
                (
                    (REFUSED_IMAGE, 0),
                    image.iter().all(|word| *word == mark),
                    zeroed,
                )
            } else {
                let (front, back) = image.split_at(words.len());
                let good = front == words && back.iter().all(|word| *word == mark);
                ((0, words.len() as u32), good, zeroed)
            }
        };
        if answer != expected || !image_good || !scratch_good {
            return Err(format!(
                "buffers {image_words} and {scratch_words}: {answer:?}"
            ));
        }
    }
    Ok(())
}

/// Whether no pool has an entry twice, by comparing each with each.
fn pools_distinct(sheet: &sheet::Sheet<'_>, words: &[u32]) -> Result<(), String> {
    let sections = crate::depth::Sections::of(words);
    let name = |index: usize| {
        let at = sections.names_at + NAME_WORDS * index;
        let mut bytes = Vec::new();
        if words[at + 2] > 0 {
            bytes.extend_from_slice(sheet.text(words[at + 2] - 1));
            bytes.extend_from_slice(b"::");
        }
        bytes.extend_from_slice(sheet.text(words[at]));
        if words[at + 1] == 1 {
            bytes.push(b'!');
        }
        bytes
    };
    let constant = |index: usize| {
        let at = sections.constants_at + CONSTANT_WORDS * index;
        let bytes = if words[at] == STRING {
            sheet.text(words[at + 1]).to_vec()
        } else {
            Vec::new()
        };
        let bits = if words[at] == STRING {
            (0, 0)
        } else {
            (words[at + 1], words[at + 2])
        };
        (words[at], bits, bytes)
    };
    let chain = |index: usize| {
        let record = sections.chain(words, index as u32);
        let first = sections.steps_at + STEP_WORDS * record[3] as usize;
        let steps = &words[first..first + STEP_WORDS * record[4] as usize];
        (record[0], record[1], record[2], record[5], steps.to_vec())
    };
    fn distinct<T: Eq + std::hash::Hash>(
        what: &str,
        all: impl Iterator<Item = T>,
    ) -> Result<(), String> {
        let mut seen = std::collections::HashSet::new();
        for item in all {
            if !seen.insert(item) {
                return Err(format!("{what} stands twice in its pool"));
            }
        }
        Ok(())
    }
    distinct("a name", (0..sections.names).map(name))?;
    distinct("a constant", (0..sections.constants).map(constant))?;
    distinct("a chain", (0..sections.chains).map(chain))?;
    distinct(
        "a token",
        (0..sections.tokens).map(|index| words[sections.tokens_at + index]),
    )?;
    distinct(
        "a residual's place",
        (0..sections.instructions).filter_map(|place| {
            let op = sections.instruction(words, place);
            (op[0] == image::EVAL_AST).then_some(op[1])
        }),
    )
}

/// A series of sheets of one profile. Gives the answers by number.
pub fn series(
    profile: &str,
    seed: u64,
    count: u64,
    size: Size,
    figures: &mut Figures,
) -> Result<[u64; COUNTS], String> {
    let mut numbers = [0u64; COUNTS];
    for index in 0..count {
        let bytes = gen::sheet(profile, seed, index, size);
        let mut random = Random::for_index(seed ^ 0x5E1F, index);
        let number = one(&bytes, &mut random, figures)
            .map_err(|error| format!("{profile} seed {seed} index {index}: {error}"))?;
        numbers[number as usize] += 1;
    }
    Ok(numbers)
}

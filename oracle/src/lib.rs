//! The right answers for sheets, images and refusals of document 01.

pub mod count;
pub mod depth;
pub mod draft;
pub mod edges;
pub mod format;
pub mod gen;
pub mod grain;
pub mod image;
pub mod image_check;
pub mod image_draft;
pub mod image_gen;
pub mod image_rows;
pub mod image_runs;
pub mod image_selftest;
pub mod limits;
pub mod random;
pub mod runs;
pub mod samples;
pub mod selftest;
pub mod sheet;
pub mod tree;

use crate::format::*;
use crate::grain::compile::Lowering;
use crate::grain::stand_in::Marks;
use crate::tree::Whole;

pub use image_check::check_image;
pub use sheet::check;

/// What lowering a sheet gives.
pub struct Image {
    pub words: Vec<u32>,
    pub nodes: u64,
    pub marks: Marks,
}

impl Image {
    /// The scratch words that this sheet asks for.
    pub fn scratch_needed(&self) -> u64 {
        scratch_needed(self.marks.emitted, self.nodes)
    }
}

/// Lower a sheet without buffers, or say which of the numbers 1 to 10 or 14
/// refuses the sheet.
pub fn lower_sheet(sheet: &[u8]) -> Result<Image, u32> {
    lower_within(sheet, u64::MAX)
}

/// The same with a scratch of so many words, so with number 11.
fn lower_within(sheet: &[u8], scratch: u64) -> Result<Image, u32> {
    let sheet = sheet::read(sheet)?;
    let emitted = emitted(&sheet)?;
    let nodes = sheet.nodes as u64;
    if scratch < scratch_needed(emitted, nodes) {
        return Err(REFUSED_SCRATCH);
    }
    let lowering = run(&sheet);
    assert_eq!(emitted, lowering.marks.emitted, "the count is wrong");
    assert!(!lowering.defeated, "the count misses an eval");
    Ok(Image {
        words: image::words(&lowering),
        nodes,
        marks: lowering.marks,
    })
}

/// How many instructions an accepted sheet emits, or 9 or 10.
fn emitted(sheet: &sheet::Sheet<'_>) -> Result<u64, u32> {
    let count = count::whole(sheet);
    if count.eval {
        return Err(REFUSED_EVAL);
    }
    if count.emitted > MAX_EMITTED {
        return Err(REFUSED_EMITTED);
    }
    Ok(count.emitted)
}

/// What a sheet needs before buffers are lent: 0 and the scratch words that
/// number 11 asks for, or which of the numbers 1 to 10 refuses it, and 0.
pub fn needs(sheet: &[u8]) -> (u32, u64) {
    let words = |sheet: sheet::Sheet<'_>| {
        let emitted = emitted(&sheet)?;
        Ok(scratch_needed(emitted, sheet.nodes as u64))
    };
    match sheet::read(sheet).and_then(words) {
        Ok(words) => (0, words),
        Err(number) => (number, 0),
    }
}

/// The borrowed lowering of an accepted sheet, whatever comes of it.
pub fn run<'a>(sheet: &sheet::Sheet<'a>) -> Lowering<'a> {
    let mut lowering = Lowering::default();
    for local in 0..sheet.locals {
        lowering
            .slots
            .declare(tree::name(sheet, sheet.local(local)));
    }
    match tree::whole(sheet) {
        Whole::Expression(expr) => lowering.expression(&expr),
        Whole::Switch(subject, cases) => {
            let lowered = lowering.switch(&subject, &cases);
            assert!(lowered || lowering.defeated);
        }
    }
    lowering
}

/// Number and word count for a sheet with the lent image and scratch, and what
/// document 01 says becomes of the two.
pub fn lower(sheet: &[u8], image: &mut [u32], scratch: &mut [u32]) -> (u32, u32) {
    let lowered = match lower_within(sheet, scratch.len() as u64) {
        Ok(lowered) => lowered,
        Err(number) => return (number, 0),
    };
    scratch.fill(0);
    let words = &lowered.words;
    if words.len() > image.len() {
        return (REFUSED_IMAGE, 0);
    }
    image[..words.len()].copy_from_slice(words);
    (0, words.len() as u32)
}

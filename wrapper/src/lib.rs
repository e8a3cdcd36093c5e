//! The proved lowering of rule sheets into images, and the check of an image beside its sheet (`include/sheet_lower.h`), as safe functions without
//! dependencies and without a heap. A sheet's node has eight words; a sheet with nodes of six words, as before version 0.4.0, is refused with 1. Since
//! version 0.5.0 a sheet in which a name has no bytes is refused with 14, which goes between 4 and 5 and counts among the numbers 1 to 8: where 1 to 8,
//! 1 to 10 or 1 to 11 is said here, 14 is meant too.
//!
//! What is said of answers and buffers is proved of the library for every sheet, every image and every buffer.

#![no_std]

use core::fmt;

/// The greatest count of instructions that a sheet may emit.
pub const MAX_EMITTED: usize = 262_143;

/// The greatest count of nodes of a sheet.
pub const MAX_NODES: usize = 131_072;

/// Words of scratch for each emitted instruction, for each node, and besides.
const PER_EMITTED: usize = 16;
const PER_NODE: usize = 16;
const BESIDES: usize = 4_096;

/// The scratch that is enough for every sheet, in words.
pub const SCRATCH_MOST: usize = scratch_words(MAX_EMITTED, MAX_NODES);

/// The scratch for a sheet of so many nodes that emits so many instructions, in words.
pub const fn scratch_words(emitted: usize, nodes: usize) -> usize {
    PER_EMITTED * emitted + PER_NODE * nodes + BESIDES
}

// Kept: bench has these four too. What is given out here is a Result, and what is compared and timed there is the number.
mod sys {
    extern "C" {
        pub fn sheet_check(sheet: *const u8, sheet_len: usize) -> u32;

        pub fn sheet_needs(sheet: *const u8, sheet_len: usize, scratch_words: *mut u64) -> u32;

        pub fn sheet_lower(
            sheet: *const u8,
            sheet_len: usize,
            image: *mut u32,
            image_len: usize,
            scratch: *mut u32,
            scratch_len: usize,
            words: *mut u64,
        ) -> u32;

        pub fn sheet_check_image(
            sheet: *const u8,
            sheet_len: usize,
            image: *const u32,
            image_len: usize,
            scratch: *mut u32,
            scratch_len: usize,
        ) -> u32;
    }
}

/// Why a sheet or an image is refused: the first of the numbers 1 to 14 that fits, in the order 1 to 4, 14, 5 to 13.
// Kept: the number, here and in `cause`. It is what the C interface answers, and callers have it as a public field.
#[derive(Clone, Copy, Debug, PartialEq, Eq)]
pub struct Refused(pub u32);

impl Refused {
    /// The cause in words.
    pub fn cause(self) -> &'static str {
        match self.0 {
            1 => "length, padding or a size is wrong",
            2 => "a node's kind, shape or field is wrong",
            3 => "a text lies outside its bytes, or is malformed",
            4 => "a text number or a block number does not exist",
            14 => "a Variable, Property, MethodCall, FnCall or local has a name of no bytes",
            5 => "the tree is deeper than 64",
            6 => "over 64 blocks, cases, ranges, or Refs in one case",
            7 => "two cases of equal kind and value",
            8 => "a kind that is not supported, or `curry` with over one argument",
            9 => "lowering reaches an `eval`",
            10 => "over 262,143 instructions emitted",
            11 => "the scratch is too short",
            12 => "the image is longer than its buffer",
            13 => "the image is not well made",
            _ => "unknown",
        }
    }
}

impl fmt::Display for Refused {
    fn fmt(&self, f: &mut fmt::Formatter<'_>) -> fmt::Result {
        write!(f, "refused {}", self.0)
    }
}

impl core::error::Error for Refused {}

/// What the library answers by a number: 0, or why it refuses.
fn answered(number: u32) -> Result<(), Refused> {
    match number {
        0 => Ok(()),
        number => Err(Refused(number)),
    }
}

/// Checks a sheet: which of the numbers 1 to 8 (14 among them) refuses it, if any does. `lower` makes the same check by itself.
pub fn check(sheet: &[u8]) -> Result<(), Refused> {
    // The pointer and the length are those of a slice, and the function only reads.
    answered(unsafe { sys::sheet_check(sheet.as_ptr(), sheet.len()) })
}

/// How many words of scratch the lowering of a sheet needs, or which of the numbers 1 to 10 (14 among them) refuses it whatever is lent.
///
/// With fewer words `lower` answers 11. With so many it lowers the sheet, or answers 12 where the image is longer than its buffer.
pub fn needs(sheet: &[u8]) -> Result<usize, Refused> {
    let mut words = 0u64;
    // The pointer and the length are those of a slice, and the function writes to the number alone.
    answered(unsafe { sys::sheet_needs(sheet.as_ptr(), sheet.len(), &mut words) })?;
    Ok(words as usize)
}

/// Lowers a sheet into the front of `image`, and answers that part.
///
/// On success the rest of `image` is kept and the scratch is zeroed. Under the numbers 1 to 11 (14 among them) both buffers are kept; under 12 the image
/// is kept and the scratch is zeroed.
pub fn lower<'a>(sheet: &[u8], image: &'a mut [u32], scratch: &mut [u32]) -> Result<&'a [u32], Refused> {
    let mut words = 0u64;
    // Pointers and lengths are those of three slices and a number, of which the mutable ones overlap nothing, as Rust's references see to.
    let number = unsafe {
        sys::sheet_lower(
            sheet.as_ptr(),
            sheet.len(),
            image.as_mut_ptr(),
            image.len(),
            scratch.as_mut_ptr(),
            scratch.len(),
            &mut words,
        )
    };
    answered(number)?;
    Ok(&image[..words as usize])
}

/// Checks that an image is well made for its sheet, with a scratch of at least as many words as the image has.
///
/// Every image that `lower` makes of a sheet is well made for it; so may be images of another compiler, and what they do is not compared with what the
/// sheet says. The image is all of `image`: of a longer buffer, lend the part that the image fills.
///
/// On success and under the number 13 all of the scratch is zeroed. Under 1 to 8 (the sheet's own, 14 among them) and 11 (the scratch is too short) it is
/// kept. No other number occurs.
pub fn check_image(sheet: &[u8], image: &[u32], scratch: &mut [u32]) -> Result<(), Refused> {
    // Pointers and lengths are those of three slices, of which the mutable one overlaps neither of the others, as Rust's references see to.
    let number = unsafe {
        sys::sheet_check_image(
            sheet.as_ptr(),
            sheet.len(),
            image.as_ptr(),
            image.len(),
            scratch.as_mut_ptr(),
            scratch.len(),
        )
    };
    answered(number)
}

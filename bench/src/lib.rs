//! The proved library, and the sheets and images that it is timed on.

pub mod clock;
pub mod guard;
pub mod hashes;
pub mod images;
pub mod sheets;
pub mod stack;
pub mod switches;
pub mod workloads;

extern "C" {
    /// crates/api. They ask nothing of their caller; a slice goes as a pointer and a length.
    // Kept: the wrapper has these four too, for itself alone. It gives out a Result, and here numbers and words are compared as they come.
    fn sheet_check(sheet: *const u8, length: usize) -> u32;
    fn sheet_needs(sheet: *const u8, length: usize, words: *mut u64) -> u32;
    fn sheet_lower(
        sheet: *const u8,
        length: usize,
        image: *mut u32,
        image_length: usize,
        scratch: *mut u32,
        scratch_length: usize,
        words: *mut u64,
    ) -> u32;
    fn sheet_check_image(
        sheet: *const u8,
        length: usize,
        image: *const u32,
        image_length: usize,
        scratch: *mut u32,
        scratch_length: usize,
    ) -> u32;
}

/// The proved check: 0, or which of the numbers 1 to 8 or 14 refuses the sheet.
pub fn check(sheet: &[u8]) -> u32 {
    // The pointer and the length are those of a slice, and the function only reads.
    unsafe { sheet_check(sheet.as_ptr(), sheet.len()) }
}

/// What a sheet needs: 0 and the scratch words that its lowering asks for, or one of the numbers 1 to 10 or 14, and 0.
// Kept: a pair and no Result, here and in `lower`: `compare` holds both against the oracle's, whatever the number is.
pub fn needs(sheet: &[u8]) -> (u32, u64) {
    let mut words = u64::MAX;
    // The pointer and the length are those of a slice, and the function writes the number alone.
    let number = unsafe { sheet_needs(sheet.as_ptr(), sheet.len(), &mut words) };
    (number, words)
}

/// The proved lowering: 0, or a number from 1 to 12 or 14, and the image's word count.
pub fn lower(sheet: &[u8], image: &mut [u32], scratch: &mut [u32]) -> (u32, u64) {
    let mut words = u64::MAX;
    // Pointers and lengths are those of slices; the two that are written to are lent alone.
    let number = unsafe {
        sheet_lower(
            sheet.as_ptr(),
            sheet.len(),
            image.as_mut_ptr(),
            image.len(),
            scratch.as_mut_ptr(),
            scratch.len(),
            &mut words,
        )
    };
    (number, words)
}

/// The proved check of an image beside its sheet: 0, or the first of the numbers 1 to 4, 14, 5 to 8, 11 and 13 that fits.
pub fn check_image(sheet: &[u8], image: &[u32], scratch: &mut [u32]) -> u32 {
    // Pointers and lengths are those of slices; the one that is written to is lent alone.
    unsafe {
        sheet_check_image(
            sheet.as_ptr(),
            sheet.len(),
            image.as_ptr(),
            image.len(),
            scratch.as_mut_ptr(),
            scratch.len(),
        )
    }
}

//! What a lowering does to the two buffers, at their edges.

use sheet_lower::{check, lower, needs, scratch_words, Refused, SCRATCH_MOST};

/// One Unit node: 17 words, one instruction.
fn unit() -> Vec<u8> {
    let words = [1u32, 0, 0, 0, 2, 1, 0, 0, 0, 0, 0, 0, 9];
    words.iter().flat_map(|word| word.to_le_bytes()).collect()
}

const IMAGE: [u32; 17] = [1, 0, 0, 0, 0, 0, 0, 0, 0, 0, 1, 1, 2, 0, 0, 0, 0];

#[test]
fn success_keeps_the_rest_and_zeroes_the_scratch() {
    let (mut image, mut scratch) = (vec![7; 20], vec![8; scratch_words(1, 1)]);
    assert_eq!(check(&unit()), Ok(()));
    assert_eq!(lower(&unit(), &mut image, &mut scratch), Ok(&IMAGE[..]));
    assert_eq!(image[17..], [7; 3]);
    assert!(scratch.iter().all(|word| *word == 0));
}

#[test]
fn a_short_scratch_keeps_both() {
    let (mut image, mut scratch) = (vec![7; 20], vec![8; scratch_words(1, 1) - 1]);
    assert_eq!(lower(&unit(), &mut image, &mut scratch), Err(Refused(11)));
    assert!(image.iter().all(|word| *word == 7) && scratch.iter().all(|word| *word == 8));
}

#[test]
fn a_short_image_is_kept_and_the_scratch_is_zeroed() {
    let (mut image, mut scratch) = (vec![7; 16], vec![8; scratch_words(1, 1)]);
    assert_eq!(lower(&unit(), &mut image, &mut scratch), Err(Refused(12)));
    assert!(image.iter().all(|word| *word == 7) && scratch.iter().all(|word| *word == 0));
}

#[test]
fn what_is_needed_is_enough_and_one_word_less_is_not() {
    let words = needs(&unit()).unwrap();
    assert_eq!(words, scratch_words(1, 1));
    assert!(words < SCRATCH_MOST);
    assert_eq!(lower(&unit(), &mut [0; 17], &mut vec![8; words]), Ok(&IMAGE[..]));
    assert_eq!(lower(&unit(), &mut [0; 17], &mut vec![8; words - 1]), Err(Refused(11)));
    assert_eq!(lower(&unit(), &mut [], &mut vec![8; words]), Err(Refused(12)));
}

#[test]
fn a_switch_needs_words_for_all_that_it_emits() {
    // A Unit, on which nothing is switched: subject, Switch, Unit, Rotate, Pop.
    let mut words = vec![2u32, 0, 0, 0, 19, 2, 1, 0, 0, 0, 0, 0, 2, 1, 0, 0, 0, 0, 0, 0, 9, 9];
    let sheet = |words: &[u32]| -> Vec<u8> { words.iter().flat_map(|word| word.to_le_bytes()).collect() };
    assert_eq!(needs(&sheet(&words)), Ok(scratch_words(5, 2)));
    // Kind 23 is not supported.
    words[12] = 23;
    assert_eq!(needs(&sheet(&words)), Err(Refused(8)));
}

#[test]
fn no_bytes_and_no_room() {
    assert_eq!(check(&[]), Err(Refused(1)));
    assert_eq!(needs(&[]), Err(Refused(1)));
    assert_eq!(lower(&[], &mut [], &mut []), Err(Refused(1)));
    assert_eq!(lower(&unit(), &mut [], &mut []), Err(Refused(11)));
}

#[test]
fn nodes_of_six_words_are_refused() {
    // One Unit: the sizes, kind to c, and its position.
    let words = [1u32, 0, 0, 0, 2, 1, 0, 0, 0, 0, 9];
    let sheet: Vec<u8> = words.iter().flat_map(|word| word.to_le_bytes()).collect();
    assert_eq!(check(&sheet), Err(Refused(1)));
}

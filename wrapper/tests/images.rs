//! The check of an image: its answers by hand from the definition of a well made image, and what it does to the scratch.

use sheet_lower::{check_image, lower, scratch_words, Refused};

const PORT: &[u8] = include_bytes!("../../samples/port.sheet");

fn words(text: &str) -> Vec<u32> {
    text.split_whitespace().map(|word| word.parse().unwrap()).collect()
}

/// The image of samples/port.sheet: 11 instructions, 2 constants, 3 names, 2 tables, a case, a range; 98 words.
fn port() -> Vec<u32> {
    words(include_str!("../../samples/port.words"))
}

/// One Unit node, and its image.
fn unit() -> (Vec<u8>, Vec<u32>) {
    let words = [1u32, 0, 0, 0, 2, 1, 0, 0, 0, 0, 0, 0, 9];
    let sheet = words.iter().flat_map(|word| word.to_le_bytes()).collect();
    (sheet, vec![1, 0, 0, 0, 0, 0, 0, 0, 0, 0, 1, 1, 2, 0, 0, 0, 0])
}

/// The answer with so many words of scratch, which must be zeroed whole under 0 and 13, and kept under the others.
fn answer(sheet: &[u8], image: &[u32], scratch: usize) -> u32 {
    let before = image.to_vec();
    let mut scratch: Vec<u32> = (1..=scratch as u32).map(|word| 7 * word).collect();
    let kept = scratch.clone();
    let number = match check_image(sheet, image, &mut scratch) {
        Ok(()) => 0,
        Err(refused) => refused.0,
    };
    if number == 0 || number == 13 {
        assert!(scratch.iter().all(|word| *word == 0), "{number}: not zeroed");
    } else {
        assert_eq!(scratch, kept, "{number}: not kept");
    }
    assert_eq!(image, before);
    number
}

#[test]
fn scratch_exact_longer_and_short() {
    let image = port();
    let length = image.len();
    assert_eq!(answer(PORT, &image, length), 0);
    assert_eq!(answer(PORT, &image, length + 1), 0);
    assert_eq!(answer(PORT, &image, 4 * length), 0);
    assert_eq!(answer(PORT, &image, length - 1), 11);
    assert_eq!(answer(PORT, &image, 0), 11);
}

#[test]
fn an_ill_made_image_zeroes_the_scratch() {
    let image = words(include_str!("../../samples/loop.words"));
    let length = image.len();
    assert_eq!(answer(PORT, &image, length), 13);
    assert_eq!(answer(PORT, &image, 4 * length), 13);
    // A short scratch goes before.
    assert_eq!(answer(PORT, &image, length - 1), 11);
}

#[test]
fn the_sheet_goes_first() {
    let twice = include_bytes!("../../samples/twice.sheet");
    for image in [port(), vec![], vec![7; 5]] {
        assert_eq!(answer(&[], &image, image.len()), 1);
        assert_eq!(answer(&PORT[..PORT.len() - 4], &image, 200), 1);
        assert_eq!(answer(twice, &image, image.len()), 7);
        assert_eq!(answer(twice, &image, 0), 7);
    }
}

#[test]
fn the_image_is_exactly_its_words() {
    let (sheet, image) = unit();
    assert_eq!(answer(&sheet, &image, 17), 0);
    assert_eq!(answer(&sheet, &[], 0), 13);
    assert_eq!(answer(&sheet, &[], 3), 13);
    assert_eq!(answer(&sheet, &image[..16], 16), 13);
    assert_eq!(answer(&sheet, &image[..11], 16), 13);
    let mut longer = image;
    longer.push(0);
    assert_eq!(answer(&sheet, &longer, 18), 13);
}

#[test]
fn an_image_beside_another_sheet() {
    let (sheet, image) = unit();
    // It names nothing of the sheet, so it is well made for each.
    assert_eq!(answer(PORT, &image, 17), 0);
    // It names locals and texts that the sheet of one Unit does not have.
    assert_eq!(answer(&sheet, &port(), 98), 13);
}

/// One word of the image of samples/port.sheet changed.
#[test]
fn one_word() {
    let cases: &[(usize, u32, u32, &str)] = &[
        (0, 12, 13, "one instruction more than the length says"),
        (0, u32::MAX, 13, "the greatest count of instructions"),
        (10, 70_000, 0, "max_stack is any word"),
        (11, 3, 13, "a depth that no run reaches"),
        (11, 1, 13, "a depth that runs exceed"),
        (12, 0, 13, "instruction 0: no such kind"),
        (12, 25, 13, "instruction 0: no such kind"),
        (13, 1, 13, "LoadLocal: no such slot"),
        (14, 1, 13, "LoadLocal: b is unused"),
        (17, 2, 13, "Switch: no such table"),
        (25, 3, 13, "CallRef: no such name"),
        (26, 0, 13, "CallRef: no argument"),
        (26, 2, 13, "CallRef: pops one more, and depths at 9 differ"),
        (26, 257, 13, "CallRef: Named pops one more, and depths at 9 differ"),
        (27, 1, 13, "CallRef: no such slot"),
        (29, 4, 13, "Jump: to itself"),
        (29, 5, 13, "Jump: to the next, and depths at 5 differ"),
        (29, 10, 0, "Jump: over the Rotate"),
        (29, 11, 13, "Jump: to the end, where two values remain"),
        (29, 12, 13, "Jump: past the end"),
        (41, 1, 0, "Const: the other constant"),
        (41, 2, 13, "Const: no such constant"),
        (49, 0, 0, "Rotate: needs one of the two"),
        (49, 2, 13, "Rotate: needs three"),
        (52, 2, 13, "Unit in place of Pop: three values remain"),
        (56, 4_000_000_000, 0, "a position is any word"),
        (67, 2, 13, "constant 0: no such kind"),
        (67, 4, 0, "constant 0: a Float has any bits"),
        (67, 5, 0, "constant 0: the Char 7"),
        (67, 6, 13, "constant 0: a String, but no text 7"),
        (73, 4, 13, "name 0: no such text"),
        (74, 1, 0, "name 0: with the mark"),
        (74, 2, 13, "name 0: the mark is 0 or 1"),
        (75, 4, 0, "name 0: the last text as namespace"),
        (75, 5, 13, "name 0: no such namespace"),
        (75, u32::MAX, 13, "name 0: no such namespace"),
        (82, 2, 13, "table 0: no such kind"),
        (83, 1, 13, "table 0: its row lies past the cases"),
        (84, 0, 0, "table 0: no row, and no run comes to 3"),
        (84, 2, 13, "table 0: its second row lies past the cases"),
        (85, 1, 13, "table 0: the default is its Switch"),
        (85, 11, 0, "table 0: the default is the end, with one value there"),
        (89, 11, 0, "table 1: the default is the end, and no run comes to 7"),
        (90, 1, 13, "case: to its Switch, as in samples/loop.words"),
        (90, 2, 0, "case: to the ranges, and no run comes to 3"),
        (90, 8, 13, "case: to 8, where depths differ"),
        (90, 12, 13, "case: past the end"),
        (91, 2, 13, "case: no such constant"),
        (96, 2, 13, "range: inclusive is 0 or 1"),
        (97, 2, 13, "range: to its Switch"),
        (97, 3, 0, "range: to the body of the case"),
    ];
    for (at, word, number, what) in cases {
        let mut image = port();
        image[*at] = *word;
        assert_eq!(answer(PORT, &image, image.len()), *number, "word {at} is {word}: {what}");
    }
}

#[test]
fn what_lower_makes_passes() {
    let (mut image, mut scratch) = (vec![0; 98], vec![0; scratch_words(100, 100)]);
    for sheet in [PORT.to_vec(), unit().0] {
        let image = lower(&sheet, &mut image, &mut scratch).unwrap();
        assert_eq!(check_image(&sheet, image, &mut scratch), Ok(()));
    }
    assert_eq!(Refused(13).cause(), "the image is not well made");
    assert_eq!(Refused(13).to_string(), "refused 13");
}

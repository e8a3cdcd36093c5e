//! The check of an image beside its sheet: hand-made images on both sides of
//! each clause, the same by brute force, what lowering makes, and the scratch.

use std::collections::BTreeSet;

use oracle::gen::{self, Size};
use oracle::image_check::{self, CLAUSES};
use oracle::image_gen::{self, ImageSize, FAMILIES};
use oracle::image_rows;
use oracle::image_runs;
use oracle::image_selftest::{self, ImageFigures};
use oracle::{check_image, lower_sheet, sheet};

#[test]
fn each_clause_on_both_sides() {
    let mut seen = BTreeSet::new();
    let mut names = BTreeSet::new();
    for row in image_rows::rows() {
        let name = &row.name;
        assert!(names.insert(name.clone()), "{name} stands twice");
        let bytes = row.sheet_bytes();
        let sheet = sheet::read(&bytes).expect(name);
        let expected: BTreeSet<_> = row.failing.into_iter().collect();
        let fast = image_check::failing(&sheet, &row.image);
        assert_eq!(fast, expected, "{name}");
        let slow = image_runs::failing(&sheet, &row.image, 1_000).expect(name);
        assert_eq!(slow, expected, "{name}, by brute force");
        let mut scratch = vec![5; row.image.len()];
        let number = check_image(&bytes, &row.image, &mut scratch);
        assert_eq!(number, row.answer(), "{name}");
        assert!(scratch.iter().all(|word| *word == 0), "{name}");
        seen.extend(row.failing);
        assert!(row.image.len() <= 60, "{name} is long");
    }
    for clause in CLAUSES {
        assert!(seen.contains(clause), "no row for {clause:?}");
    }
}

#[test]
fn numbers_and_scratch() {
    let row = &image_rows::rows()[0];
    let (bytes, image) = (row.sheet_bytes(), &row.image);
    for (words, number) in [(0, 11), (16, 11), (17, 0), (18, 0), (300, 0)] {
        let mut scratch = vec![5; words];
        assert_eq!(check_image(&bytes, image, &mut scratch), number);
        let left = if number == 11 { 5 } else { 0 };
        assert!(scratch.iter().all(|word| *word == left));
    }
    // 11 goes by the words lent, not by the image's sizes.
    let mut long = image.clone();
    long[0] = u32::MAX;
    assert_eq!(check_image(&bytes, &long, &mut [5; 17]), 13);
    assert_eq!(check_image(&bytes, &long, &mut [5; 16]), 11);
    assert_eq!(check_image(&bytes, &[], &mut []), 13);
    // The sheet's own number goes first, and keeps the scratch.
    let mut scratch = [5; 20];
    assert_eq!(check_image(&bytes[1..], image, &mut scratch), 1);
    assert_eq!(check_image(&bytes[1..], image, &mut scratch[..3]), 1);
    assert_eq!(scratch, [5; 20]);
}

#[test]
fn an_empty_name_goes_before_the_image() {
    // One Unit beside the texts `a` and one without bytes, and a local of the name
    // `a` (number 0) or the empty one (1). The image is one Unit.
    let sheet = |local: u8| {
        let words = [
            1,
            2,
            1,
            1,
            2,
            1,
            0,
            0,
            0,
            0,
            0,
            0,
            0,
            0,
            1,
            1,
            0,
            97,
            local as u32,
        ];
        words
            .iter()
            .flat_map(|word: &u32| word.to_le_bytes())
            .collect::<Vec<u8>>()
    };
    let right = vec![1, 0, 0, 0, 0, 0, 0, 0, 0, 0, 1, 1, 2, 0, 0, 0, 0];
    let mut wrong = right.clone();
    wrong[11] = 2;
    for (image, words, expected) in [
        (&right, 17, 0),
        (&right, 16, 11),
        (&right, 0, 11),
        (&wrong, 17, 13),
        (&wrong, 16, 11),
    ] {
        let mut scratch = vec![5; words];
        assert_eq!(check_image(&sheet(0), image, &mut scratch), expected);
        let mut scratch = vec![5; words];
        assert_eq!(check_image(&sheet(1), image, &mut scratch), 14);
        assert!(scratch.iter().all(|word| *word == 5));
    }
    // The image's own names are not asked for bytes: text 1 in the pool, without
    // a mark, with one, and with itself as namespace.
    let mut image = vec![1, 0, 3, 0, 0, 0, 0, 0, 0, 0, 1, 1, 2, 0, 0, 0, 0];
    image.extend([1, 0, 0, 1, 1, 0, 1, 0, 2]);
    let mut scratch = vec![5; image.len()];
    assert_eq!(check_image(&sheet(0), &image, &mut scratch), 0);
    assert!(scratch.iter().all(|word| *word == 0));
    assert_eq!(check_image(&sheet(1), &image, &mut scratch), 14);
    // Used by a LoadNamed, which no sheet that is accepted lowers to.
    image[12] = 5;
    assert_eq!(check_image(&sheet(0), &image, &mut scratch), 0);
}

/// Pairs with names without bytes in the pool are accepted, and there are sheets
/// that get 14.
#[test]
fn empty_names_come_up() {
    let (mut accepted, mut refused) = (0, 0);
    for index in 0..20_000 {
        let pair = image_gen::pair(5, index, ImageSize::SMALL);
        let mut scratch = vec![0; pair.image.len()];
        match check_image(&pair.sheet, &pair.image, &mut scratch) {
            0 => {
                let sheet = sheet::read(&pair.sheet).unwrap();
                let sections = oracle::depth::Sections::of(&pair.image);
                accepted += usize::from((0..sections.names).any(|name| {
                    let text = pair.image[sections.names_at + 3 * name];
                    sheet.text(text).is_empty()
                }));
            }
            14 => refused += 1,
            _ => (),
        }
    }
    assert!(accepted > 300, "{accepted} accepted");
    assert!(refused > 30, "{refused} refused");
}

#[test]
fn what_lowering_makes_is_well_made() {
    let mut images = 0;
    for profile in gen::ACCEPTED {
        for (size, count) in [(Size::SMALL, 1_000), (Size::NORMAL, 200)] {
            for index in 0..count {
                let bytes = gen::sheet(profile, 41, index, size);
                let Ok(image) = lower_sheet(&bytes) else {
                    continue;
                };
                let mut scratch = vec![1; image.words.len()];
                let number = check_image(&bytes, &image.words, &mut scratch);
                assert_eq!(number, 0, "{profile} {index}");
                images += 1;
            }
        }
    }
    assert!(images > 4_000);
}

#[test]
fn what_lowering_makes_at_its_limits_is_well_made() {
    for index in 0..2 * oracle::limits::EDGES.len() as u64 {
        let bytes = gen::sheet("limits", 3, index, Size::NORMAL);
        let Ok(image) = lower_sheet(&bytes) else {
            continue;
        };
        let mut scratch = vec![1; image.words.len()];
        let number = check_image(&bytes, &image.words, &mut scratch);
        assert_eq!(number, 0, "limits {index}");
    }
}

#[test]
fn brute_force_agrees() {
    let mut figures = ImageFigures::default();
    image_selftest::series(7, 0, 40_000, ImageSize::SMALL, &mut figures).unwrap();
    image_selftest::series(8, 0, 30_000, ImageSize::NORMAL, &mut figures).unwrap();
    assert!(figures.decided > 60_000);
    for clause in CLAUSES {
        let count = figures.clauses.get(clause).copied().unwrap_or(0);
        assert!(count >= 100, "{clause:?} fails first {count} times");
    }
    assert!(figures.numbers[0] > 20_000);
    assert!(figures.numbers[13] > 20_000);
    for family in FAMILIES {
        assert!(figures.families.contains_key(family), "no {family}");
    }
}

#[test]
fn a_pair_is_always_the_same() {
    for index in 0..50 {
        let one = image_gen::pair(3, index, ImageSize::NORMAL);
        let two = image_gen::pair(3, index, ImageSize::NORMAL);
        assert!(one.sheet == two.sheet && one.image == two.image);
    }
}

/// Tables that share all rows, chains that share all steps, and a Switch for
/// each table: quick all the same.
#[test]
fn shared_rows_are_quick() {
    let count: u32 = 30_000;
    let mut draft = oracle::image_draft::ImageDraft::default();
    draft.code.push([2, 0, 0, 0]);
    for table in 0..count {
        // A SkipIfNotUnit leads past each Switch.
        let next = 2 * table + 3;
        draft.code.push([11, next, 0, 0]);
        draft.code.push([15, table, 0, 0]);
        draft.tables.push([1, 0, count, 2 * count + 1]);
        draft.ranges.push([0, 0, 0, 0, 0, 2 * count + 1]);
        draft.chains.push([2, 0, 0, 0, count, count]);
        draft.steps.push([0, table, 0, 0, 0, 0]);
    }
    draft.code.push([16, 0, 0, 0]);
    draft.depth = 1;
    let bytes = image_rows::rows()[0].sheet_bytes();
    let sheet = sheet::read(&bytes).unwrap();
    let failing = |draft: &oracle::image_draft::ImageDraft| {
        let found = image_check::failing(&sheet, &draft.words());
        found.into_iter().collect::<Vec<_>>()
    };
    assert_eq!(failing(&draft), []);
    let mut wrong = draft.clone();
    wrong.chains[29_999][5] = 29_999;
    assert_eq!(failing(&wrong), [image_check::Clause::Operand]);
    let mut wrong = draft.clone();
    wrong.ranges[15_000][5] = 60_000;
    assert_eq!(failing(&wrong), [image_check::Clause::TableForward]);
    // The last Switch comes with a value more than all others.
    let mut wrong = draft;
    wrong.code[59_999] = [2, 0, 0, 0];
    wrong.depth = 2;
    assert_eq!(failing(&wrong), [image_check::Clause::Agree]);
}

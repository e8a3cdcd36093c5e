//! A short self-test with fixed seeds, and that the self-test finds faults.

use std::collections::{BTreeMap, BTreeSet};

use oracle::gen::{Size, ACCEPTED, PROFILES};
use oracle::random::Random;
use oracle::runs::{self, Figures};
use oracle::sheet::Sheet;

#[test]
fn fixed_seeds() {
    let mut figures = Figures::default();
    for profile in PROFILES.iter().filter(|profile| **profile != "limits") {
        for (size, count) in [(Size::SMALL, 200), (Size::NORMAL, 60)] {
            oracle::selftest::series(profile, 11, count, size, &mut figures).unwrap();
        }
    }
    assert!(figures.images > 800);
    assert!(figures.switches > 200);
    assert!(figures.guards_tried > 1_000);
}

#[test]
fn limits() {
    let mut figures = Figures::default();
    let count = 2 * oracle::limits::EDGES.len() as u64;
    let numbers = oracle::selftest::series("limits", 5, count, Size::NORMAL, &mut figures).unwrap();
    for number in [0, 1, 3, 14, 5, 6, 9, 10] {
        assert!(numbers[number] > 0, "no answer {number}");
    }
}

#[test]
fn every_number_comes_up() {
    let mut figures = Figures::default();
    let numbers = oracle::selftest::series("damaged", 21, 800, Size::SMALL, &mut figures).unwrap();
    for number in [0, 1, 2, 3, 4, 14, 5, 6, 7, 8, 9] {
        assert!(numbers[number] > 0, "no answer {number}");
    }
}

/// Changed targets, operands and tables are found, or the change is harmless
/// to demand 3.
#[test]
fn faults_are_found() {
    let (mut tried, mut found) = (0, 0);
    for index in 0..300 {
        let bytes = oracle::gen::sheet("switches", 31, index, Size::SMALL);
        let Ok(lowered) = oracle::lower_sheet(&bytes) else {
            continue;
        };
        let sheet = oracle::sheet::read(&bytes).unwrap();
        let sections = oracle::depth::Sections::of(&lowered.words);
        let mut random = Random::new(index);
        // Guards' jumps, rows of ranges and rows of integers.
        let mut sites: Vec<usize> = Vec::new();
        for guard in &lowered.marks.guards {
            sites.push(sections.code_at + 4 * guard.site as usize + 1);
        }
        for row in 0..sections.ranges {
            sites.push(sections.ranges_at + 6 * row + 5);
        }
        for row in 0..sections.cases {
            let constant = lowered.words[sections.cases_at + 2 * row + 1] as usize;
            if lowered.words[sections.constants_at + 3 * constant] == oracle::format::INT {
                sites.push(sections.cases_at + 2 * row);
            }
        }
        for at in sites {
            let mut words = lowered.words.clone();
            // One instruction further, which is another place in each case.
            words[at] += 1;
            tried += 1;
            let mut figures = Figures::default();
            let result = runs::demand_3(&sheet, &words, &lowered.marks, &mut random, &mut figures);
            found += u32::from(result.is_err());
        }
    }
    assert!(tried > 300);
    // A row that an earlier one hides is never asked about, nor are guards
    // that only characters and texts come to.
    assert!(found * 100 >= tried * 90, "{found} of {tried}");
}

#[test]
fn the_longest_guards() {
    // Edge 13 of the limits; see there.
    let bytes = oracle::gen::sheet("limits", 1, 26, Size::NORMAL);
    let sheet = oracle::sheet::read(&bytes).unwrap();
    let count = oracle::count::whole(&sheet);
    // Guard 0 emits 2 * 126,000 and 2 for each but the last: 503,998. Cases:
    // 64 lists with 63 mentions of it and one of This. Ranges: the first has
    // block 1, the others block 0; they begin one after the other and end so:
    // lists of 0 to 63 mentions of guard 0 behind one of This, then of 63 to 1
    // without. So 4,032 + 2,016 + 2,016 mentions of guard 0 and 64 + 64 of
    // This, each with its jump, and a jump for each of the 64 + 64 + 63 lists.
    let guards = 8_064 * (503_998 + 1) + 128 * 2 + 191;
    // Subject, two Switches, bodies 0, 1 and 63 with their jumps, Unit, Rotate,
    // Pop.
    assert_eq!(count.emitted, guards + 1 + 2 + 6 + 3);
    assert!(!count.eval);
}

/// A sort of use of a text: kind, field, and whether the node has a namespace;
/// the value of a case has the case's kind, a local is kind 0, and no use at all
/// is `UNUSED`.
type Sort = (u32, u32, bool);

const UNUSED: Sort = (0, 1, false);

/// The sorts of own names without bytes, and of other texts without bytes.
fn empty_texts(sheet: &Sheet<'_>) -> BTreeSet<Sort> {
    let empty = |text: usize| text < sheet.texts && sheet.text_bounds(text).1 == 0;
    let mut found = BTreeSet::new();
    let mut used = BTreeSet::new();
    let mut name = |sort: Sort, text: u32| {
        used.insert(text as usize);
        if empty(text as usize) {
            found.insert(sort);
        }
    };
    for index in 0..sheet.nodes {
        let node = sheet.node(index);
        let qualified = node.space != 0;
        let mut field = |field: u32, text: u32| name((node.kind, field, qualified), text);
        match node.kind {
            6 if index > 0 && sheet.node(index - 1).kind == 20 => name((20, 3, false), node.a),
            6 | 12 => field(3, node.a),
            9 | 13 => {
                field(3, node.a);
                if qualified {
                    field(6, node.space - 1);
                }
            }
            11 => {
                field(3, node.a);
                field(4, node.b);
                field(5, node.c);
            }
            _ => (),
        }
    }
    for local in 0..sheet.locals {
        name((0, 0, false), sheet.local(local));
    }
    if (0..sheet.texts).any(|text| empty(text) && !used.contains(&text)) {
        found.insert(UNUSED);
    }
    found
}

const OWN: [Sort; 7] = [
    (9, 3, false),
    (9, 3, true),
    (11, 3, false),
    (12, 3, false),
    (13, 3, false),
    (13, 3, true),
    (0, 0, false),
];

/// The uses of a text that may have no bytes.
const FREE: [Sort; 7] = [
    (6, 3, false),
    (20, 3, false),
    (11, 4, false),
    (11, 5, false),
    (9, 6, true),
    (13, 6, true),
    UNUSED,
];

/// Each sort of own name is the only one without bytes in some sheets, the first and
/// the last node are, and each other sort of text is in some that are accepted.
#[test]
fn empty_names_of_each_sort() {
    for size in [Size::SMALL, Size::NORMAL] {
        let mut own: BTreeMap<Sort, u32> = BTreeMap::new();
        let mut others: BTreeMap<Sort, u32> = BTreeMap::new();
        let (mut first, mut last, mut accepted) = (0, 0, 0);
        for index in 0..4_000 {
            let bytes = oracle::gen::sheet("names", 17, index, size);
            let Some(sheet) = Sheet::sized(&bytes) else {
                continue;
            };
            let mut found = empty_texts(&sheet);
            match oracle::check(&bytes) {
                0 => {
                    accepted += 1;
                    assert!(!found.iter().any(|sort| OWN.contains(sort)));
                    for sort in found {
                        *others.entry(sort).or_default() += 1;
                    }
                }
                14 => {
                    found.retain(|sort| OWN.contains(sort));
                    assert!(!found.is_empty());
                    if found.len() == 1 {
                        *own.entry(found.pop_first().unwrap()).or_default() += 1;
                    }
                    let mut empty = (0..sheet.nodes).filter(|index| {
                        let node = sheet.node(*index);
                        matches!(node.kind, 9 | 11 | 12 | 13) && sheet.text(node.a).is_empty()
                    });
                    let one = empty.next();
                    first += u32::from(one == Some(0));
                    last += u32::from(empty.next_back().or(one) == Some(sheet.nodes - 1));
                }
                _ => (),
            }
        }
        assert!(accepted > 1_500, "{accepted} accepted");
        assert!(first > 50 && last > 50, "{first} first, {last} last");
        for sort in OWN {
            assert!(own.get(&sort).copied().unwrap_or(0) > 50, "{sort:?}");
        }
        for sort in FREE {
            assert!(others.get(&sort).copied().unwrap_or(0) > 50, "{sort:?}");
        }
    }
}

/// The causes that come after an empty name: the number, and what a sheet
/// without the cause passes.
type Later = (usize, fn(&Sheet<'_>) -> bool);

const LATER: [Later; 5] = [
    (5, |sheet| sheet.depth_ok()),
    (6, |sheet| sheet.arms_ok()),
    (7, |sheet| sheet.cases_ok()),
    (8, |sheet| sheet.kinds_ok()),
    (9, |sheet| !oracle::count::whole(sheet).eval),
];

/// An empty name stands beside a cause of each other number, before it and after it.
#[test]
fn empty_names_beside_other_causes() {
    for profile in ["names", "damaged"] {
        let mut pairs = [0u32; 15];
        for index in 0..16_000 {
            let bytes = oracle::gen::sheet(profile, 19, index, Size::SMALL);
            let Some(sheet) = Sheet::sized(&bytes) else {
                continue;
            };
            let number = oracle::check(&bytes) as usize;
            match number {
                2..=4 => {
                    let found = empty_texts(&sheet);
                    pairs[number] += u32::from(found.iter().any(|sort| OWN.contains(sort)));
                }
                14 => {
                    let later = LATER.iter().find(|(_, passes)| !passes(&sheet));
                    pairs[later.map_or(0, |(number, _)| *number)] += 1;
                }
                _ => (),
            }
        }
        for number in 2..=9 {
            assert!(pairs[number] > 15, "{profile}: {pairs:?}");
        }
    }
}

/// All profiles but `names`, `damaged` and `limits` give all own names bytes, and
/// each other sort of text comes up without bytes.
#[test]
fn ordinary_sheets_have_names() {
    let mut uses: BTreeMap<Sort, u32> = BTreeMap::new();
    for profile in ACCEPTED.iter().filter(|profile| **profile != "names") {
        for size in [Size::SMALL, Size::NORMAL] {
            for index in 0..1_000 {
                let bytes = oracle::gen::sheet(profile, 23, index, size);
                assert_ne!(oracle::check(&bytes), 14, "{profile} {index}");
                let sheet = Sheet::sized(&bytes).unwrap();
                for sort in empty_texts(&sheet) {
                    assert!(!OWN.contains(&sort), "{profile} {index}: {sort:?}");
                    *uses.entry(sort).or_default() += 1;
                }
            }
        }
    }
    for sort in FREE {
        let count = uses.get(&sort).copied().unwrap_or(0);
        assert!(count > 0, "{sort:?} does not come up");
    }
}

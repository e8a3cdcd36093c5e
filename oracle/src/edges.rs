//! What the program `edges` must print: the edges of document 01, each sheet made here.
//!
//! Node n has position n + 1. The buffers hold noise before each lowering.

use crate::draft::Draft;
use crate::format::*;

const IMAGE_ROOM: usize = 32_768;
const SCRATCH_ROOM: usize = 1_052_704;

fn noise(index: usize) -> u32 {
    2_863_311_530 - (index % 65_536) as u32
}

fn checksum(words: &[u32]) -> u64 {
    words
        .iter()
        .fold(0, |sum, word| (31 * sum + u64::from(*word)) % 4_294_967_291)
}

/// The line of an edge.
fn line(label: &str, sheet: &[u8], image_room: usize, scratch_room: usize) -> String {
    let mut image: Vec<u32> = (0..image_room).map(noise).collect();
    let mut scratch: Vec<u32> = (0..scratch_room).map(noise).collect();
    let (number, words) = crate::lower(sheet, &mut image, &mut scratch);
    let mut line = format!(
        "{label}: number {number}, words {words}, image {}, scratch {}",
        checksum(&image),
        checksum(&scratch)
    );
    if number == 0 {
        line.push_str(", sizes");
        for word in &image[..IMAGE_SIZES] {
            line.push_str(&format!(" {word}"));
        }
    }
    line.push('\n');
    line
}

fn finished(mut draft: Draft) -> Vec<u8> {
    draft.positions = (1..=draft.nodes.len() as u32).collect();
    draft.to_bytes()
}

fn units(draft: &mut Draft, count: usize) {
    for _ in 0..count {
        draft.leaf(UNIT, [0, 0, 0], 0);
    }
}

fn deep(levels: usize) -> Vec<u8> {
    let mut draft = Draft::new();
    for _ in 1..levels {
        draft.open(ARRAY, [0, 0, 0], 0);
    }
    units(&mut draft, 1);
    for _ in 1..levels {
        draft.close();
    }
    finished(draft)
}

fn array(count: usize) -> Vec<u8> {
    let mut draft = Draft::new();
    draft.open(ARRAY, [0, 0, 0], 0);
    units(&mut draft, count);
    draft.close();
    finished(draft)
}

fn coalesce(count: usize, empty: usize) -> Vec<u8> {
    let mut draft = Draft::new();
    draft.open(COALESCE, [0, 0, 0], 0);
    units(&mut draft, count);
    for _ in 0..empty {
        draft.leaf(INTERPOLATED, [0, 0, 0], 0);
    }
    draft.close();
    finished(draft)
}

fn call(name: &str, arguments: usize) -> Vec<u8> {
    let mut draft = Draft::new();
    let name = draft.text(name.as_bytes());
    draft.open(FN_CALL, [name, 0, 0], 0);
    units(&mut draft, arguments);
    draft.close();
    finished(draft)
}

fn method(name: &str, arguments: usize) -> Vec<u8> {
    let mut draft = Draft::new();
    let name = draft.text(name.as_bytes());
    draft.open(DOT, [0, 0, 0], 0);
    draft.leaf(THIS, [0, 0, 0], 0);
    draft.open(METHOD_CALL, [name, 0, 0], 0);
    units(&mut draft, arguments);
    draft.close();
    draft.close();
    finished(draft)
}

/// One block, whose guard is `this`, and ranges within one another.
fn ranges(count: i64) -> Vec<u8> {
    let mut draft = Draft::new();
    draft.open(SWITCH, [1, 0, 0], 0);
    units(&mut draft, 1);
    draft.leaf(THIS, [0, 0, 0], 0);
    units(&mut draft, 1);
    for range in 0..count {
        draft.open(RANGE, [(range % 2) as u32, 0, 0], 0);
        draft.int(range, 0);
        draft.int(200 - range, 0);
        draft.close();
    }
    draft.close();
    finished(draft)
}

/// All lines.
pub fn lines() -> String {
    let edges = [
        ("depth 64", deep(64)),
        ("depth 65", deep(65)),
        ("ranges 64", ranges(64)),
        ("ranges 65", ranges(65)),
        ("emitted 262143", coalesce(3, 65_534)),
        ("emitted 262144", coalesce(2, 65_535)),
        ("elements 65535", array(65_535)),
        ("elements 65536", array(65_536)),
        ("arguments 255", call("g", 255)),
        ("arguments 256", call("g", 256)),
        ("arguments of call 256", call("call", 256)),
        ("arguments of call 257", call("call", 257)),
        ("arguments of a method 255", method("g", 255)),
        ("arguments of a method 256", method("g", 256)),
        ("arguments of the method call 255", method("call", 255)),
        ("arguments of the method call 256", method("call", 256)),
        ("ranges 20", ranges(20)),
    ];
    let mut out = String::new();
    for (label, sheet) in &edges {
        out.push_str(&line(label, sheet, IMAGE_ROOM, SCRATCH_ROOM));
    }
    let sheet = ranges(20);
    let lowered = crate::lower_sheet(&sheet).expect("it lowers");
    let image = lowered.words.len();
    let scratch = lowered.scratch_needed() as usize;
    let full = "image exactly full, scratch exactly enough";
    out.push_str(&line(full, &sheet, image, scratch));
    out.push_str(&line("image one word short", &sheet, image - 1, scratch));
    out.push_str(&line("scratch one word short", &sheet, image, scratch - 1));
    out
}

#[cfg(test)]
mod tests {
    /// The two counts of the edge 10: what the sheets emit.
    #[test]
    fn emitted() {
        let emitted = |sheet: &[u8]| crate::lower_sheet(sheet).map(|image| image.marks.emitted);
        assert_eq!(emitted(&super::coalesce(3, 65_534)), Ok(262_143));
        assert_eq!(emitted(&super::coalesce(2, 65_535)), Err(10));
        assert_eq!(emitted(&super::coalesce(2, 65_534)), Ok(262_140));
    }

    #[test]
    fn numbers() {
        let numbers: Vec<String> = super::lines()
            .lines()
            .map(|line| {
                let rest = line.split("number ").nth(1).unwrap();
                rest.split(',').next().unwrap().to_string()
            })
            .collect();
        let expected = "0 5 0 6 11 10 11 0 0 0 0 0 0 0 0 0 0 0 12 11";
        assert_eq!(numbers.join(" "), expected);
    }
}

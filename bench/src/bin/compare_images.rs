//! Compares the proved check of an image beside its sheet with the oracle on random pairs, in one process: the number, every word of the
//! scratch and the words around it, and that sheet and image stay as they were.
//!
//! `compare_images [--seed S] [--count N] [--first I] [--small] [--out NAME]`: seed 1 and 1,000,000 pairs from index 0 where nothing is
//! said. The pair number i of a seed is always the same one. Ends with status 1 at the first difference, whose sheet and image are written
//! to NAME.sheet and NAME.image (`differs`), the image in little-endian words.

use oracle::format::{ANSWERS, COUNTS};
use oracle::image_check::{self, Fault};
use oracle::image_gen::{self, ImageSize, Pair};
use oracle::image_selftest::ImageFigures;
use oracle::random::Random;
use std::collections::BTreeMap;
use std::process::ExitCode;
use std::time::Instant;

/// Words before and after the lent scratch.
const AROUND: usize = 8;
/// Words of noise; buffers are filled with parts of it.
const NOISE: usize = 1 << 22;

struct Driver {
    noise: Vec<u32>,
    ours: Vec<u32>,
    rust: Vec<u32>,
    figures: ImageFigures,
    /// Checks by each side, by number and by the length of the scratch.
    runs: u64,
    numbers: [u64; COUNTS],
    scratches: BTreeMap<&'static str, u64>,
}

impl Driver {
    /// One check by each side with a scratch of so many words; a difference in words.
    fn run(&mut self, pair: &Pair, scratch: usize, random: &mut Random) -> Option<String> {
        let whole = scratch + 2 * AROUND;
        let from = random.below(NOISE - whole);
        for copy in [&mut self.ours, &mut self.rust] {
            copy.clear();
            copy.extend_from_slice(&self.noise[from..from + whole]);
        }
        let lent = AROUND..AROUND + scratch;
        let (sheet, image) = (pair.sheet.clone(), pair.image.clone());
        let number = bench::check_image(&sheet, &image, &mut self.ours[lent.clone()]);
        let right = oracle::check_image(&pair.sheet, &pair.image, &mut self.rust[lent]);
        self.runs += 1;
        self.numbers[right as usize] += 1;
        if number != right {
            return Some(format!("ours {number}, the oracle {right}"));
        }
        if sheet != pair.sheet || image != pair.image {
            return Some(format!("number {number}: the sheet or the image changed"));
        }
        let at = (0..whole).find(|at| self.ours[*at] != self.rust[*at])?;
        let (ours, rust) = (self.ours[at], self.rust[at]);
        let place = at as isize - AROUND as isize;
        Some(format!(
            "number {number}: scratch word {place} is {ours}, the oracle's {rust}"
        ))
    }

    /// Compares on a pair with a scratch of exactly the image's length, and of another one.
    fn pair(&mut self, pair: &Pair, random: &mut Random) -> Option<String> {
        let words = pair.image.len();
        let other = match random.below(6) {
            0 => ("none", 0),
            1 => ("shorter", random.below(words + 1)),
            2 | 3 => ("one short", words.saturating_sub(1)),
            4 => ("one more", words + 1),
            _ => ("longer", words + random.below(300)),
        };
        for (name, scratch) in [("exact", words), other] {
            *self.scratches.entry(name).or_default() += 1;
            if let Some(difference) = self.run(pair, scratch, random) {
                return Some(format!("scratch of {scratch} words: {difference}"));
            }
        }
        None
    }

    fn print(&self, seconds: f64) {
        println!(
            "{} pairs, {} checks by each side, {seconds:.1} s",
            self.figures.pairs, self.runs
        );
        println!("with exact scratch:");
        print!("{}", self.figures.lines(false));
        let numbers: Vec<String> = ANSWERS
            .iter()
            .map(|number| (number, self.numbers[*number as usize]))
            .filter(|(_, count)| *count > 0)
            .map(|(number, count)| format!("{number}: {count}"))
            .collect();
        println!("answers of all checks: {}", numbers.join(", "));
        let scratches: Vec<String> = self
            .scratches
            .iter()
            .map(|(name, count)| format!("{name} {count}"))
            .collect();
        println!("scratches: {}", scratches.join(", "));
    }
}

/// What the oracle finds wrong.
fn faults(pair: &Pair) -> (u32, Vec<Fault>) {
    match oracle::sheet::read(&pair.sheet) {
        Err(number) => (number, Vec::new()),
        Ok(sheet) => {
            let faults = image_check::faults(&sheet, &pair.image);
            (if faults.is_empty() { 0 } else { 13 }, faults)
        }
    }
}

fn main() -> ExitCode {
    let (mut seed, mut count, mut first) = (1, 1_000_000, 0);
    let mut size = ImageSize::NORMAL;
    let mut out = "differs".to_string();
    let mut words = std::env::args().skip(1);
    while let Some(word) = words.next() {
        let mut value = || words.next().expect("a value after the option");
        match word.as_str() {
            "--seed" => seed = value().parse().expect("a number"),
            "--count" => count = value().parse().expect("a number of pairs"),
            "--first" => first = value().parse().expect("a number"),
            "--small" => size = ImageSize::SMALL,
            "--out" => out = value(),
            _ => panic!("no option {word}"),
        }
    }
    let mut random = Random::new(seed ^ 0x4015E);
    let mut driver = Driver {
        noise: (0..NOISE).map(|_| random.word()).collect(),
        ours: Vec::new(),
        rust: Vec::new(),
        figures: ImageFigures::default(),
        runs: 0,
        numbers: [0; COUNTS],
        scratches: BTreeMap::new(),
    };
    let start = Instant::now();
    for index in first..first + count {
        let pair = image_gen::pair(seed, index, size);
        let mut random = Random::for_index(seed ^ 0xC0_4A2E, index);
        let (number, faults) = faults(&pair);
        driver.figures.count(&pair, number, &faults);
        if let Some(difference) = driver.pair(&pair, &mut random) {
            driver.print(start.elapsed().as_secs_f64());
            println!(
                "DIFFERENCE at pair {index} of seed {seed}, family {}: {difference}",
                pair.family
            );
            println!("the oracle finds {:?}", &faults[..faults.len().min(5)]);
            let image: Vec<u8> = pair.image.iter().flat_map(|w| w.to_le_bytes()).collect();
            std::fs::write(format!("{out}.sheet"), &pair.sheet).expect("the sheet is written");
            std::fs::write(format!("{out}.image"), image).expect("the image is written");
            println!("they stand in {out}.sheet and {out}.image");
            return ExitCode::FAILURE;
        }
    }
    driver.print(start.elapsed().as_secs_f64());
    println!("0 differences (seed {seed})");
    ExitCode::SUCCESS
}

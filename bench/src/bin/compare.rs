//! Compares the proved lowering with the oracle on random sheets, in one process: number, word count, every word of image and scratch,
//! and the words around both; and what each sheet needs, number and words of scratch.
//!
//! `compare [--guard W] [--seed S] [--count N | --seconds S] [--profile P] [--out FILE]`: seed 1 and 60 seconds where nothing is said. The
//! sheet number i of a seed is always the same one. Ends with status 1 at the first difference, whose sheet is written to FILE
//! (`differs.sheet`).
//!
//! With `--guard W` it is seen besides that the library uses no word of its scratch past W for each emitted instruction, W for each node and
//! 4,096: those words lie on closed pages, and nothing may touch them before all words in front are cleared. That goes upward by
//! the `memset` below. Where the scratch is not longer, the closed pages are right behind it.

use bench::guard::{Guarded, Touch};
use oracle::format::{ANSWERS, COUNTS, SCRATCH_BASE};
use oracle::gen::{self, Size, PROFILES};
use oracle::random::Random;
use std::collections::BTreeMap;
use std::process::ExitCode;
use std::time::{Duration, Instant};

/// Words before and after each lent buffer.
const AROUND: usize = 8;
/// Words of noise; buffers are filled with parts of it.
const NOISE: usize = 1 << 23;

/// The C library's function, for the proved library too: it writes upward, which the C library's own need not.
///
/// # Safety
/// As C says of it.
#[no_mangle]
pub unsafe extern "C" fn memset(to: *mut u8, byte: i32, count: usize) -> *mut u8 {
    std::arch::asm!(
        "rep stosb",
        inout("rdi") to => _,
        inout("rcx") count => _,
        in("al") byte as u8,
        options(nostack, preserves_flags),
    );
    to
}

/// Two copies of a buffer with words around it.
#[derive(Default)]
struct Pair {
    ours: Vec<u32>,
    rust: Vec<u32>,
}

impl Pair {
    /// Noise in both, the same, for a buffer of so many words.
    fn fill(&mut self, noise: &[u32], words: usize, random: &mut Random) {
        let whole = words + 2 * AROUND;
        let from = random.below(noise.len() - whole);
        let part = &noise[from..from + whole];
        for copy in [&mut self.ours, &mut self.rust] {
            copy.clear();
            copy.extend_from_slice(part);
        }
    }

    fn differs(&self) -> Option<usize> {
        (self.ours != self.rust).then(|| {
            (0..self.ours.len())
                .find(|at| self.ours[*at] != self.rust[*at])
                .unwrap()
        })
    }
}

fn inner(buffer: &mut [u32]) -> &mut [u32] {
    let end = buffer.len() - AROUND;
    &mut buffer[AROUND..end]
}

/// What is counted.
#[derive(Default)]
struct Tally {
    sheets: u64,
    runs: u64,
    bytes: u64,
    largest: usize,
    profiles: BTreeMap<&'static str, u64>,
    damaged: u64,
    numbers: [u64; COUNTS],
    images: BTreeMap<&'static str, u64>,
    scratches: BTreeMap<&'static str, u64>,
    /// Calls with closed pages, and those where the clearing came to them.
    guarded: u64,
    cleared: u64,
}

/// Closed pages behind the words of scratch that may be used: so many for each emitted instruction and each node.
struct Guard {
    each: u64,
    pages: Guarded,
}

impl Guard {
    fn usable(&self, emitted: u64, nodes: u64) -> usize {
        (self.each * (emitted + nodes) + SCRATCH_BASE) as usize
    }
}

struct Driver {
    noise: Vec<u32>,
    image: Pair,
    scratch: Pair,
    guard: Option<Guard>,
    tally: Tally,
}

impl Driver {
    /// The library's lowering, and the word past the first `usable` words of scratch that it uses, if it is looked for and there is one.
    fn ours(&mut self, sheet: &[u8], usable: usize) -> ((u32, u64), Option<usize>) {
        let image = inner(&mut self.image.ours);
        let Some(guard) = &mut self.guard else {
            let scratch = inner(&mut self.scratch.ours);
            return (bench::lower(sheet, image, scratch), None);
        };
        let (answer, touch) = guard
            .pages
            .run(&mut self.scratch.ours, AROUND, usable, |scratch| {
                bench::lower(sheet, image, scratch)
            });
        self.tally.guarded += 1;
        self.tally.cleared += u64::from(touch == Touch::Cleared);
        match touch {
            Touch::Used(word) => (answer, Some(word)),
            _ => (answer, None),
        }
    }

    /// One lowering by each side with buffers of these sizes; a difference in words.
    fn run(&mut self, sheet: &[u8], sizes: [usize; 3], random: &mut Random) -> Option<String> {
        let [image, scratch, usable] = sizes;
        self.image.fill(&self.noise, image, random);
        self.scratch.fill(&self.noise, scratch, random);
        let ((number, words), used) = self.ours(sheet, usable);
        if let Some(word) = used {
            return Some(format!("word {word} of the scratch is used, past {usable}"));
        }
        let (right, length) = oracle::lower(
            sheet,
            inner(&mut self.image.rust),
            inner(&mut self.scratch.rust),
        );
        self.tally.runs += 1;
        self.tally.numbers[right as usize] += 1;
        if (number, words) != (right, u64::from(length)) {
            return Some(format!(
                "ours {number} with {words} words, the oracle {right} with {length}"
            ));
        }
        for (name, pair) in [("image", &self.image), ("scratch", &self.scratch)] {
            if let Some(at) = pair.differs() {
                let place = at as isize - AROUND as isize;
                let (ours, rust) = (pair.ours[at], pair.rust[at]);
                return Some(format!(
                    "number {number}: {name} word {place} is {ours}, the oracle's {rust}"
                ));
            }
        }
        None
    }

    /// Compares on a sheet with several sizes of the buffers.
    fn sheet(&mut self, sheet: &[u8], random: &mut Random) -> Option<String> {
        self.tally.sheets += 1;
        self.tally.bytes += sheet.len() as u64;
        self.tally.largest = self.tally.largest.max(sheet.len());
        let (ours, right) = (bench::needs(sheet), oracle::needs(sheet));
        if ours != right {
            return Some(format!("needs {ours:?}, by the oracle {right:?}"));
        }
        let Ok(lowered) = oracle::lower_sheet(sheet) else {
            let sizes = [0, 1, 64, 5_000, 20_000];
            let (image, scratch) = (*random.pick(&sizes), *random.pick(&sizes));
            return self.differs(sheet, [image, scratch, scratch], random);
        };
        let words = lowered.words.len();
        let needed = lowered.scratch_needed() as usize;
        let usable = self.guard.as_ref().map_or(needed, |guard| {
            guard.usable(lowered.marks.emitted, lowered.nodes)
        });
        // The exact sizes, and one choice of any two.
        *self.tally.images.entry("full").or_default() += 1;
        *self.tally.scratches.entry("exact").or_default() += 1;
        if let Some(difference) = self.differs(sheet, [words, needed, usable], random) {
            return Some(difference);
        }
        let (image_name, image) = match random.below(8) {
            0 | 1 => ("one short", words - 1),
            2 => ("shorter", random.below(words)),
            3 => ("full", words),
            4 => ("one more", words + 1),
            _ => ("ample", words + random.below(300)),
        };
        let (scratch_name, scratch) = match random.below(8) {
            0 => ("one short", needed - 1),
            1 => ("shorter", random.below(needed)),
            2..=4 => ("exact", needed),
            5 => ("one more", needed + 1),
            _ => ("ample", needed + random.below(3_000)),
        };
        *self.tally.images.entry(image_name).or_default() += 1;
        *self.tally.scratches.entry(scratch_name).or_default() += 1;
        self.differs(sheet, [image, scratch, usable], random)
    }

    /// The same with the sizes given: words of the image, of the scratch, and those of the scratch that may be used.
    fn differs(&mut self, sheet: &[u8], sizes: [usize; 3], random: &mut Random) -> Option<String> {
        let difference = self.run(sheet, sizes, random)?;
        let [image, scratch, _] = sizes;
        Some(format!(
            "image of {image} words, scratch of {scratch}: {difference}"
        ))
    }

    fn print(&self, seconds: f64) {
        let tally = &self.tally;
        println!(
            "{} sheets with their needs, {} lowerings by each side, {:.1} s",
            tally.sheets, tally.runs, seconds
        );
        println!(
            "{} bytes in all, the largest sheet {}",
            tally.bytes, tally.largest
        );
        let list = |what: &str, counts: &BTreeMap<&'static str, u64>| {
            let all: Vec<String> = counts
                .iter()
                .map(|(name, count)| format!("{name} {count}"))
                .collect();
            println!("{what}: {}", all.join(", "));
        };
        list("profiles", &tally.profiles);
        println!("copies damaged here: {}", tally.damaged);
        // All but 13, which no lowering gives.
        let numbers: Vec<String> = ANSWERS[..COUNTS - 1]
            .iter()
            .map(|number| format!("{number}: {}", tally.numbers[*number as usize]))
            .collect();
        println!("answers: {}", numbers.join(", "));
        list("images", &tally.images);
        list("scratches", &tally.scratches);
        if self.guard.is_some() {
            println!(
                "closed pages: {} lowerings, the clearing came to them in {}",
                tally.guarded, tally.cleared
            );
        }
    }
}

/// Bytes or words changed, the end cut off, or bytes added.
fn damage(sheet: &mut Vec<u8>, random: &mut Random) {
    if sheet.is_empty() {
        return;
    }
    for _ in 0..random.between(1, 3) {
        match random.below(8) {
            0 => {
                let at = random.below(sheet.len());
                sheet[at] ^= 1 << random.below(8);
            }
            1 => {
                let at = random.below(sheet.len());
                sheet[at] = random.word() as u8;
            }
            2 => sheet.truncate(sheet.len() - random.between(1, 8).min(sheet.len() - 1)),
            3 => sheet.truncate(random.between(1, sheet.len())),
            4 => sheet.extend((0..random.between(1, 9)).map(|_| random.word() as u8 & 1)),
            _ => {
                let at = 4 * random.below(sheet.len().div_ceil(4));
                let Some(word) = sheet.get_mut(at..at + 4) else {
                    continue;
                };
                let old = u32::from_le_bytes((&*word).try_into().unwrap());
                let new = match random.below(6) {
                    0 => old.wrapping_add(1),
                    1 => old.wrapping_sub(1),
                    2 => random.below(26) as u32,
                    3 => random.word(),
                    4 => old ^ 1,
                    _ => *random.pick(&[0, 1, u32::MAX, 0x8000_0000, 65_535, 65_536]),
                };
                word.copy_from_slice(&new.to_le_bytes());
            }
        }
    }
}

/// The sheet number `index`, with its profile and whether it was damaged here.
fn sheet(
    seed: u64,
    index: u64,
    only: Option<&'static str>,
    random: &mut Random,
) -> (&'static str, bool, Vec<u8>) {
    let common = &PROFILES[..PROFILES.len() - 1];
    let rare = random.chance(1, 4_000);
    let profile = only.unwrap_or(if rare {
        "limits"
    } else {
        common[(index % common.len() as u64) as usize]
    });
    let size = match random.below(1_000) {
        0 => Size {
            nodes: 20_000,
            small: false,
        },
        1..=9 => Size {
            nodes: 3_000,
            small: false,
        },
        10..=99 => Size {
            nodes: 500,
            small: false,
        },
        100..=399 => Size::NORMAL,
        400..=599 => Size {
            nodes: 40,
            small: random.chance(1, 2),
        },
        _ => Size::SMALL,
    };
    let mut sheet = gen::sheet(profile, seed, index, size);
    let damaged = random.chance(1, 4);
    if damaged {
        damage(&mut sheet, random);
    }
    (profile, damaged, sheet)
}

fn main() -> ExitCode {
    let (mut seed, mut count, mut seconds) = (1, None, None);
    let (mut only, mut guard) = (None, None);
    let mut out = "differs.sheet".to_string();
    let mut words = std::env::args().skip(1);
    while let Some(word) = words.next() {
        let mut value = || words.next().expect("a value after the option");
        match word.as_str() {
            "--seed" => seed = value().parse().expect("a number"),
            "--count" => count = Some(value().parse::<u64>().expect("a number of sheets")),
            "--seconds" => seconds = Some(value().parse::<f64>().expect("a number of seconds")),
            "--profile" => {
                let name = value();
                only = PROFILES.iter().copied().find(|profile| *profile == name);
                assert!(only.is_some(), "no profile {name}");
            }
            "--out" => out = value(),
            "--guard" => {
                guard = Some(Guard {
                    each: value().parse().expect("a number of words"),
                    pages: Guarded::new(),
                })
            }
            _ => panic!("no option {word}"),
        }
    }
    let limit = match (seconds, count) {
        (Some(seconds), _) => Duration::from_secs_f64(seconds),
        (None, None) => Duration::from_secs(60),
        (None, Some(_)) => Duration::MAX,
    };
    let mut random = Random::new(seed ^ 0x4015E);
    let mut driver = Driver {
        noise: (0..NOISE).map(|_| random.word()).collect(),
        image: Pair::default(),
        scratch: Pair::default(),
        guard,
        tally: Tally::default(),
    };
    let start = Instant::now();
    for index in 0..count.unwrap_or(u64::MAX) {
        if limit <= start.elapsed() {
            break;
        }
        let mut random = Random::for_index(seed ^ 0xC0_4A2E, index);
        let (profile, damaged, sheet) = sheet(seed, index, only, &mut random);
        *driver.tally.profiles.entry(profile).or_default() += 1;
        driver.tally.damaged += u64::from(damaged);
        if let Some(difference) = driver.sheet(&sheet, &mut random) {
            driver.print(start.elapsed().as_secs_f64());
            println!("DIFFERENCE at sheet {index} of seed {seed}, profile {profile}: {difference}");
            std::fs::write(&out, &sheet).expect("the differing sheet is written");
            println!("the sheet stands in {out}");
            return ExitCode::FAILURE;
        }
    }
    driver.print(start.elapsed().as_secs_f64());
    println!("differences: 0 (seed {seed})");
    ExitCode::SUCCESS
}

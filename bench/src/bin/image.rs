//! Times of the check of an image, in one process.
//!
//! `image [--seconds S] [--words W] [cost] [sheets] [worst] [stack] [NAME...]`: the parts that are named, or all; only the images whose names contain one
//! of NAME. S seconds for each time (0.3), and at least three rounds. W words for the largest images (1,000,000; at least 10,000). A time is the least
//! of the rounds, in processor time of the thread, and of the whole call: the sheet is checked first, and the scratch, as long as the image, is zero at
//! the end. Every image must get the number that it is made for.
//!
//! cost: nanoseconds for a word of the image, of images made by lowering and by hand, at several lengths.
//! sheets: the check of the image of each sheet beside the lowering that makes it, ours and the Rust one, in microseconds.
//! worst: hostile images, at a tenth of W and at W; growth is by how much a word costs more at W.
//! stack: the bytes of stack that a call touches.

use bench::clock::{least, time};
use bench::images;
use bench::sheets;
use bench::stack::stack_of;
use std::hint::black_box;
use std::time::{Duration, Instant};

/// The sheets whose lowering is timed beside the check of their images.
const SHEETS: &[&str] = &[
    "rule",
    "port",
    "switch",
    "switch with guards",
    "wide calls",
    "deep chain",
    "full, mixed",
    "full, no pools",
    "names 20000",
    "constants 20000",
    "strings 20000",
    "chains 20000",
    "operators 20000",
    "locals 10000",
];

struct Options {
    limit: Duration,
    words: usize,
    names: Vec<String>,
}

impl Options {
    fn wants(&self, name: &str) -> bool {
        self.names.is_empty() || self.names.iter().any(|part| name.contains(part.as_str()))
    }

    /// The least time of one call of each, in rounds of at least a millisecond until the time is over.
    fn least<const N: usize>(&self, mut calls: [&mut dyn FnMut(); N]) -> [f64; N] {
        let start = Instant::now();
        let counts: Vec<u32> = calls
            .iter_mut()
            .map(|call| (1e6 / time(1, call)).ceil().max(1.0) as u32)
            .collect();
        let mut times = [(); N].map(|()| Vec::new());
        while times[0].len() < 3 || start.elapsed() < self.limit {
            for which in 0..N {
                times[which].push(time(counts[which], &mut calls[which]));
            }
        }
        times.map(|times| least(&times))
    }

    /// The time of the check of one image, which must get this number.
    fn check(&self, name: &str, sheet: &[u8], image: &[u32], number: u32) -> f64 {
        let mut scratch = vec![1; image.len()];
        let found = bench::check_image(sheet, image, &mut scratch);
        assert_eq!(found, number, "{name}, {} words", image.len());
        assert!(scratch.iter().all(|word| *word == 0), "{name}: scratch");
        let [time] = self.least([&mut || {
            black_box(bench::check_image(black_box(sheet), image, &mut scratch));
        }]);
        time
    }
}

/// The image of a sheet by the oracle, and the scratch that its lowering asks for.
fn lowered(sheet: &[u8]) -> (Vec<u32>, usize) {
    let image = oracle::lower_sheet(sheet).expect("an accepted sheet");
    let scratch = image.scratch_needed() as usize;
    (image.words, scratch)
}

fn cost(options: &Options) {
    println!(
        "{:<26}{:>10}{:>14}{:>10}",
        "cost per word", "words", "ns", "ns/word"
    );
    let line = |name: &str, sheet: &[u8], image: &[u32]| {
        let time = options.check(name, sheet, image, 0);
        println!(
            "{:<26}{:>10}{:>14.0}{:>10.2}",
            name,
            image.len(),
            time,
            time / image.len() as f64
        );
    };
    if options.wants("lowered, mixed") {
        // Five or six words of image for a node.
        for nodes in [170, 1_700, 17_000, 65_536, sheets::NODES] {
            let sheet = sheets::mixed(nodes);
            line("lowered, mixed", &sheet, &lowered(&sheet).0);
        }
    }
    if options.wants("lowered, no pools") {
        for nodes in [118, 1_180, 11_800, 118_000] {
            let sheet = sheets::unpooled(nodes);
            line("lowered, no pools", &sheet, &lowered(&sheet).0);
        }
    }
    let sheet = images::sheet();
    for maker in images::plain() {
        let name = format!("by hand, {}", maker.name);
        for words in [1_000, 10_000, 100_000, 1_000_000] {
            if words <= options.words && options.wants(&name) {
                line(&name, &sheet, &maker.image(words));
            }
        }
    }
}

fn beside_lowering(options: &Options) {
    println!(
        "{:<22}{:>8}{:>9}{:>12}{:>12}{:>12}{:>12}{:>12}{:>10}",
        "sheet, times in us",
        "nodes",
        "words",
        "check",
        "lower",
        "Rust",
        "check/lower",
        "check/Rust",
        "ns/word"
    );
    for (name, sheet) in sheets::timed() {
        if !SHEETS.contains(&name.as_str()) || !options.wants(&name) {
            continue;
        }
        let (words, needed) = lowered(&sheet);
        let mut image = vec![1; words.len()];
        let mut scratch = vec![1; needed];
        let made = bench::lower(&sheet, &mut image, &mut scratch);
        assert_eq!(made, (0, words.len() as u64), "{name}");
        assert_eq!(image, words, "{name}: another image");
        let mut short = vec![1; words.len()];
        let found = bench::check_image(&sheet, &words, &mut short);
        assert_eq!(found, 0, "{name}: the image is refused");
        let (mut other_image, mut other_scratch) = (image.clone(), scratch.clone());
        let [check, ours, rust] = options.least([
            &mut || {
                black_box(bench::check_image(black_box(&sheet), &words, &mut short));
            },
            &mut || {
                black_box(bench::lower(black_box(&sheet), &mut image, &mut scratch));
            },
            &mut || {
                let (image, scratch) = (&mut other_image, &mut other_scratch);
                black_box(oracle::lower(black_box(&sheet), image, scratch));
            },
        ]);
        println!(
            "{:<22}{:>8}{:>9}{:>12.1}{:>12.1}{:>12.1}{:>12.3}{:>12.3}{:>10.2}",
            name,
            u32::from_le_bytes(sheet[..4].try_into().unwrap()),
            words.len(),
            check / 1e3,
            ours / 1e3,
            rust / 1e3,
            check / ours,
            check / rust,
            check / words.len() as f64
        );
    }
}

fn worst(options: &Options) {
    println!(
        "{:<54}{:>4}{:>9}{:>10}{:>10}{:>10}{:>10}{:>8}",
        "hostile image", "no", "words", "ms tenth", "ns/word", "ms whole", "ns/word", "growth"
    );
    let sheet = images::sheet();
    let (mut slowest, mut steepest) = ((0.0, String::new()), (0.0, String::new()));
    for maker in images::hostile() {
        if !options.wants(&maker.name) {
            continue;
        }
        let mut line = String::new();
        let mut each = [0.0; 2];
        let mut words = 0;
        for (at, part) in [10, 1].into_iter().enumerate() {
            let image = maker.image(options.words / part);
            let time = options.check(&maker.name, &sheet, &image, maker.number);
            words = image.len();
            each[at] = time / words as f64;
            line += &format!("{:>10.3}{:>10.2}", time / 1e6, each[at]);
        }
        let growth = each[1] / each[0];
        println!(
            "{:<54}{:>4}{:>9}{line}{growth:>8.2}",
            maker.name, maker.number, words
        );
        if each[1] > slowest.0 {
            slowest = (each[1], maker.name.clone());
        }
        if growth > steepest.0 {
            steepest = (growth, maker.name);
        }
    }
    println!(
        "slowest: {} ({:.2} ns/word); steepest: {} ({:.2})",
        slowest.1, slowest.0, steepest.1, steepest.0
    );
}

fn stack(options: &Options) {
    println!("{:<54}{:>4}{:>10}", "stack in bytes", "no", "check");
    let bytes_of = |name: &str, sheet: &[u8], image: &[u32], number: u32| {
        let mut scratch = vec![0; image.len()];
        let mut found = 0;
        let bytes = stack_of(&mut || {
            found = bench::check_image(black_box(sheet), black_box(image), &mut scratch);
        });
        assert_eq!(found, number, "{name}");
        bytes
    };
    let line = |name: &str, number: u32, bytes: usize| {
        println!("{name:<54}{number:>4}{bytes:>10}");
    };
    let mut greatest = 0;
    for (name, sheet) in sheets::deep() {
        if options.wants(&name) {
            let (image, number) = match oracle::lower_sheet(&sheet) {
                Ok(lowered) => (lowered.words, 0),
                Err(number) => (Vec::new(), number),
            };
            let bytes = bytes_of(&name, &sheet, &image, number);
            line(&name, number, bytes);
            greatest = greatest.max(bytes);
        }
    }
    // Of the images made by hand, those with more stack than the ones before them.
    let sheet = images::sheet();
    let mut greatest_by_hand = 0;
    for maker in images::plain().into_iter().chain(images::hostile()) {
        if options.wants(&maker.name) {
            let image = maker.image(options.words / 10);
            let bytes = bytes_of(&maker.name, &sheet, &image, maker.number);
            if bytes > greatest_by_hand {
                line(&maker.name, maker.number, bytes);
                greatest_by_hand = bytes;
            }
        }
    }
    println!("greatest: {}", greatest.max(greatest_by_hand));
}

fn main() {
    let mut options = Options {
        limit: Duration::from_millis(300),
        words: 1_000_000,
        names: Vec::new(),
    };
    type Part = (&'static str, fn(&Options));
    let parts: [Part; 4] = [
        ("cost", cost),
        ("sheets", beside_lowering),
        ("worst", worst),
        ("stack", stack),
    ];
    let mut wanted = Vec::new();
    let mut arguments = std::env::args().skip(1);
    while let Some(argument) = arguments.next() {
        let mut number = || {
            let value = arguments.next().expect("a number after the option");
            value.parse::<f64>().expect("a number")
        };
        match argument.as_str() {
            "--seconds" => options.limit = Duration::from_secs_f64(number()),
            "--words" => options.words = (number() as usize).max(10_000),
            part if parts.iter().any(|(name, _)| *name == part) => wanted.push(argument),
            _ => options.names.push(argument),
        }
    }
    for (name, run) in parts {
        if wanted.is_empty() || wanted.iter().any(|part| part == name) {
            run(&options);
            println!();
        }
    }
}

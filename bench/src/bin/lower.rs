//! Times the proved lowering beside the oracle's Rust on the same sheets, in one process.
//!
//! `lower [--seconds S] [NAME...]`: S seconds for each sheet (2), and at least five rounds, or two where a lowering takes long; only the
//! sheets whose names contain one of NAME. A time is the least of the rounds, in processor time of the thread.
//!
//! Columns: ours and Rust are whole lowerings, from the sheet's bytes to the image in its buffer, with scratch cleared; alone is the
//! Rust lowering of a tree that has been read before, without the image; node and B say nanoseconds for each node and each byte of the
//! sheet. Then ours by passes, in nanoseconds: the check; the count; the
//! lowering into the scratch, which is cleared behind it; the image's sections. At the end, for the sheets of 1,000 to 131,072 nodes, by how
//! much the cost of a node grows.

use bench::clock::{least, time};
use bench::sheets;
use oracle::grain::compile::Lowering;
use oracle::tree::{self, Whole};
use std::hint::black_box;
use std::time::{Duration, Instant};

/// A lowering of more nanoseconds than this takes long.
const LONG: f64 = 2e8;

/// Runs a sheet until its time is over, and prints its line. Answers nanoseconds per node, ours and the Rust's.
fn run(name: &str, sheet: &[u8], limit: Duration) -> [f64; 2] {
    let lowered = oracle::lower_sheet(sheet)
        .unwrap_or_else(|number| panic!("{name} is refused with {number}"));
    let mut image = vec![1; lowered.words.len()];
    let mut scratch = vec![1; lowered.scratch_needed() as usize];
    assert_eq!(
        bench::lower(sheet, &mut image, &mut scratch),
        (0, image.len() as u64),
        "{name}"
    );
    assert_eq!(image, lowered.words, "{name}: another image");

    let read = oracle::sheet::read(sheet).expect("an accepted sheet");
    let whole = tree::whole(&read);
    let alone = || {
        let mut lowering = Lowering::default();
        for local in 0..read.locals {
            lowering.slots.declare(tree::name(&read, read.local(local)));
        }
        match &whole {
            Whole::Expression(expr) => lowering.expression(expr),
            Whole::Switch(subject, cases) => assert!(lowering.switch(subject, cases)),
        }
        black_box(&lowering);
    };

    let start = Instant::now();
    let warm = time(1, || {
        black_box(bench::lower(black_box(sheet), &mut image, &mut scratch));
    })
    .max(time(1, || {
        black_box(oracle::lower(black_box(sheet), &mut image, &mut scratch));
    }));
    let calls = (1e6 / warm).ceil().max(1.0) as u32;
    let least_rounds = if warm > LONG { 2 } else { 5 };
    let mut times: [Vec<f64>; 6] = Default::default();
    while times[0].len() < least_rounds || start.elapsed() < limit {
        times[0].push(time(calls, || {
            black_box(bench::lower(black_box(sheet), &mut image, &mut scratch));
        }));
        times[1].push(time(calls, || {
            black_box(oracle::lower(black_box(sheet), &mut image, &mut scratch));
        }));
        times[2].push(time(calls, alone));
        times[3].push(time(calls, || {
            black_box(bench::check(black_box(sheet)));
        }));
        // Number 11 comes after the count, number 12 after the lowering.
        times[4].push(time(calls, || {
            black_box(bench::lower(black_box(sheet), &mut image, &mut []));
        }));
        times[5].push(time(calls, || {
            black_box(bench::lower(black_box(sheet), &mut [], &mut scratch));
        }));
    }
    let rounds = times[0].len();
    let [ours, rust, alone, check, count, lowering] = times.map(|times| least(&times));
    let each = [ours, rust].map(|time| time / read.nodes as f64);
    println!(
        "{:<22}{:>8}{:>7}{:>8}{:>8}{:>13.0}{:>12.0}{:>12.0}{:>9.2}{:>9.2}{:>10.1}{:>8.1}{:>8.2}{:>8.2} |{:>11.0}{:>11.0}{:>13.0}{:>12.0}{:>6}",
        name,
        sheet.len(),
        read.nodes,
        lowered.marks.emitted,
        image.len(),
        ours,
        rust,
        alone,
        ours / rust,
        ours / alone,
        each[0],
        each[1],
        ours / sheet.len() as f64,
        rust / sheet.len() as f64,
        check,
        count - check,
        lowering - count,
        ours - lowering,
        rounds,
    );
    each
}

/// Of each kind of sheet that was run at all its sizes: the cost of a node at the last size by that at the first, and the greatest ratio.
fn growth(costs: &[(String, [f64; 2])]) {
    for (kind, _) in sheets::PER_NODE {
        let of_kind: Vec<[f64; 2]> = costs
            .iter()
            .filter(|(name, _)| name.trim_end_matches(char::is_numeric).trim_end() == kind)
            .map(|(_, cost)| *cost)
            .collect();
        let [first, .., last] = of_kind[..] else {
            continue;
        };
        let ratios = of_kind.iter().map(|[ours, rust]| ours / rust);
        println!(
            "{kind}: the cost of a node grows {:.2} times, the Rust's {:.2}; ours / Rust at most {:.2}",
            last[0] / first[0],
            last[1] / first[1],
            ratios.fold(0.0, f64::max),
        );
    }
}

fn main() {
    let mut seconds = 2.0;
    let mut names = Vec::new();
    let mut words = std::env::args().skip(1);
    while let Some(word) = words.next() {
        match word.as_str() {
            "--seconds" => {
                let value = words.next().expect("a number after the option");
                seconds = value.parse().expect("a number of seconds");
            }
            _ => names.push(word),
        }
    }
    println!(
        "{:<22}{:>8}{:>7}{:>8}{:>8}{:>13}{:>12}{:>12}{:>9}{:>9}{:>10}{:>8}{:>8}{:>8} |{:>11}{:>11}{:>13}{:>12}{:>6}",
        "sheet",
        "bytes",
        "nodes",
        "emitted",
        "words",
        "ours ns",
        "Rust ns",
        "alone ns",
        "o/Rust",
        "o/alone",
        "ours/node",
        "Rust/n",
        "ours/B",
        "Rust/B",
        "check",
        "count",
        "lowering",
        "image",
        "runs"
    );
    let mut costs = Vec::new();
    for (name, sheet) in sheets::timed() {
        if names.is_empty() || names.iter().any(|part| name.contains(part.as_str())) {
            let cost = run(&name, &sheet, Duration::from_secs_f64(seconds));
            costs.push((name, cost));
        }
    }
    growth(&costs);
}

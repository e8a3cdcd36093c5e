//! Times the proved check beside the Rust check on the same bytes, in one process.
//!
//! `check [--seconds S] [--sheets COUNT] [NAME...]`: S seconds for each workload (2); COUNT generated sheets of each size on which
//! both must answer alike before anything is timed (5000); only the workloads whose names contain one of NAME. Times are processor
//! time of the thread, so that other programs on the machine count as little as they can.

use bench::clock::{median, now};
use bench::workloads::{self, Workload};
use oracle::gen::{self, Size};
use std::hint::black_box;
use std::time::{Duration, Instant};

type Check = fn(&[u8]) -> u32;

const OURS: Check = bench::check;
const RUST: Check = oracle::check;

/// Nanoseconds for one call, over `calls` calls.
fn time(check: Check, sheet: &[u8], calls: u32) -> f64 {
    let start = now();
    for _ in 0..calls {
        black_box(check(black_box(sheet)));
    }
    (now() - start) / f64::from(calls)
}

/// Both must answer alike on generated sheets.
fn agree(count: u64) {
    for size in [Size::SMALL, Size::NORMAL] {
        for index in 0..count {
            let sheet = gen::sheet("all", 7, index, size);
            let (ours, rust) = (OURS(&sheet), RUST(&sheet));
            assert_eq!(ours, rust, "generated sheet {index} of seed 7");
        }
    }
    println!("the same answers on {} generated sheets", 2 * count);
}

/// Runs a workload until its time is over, and prints its line.
fn run(workload: &Workload, limit: Duration) {
    let sheet = &workload.sheet;
    let start = Instant::now();
    let (ours, rust) = (OURS(sheet), RUST(sheet));
    assert_eq!(ours, rust, "{}: the answers differ", workload.name);
    assert_eq!(ours, workload.number, "{}: another number", workload.name);
    // So many calls for a round that it takes a millisecond or more.
    let mut calls = 1;
    let once = start.elapsed() / 2;
    if once < Duration::from_millis(1) {
        let warm = time(OURS, sheet, 100).max(time(RUST, sheet, 100));
        calls = (1e6 / warm).ceil().max(1.0) as u32;
    }
    let (mut ours, mut rust) = (Vec::new(), Vec::new());
    let start = Instant::now();
    loop {
        // Each goes first in turn.
        if ours.len() % 2 == 0 {
            ours.push(time(OURS, sheet, calls));
            rust.push(time(RUST, sheet, calls));
        } else {
            rust.push(time(RUST, sheet, calls));
            ours.push(time(OURS, sheet, calls));
        }
        let enough = ours.len() >= 10 || once > Duration::from_secs(1);
        if enough && start.elapsed() > limit {
            break;
        }
    }
    let rounds = ours.len();
    let (ours, rust) = (median(&mut ours), median(&mut rust));
    let nodes = workload.nodes();
    // Of a sheet with one node the time is its texts'.
    let each = |time: f64| match nodes {
        1 => "-".to_string(),
        _ => format!("{:.1}", time / f64::from(nodes)),
    };
    println!(
        "{:<24}{:>3}{:>8}{:>9}{:>12.0}{:>12.0}{:>12}{:>12}{:>8.2}{:>8}",
        workload.name,
        workload.number,
        nodes,
        sheet.len(),
        ours,
        rust,
        each(ours),
        each(rust),
        ours / rust,
        rounds,
    );
}

fn main() {
    let mut seconds = 2.0;
    let mut sheets = 5000;
    let mut names = Vec::new();
    let mut words = std::env::args().skip(1);
    while let Some(word) = words.next() {
        let mut value = || words.next().expect("a number after the option");
        match word.as_str() {
            "--seconds" => seconds = value().parse().expect("a number of seconds"),
            "--sheets" => sheets = value().parse().expect("a number of sheets"),
            _ => names.push(word),
        }
    }
    agree(sheets);
    println!(
        "{:<24}{:>3}{:>8}{:>9}{:>12}{:>12}{:>12}{:>12}{:>8}{:>8}",
        "workload",
        "no",
        "nodes",
        "bytes",
        "ours ns",
        "Rust ns",
        "ours/node",
        "Rust/node",
        "ratio",
        "rounds"
    );
    for name in workloads::NAMES {
        if names.is_empty() || names.iter().any(|part| name.contains(part.as_str())) {
            run(&workloads::workload(name), Duration::from_secs_f64(seconds));
        }
    }
}

//! The stack that a lowering uses, and hostile sheets with the time of each pass.
//!
//! `worst [stack | index | switch | greatest | program] [--small] [NAME...]`: with `stack` only the stack, with `index` only the sheets that are worst
//! for an index of the pools, with `switch` only those that are worst for the table of a switch, with `greatest` the hostile sheets as large as the
//! format lets them be, with `program` those of 65,536 bytes with the buffers of the program `lower`; else all but the last two; of the sheets whose
//! names contain one of NAME. The sheets of `index` and `switch` come at two sizes, so that growth shows; with `--small` only the smaller one.

use bench::clock::now;
use bench::stack::stack_of;
use bench::{hashes, sheets, switches, workloads};
use oracle::format::*;
use std::hint::black_box;

/// A sheet by its size.
type Sized = fn(usize) -> Vec<u8>;

/// The program `lower`: the longest sheet in bytes, and the words of each of its buffers.
const PROGRAM_BYTES: usize = 65_536;
const PROGRAM_WORDS: usize = 16_384;

fn stack(names: &[String]) {
    println!(
        "{:<30}{:>4}{:>14}{:>14}{:>14}{:>14}",
        "stack in bytes", "no", "check", "needs", "lower", "Rust lower"
    );
    for (name, sheet) in sheets::deep() {
        if !names.is_empty() && !names.iter().any(|part| name.contains(part.as_str())) {
            continue;
        }
        let mut image = vec![0; 2_000_000];
        let mut scratch = vec![0; 8_000_000];
        let mut number = 0;
        let check = stack_of(&mut || {
            black_box(bench::check(black_box(&sheet)));
        });
        let needs = stack_of(&mut || {
            black_box(bench::needs(black_box(&sheet)));
        });
        let ours =
            stack_of(&mut || number = bench::lower(black_box(&sheet), &mut image, &mut scratch).0);
        let rust = stack_of(&mut || {
            black_box(oracle::lower(black_box(&sheet), &mut image, &mut scratch));
        });
        println!("{name:<30}{number:>4}{check:>14}{needs:>14}{ours:>14}{rust:>14}");
    }
}

/// The hostile sheets, by the pass that they are hostile to. Most are smaller than they could be.
fn hostile() -> Vec<(String, Vec<u8>)> {
    let texts = |name| workloads::workload(name).sheet;
    let bytes = MAX_TEXT_BYTES as usize;
    let all = sheets::LOCALS;
    let list: Vec<(&str, Vec<u8>)> = vec![
        ("check: texts that overlap", texts("hostile overlap ends")),
        ("check: names, 65535 locals", texts("hostile names")),
        (
            "check: names, 65535 locals, the last empty",
            texts("hostile last name"),
        ),
        ("check: 64 cases of 1 MiB", sheets::long_cases(bytes - 64)),
        (
            "count: 2000 g(v), 65535 locals",
            sheets::nested(0, 2_000, all),
        ),
        (
            "count: 20 g(v), 100 locals of 100000",
            sheets::long_locals(20, 100, 100_000),
        ),
        (
            "recount: 62 ands, 130800 units",
            sheets::nested_units(62, 130_800),
        ),
        (
            "recount: 61 ands, 100 g(v), 65535 locals",
            sheets::nested(61, 100, all),
        ),
        (
            "locals: 2000 variables, 65535 locals",
            sheets::locals(all, 2_000),
        ),
        ("names: 20000", sheets::names(20_000)),
        (
            "names: 500 of 100000 bytes",
            sheets::long_names(500, 100_000),
        ),
        (
            "names: 20000, modules",
            sheets::modules(&sheets::names(20_000)),
        ),
        (
            "names: 4000 cut elsewhere, equal, 100000",
            sheets::split_names(4_000, 100_000),
        ),
        (
            "names: 4000 cut elsewhere, last byte, 200000",
            sheets::split_names_last(4_000, 200_000),
        ),
        (
            "names: 4000 namespaces equal elsewhere, 100000",
            sheets::equal_spaces(4_000, 100_000, false),
        ),
        (
            "names: 2000 below such namespaces, 100000",
            sheets::equal_spaces(2_000, 100_000, true),
        ),
        (
            "names: 20000 below a namespace of 1000",
            sheets::one_space(20_000, 1_000),
        ),
        ("constants: 131070", sheets::constants(131_070)),
        ("strings: 20000", sheets::strings(20_000)),
        ("operators: 43000", sheets::operators(43_000)),
        ("chains: 20000", sheets::chains(20_000)),
        ("chains: 1000 of 62 links", sheets::long_chains(1_000, 62)),
        (
            "chains: 100 roots, 20000 locals",
            sheets::roots(100, 20_000),
        ),
        (
            "chains: 40 roots, 100 locals of 26000",
            sheets::long_roots(40, 100, 26_000),
        ),
        (
            "tables: 255 runs, 64 cases of 64 Refs",
            sheets::tables(true, 64),
        ),
        (
            "tables: the same, constant guards",
            sheets::tables_constant(),
        ),
        ("tables: 255 runs alone", sheets::tables(false, 64)),
        (
            "image: 2000 chains, names at 20000",
            sheets::late_names(20_000, 2_000),
        ),
        (
            "image: 64 cases, 65000 constants",
            sheets::late_cases(65_000),
        ),
    ];
    named(list)
}

fn named(list: Vec<(&str, Vec<u8>)>) -> Vec<(String, Vec<u8>)> {
    list.into_iter()
        .map(|(name, sheet)| (name.to_string(), sheet))
        .collect()
}

/// The sheets that are worst for an index of the pools by hash, each at two sizes.
fn index(small: bool) -> Vec<(String, Vec<u8>)> {
    let list: [(&str, Sized, [usize; 2]); 16] = [
        (
            "chains: no positions, other names",
            sheets::unplaced_chains,
            [8_000, 32_000],
        ),
        ("chains: other setters", sheets::setters, [8_000, 32_000]),
        (
            "chains: other root positions",
            |count| sheets::roots(count, 1),
            [8_000, 32_000],
        ),
        (
            "chains: equal local roots",
            sheets::equal_roots,
            [8_000, 32_000],
        ),
        (
            "names: of 99,000 bytes",
            |count| sheets::long_names(count, 99_000),
            [125, 500],
        ),
        (
            "strings: of 99,000 bytes",
            |count| sheets::long_strings(count, 99_000),
            [125, 500],
        ),
        (
            "names: of 25,000 bytes, three times over",
            |count| sheets::long_names_again(count, 25_000, 3),
            [520, 1_040],
        ),
        (
            "names: cut elsewhere, equal, 99,000 bytes",
            |count| sheets::split_names(count, 99_000),
            [1_000, 4_000],
        ),
        (
            "names: cut elsewhere, last byte, 99,000 bytes",
            |count| sheets::split_names_last(count, 2 * 99_000),
            [1_000, 4_000],
        ),
        (
            "names: namespaces of 99,000 bytes elsewhere",
            |count| sheets::equal_spaces(count, 99_000, true),
            [500, 2_000],
        ),
        (
            "names: below a namespace of 1,000 bytes",
            |count| sheets::one_space(count, 1_000),
            [8_000, 32_000],
        ),
        (
            "equal hashes: names below a namespace of 1,000",
            |count| hashes::qualified_names(count, 1_000),
            [4_000, 16_000],
        ),
        ("equal hashes: names", hashes::names, [4_000, 16_000]),
        ("equal hashes: strings", hashes::strings, [4_000, 16_000]),
        ("equal hashes: integers", hashes::numbers, [8_000, 32_000]),
        (
            "equal hashes: names of 99,000 bytes",
            |count| hashes::long_names(count, 99_000),
            [125, 500],
        ),
    ];
    at_sizes(&list, small)
}

/// The sheets that are worst for the flat table of a switch, each at two sizes.
fn switch(small: bool) -> Vec<(String, Vec<u8>)> {
    let list: [(&str, Sized, [usize; 2]); 6] = [
        (
            "switch: runs of as many ranges",
            |count| sheets::tables(false, count),
            [16, 64],
        ),
        (
            "switch: as many cases of as many Refs",
            switches::long_lists,
            [16, 64],
        ),
        (
            "switch: both, with 64 cases",
            |count| sheets::tables(true, count),
            [16, 64],
        ),
        (
            "switch: a guard of as many nodes, named 4,160 times",
            switches::heavy_guard,
            [30_000, 120_000],
        ),
        (
            "switch: equal hashes of as many parts",
            switches::equal_cases,
            [3, 6],
        ),
        (
            "switch: runs with equal hashes, apart by",
            |gap| switches::equal_runs(gap as i64),
            [0, 2],
        ),
    ];
    at_sizes(&list, small)
}

/// Hostile sheets as large as the format lets them be, but for some that it lets be so large that their time is a matter of minutes.
fn greatest() -> Vec<(String, Vec<u8>)> {
    let bytes = MAX_TEXT_BYTES as usize;
    // An Array of more elements is kept as it is.
    let texts = MAX_TEXTS as usize - 1;
    let all = sheets::LOCALS;
    let list: Vec<(&str, Vec<u8>)> = vec![
        (
            "count: 65534 g(v), 65535 locals",
            sheets::nested(0, 65_534, all),
        ),
        (
            "count: 65534 other g(v), 65535 locals",
            sheets::receivers(0, 65_534, all),
        ),
        (
            "count: 65500 g(v), 65535 locals of 1 MiB",
            sheets::long_locals(65_500, all, bytes - 16),
        ),
        (
            "recount: 61 ands, 65400 g(v), 65535 locals",
            sheets::nested(61, 65_400, all),
        ),
        (
            "recount: 61 ands, 65400 other g(v)",
            sheets::receivers(61, 65_400, all),
        ),
        ("locals: 65535 variables", sheets::locals(all, 65_535)),
        (
            "locals: 65535 other variables",
            sheets::other_locals(all, 65_535),
        ),
        (
            "names: 65535 of nearly 1 MiB that overlap",
            sheets::long_names(texts, bytes - texts),
        ),
        (
            "names: 32767 of nearly 1 MiB, twice over",
            sheets::long_names_again(texts / 2, bytes - texts, 2),
        ),
        (
            "names: 65534 uses of equal bytes, 1 MiB",
            sheets::equal_places(VARIABLE, texts / 2, bytes - texts, 2),
        ),
        (
            "strings: 65535 of nearly 1 MiB that overlap",
            sheets::long_strings(texts, bytes - texts),
        ),
        (
            "strings: 65534 uses of equal bytes, 1 MiB",
            sheets::equal_places(STRING, texts / 2, bytes - texts, 2),
        ),
        ("names: 65535", sheets::names(65_535)),
        (
            "names: 32700 cut elsewhere, equal, 1 MiB",
            sheets::split_names(32_700, bytes),
        ),
        (
            "names: 32700 cut elsewhere, last byte, 1 MiB",
            sheets::split_names_last(32_700, bytes),
        ),
        (
            "names: 65000 namespaces equal elsewhere, 1 MiB",
            sheets::equal_spaces(65_000, bytes - 65_001, false),
        ),
        (
            "names: 32700 below such namespaces",
            sheets::equal_spaces(32_700, bytes - 7 * 32_700, true),
        ),
        (
            "names: 32766 of colons, equal, four times",
            sheets::colons(32_766, bytes, 4),
        ),
        (
            "names: 65000 below a namespace of 1000",
            sheets::one_space(65_000, 1_000),
        ),
        (
            "names: 65000 below a namespace of 700000",
            sheets::one_space(65_000, 700_000),
        ),
        ("constants: 131070", sheets::constants(131_070)),
        ("strings: 65535", sheets::strings(65_535)),
        ("operators: 65535", sheets::operators(65_535)),
        ("chains: 43690", sheets::chains(43_690)),
        ("chains: 1040 of 62 links", sheets::long_chains(1_040, 62)),
        (
            "chains: 43690 roots, 65535 locals",
            sheets::roots(43_690, all),
        ),
        (
            "chains: 43690 roots, 65535 locals of 1 MiB",
            sheets::long_roots(43_690, all, bytes - 16),
        ),
        ("equal hashes: 65535 names", hashes::names(texts)),
        ("equal hashes: 65535 strings", hashes::strings(texts)),
        ("equal hashes: 65535 integers", hashes::numbers(65_535)),
        (
            "equal hashes: 32000 below a namespace of 1000",
            hashes::qualified_names(32_000, 1_000),
        ),
        (
            "equal hashes: 32000 names of 500000",
            hashes::long_names(32_000, 500_000),
        ),
    ];
    named(list)
}

/// Hostile sheets of at most 65,536 bytes. The program's scratch lets at most 768 instructions and nodes together be lowered; of sheets that
/// are larger check and count are all that is done, and they get 11.
fn program() -> Vec<(String, Vec<u8>)> {
    let list: Vec<(&str, Vec<u8>)> = vec![
        ("check: 64 cases of 47000", sheets::long_cases(47_000)),
        (
            "check: 900 names, 8200 locals",
            workloads::own_names(900, 8_200, 32, false),
        ),
        (
            "check: 900 names, 8200 locals, the last empty",
            workloads::own_names(900, 8_200, 32, true),
        ),
        (
            "check: 850 texts of 27000 that overlap",
            sheets::long_strings(850, 27_000),
        ),
        (
            "count: 450 g(v), 8000 locals",
            sheets::nested(0, 450, 8_000),
        ),
        (
            "count: 380 other g(v), 8000 locals",
            sheets::receivers(0, 380, 8_000),
        ),
        (
            "count: 180 g(v), 5000 locals of 32000",
            sheets::long_locals(180, 5_000, 32_000),
        ),
        (
            "recount: 61 ands, 90 g(v), 12000 locals",
            sheets::nested(61, 90, 12_000),
        ),
        (
            "recount: 61 ands, 90 other g(v), 12000 locals",
            sheets::receivers(61, 90, 12_000),
        ),
        (
            "locals: 250 other variables, 12000 locals",
            sheets::other_locals(12_000, 250),
        ),
        (
            "locals: 250 variables, 14000 locals",
            sheets::locals(14_000, 250),
        ),
        (
            "names: 250 of 45000 that overlap",
            sheets::long_names(250, 45_000),
        ),
        (
            "strings: 250 of 45000 that overlap",
            sheets::long_strings(250, 45_000),
        ),
        (
            "names: 250 of equal bytes, 45000",
            sheets::equal_places(VARIABLE, 250, 45_000, 1),
        ),
        (
            "strings: 250 of equal bytes, 45000",
            sheets::equal_places(STRING, 250, 45_000, 1),
        ),
        (
            "names: 250 cut elsewhere, equal, 45000",
            sheets::split_names(250, 45_000),
        ),
        (
            "names: 250 namespaces equal elsewhere, 45000",
            sheets::equal_spaces(250, 45_000, true),
        ),
        (
            "chains: 140 roots, 6000 locals of 20000",
            sheets::long_roots(140, 6_000, 20_000),
        ),
        ("equal hashes: 250 names", hashes::names(250)),
        ("equal hashes: 250 integers", hashes::numbers(250)),
        (
            "equal hashes: 250 names of 45000",
            hashes::long_names(250, 45_000),
        ),
        (
            "equal hashes: 250 below a namespace of 45000",
            hashes::qualified_names(250, 45_000),
        ),
        (
            "equal hashes: 744 names of 29600 in chains",
            hashes::properties(4, 29_600),
        ),
        ("tables: 255 runs", sheets::tables(false, 64)),
    ];
    named(list)
}

/// Each sheet at its sizes.
fn at_sizes(list: &[(&str, Sized, [usize; 2])], small: bool) -> Vec<(String, Vec<u8>)> {
    let mut all = Vec::new();
    for (name, sheet, sizes) in list {
        for size in &sizes[..if small { 1 } else { 2 }] {
            all.push((format!("{name}, {size}"), sheet(*size)));
        }
    }
    all
}

/// Nanoseconds of one call.
fn time(mut run: impl FnMut()) -> f64 {
    let start = now();
    run();
    now() - start
}

/// The least of up to five calls, fewer if they take long.
fn least(mut run: impl FnMut()) -> f64 {
    let first = time(&mut run);
    least_after(first, run)
}

/// The same where the first call took so long.
fn least_after(first: f64, mut run: impl FnMut()) -> f64 {
    let (mut least, mut spent) = (first, first);
    for _ in 0..4 {
        if spent > 2e9 {
            break;
        }
        let once = time(&mut run);
        least = least.min(once);
        spent += once;
    }
    least
}

/// An image and a scratch: of so many words, or of just the size that the sheet needs.
fn buffers(sheet: &[u8], room: Option<usize>) -> (Vec<u32>, Vec<u32>) {
    if let Some(words) = room {
        assert!(sheet.len() <= PROGRAM_BYTES);
        return (vec![0; words], vec![0; words]);
    }
    match oracle::lower_sheet(sheet) {
        Ok(lowered) => (
            vec![0; lowered.words.len()],
            vec![0; lowered.scratch_needed() as usize],
        ),
        Err(_) => (Vec::new(), Vec::new()),
    }
}

fn times(names: &[String], sheets: Vec<(String, Vec<u8>)>, room: Option<usize>) {
    println!(
        "{:<44}{:>8}{:>4}{:>11}{:>11}{:>9} |{:>10}{:>10}{:>11}{:>10}",
        "hostile sheet, times in ms",
        "nodes",
        "no",
        "ours",
        "Rust",
        "ratio",
        "check",
        "count",
        "lowering",
        "image"
    );
    for (name, sheet) in sheets {
        if !names.is_empty() && !names.iter().any(|part| name.contains(part.as_str())) {
            continue;
        }
        let (mut image, mut scratch) = buffers(&sheet, room);
        let (mut expected, mut noise) = (image.clone(), scratch.clone());
        let right = oracle::lower(&sheet, &mut expected, &mut noise);
        let number = right.0;
        let mut answer = (0, 0);
        let first = time(|| answer = bench::lower(&sheet, &mut image, &mut scratch));
        assert_eq!(answer, (right.0, u64::from(right.1)), "{name}");
        assert!(image == expected, "{name}: another image");
        let ours = least_after(first, || {
            black_box(bench::lower(&sheet, &mut image, &mut scratch));
        });
        let rust = least(|| {
            black_box(oracle::lower(&sheet, &mut image, &mut scratch));
        });
        let check = least(|| {
            black_box(bench::check(&sheet));
        });
        let count = least(|| {
            black_box(bench::lower(&sheet, &mut image, &mut []));
        });
        let lowering = least(|| {
            black_box(bench::lower(&sheet, &mut [], &mut scratch));
        });
        let nodes = u32::from_le_bytes(sheet[..4].try_into().unwrap());
        let ms = |time: f64| time / 1e6;
        println!(
            "{:<44}{:>8}{:>4}{:>11.2}{:>11.2}{:>9.1} |{:>10.2}{:>10.2}{:>11.2}{:>10.2}",
            name,
            nodes,
            number,
            ms(ours),
            ms(rust),
            ours / rust,
            ms(check),
            ms(count - check),
            ms(lowering - count),
            ms(ours - lowering),
        );
    }
}

fn main() {
    let mut names: Vec<String> = std::env::args().skip(1).collect();
    let mut option = |word: &str| {
        let place = names.iter().position(|name| name == word);
        place.map(|place| names.remove(place)).is_some()
    };
    let small = option("--small");
    let parts = ["stack", "index", "switch", "greatest", "program"].map(|part| option(part));
    let [stacks, indexes, switches, limits, small_sheets] = parts;
    let all = parts == [false; 5];
    if all || stacks {
        stack(&names);
    }
    let mut sheets = Vec::new();
    if all {
        sheets.extend(hostile());
    }
    if all || indexes {
        sheets.extend(index(small));
    }
    if all || switches {
        sheets.extend(switch(small));
    }
    if limits {
        sheets.extend(greatest());
    }
    if !sheets.is_empty() {
        times(&names, sheets, None);
    }
    if small_sheets {
        times(&names, program(), Some(PROGRAM_WORDS));
    }
}

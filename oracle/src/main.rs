//! The commands.

use oracle::format::*;
use oracle::gen::{self, Size};
use oracle::image_gen::{self, ImageSize};
use oracle::image_selftest::ImageFigures;
use oracle::random::Random;
use oracle::runs::Figures;
use std::collections::HashMap;
use std::fs;
use std::hint::black_box;
use std::io::{self, Read, Write};
use std::process::{Command, ExitCode, Stdio};
use std::time::Instant;

const HELP: &str = "\
oracle: the right answers for sheets

oracle lower [--image W] [--scratch W] [--program] [FILE|-]
    print the image's words in decimal, or `refused` and the number;
    the buffers have 16384 words each where nothing else is given;
    with --program an input of over 65536 bytes is refused with 1
oracle check FILE...
    print the number (0, or 1 to 8 or 14) of each file
oracle needs FILE...
    print what each file needs: the words of scratch that its lowering asks
    for, or `refused` and the number (1 to 10 or 14)
oracle gen --seed S --count N --profile P --out DIR [SIZE]
    write sheets as DIR/PROFILE-SEED-INDEX.sheet
oracle gen --list-profiles
oracle vectors --check --seed S --count N --profile P [SIZE] --out FILE
    write a binary file of sheets with their numbers, in little-endian words:
    the number of records, then for each record the number, the sheet's length
    in bytes and its bytes, padded with zeros to a word
oracle vectors --lower --seed S --count N --profile P [SIZE] --out FILE
    the same with records of: image words, scratch words, number, word count,
    the image's words, the sheet's length in bytes, its padded bytes
oracle compare --dir DIR [--image W] [--scratch W] [--any-size] -- PROGRAM ARGS...
    feed each sheet of the folder to the program and compare what it prints
    with what the program `lower` must print; with --any-size also sheets of
    over 65536 bytes get their own answer
oracle selftest [--seed S] [--count N] [--profile P] [SIZE]
    demand 3 by brute force on random sheets, and the answers by other means
oracle image-selftest [--seed S] [--count N] [--first I] [--small] [--places]
    check random images beside sheets, each by brute force too, and print
    counts; with --places also by the word at which a clause fails alone
oracle image-rows
    print hand-made images on both sides of each clause, one in a line:
    name ; the sheet's words ; the image's words ; number
oracle image-vectors [--seed S] [--count N] --out FILE
    write a binary file of small images beside sheets, the hand-made ones, some
    beside refused sheets, and N (1800) others, in little-endian words: the number of groups, then for each group
    the sheet's length in bytes, the number of its records, and the sheet's
    bytes, padded with zeros to a word; then for each record the image's words,
    the scratch's words, the number, and the words of the image
oracle bench [--rounds R] FILE...
    time the sheet check and the lowering, in nanoseconds for each sheet
oracle edges
    print what the program `edges` must print
oracle sample NAME [--out FILE]
    write a sheet of samples/: unit, port or twice
oracle table --seed S --count N --profile P [SIZE] [--out FILE]
    one line for each sheet: its bytes ; image words ; scratch words ; number ;
    the image's words

SIZE is any of
    --small          sheets of about ten nodes and few texts
    --nodes N        about so many nodes at most (120)
    --max-bytes B    only sheets of at most so many bytes
    --first I        start the series at index I (0)
";

struct Arguments {
    options: HashMap<String, String>,
    flags: Vec<String>,
    rest: Vec<String>,
}

const FLAGS: &[&str] = &[
    "--small",
    "--check",
    "--lower",
    "--list-profiles",
    "--program",
    "--any-size",
    "--places",
];

fn arguments(from: &[String]) -> Result<Arguments, String> {
    let mut options = HashMap::new();
    let mut flags = Vec::new();
    let mut rest = Vec::new();
    let mut at = 0;
    while at < from.len() {
        let word = &from[at];
        at += 1;
        if word == "--" {
            rest.extend_from_slice(&from[at..]);
            break;
        } else if FLAGS.contains(&word.as_str()) {
            flags.push(word.clone());
        } else if word.starts_with("--") {
            let value = from.get(at).ok_or(format!("{word} needs a value"))?;
            at += 1;
            options.insert(word.clone(), value.clone());
        } else {
            rest.push(word.clone());
        }
    }
    Ok(Arguments {
        options,
        flags,
        rest,
    })
}

impl Arguments {
    fn flag(&self, name: &str) -> bool {
        self.flags.iter().any(|flag| flag == name)
    }

    fn text(&self, name: &str) -> Result<&str, String> {
        self.options
            .get(name)
            .map(String::as_str)
            .ok_or(format!("{name} is missing"))
    }

    fn number(&self, name: &str, default: u64) -> Result<u64, String> {
        match self.options.get(name) {
            None => Ok(default),
            Some(value) => value
                .parse()
                .map_err(|_| format!("{name}: {value} is no number")),
        }
    }

    fn size(&self) -> Result<Size, String> {
        let base = if self.flag("--small") {
            Size::SMALL
        } else {
            Size::NORMAL
        };
        let nodes = self.number("--nodes", base.nodes as u64)?.max(1) as usize;
        Ok(Size { nodes, ..base })
    }

    fn image_size(&self) -> ImageSize {
        if self.flag("--small") {
            ImageSize::SMALL
        } else {
            ImageSize::NORMAL
        }
    }

    /// The sheets of a series, with their indices.
    fn series(
        &self,
        mut each: impl FnMut(u64, Vec<u8>) -> Result<(), String>,
    ) -> Result<(), String> {
        let seed = self.number("--seed", 1)?;
        let count = self.number("--count", 100)?;
        let profile = self.options.get("--profile").map_or("all", String::as_str);
        if profile != "all" && !gen::PROFILES.contains(&profile) {
            return Err(format!("no profile {profile}"));
        }
        let size = self.size()?;
        let most = self.number("--max-bytes", u64::MAX)?;
        let mut index = self.number("--first", 0)?;
        let mut done = 0;
        let mut passed = 0;
        while done < count {
            let sheet = gen::sheet(profile, seed, index, size);
            if sheet.len() as u64 <= most {
                each(index, sheet)?;
                done += 1;
                passed = 0;
            } else {
                passed += 1;
                if passed > 10_000 {
                    return Err("no sheet of this profile is so small".to_string());
                }
            }
            index += 1;
        }
        Ok(())
    }
}

fn put(out: &mut Vec<u8>, word: u32) {
    out.extend_from_slice(&word.to_le_bytes());
}

fn pad(out: &mut Vec<u8>) {
    while !out.len().is_multiple_of(4) {
        out.push(0);
    }
}

fn put_sheet(out: &mut Vec<u8>, sheet: &[u8]) {
    put(out, sheet.len() as u32);
    out.extend_from_slice(sheet);
    pad(out);
}

fn write_file(path: &str, bytes: &[u8]) -> Result<(), String> {
    if path == "-" {
        io::stdout()
            .write_all(bytes)
            .map_err(|error| error.to_string())
    } else {
        fs::write(path, bytes).map_err(|error| format!("{path}: {error}"))
    }
}

fn read_file(path: &str) -> Result<Vec<u8>, String> {
    if path == "-" {
        let mut bytes = Vec::new();
        io::stdin()
            .read_to_end(&mut bytes)
            .map_err(|error| error.to_string())?;
        Ok(bytes)
    } else {
        fs::read(path).map_err(|error| format!("{path}: {error}"))
    }
}

fn run_gen(arguments: &Arguments) -> Result<(), String> {
    if arguments.flag("--list-profiles") {
        for profile in gen::PROFILES {
            println!("{profile}");
        }
        println!("all");
        return Ok(());
    }
    let directory = arguments.text("--out")?;
    fs::create_dir_all(directory).map_err(|error| format!("{directory}: {error}"))?;
    let seed = arguments.number("--seed", 1)?;
    let profile = arguments
        .options
        .get("--profile")
        .map_or("all", String::as_str);
    arguments.series(|index, sheet| {
        let path = format!("{directory}/{profile}-{seed}-{index:06}.sheet");
        fs::write(&path, sheet).map_err(|error| format!("{path}: {error}"))
    })
}

fn run_check(arguments: &Arguments) -> Result<(), String> {
    for path in &arguments.rest {
        let number = oracle::check(&read_file(path)?);
        if arguments.rest.len() == 1 {
            println!("{number}");
        } else {
            println!("{number} {path}");
        }
    }
    Ok(())
}

fn run_needs(arguments: &Arguments) -> Result<(), String> {
    for path in &arguments.rest {
        match oracle::needs(&read_file(path)?) {
            (0, words) => println!("{words} words of scratch"),
            (number, _) => println!("refused {number}"),
        }
    }
    Ok(())
}

/// Buffer sizes for a sheet: ample ones, or at the edges of 11 and 12.
fn buffers(random: &mut Random, sheet: &[u8]) -> (usize, usize) {
    let Ok(lowered) = oracle::lower_sheet(sheet) else {
        let words = [0, 1, 64, 5_000, 20_000];
        return (*random.pick(&words), *random.pick(&words));
    };
    let words = lowered.words.len();
    let needed = lowered.scratch_needed() as usize;
    let image = match random.below(24) {
        0 | 1 => words - 1,
        2 => random.below(words),
        3..=8 => words,
        9 => words + 1,
        _ => words + random.below(40),
    };
    let scratch = match random.below(24) {
        0 | 1 => needed - 1,
        2 => random.below(needed),
        3..=5 => needed + random.below(40),
        _ => needed,
    };
    (image, scratch)
}

fn answer(sheet: &[u8], image_words: usize, scratch_words: usize) -> (u32, Vec<u32>) {
    let mut image = vec![0; image_words];
    let mut scratch = vec![1; scratch_words];
    let (number, words) = oracle::lower(sheet, &mut image, &mut scratch);
    image.truncate(words as usize);
    (number, image)
}

fn run_lower(arguments: &Arguments) -> Result<(), String> {
    let image = arguments.number("--image", PROGRAM_IMAGE_WORDS as u64)? as usize;
    let scratch = arguments.number("--scratch", PROGRAM_SCRATCH_WORDS as u64)? as usize;
    let path = arguments.rest.first().map_or("-", String::as_str);
    let sheet = read_file(path)?;
    print!(
        "{}",
        printed(&sheet, image, scratch, arguments.flag("--program"))
    );
    Ok(())
}

/// What the program `lower` prints.
fn printed(sheet: &[u8], image: usize, scratch: usize, program: bool) -> String {
    if program && sheet.len() > PROGRAM_SHEET_BYTES {
        return format!("refused {REFUSED_SIZE}\n");
    }
    let (number, words) = answer(sheet, image, scratch);
    if number == 0 {
        format!("{}\n", joined(&words))
    } else {
        format!("refused {number}\n")
    }
}

fn joined<T: ToString>(numbers: &[T]) -> String {
    numbers
        .iter()
        .map(T::to_string)
        .collect::<Vec<_>>()
        .join(" ")
}

fn run_table(arguments: &Arguments) -> Result<(), String> {
    let mut out = String::new();
    let mut numbers = [0u64; COUNTS];
    let mut random = Random::new(arguments.number("--seed", 1)? ^ 0xB0F);
    arguments.series(|_, sheet| {
        let (image, scratch) = buffers(&mut random, &sheet);
        let (number, words) = answer(&sheet, image, scratch);
        numbers[number as usize] += 1;
        out.push_str(&format!(
            "{} ; {image} ; {scratch} ; {number} ; {}\n",
            joined(&sheet),
            joined(&words)
        ));
        Ok(())
    })?;
    write_file(
        arguments.options.get("--out").map_or("-", String::as_str),
        out.as_bytes(),
    )?;
    report(&numbers);
    Ok(())
}

fn run_vectors(arguments: &Arguments) -> Result<(), String> {
    if arguments.flag("--check") == arguments.flag("--lower") {
        return Err("vectors needs --check or --lower".to_string());
    }
    let lower = arguments.flag("--lower");
    let mut random = Random::new(arguments.number("--seed", 1)? ^ 0xB0F);
    let mut out = Vec::new();
    let mut numbers = [0u64; COUNTS];
    let count = arguments.number("--count", 100)?;
    put(&mut out, count as u32);
    arguments.series(|_, sheet| {
        let number = if lower {
            let (image, scratch) = buffers(&mut random, &sheet);
            let (number, words) = answer(&sheet, image, scratch);
            for word in [image as u32, scratch as u32, number, words.len() as u32] {
                put(&mut out, word);
            }
            for word in words {
                put(&mut out, word);
            }
            number
        } else {
            let number = oracle::check(&sheet);
            put(&mut out, number);
            number
        };
        numbers[number as usize] += 1;
        put_sheet(&mut out, &sheet);
        Ok(())
    })?;
    write_file(arguments.text("--out")?, &out)?;
    report(&numbers);
    Ok(())
}

fn run_selftest(arguments: &Arguments) -> Result<(), String> {
    let seed = arguments.number("--seed", 1)?;
    let count = arguments.number("--count", 2_000)?;
    let size = arguments.size()?;
    let mut figures = Figures::default();
    let profiles: Vec<&str> = match arguments.options.get("--profile").map(String::as_str) {
        None | Some("all") => gen::PROFILES.to_vec(),
        Some(profile) => vec![profile],
    };
    for profile in profiles {
        // The limits come in pairs, and all of them once are enough.
        let count = if profile == "limits" {
            count.min(2 * oracle::limits::EDGES.len() as u64)
        } else {
            count
        };
        let numbers = oracle::selftest::series(profile, seed, count, size, &mut figures)?;
        eprint!("{profile}: ");
        report(&numbers);
    }
    println!(
        "images {}, instructions {}, switches {}, questions {}, guards tried {}, defaults {}: all right",
        figures.images,
        figures.instructions,
        figures.switches,
        figures.questions,
        figures.guards_tried,
        figures.defaults
    );
    Ok(())
}

fn run_image_selftest(arguments: &Arguments) -> Result<(), String> {
    let seed = arguments.number("--seed", 1)?;
    let first = arguments.number("--first", 0)?;
    let count = arguments.number("--count", 100_000)?;
    let mut figures = ImageFigures::default();
    let size = arguments.image_size();
    oracle::image_selftest::series(seed, first, count, size, &mut figures)?;
    print!("{}", figures.lines(arguments.flag("--places")));
    println!(
        "pairs {}, by brute force {}: all right",
        figures.pairs, figures.decided
    );
    Ok(())
}

/// The scratch for an image in the vectors: mostly of exactly its length.
fn scratch_words(random: &mut Random, image: usize) -> usize {
    match random.below(16) {
        0 => image.saturating_sub(1),
        1 => random.below(image + 1),
        2 => image + 1,
        3 => image + random.below(20),
        _ => image,
    }
}

/// A sheet and its images, each with the words of a scratch.
type Group = (Vec<u8>, Vec<(Vec<u32>, usize)>);

/// A few sheets for each of the sheet's own refusals, beside a right and a wrong
/// image, with enough scratch and without.
fn refused_groups(seed: u64, groups: &mut Vec<Group>) {
    const SHEETS: usize = 5;
    const SHEET_BYTES: usize = 4_000;
    let right = oracle::image_rows::rows().swap_remove(0).image;
    let mut wrong = right.clone();
    wrong.pop();
    let mut left = [0; COUNTS];
    for number in SHEET_REFUSALS {
        left[number as usize] = SHEETS;
    }
    let mut index = 0;
    while left.iter().any(|left| *left > 0) {
        let sheet = gen::sheet("damaged", seed, index, Size::SMALL);
        index += 1;
        let left = &mut left[oracle::check(&sheet) as usize];
        if *left > 0 && sheet.len() <= SHEET_BYTES {
            *left -= 1;
            let records = [(&right, right.len()), (&right, 0), (&wrong, 40)];
            let records = records.map(|(image, scratch)| (image.clone(), scratch));
            groups.push((sheet, records.to_vec()));
        }
    }
}

fn run_image_vectors(arguments: &Arguments) -> Result<(), String> {
    const IMAGE_WORDS: usize = 250;
    const SHEET_BYTES: usize = 600;
    let seed = arguments.number("--seed", 1)?;
    let count = arguments.number("--count", 1_800)?;
    let mut random = Random::new(seed ^ 0xB0F);
    let mut groups: Vec<Group> = Vec::new();
    for row in oracle::image_rows::rows() {
        let bytes = row.sheet_bytes();
        let record = (row.image.clone(), row.image.len());
        match groups.iter_mut().find(|group| group.0 == bytes) {
            Some(group) => group.1.push(record),
            None => groups.push((bytes, vec![record])),
        }
    }
    refused_groups(seed, &mut groups);
    let (mut done, mut index) = (0, 0);
    while done < count {
        let (sheet, images) = image_gen::group(seed, index, ImageSize::SMALL, 8);
        index += 1;
        if sheet.len() > SHEET_BYTES {
            continue;
        }
        let kept: Vec<_> = images
            .into_iter()
            .filter(|image| image.len() <= IMAGE_WORDS)
            .map(|image| {
                let words = scratch_words(&mut random, image.len());
                (image, words)
            })
            .collect();
        done += kept.len() as u64;
        groups.push((sheet, kept));
    }
    let mut out = Vec::new();
    let mut numbers = [0u64; COUNTS];
    put(&mut out, groups.len() as u32);
    for (sheet, records) in &groups {
        put(&mut out, sheet.len() as u32);
        put(&mut out, records.len() as u32);
        out.extend_from_slice(sheet);
        pad(&mut out);
        for (image, scratch) in records {
            let number = oracle::check_image(sheet, image, &mut vec![1; *scratch]);
            numbers[number as usize] += 1;
            for word in [image.len() as u32, *scratch as u32, number] {
                put(&mut out, word);
            }
            for word in image {
                put(&mut out, *word);
            }
        }
    }
    write_file(arguments.text("--out")?, &out)?;
    report(&numbers);
    Ok(())
}

fn run_sample(arguments: &Arguments) -> Result<(), String> {
    let name = arguments.rest.first().map_or("", String::as_str);
    let sheet = oracle::samples::sample(name)
        .ok_or(format!("no sample {name}; there are unit, port and twice"))?;
    write_file(
        arguments.options.get("--out").map_or("-", String::as_str),
        &sheet,
    )
}

fn run_bench(arguments: &Arguments) -> Result<(), String> {
    let rounds = arguments.number("--rounds", 0)?;
    let sheets: Vec<Vec<u8>> = arguments
        .rest
        .iter()
        .map(|path| read_file(path))
        .collect::<Result<_, _>>()?;
    if sheets.is_empty() {
        return Err("bench needs files".to_string());
    }
    let bytes: usize = sheets.iter().map(Vec::len).sum();
    let mut image = vec![0u32; 4_000_000];
    let mut scratch = vec![0u32; 8_000_000];
    // As many rounds as take about a second.
    let time = |each: &mut dyn FnMut(&[u8]) -> u32| {
        let start = Instant::now();
        let mut done = 0u64;
        let mut sum = 0u64;
        while (rounds > 0 && done < rounds)
            || (rounds == 0 && (done < 3 || start.elapsed().as_millis() < 1_000))
        {
            for sheet in &sheets {
                sum = sum.wrapping_add(u64::from(each(black_box(sheet))));
            }
            done += 1;
        }
        black_box(sum);
        (
            start.elapsed().as_nanos() as f64 / (done as f64 * sheets.len() as f64),
            done,
        )
    };
    let (check, check_rounds) = time(&mut |sheet| oracle::check(sheet));
    // Lowering zeroes its scratch, so it gets only what the sheet asks for.
    let needs: Vec<usize> = sheets
        .iter()
        .map(|sheet| oracle::lower_sheet(sheet).map_or(0, |image| image.scratch_needed() as usize))
        .collect();
    let mut at = 0;
    let (lower, lower_rounds) = time(&mut |sheet| {
        let need = needs[at % needs.len()];
        at += 1;
        oracle::lower(sheet, &mut image, &mut scratch[..need]).0
    });
    println!("sheets {}, bytes {bytes}", sheets.len());
    println!("check {check:.0} ns a sheet, {check_rounds} rounds");
    println!("lower {lower:.0} ns a sheet, {lower_rounds} rounds");
    Ok(())
}

/// True if there is no difference.
fn run_compare(arguments: &Arguments) -> Result<bool, String> {
    let image = arguments.number("--image", PROGRAM_IMAGE_WORDS as u64)? as usize;
    let scratch = arguments.number("--scratch", PROGRAM_SCRATCH_WORDS as u64)? as usize;
    let directory = arguments.text("--dir")?;
    let (program, program_arguments) = arguments
        .rest
        .split_first()
        .ok_or("compare needs -- PROGRAM")?;
    let mut paths: Vec<_> = fs::read_dir(directory)
        .map_err(|error| format!("{directory}: {error}"))?
        .filter_map(|entry| entry.ok().map(|entry| entry.path()))
        .filter(|path| path.is_file() && path.extension().is_some_and(|end| end == "sheet"))
        .collect();
    paths.sort();
    let (mut same, mut different) = (0u64, 0u64);
    let mut numbers = [0u64; COUNTS];
    for path in &paths {
        let sheet = fs::read(path).map_err(|error| format!("{}: {error}", path.display()))?;
        let expected = printed(&sheet, image, scratch, !arguments.flag("--any-size"));
        let number = expected
            .strip_prefix("refused ")
            .map_or(0, |rest| rest.trim().parse().unwrap());
        let found = fed(program, program_arguments, &sheet)?;
        if found == expected.as_bytes() {
            same += 1;
            numbers[number as usize] += 1;
        } else {
            different += 1;
            println!("{}", path.display());
            println!("  expected {}", shortened(&expected));
            println!("  found    {}", shortened(&String::from_utf8_lossy(&found)));
        }
    }
    report(&numbers);
    println!("sheets {}, same {same}, different {different}", paths.len());
    Ok(different == 0 && same > 0)
}

fn shortened(text: &str) -> String {
    let text = text.trim_end_matches('\n');
    if text.chars().count() <= 600 {
        text.to_string()
    } else {
        format!("{}...", text.chars().take(600).collect::<String>())
    }
}

/// What a program prints for an input.
fn fed(program: &str, arguments: &[String], input: &[u8]) -> Result<Vec<u8>, String> {
    let mut child = Command::new(program)
        .args(arguments)
        .stdin(Stdio::piped())
        .stdout(Stdio::piped())
        .spawn()
        .map_err(|error| format!("{program}: {error}"))?;
    let mut pipe = child.stdin.take().expect("a pipe");
    let output = std::thread::scope(|scope| {
        // A program may stop reading early; that is no error here.
        scope.spawn(move || {
            let _ = pipe.write_all(input);
        });
        child.wait_with_output()
    })
    .map_err(|error| format!("{program}: {error}"))?;
    Ok(output.stdout)
}

fn report(numbers: &[u64; COUNTS]) {
    let parts: Vec<String> = ANSWERS
        .iter()
        .map(|number| (number, numbers[*number as usize]))
        .filter(|(_, count)| *count > 0)
        .map(|(number, count)| format!("{number}: {count}"))
        .collect();
    eprintln!("answers {}", parts.join(", "));
}

fn main() -> ExitCode {
    let words: Vec<String> = std::env::args().skip(1).collect();
    let Some((command, rest)) = words.split_first() else {
        print!("{HELP}");
        return ExitCode::from(2);
    };
    let result = arguments(rest).and_then(|arguments| match command.as_str() {
        "--help" | "-h" | "help" => {
            print!("{HELP}");
            Ok(true)
        }
        "gen" => run_gen(&arguments).map(|()| true),
        "check" => run_check(&arguments).map(|()| true),
        "needs" => run_needs(&arguments).map(|()| true),
        "vectors" => run_vectors(&arguments).map(|()| true),
        "lower" => run_lower(&arguments).map(|()| true),
        "table" => run_table(&arguments).map(|()| true),
        "selftest" => run_selftest(&arguments).map(|()| true),
        "image-selftest" => run_image_selftest(&arguments).map(|()| true),
        "image-vectors" => run_image_vectors(&arguments).map(|()| true),
        "image-rows" => {
            for row in oracle::image_rows::rows() {
                let (sheet, image) = (joined(&row.sheet), joined(&row.image));
                println!("{} ; {sheet} ; {image} ; {}", row.name, row.answer());
            }
            Ok(true)
        }
        "edges" => {
            print!("{}", oracle::edges::lines());
            Ok(true)
        }
        "sample" => run_sample(&arguments).map(|()| true),
        "bench" => run_bench(&arguments).map(|()| true),
        "compare" => run_compare(&arguments),
        _ => Err(format!("no command {command}; see --help")),
    });
    match result {
        Ok(true) => ExitCode::SUCCESS,
        Ok(false) => ExitCode::from(1),
        Err(message) => {
            eprintln!("oracle: {message}");
            ExitCode::from(2)
        }
    }
}

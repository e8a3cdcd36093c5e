//! Lowers the sheet in a file: prints the image's words, or `refused` and the number.
//!
//!     cargo run --example lower SHEET

use std::process::ExitCode;

const SHEET_BYTES: usize = 65_536;
const WORDS: usize = 16_384;

fn main() -> ExitCode {
    let Some(path) = std::env::args().nth(1) else {
        eprintln!("lower SHEET");
        return ExitCode::from(2);
    };
    let sheet = match std::fs::read(&path) {
        Ok(sheet) => sheet,
        Err(error) => {
            eprintln!("{path}: {error}");
            return ExitCode::from(2);
        }
    };
    if sheet.len() > SHEET_BYTES {
        println!("refused 1");
        return ExitCode::SUCCESS;
    }
    let (mut image, mut scratch) = ([0u32; WORDS], [0u32; WORDS]);
    match sheet_lower::lower(&sheet, &mut image, &mut scratch) {
        Ok(words) => {
            let words: Vec<String> = words.iter().map(u32::to_string).collect();
            println!("{}", words.join(" "));
        }
        Err(refused) => println!("{refused}"),
    }
    ExitCode::SUCCESS
}

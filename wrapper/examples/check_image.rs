//! Checks the image in a file of decimal words beside the sheet in another: prints `well made`, or `refused` and the number.
//!
//!     cargo run --example check_image SHEET WORDS

use std::error::Error;
use std::process::ExitCode;

const SHEET_BYTES: usize = 65_536;
const WORDS: usize = 16_384;

/// The words of an image in decimal, with white space between them.
fn read_words(path: &str) -> Result<Vec<u32>, Box<dyn Error>> {
    let words = std::fs::read_to_string(path)?
        .split_ascii_whitespace()
        .map(str::parse)
        .collect::<Result<Vec<u32>, _>>()?;
    if words.len() > WORDS {
        return Err(format!("over {WORDS} words").into());
    }
    Ok(words)
}

fn run(sheet: &str, words: &str) -> Result<(), Box<dyn Error>> {
    let sheet = std::fs::read(sheet)?;
    let image = read_words(words)?;
    if sheet.len() > SHEET_BYTES {
        println!("refused 1");
        return Ok(());
    }
    match sheet_lower::check_image(&sheet, &image, &mut [0; WORDS]) {
        Ok(()) => println!("well made"),
        Err(refused) => println!("{refused}"),
    }
    Ok(())
}

fn main() -> ExitCode {
    let arguments: Vec<String> = std::env::args().collect();
    let [_, sheet, words] = &arguments[..] else {
        eprintln!("check_image SHEET WORDS");
        return ExitCode::from(2);
    };
    match run(sheet, words) {
        Ok(()) => ExitCode::SUCCESS,
        Err(error) => {
            eprintln!("{sheet}, {words}: {error}");
            ExitCode::from(2)
        }
    }
}

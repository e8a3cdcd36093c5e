//! What the sheet in a file needs: prints the words of scratch that its lowering asks for, or `refused` and the number.
//!
//!     cargo run --example needs SHEET

use std::process::ExitCode;

const SHEET_BYTES: usize = 65_536;

fn main() -> ExitCode {
    let Some(path) = std::env::args().nth(1) else {
        eprintln!("needs SHEET");
        return ExitCode::from(2);
    };
    let sheet = match std::fs::read(&path) {
        Ok(sheet) => sheet,
        Err(error) => {
            eprintln!("{path}: {error}");
            return ExitCode::from(2);
        }
    };
    if sheet.len() > SHEET_BYTES {
        println!("refused 1");
        return ExitCode::SUCCESS;
    }
    match sheet_lower::needs(&sheet) {
        Ok(words) => println!("{words} words of scratch"),
        Err(refused) => println!("{refused}"),
    }
    ExitCode::SUCCESS
}

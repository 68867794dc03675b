//! Does what the program for fields does, by one call: digits to fields, or with `--spell` fields to digits.

#[path = "../streams.rs"]
mod streams;

use baliseplan::{explain, spell};
use std::process::ExitCode;

fn main() -> ExitCode {
    let words: Vec<String> = std::env::args().skip(1).collect();
    match words.iter().map(String::as_str).collect::<Vec<_>>()[..] {
        [] => streams::run_over(explain),
        ["--spell"] => streams::run_over(spell),
        _ => ExitCode::from(64),
    }
}

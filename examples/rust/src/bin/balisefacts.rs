//! Does what the program for facts does, by one call: facts of the session that stands after the last command.

#[path = "../streams.rs"]
mod streams;

use baliseplan::{facts, Facts};
use std::process::ExitCode;

/// What the words ask for.
fn asked_for(words: &[&str]) -> Option<Facts> {
    match words {
        [] => Some(Facts::Edits),
        ["--tags"] => Some(Facts::Tags),
        ["--edit", serial] => serial.parse().ok().map(Facts::Edit),
        _ => None,
    }
}

fn main() -> ExitCode {
    let words: Vec<String> = std::env::args().skip(1).collect();
    let words: Vec<&str> = words.iter().map(String::as_str).collect();
    match asked_for(&words) {
        Some(asked) => streams::run_over(|input| facts(input, asked)),
        None => ExitCode::from(64),
    }
}

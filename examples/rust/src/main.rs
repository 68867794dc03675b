//! Does what the program does, by one call: reads standard input, writes standard output, ends with the same status.

mod streams;

use baliseplan::{run, Flags};
use std::process::ExitCode;

fn flags() -> Option<Flags> {
    std::env::args()
        .skip(1)
        .try_fold(Flags::default(), |flags, word| {
            Some(match word.as_str() {
                "--quiet" => flags | Flags::QUIET,
                "--stop" => flags | Flags::STOP,
                "--journal" => flags | Flags::JOURNAL,
                "--json" => flags | Flags::JSON,
                _ => return None,
            })
        })
}

fn main() -> ExitCode {
    match flags() {
        Some(flags) => streams::run_over(|input| run(input, flags)),
        None => ExitCode::from(64),
    }
}

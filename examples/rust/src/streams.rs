//! A run from standard input to standard output, as the programs make it.

use baliseplan::{Fault, Run, Status, Stopped};
use std::io::{self, Read, Write};
use std::process::ExitCode;

/// All of standard input. Reading may run out of memory too.
fn read_all() -> Result<Vec<u8>, Fault> {
    let mut input = Vec::new();
    match io::stdin().read_to_end(&mut input) {
        Ok(_) => Ok(input),
        Err(error) if error.kind() == io::ErrorKind::OutOfMemory => Err(Fault::OutOfMemory),
        Err(_) => Err(Fault::ReadFault),
    }
}

/// What a run printed, and how it ended.
fn answer(run: impl Fn(&[u8]) -> Result<Run, Stopped>) -> (Result<Status, Fault>, Vec<u8>) {
    let ended = match read_all() {
        Ok(input) => run(&input),
        Err(fault) => Err(fault.into()),
    };
    match ended {
        Ok(run) => (Ok(run.status), run.output),
        Err(stopped) => (Err(stopped.fault), stopped.output),
    }
}

/// Runs over the streams. The exit code is that of the program.
pub fn run_over(run: impl Fn(&[u8]) -> Result<Run, Stopped>) -> ExitCode {
    let (ended, output) = answer(run);
    let written = io::stdout().lock().write_all(&output);
    match ended.and_then(|status| written.map(|()| status).map_err(|_| Fault::WriteFault)) {
        Ok(status) => ExitCode::from(status as u8),
        Err(fault) => {
            eprintln!("fault {} {fault:?}", fault.number());
            ExitCode::from(3)
        }
    }
}

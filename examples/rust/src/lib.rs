//! Edits ETCS balise plans in this process, by the C library.
//!
//! ```
//! use baliseplan::{run, Flags, Status};
//!
//! let input = b"plan 1\ngroup\na1007f80a03250900f82ffffffffffffffffffffffffffffffffc0\nedits\nundo\n";
//! let run = run(input, Flags::QUIET)?;
//! assert_eq!(run.status, Status::SomeRefused);
//! assert!(run.output.starts_with(b"refused 23 NothingToUndo\nplan 1\n"));
//! # Ok::<(), baliseplan::Stopped>(())
//! ```
//!
//! What the edits that stand change, and which later edits depend on them:
//!
//! ```
//! # let input = b"plan 1\ngroup\na1007f80a03250900f82ffffffffffffffffffffffffffffffffc0\nedits\nturn 5.100\n";
//! let facts = baliseplan::facts(input, baliseplan::Facts::Edits)?.output;
//! assert_eq!(facts, b"facts 1\nedit 1\nchanges b0.turn\nchanges #5.100\n");
//! # Ok::<(), baliseplan::Stopped>(())
//! ```
//!
//! The digits of telegrams and packets as fields, and fields as digits:
//!
//! ```
//! let digits = b"packet 33 2c803960\n";
//! let fields = baliseplan::explain(digits)?.output;
//! assert!(fields.starts_with(b"packet 33\n0 8 NID_PACKET 0 44\n"));
//! assert_eq!(baliseplan::spell(&fields)?.output, digits);
//! # Ok::<(), baliseplan::Stopped>(())
//! ```

mod raw;

use raw::Way;
use std::error::Error;
use std::fmt;
use std::ops::BitOr;

/// What else a run prints or leaves out. Flags are combined by `|`.
#[derive(Clone, Copy, Debug, Default, PartialEq, Eq)]
pub struct Flags(u32);

impl Flags {
    /// Leave out the replies to accepted commands.
    pub const QUIET: Flags = Flags(1);
    /// Do no command after the first refused one.
    pub const STOP: Flags = Flags(2);
    /// Print the journal after the plan.
    pub const JOURNAL: Flags = Flags(4);
    /// Print a line of JSON for each group after that.
    pub const JSON: Flags = Flags(8);
}

impl BitOr for Flags {
    type Output = Flags;

    fn bitor(self, other: Flags) -> Flags {
        Flags(self.0 | other.0)
    }
}

/// Which facts of a session are asked for.
#[derive(Clone, Copy, Debug, PartialEq, Eq)]
pub enum Facts {
    /// Those of each edit that stands.
    Edits,
    /// Those of the edit with this serial, if it stands.
    Edit(u32),
    /// The tags of groups, telegrams and packets.
    Tags,
}

impl Facts {
    /// The numbers of the library: of what is asked for, and the serial.
    fn numbers(self) -> (u32, u32) {
        match self {
            Facts::Edits => (0, 0),
            Facts::Edit(serial) => (1, serial),
            Facts::Tags => (2, 0),
        }
    }
}

/// How a run ended that came to its end.
#[derive(Clone, Copy, Debug, PartialEq, Eq)]
pub enum Status {
    Accepted,
    SomeRefused,
    /// The plan or the journal was refused: the output is one line that says where and why.
    BadInput,
}

/// Why a run didn't come to its end.
#[derive(Clone, Copy, Debug, PartialEq, Eq)]
pub enum Fault {
    InputTooLong,
    OutOfMemory,
    ReadFault,
    /// The output is too small. Only the functions have this whose names end with `_into`.
    WriteFault,
}

impl Fault {
    /// The number that the program prints before the name.
    pub fn number(self) -> u8 {
        match self {
            Fault::InputTooLong => 29,
            Fault::OutOfMemory => 30,
            Fault::ReadFault => 31,
            Fault::WriteFault => 32,
        }
    }
}

impl fmt::Display for Fault {
    fn fmt(&self, f: &mut fmt::Formatter<'_>) -> fmt::Result {
        f.write_str(match self {
            Fault::InputTooLong => {
                "a line has more than 4,096 bytes, or the input more than 67,108,864"
            }
            Fault::OutOfMemory => "out of memory",
            Fault::ReadFault => "the input can't be read",
            Fault::WriteFault => "the output is too small",
        })
    }
}

impl Error for Fault {}

/// A run that came to its end, with all that it printed.
#[derive(Clone, Debug, PartialEq, Eq)]
pub struct Run {
    pub status: Status,
    pub output: Vec<u8>,
}

/// A run that didn't come to its end, with what it printed until then.
#[derive(Clone, Debug, PartialEq, Eq)]
pub struct Stopped {
    pub fault: Fault,
    pub output: Vec<u8>,
}

impl fmt::Display for Stopped {
    fn fmt(&self, f: &mut fmt::Formatter<'_>) -> fmt::Result {
        self.fault.fmt(f)
    }
}

impl Error for Stopped {}

impl From<Fault> for Stopped {
    fn from(fault: Fault) -> Stopped {
        Stopped {
            fault,
            output: Vec::new(),
        }
    }
}

/// Runs over an input: a plan, perhaps its journal, and commands.
pub fn run(input: &[u8], flags: Flags) -> Result<Run, Stopped> {
    whole(raw::run_alloc(input, flags.0))
}

/// Facts of the session that stands after the last command: what `balisefacts` prints. The input is as for `run`.
pub fn facts(input: &[u8], facts: Facts) -> Result<Run, Stopped> {
    let (what, serial) = facts.numbers();
    whole(raw::facts_alloc(input, what, serial))
}

/// The fields of digits: what `balisefields` prints for telegrams and packets, a line each. The status is `SomeRefused`
/// where some digits are refused, and never `BadInput`.
pub fn explain(input: &[u8]) -> Result<Run, Stopped> {
    whole(raw::fields_alloc(Way::Explain, input))
}

/// The digits of fields: what `balisefields --spell` prints. The status is as for `explain`.
pub fn spell(input: &[u8]) -> Result<Run, Stopped> {
    whole(raw::fields_alloc(Way::Spell, input))
}

fn whole((answer, printed): (i32, raw::Output)) -> Result<Run, Stopped> {
    let output = copied(printed.bytes())?;
    match ended(answer) {
        Ok(status) => Ok(Run { status, output }),
        Err(fault) => Err(Stopped { fault, output }),
    }
}

fn copied(bytes: &[u8]) -> Result<Vec<u8>, Fault> {
    let mut copy = Vec::new();
    copy.try_reserve_exact(bytes.len())
        .map_err(|_| Fault::OutOfMemory)?;
    copy.extend_from_slice(bytes);
    Ok(copy)
}

/// Runs, and writes to the front of an output of the caller's. Also returns the number of bytes written, which after a
/// fault are a beginning of a right output.
pub fn run_into(input: &[u8], flags: Flags, output: &mut [u8]) -> (Result<Status, Fault>, usize) {
    let (answer, written) = raw::run(input, flags.0, output);
    (ended(answer), written)
}

/// As `facts`, to the front of an output of the caller's, like `run_into`.
pub fn facts_into(input: &[u8], facts: Facts, output: &mut [u8]) -> (Result<Status, Fault>, usize) {
    let (what, serial) = facts.numbers();
    let (answer, written) = raw::facts(input, what, serial, output);
    (ended(answer), written)
}

/// As `explain`, to the front of an output of the caller's, like `run_into`.
pub fn explain_into(input: &[u8], output: &mut [u8]) -> (Result<Status, Fault>, usize) {
    let (answer, written) = raw::fields(Way::Explain, input, output);
    (ended(answer), written)
}

/// As `spell`, to the front of an output of the caller's, like `run_into`.
pub fn spell_into(input: &[u8], output: &mut [u8]) -> (Result<Status, Fault>, usize) {
    let (answer, written) = raw::fields(Way::Spell, input, output);
    (ended(answer), written)
}

/// How many bytes a run prints, and how it ends. It is a whole run.
pub fn output_size(input: &[u8], flags: Flags) -> (Result<Status, Fault>, usize) {
    let (answer, size) = raw::size(input, flags.0);
    (ended(answer), size)
}

/// The version of the library.
pub fn version() -> &'static str {
    raw::version()
}

fn ended(answer: i32) -> Result<Status, Fault> {
    match answer {
        0 => Ok(Status::Accepted),
        1 => Ok(Status::SomeRefused),
        2 => Ok(Status::BadInput),
        29 => Err(Fault::InputTooLong),
        30 => Err(Fault::OutOfMemory),
        31 => Err(Fault::ReadFault),
        32 => Err(Fault::WriteFault),
        other => unreachable!("flags and facts are known, so no call answers {other}"),
    }
}

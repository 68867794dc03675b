//! Run by `cargo test`, once `make library` has built the library.

use baliseplan::{output_size, run, run_into, version, Fault, Flags, Status, Stopped};
use std::fs;
use std::io::Write;
use std::path::{Path, PathBuf};
use std::process::{Command, Output, Stdio};
use std::thread;

const PLAN: &[u8] = b"plan 1\ngroup\na1007f80a03250900f82ffffffffffffffffffffffffffffffffc0\nedits\nset 5.100 0 0 NID_TSR 0 9\n";
const PRINTED: &[u8] =
    b"ok 1\nplan 1\ngroup\na1007f80a03250900f84ffffffffffffffffffffffffffffffffc0\n";

fn examples() -> PathBuf {
    Path::new(env!("CARGO_MANIFEST_DIR")).join("..")
}

fn flags_of(plan: &Path) -> Flags {
    let words = fs::read_to_string(plan.with_extension("flags")).unwrap_or_default();
    words
        .split_whitespace()
        .fold(Flags::default(), |flags, word| {
            flags
                | match word {
                    "--quiet" => Flags::QUIET,
                    "--stop" => Flags::STOP,
                    "--journal" => Flags::JOURNAL,
                    "--json" => Flags::JSON,
                    other => panic!("{other} is no flag"),
                }
        })
}

#[test]
fn prints_the_examples() {
    let mut count = 0;
    for entry in fs::read_dir(examples()).unwrap() {
        let plan = entry.unwrap().path();
        if plan.extension() == Some("plan".as_ref()) {
            let printed = run(&fs::read(&plan).unwrap(), flags_of(&plan)).unwrap();
            assert_eq!(
                printed.output,
                fs::read(plan.with_extension("out")).unwrap(),
                "{}",
                plan.display()
            );
            count += 1;
        }
    }
    assert!(count > 5);
}

#[test]
fn says_how_a_run_ended() {
    assert_eq!(
        run(PLAN, Flags::default()).unwrap().status,
        Status::Accepted
    );
    assert_eq!(
        run(&[PLAN, b"redo\n"].concat(), Flags::STOP)
            .unwrap()
            .status,
        Status::SomeRefused
    );
    let bad = run(b"", Flags::default()).unwrap();
    assert_eq!(
        (bad.status, bad.output),
        (Status::BadInput, b"bad 1 1 BadLine\n".to_vec())
    );
}

#[test]
fn keeps_what_was_answered_before_a_fault() {
    let stopped = Stopped {
        fault: Fault::InputTooLong,
        output: b"ok 1\n".to_vec(),
    };
    assert_eq!(
        run(&[PLAN, &[b'x'; 4097]].concat(), Flags::default()),
        Err(stopped)
    );
}

#[test]
fn writes_a_beginning_to_a_small_output() {
    for room in 0..PRINTED.len() {
        let mut output = vec![7; room];
        assert_eq!(
            run_into(PLAN, Flags::default(), &mut output),
            (Err(Fault::WriteFault), room)
        );
        assert_eq!(output, PRINTED[..room]);
    }
}

#[test]
fn leaves_the_bytes_after_what_it_writes() {
    let mut output = vec![7; PRINTED.len() + 100];
    assert_eq!(
        run_into(PLAN, Flags::default(), &mut output),
        (Ok(Status::Accepted), PRINTED.len())
    );
    assert_eq!(output, [PRINTED, &[7; 100]].concat());
}

#[test]
fn counts_an_output() {
    assert_eq!(
        output_size(PLAN, Flags::default()),
        (Ok(Status::Accepted), PRINTED.len())
    );
}

#[test]
fn runs_an_output_longer_than_its_first_guess() {
    let base = fs::read(examples().join("line.base")).unwrap();
    let turns = b"turn 5.300\n".repeat(2_000);
    let input = [&base[..], b"edits\n", &turns].concat();
    let printed = run(&input, Flags::QUIET).unwrap();
    assert_eq!(printed.status, Status::Accepted);
    assert!(printed.output.len() > 8 * input.len());
    assert!(printed.output.ends_with(&base));
}

#[test]
fn answers_the_same_on_four_threads() {
    let due = run(PLAN, Flags::JOURNAL);
    thread::scope(|scope| {
        for _ in 0..4 {
            scope.spawn(|| (0..2_000).for_each(|_| assert_eq!(run(PLAN, Flags::JOURNAL), due)));
        }
    });
}

#[test]
fn has_the_version_of_the_crate() {
    assert_eq!(version(), env!("CARGO_PKG_VERSION"));
}

/// The first 25 bits of a header: Q_UPDOWN to M_MCOUNT.
const HEADER: u64 = 0x0142_00ff;

/// A plan of groups of one telegram, each without a packet.
fn plan_of(groups: u64) -> Vec<u8> {
    let mut text = b"plan 1\n".to_vec();
    for group in 0..groups {
        let (country, number) = (group / 16_000, group % 16_000);
        let header = (HEADER << 25) | (country << 15) | (number << 1) | 1;
        let end = "f".repeat(39);
        writeln!(text, "group\n{:x}{end}c0", (header << 2) | 3).unwrap();
    }
    text
}

/// The caller under a limit of 100 MB.
fn limited(input: Vec<u8>) -> Output {
    let mut caller = Command::new("sh")
        .args(["-c", "ulimit -v 100000; exec \"$0\" --quiet"])
        .arg(env!("CARGO_BIN_EXE_baliseplan"))
        .stdin(Stdio::piped())
        .stdout(Stdio::piped())
        .stderr(Stdio::piped())
        .spawn()
        .unwrap();
    let mut stdin = caller.stdin.take().unwrap();
    // The caller stops reading where memory runs out, so a broken pipe is no failure.
    let feeder = thread::spawn(move || drop(stdin.write_all(&input)));
    let ended = caller.wait_with_output().unwrap();
    feeder.join().unwrap();
    ended
}

#[test]
fn runs_out_of_memory_as_a_fault() {
    for groups in [300_000, 600_000, 1_000_000] {
        let ended = limited([&plan_of(groups)[..], b"edits\n"].concat());
        assert_eq!(ended.status.code(), Some(3), "{groups} groups");
        assert_eq!(ended.stderr, b"fault 30 OutOfMemory\n", "{groups} groups");
    }
    let ended = limited([&plan_of(1_000)[..], b"edits\n"].concat());
    assert_eq!(
        (ended.status.code(), ended.stdout),
        (Some(0), plan_of(1_000))
    );
}

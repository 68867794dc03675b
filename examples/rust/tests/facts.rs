//! Tests of the call for facts. Run by `cargo test`, once `make library` has built the library.

use baliseplan::{facts, facts_into, Facts, Fault, Status, Stopped};

const EDITED: &[u8] = b"plan 1\ngroup\na1007f80a03250900f82ffffffffffffffffffffffffffffffffc0\nedits\nset 5.100 0 0 NID_TSR 0 9\nset 5.100 0 0 NID_TSR 0 8\nredo\n";
const ALL: &[u8] = b"refused 24 NothingToRedo\nfacts 1\nedit 1\nchanges b0/0/b0.NID_TSR.0\ndependent 2\nedit 2\nchanges b0/0/b0.NID_TSR.0\n";

#[test]
fn tells_facts_of_edits() {
    for (asked, due) in [
        (Facts::Edits, ALL),
        (
            Facts::Edit(2),
            b"refused 24 NothingToRedo\nfacts 1\nedit 2\nchanges b0/0/b0.NID_TSR.0\n",
        ),
        (Facts::Edit(0), b"refused 24 NothingToRedo\nfacts 1\n"),
        (
            Facts::Edit(u32::MAX),
            b"refused 24 NothingToRedo\nfacts 1\n",
        ),
    ] {
        let told = facts(EDITED, asked).unwrap();
        assert_eq!((told.status, &told.output[..]), (Status::SomeRefused, due));
    }
}

#[test]
fn tells_tags() {
    let told = facts(EDITED, Facts::Tags).unwrap();
    assert!(told
        .output
        .ends_with(b"facts 1\ngroup 5.100 b0\ntelegram 5.100 0 0\npacket 5.100 0 0 b0\n"));
}

#[test]
fn refuses_what_is_no_plan() {
    let told = facts(b"", Facts::Tags).unwrap();
    assert_eq!(
        (told.status, &told.output[..]),
        (Status::BadInput, &b"bad 1 1 BadLine\n"[..])
    );
}

#[test]
fn keeps_what_was_printed_before_a_fault() {
    let stopped = Stopped {
        fault: Fault::InputTooLong,
        output: b"refused 24 NothingToRedo\n".to_vec(),
    };
    let input = [EDITED, &[b'x'; 4097]].concat();
    assert_eq!(facts(&input, Facts::Edits), Err(stopped));
}

#[test]
fn writes_a_beginning_to_a_small_output_and_leaves_the_rest() {
    for room in 0..ALL.len() {
        let mut output = vec![7; room];
        let due = (Err(Fault::WriteFault), room);
        assert_eq!(facts_into(EDITED, Facts::Edits, &mut output), due);
        assert_eq!(output, ALL[..room]);
    }
    for more in [0, 100] {
        let mut output = vec![7; ALL.len() + more];
        let due = (Ok(Status::SomeRefused), ALL.len());
        assert_eq!(facts_into(EDITED, Facts::Edits, &mut output), due);
        assert_eq!(output, [ALL, &vec![7; more]].concat());
    }
}

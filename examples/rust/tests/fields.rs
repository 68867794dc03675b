//! Tests of the calls over fields. Run by `cargo test`, once `make library` has built the library.

use baliseplan::{explain, explain_into, spell, spell_into, Fault, Status, Stopped};

const DIGITS: &[u8] = b"packet 33 42403e08\ngroup\n";
const FIELDS: &[u8] =
    b"packet 33\n0 8 NID_PACKET 0 66\n8 2 Q_DIR 0 1\n10 13 L_PACKET 0 31\n23 8 NID_TSR 0 4\ngroup\n";

#[test]
fn explains_digits_and_turns_fields_back() {
    let fields = explain(DIGITS).unwrap();
    assert_eq!(
        (fields.status, &fields.output[..]),
        (Status::Accepted, FIELDS)
    );
    let digits = spell(FIELDS).unwrap();
    assert_eq!(
        (digits.status, &digits.output[..]),
        (Status::Accepted, DIGITS)
    );
}

#[test]
fn says_that_something_was_refused() {
    let fields = explain(b"packet 33 00\n").unwrap();
    assert_eq!(fields.status, Status::SomeRefused);
    assert!(fields.output.ends_with(b"fault 9 PacketZero 0 8 another\n"));
    let digits = spell(b"packet 33\nNID_PACKET 66\nQ_DIR 1\n").unwrap();
    assert_eq!(digits.status, Status::SomeRefused);
    assert_eq!(digits.output, b"bad 4 Missing NID_TSR\n");
}

#[test]
fn answers_nothing_for_nothing() {
    for run in [explain(b"").unwrap(), spell(b"").unwrap()] {
        assert_eq!((run.status, run.output), (Status::Accepted, Vec::new()));
    }
    assert_eq!(explain_into(b"", &mut []), (Ok(Status::Accepted), 0));
    assert_eq!(spell_into(b"", &mut []), (Ok(Status::Accepted), 0));
}

#[test]
fn keeps_what_was_printed_before_a_fault() {
    let stopped = |output: &[u8]| {
        Err(Stopped {
            fault: Fault::InputTooLong,
            output: output.to_vec(),
        })
    };
    assert_eq!(explain(&[DIGITS, &[b'x'; 4097]].concat()), stopped(FIELDS));
    assert_eq!(spell(&[FIELDS, &[b'x'; 4097]].concat()), stopped(DIGITS));
}

#[test]
fn writes_a_beginning_to_a_small_output_and_leaves_the_rest() {
    for (call, input, printed) in [
        (explain_into as fn(&[u8], &mut [u8]) -> _, DIGITS, FIELDS),
        (spell_into, FIELDS, DIGITS),
    ] {
        for room in 0..printed.len() {
            let mut output = vec![7; room];
            assert_eq!(call(input, &mut output), (Err(Fault::WriteFault), room));
            assert_eq!(output, printed[..room]);
        }
        for more in [0, 100] {
            let mut output = vec![7; printed.len() + more];
            let due = (Ok(Status::Accepted), printed.len());
            assert_eq!(call(input, &mut output), due);
            assert_eq!(output, [printed, &vec![7; more]].concat());
        }
    }
}

#[test]
fn explains_an_output_longer_than_its_first_guess() {
    let fields = explain(&b"\n".repeat(10_000)).unwrap();
    assert_eq!(fields.status, Status::SomeRefused);
    let due = b"fault 3 BadLength - 0 length\n".repeat(10_000);
    assert_eq!(fields.output, due);
}

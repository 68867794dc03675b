# Exit statuses and standard error of $PROGRAM, which statuses.sh sets.

bats_require_minimum_version 1.5.0

# Ends a run that takes too long. The limit of bats itself waits for all that a test started.
soon=(timeout --foreground -s KILL "${CHECK_SECONDS:-120}")

setup() {
    top=$BATS_TEST_DIRNAME/../..
    stored=$top/crates/baliseplan
    input=$BATS_TEST_TMPDIR/input
    made=$BATS_TEST_TMPDIR/made
}

# ends STATUS ERROR COMMAND ..: the command ends with the status, and standard error is the text
ends() {
    local due=$1 error=$2
    shift 2
    run --separate-stderr "-$due" "$@"
    [ "$stderr" = "$error" ]
}

# over INPUT FLAG ..: the program over a file; its output goes to standard output
over() {
    local from=$1
    shift
    "${soon[@]}" "$PROGRAM" "$@" < "$from"
}

# says STATUS STREAM TEXT FLAG ..: the program over the stored input; the text is on the one stream and the other is empty
says() {
    local due=$1 stream=$2 text=$3
    shift 3
    run --separate-stderr "-$due" over "$stored/stdin" "$@"
    if [ "$stream" = out ]; then
        [[ $output == *"$text"* ]] && [ -z "$stderr" ]
    else
        [[ $stderr == *"$text"* ]] && [ -z "$output" ]
    fi
}

@test "0 where all is accepted" {
    over "$stored/stdin" > "$made"
    cmp "$made" "$stored/stdout"
    ends 0 "" over "$stored/stdin"
}

@test "1 where a command is refused" {
    printf 'plan 1\nedits\nundo\n' > "$input"
    ends 1 "" over "$input"
    [ "$output" = $'refused 23 NothingToUndo\nplan 1' ]
}

@test "2 where the plan is refused" {
    printf 'plan 2\n' > "$input"
    ends 2 "" over "$input"
    [ "$output" = "bad 1 1 BadLine" ]
}

@test "3 where a line is too long" {
    printf 'plan 1\nedits\n%05000d\n' 0 > "$input"
    ends 3 "fault 29 InputTooLong" over "$input"
}

# Standard input: closed, a folder, open for writing alone, and non-blocking and empty.
@test "a closed input" {
    closed() { "${soon[@]}" "$PROGRAM" <&-; }
    ends 3 "fault 31 ReadFault" closed
}

@test "a folder as input" {
    ends 3 "fault 31 ReadFault" over "$BATS_TEST_TMPDIR"
}

@test "an input that is open for writing alone" {
    written() { "${soon[@]}" "$PROGRAM" 0> "$input"; }
    ends 3 "fault 31 ReadFault" written
}

@test "a non-blocking input that is empty" {
    not_blocking() {
        sleep 2 | "${soon[@]}" python3 -c 'import os, sys; os.set_blocking(0, False); os.execv(sys.argv[1], sys.argv[1:])' "$PROGRAM"
    }
    ends 3 "fault 31 ReadFault" not_blocking
}

# Standard output: closed, open for reading alone, full, and a pipe without a reader.
@test "a closed output" {
    closed() { "${soon[@]}" "$PROGRAM" < "$stored/stdin" >&-; }
    ends 3 "fault 32 WriteFault" closed
}

@test "an output that is open for reading alone" {
    only_read() { "${soon[@]}" "$PROGRAM" < "$stored/stdin" 1< "$stored/stdin"; }
    ends 3 "fault 32 WriteFault" only_read
}

@test "a full output" {
    full() { "${soon[@]}" "$PROGRAM" < "$stored/stdin" > /dev/full; }
    ends 3 "fault 32 WriteFault" full
}

@test "a pipe without a reader" {
    unread() {
        "${soon[@]}" python3 - "$PROGRAM" "$stored/stdin" <<'UNREAD'
import os, signal, sys
signal.signal(signal.SIGPIPE, signal.SIG_DFL)
reading, writing = os.pipe()
os.close(reading)
os.dup2(os.open(sys.argv[2], os.O_RDONLY), 0)
os.dup2(writing, 1)
os.execv(sys.argv[1], sys.argv[1:2])
UNREAD
    }
    ends 3 "fault 32 WriteFault" unread
}

# A file that may not grow: its signal ends the program, or where that is ignored the write fails.
long_input() {
    printf 'plan 1\nedits\n' > "$input"
    yes undo | head -n 2000 >> "$input"
}

@test "a file that may not grow" {
    long_input
    limited() { bash -c 'ulimit -f 1; "${@:4}" < "$1" > "$2" 2> "$3"; exit $?' - "$input" "$made" "$made.error" "${soon[@]}" "$PROGRAM"; }
    run -153 limited
    [ ! -s "$made.error" ]
    [ "$(stat -c %s "$made")" = 1024 ]
}

@test "a file that may not grow, its signal ignored" {
    long_input
    limited() { (ulimit -f 1; trap '' XFSZ; exec "${soon[@]}" "$PROGRAM" < "$input" > "$1"); }
    ends 3 "fault 32 WriteFault" limited "$made"
    [ "$(stat -c %s "$made")" = 1024 ]
}

@test "memory that runs out while a plan is read" {
    python3 "$top/scripts/bench/make_hostile.py" groups 300000 > "$input"
    limited() { (ulimit -v 60000; exec "${soon[@]}" "$PROGRAM" < "$input"); }
    ends 3 "fault 30 OutOfMemory" limited
    [ -z "$output" ]
}

# Two faults at once: the one that ended the run is reported.
@test "a line that is too long, and a full output" {
    printf 'plan 1\nedits\nundo\n%05000d\n' 0 > "$input"
    full() { "${soon[@]}" "$PROGRAM" < "$input" > /dev/full; }
    ends 3 "fault 29 InputTooLong" full
}

@test "a fault that can't be reported" {
    printf 'plan 1\nedits\nundo\n%05000d\n' 0 > "$input"
    not_reported() { "${soon[@]}" "$PROGRAM" < "$input" 2>&-; }
    ends 3 "" not_reported
}

@test "--loud" { says 64 err loud --loud; }
@test "--quiet twice" { says 64 err quiet --quiet --quiet; }
@test "an argument that isn't UTF-8" { says 64 err UTF-8 $'\xff'; }
@test "an argument of bytes after a flag" { says 64 err UTF-8 --quiet $'--\xc3\x28'; }
@test "a word" { says 64 err plan plan; }
@test "a flag with a value" { says 64 err quiet --quiet=yes; }
@test "--help" { says 0 out --journal --help; }
@test "-h" { says 0 out --journal -h; }
@test "the version stands in the help" { says 0 out "baliseplan 0.1.0" --help; }
@test "--version" { says 64 err version --version; }
@test "-V" { says 64 err -V -V; }
@test "--journal --" { says 0 out "journal 2" --journal --; }
@test "all flags" { says 0 out '"bits":210' --quiet --stop --journal --json; }

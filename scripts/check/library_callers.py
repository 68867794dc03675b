"""What the comparisons of the library's callers share: runs, and which of them differ."""

import random
from collections.abc import Callable, Iterable, Mapping

from runs import run

BYTES = b"\n\r\0\t 019afFgz^./-$\x7f\x80\xff"
Words = tuple[str, ...]
Answer = tuple[int, bytes]
"""A status and an output."""
Caller = Callable[[bytes, Words], Answer]
"""What answers an input with the words of a command line."""


def of_program(words: list[str]) -> Caller:
    """A program as a caller."""

    def answer(data: bytes, more: Words) -> Answer:
        done = run([*words, *more], data)
        return done.status, done.output

    return answer


def damaged(data: bytes) -> bytes:
    """The text with bytes lost, put in, changed, or lines doubled, in up to three places."""
    for _ in range(random.randint(1, 3)):
        at = random.randrange(len(data) + 1)
        kind = random.randrange(4)
        if kind == 3:
            lines = data.splitlines(keepends=True)
            at = random.randrange(len(lines) + 1)
            data = b"".join(lines[:at] + lines[max(at - 1, 0) :])
        else:
            put = b"" if kind == 0 else bytes([random.choice(BYTES)])
            data = data[:at] + put + data[at + (kind != 1) :]
    return data


def compared(inputs: Iterable[tuple[bytes, Words]], program: Caller, callers: Mapping[str, Caller]) -> int:
    """Shows which callers differ from the program, and returns the exit status."""
    done = differing = 0
    for data, words in inputs:
        due = program(data, words)
        done += 1
        for name, caller in callers.items():
            found = caller(data, words)
            if found != due:
                differing += 1
                print(f"{name} {' '.join(words)}: {found[0]} and not {due[0]}, for {data!r}")
    print(f"{done} inputs, {differing} differing")
    return 1 if differing else 0

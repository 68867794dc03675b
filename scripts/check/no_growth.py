#!/usr/bin/env python3
"""Undoes, redoes and strikes edits of three kinds and undoes an addition, with no growth of memory: no_growth.py PROGRAM.

A field of a packet that names nothing, a field of a header, a turn, and a group put in: from the first undo on every
growth is refused, and all nine commands have to be accepted. Before that it is seen that growths are refused at all: where
an insert comes in place of the undo, it has to be answered as out of memory. Needs cc.
"""

import sys

from hostile_runs import Done, Runner
from runs import ended

EMPTY = "a1007f80a0327fffffffffffffffffffffffffffffffffffffffc0"
LINKING = "a1007f80a032c15022a07d00326301ffffffffffffffffffffffc0"
ADD = f"add 2 {EMPTY.replace('0327', '0347')}"
EDITS = ["set 5.101 0 0 D_LINK 0 600", "seth 5.100 0 M_MCOUNT 7", "turn 5.100", ADD]
DONE = ["ok 1", "ok 2", "ok 3", "ok 4"]
BACK = ["undo"] * 4 + ["redo"] * 3 + ["strike 2", "redo"]
REPLIES = ["undone 4", "undone 3", "undone 2", "undone 1", "redone 1", "redone 2", "redone 3", "struck 2", "redone 2"]
INSERT = [f"add 2 {EMPTY.replace('0327', '0337')}"]
REFUSED = ["refused 30 OutOfMemory"]


def text(lines: list[str]) -> bytes:
    return "".join(line + "\n" for line in lines).encode()


def has_replies(done: Done, replies: list[str]) -> bool:
    """Whether these are the first lines that a run printed, and some growth was seen."""
    return done.output.startswith(text(DONE + replies)) and done.report.get("growths", 0) > 0


def main(program: str) -> int:
    runner = Runner(program).checked()
    before = text(["plan 1", "group", EMPTY, "group", LINKING, "edits"] + EDITS)

    def ask(lines: list[str]) -> Done:
        return runner.run(before + text(lines), (), read_step=1, no_growth_from=len(before) + 1)

    control, done = ask(INSERT), ask(BACK)
    if not has_replies(control, REFUSED):
        print(f"no growth: an added group isn't refused, so nothing is shown: {control}")
        return 1
    is_right = has_replies(done, REPLIES)
    print(f"no growth after {len(EDITS)} edits: {len(BACK)} commands, {'all accepted' if is_right else f'WRONG: {done}'}")
    return 0 if is_right else 1


if __name__ == "__main__":
    sys.exit(ended(lambda: main(sys.argv[1])))

#!/usr/bin/env python3
"""Times one command of each kind at plans of four sizes and after three lengths of history.

Usage: growth.py PROGRAM OTHER [PICTURE]

Prints two tables, microseconds of processor time for each command as PROGRAM / OTHER, and draws both as an SVG picture.
A time is that of a run with 200,000 commands (50,000 after 950,000 edits, fewer of strikes that ask many) less that of
the same input without them, the least of five runs each, all in turn: let nothing else run.
"""
import os
import random
import subprocess
import sys
import tempfile

from make_load import group, name, plan

GROUPS = (1_000, 10_000, 100_000, 500_000)
EDITS = (100, 10_000, 950_000)
PAIRS = 100_000
RUNS = 5


def on_groups(kind, count, rng):
    """Two commands that leave the plan as it was."""
    n = rng.randrange(count)
    there = name(n)
    if kind == "set a field":
        return [f"set {there} 0 0 D_LINK 0 {rng.randrange(32768)}", "undo"]
    if kind == "set a header's field":
        return [f"seth {there} 0 M_MCOUNT {rng.randrange(255)}", "undo"]
    if kind == "insert a packet":
        return [f"insert {there} 0 0 42403e0a", "undo"]
    if kind == "delete a packet":
        return [f"delete {there} 0 0", "undo"]
    if kind == "move a packet":
        return [f"move {there} 0 1 0", "undo"]
    if kind == "add a group":
        return [f"add {n} {group(1_000_000)}", "undo"]
    if kind == "drop a group":
        return [f"drop {there}", "undo"]
    if kind == "renumber a group":
        return [f"renumber {there} 16200", "undo"]
    return [f"turn {there}", "undo"]


ELSEWHERE = "drop a group and add another elsewhere"
ON_GROUPS = ("set a field", "set a header's field", "insert a packet", "delete a packet", "move a packet", "add a group", "drop a group", "renumber a group", "turn a group", ELSEWHERE)


def elsewhere(count, rng):
    """Groups dropped all over the plan, new ones too, each followed by another added at any place."""
    held, lines = [name(n) for n in range(count)], []
    for n in range(1_000_000, 1_000_000 + PAIRS):
        k = rng.randrange(count)
        lines += [f"drop {held[k]}", f"add {rng.randrange(count)} {group(n)}"]
        held[k] = name(n)
    return lines


def after_edits(kind, count, i):
    """Commands after `count` settings, each in another group, that leave as many standing."""
    if kind == "undo and redo":
        return ["undo", "redo"]
    if kind == "set and undo":
        return [f"seth {name(1 + i % 9999)} 0 M_MCOUNT 255", "undo"]
    if kind == "strike the last but ten, and redo":
        return [f"strike {count - 10}", "redo"]
    return ["strike 1", "redo"]


AFTER = ("undo and redo", "set and undo", "strike the last but ten, and redo", "strike the first, and redo")


def seconds(program, path):
    with open(path, "rb") as text:
        run = subprocess.Popen([program], stdin=text, stdout=subprocess.DEVNULL)
        _, status, usage = os.wait4(run.pid, 0)
    if os.waitstatus_to_exitcode(status) != 0:
        sys.exit(f"status {os.waitstatus_to_exitcode(status)}: {path}")
    return usage.ru_utime + usage.ru_stime


def each(programs, folder, before, lines):
    """Microseconds for one of the commands, of each program."""
    inputs = f"{folder}/before", f"{folder}/whole"
    for path, all in zip(inputs, (before, before + lines)):
        with open(path, "w") as text:
            text.write("\n".join(all) + "\n")
    least = {}
    for _ in range(RUNS):
        for run in ((program, path) for program in programs for path in inputs):
            least[run] = min(seconds(*run), least.get(run, 1e9))
    return [max(least[it, inputs[1]] - least[it, inputs[0]], 0) / len(lines) * 1e6 for it in programs]


def table(title, sizes, kinds, measure):
    print(f"| {title} | " + " | ".join(f"{size:,}" for size in sizes) + " |")
    print("|---|" + "---|" * len(sizes))
    figures = {}
    for kind in kinds:
        figures[kind] = [measure(kind, size) for size in sizes]
        print(f"| {kind} | " + " | ".join(f"{ours:.2f} / {other:.2f}" for ours, other in figures[kind]) + " |", flush=True)
    print()
    return figures


def main(program, other, picture=None):
    folder = tempfile.mkdtemp()

    def of_groups(kind, count):
        before = []
        plan(count, before)
        before.append("edits")
        rng = random.Random(7)
        lines = elsewhere(count, rng) if kind == ELSEWHERE else [line for _ in range(PAIRS) for line in on_groups(kind, count, rng)]
        return each((program, other), folder, before, lines)

    def of_edits(kind, count):
        before = []
        plan(10000, before)
        before += ["edits", "seth 0.0 0 M_MCOUNT 1"]
        before += [f"seth {name(1 + i % 9999)} 0 M_MCOUNT {i % 250}" for i in range(count - 1)]
        pairs = min(PAIRS, (1_000_000 - count) // 2)
        if kind == AFTER[-1]:
            pairs = max(100, min(pairs, 40_000_000 // count))
        return each((program, other), folder, before, [line for i in range(pairs) for line in after_edits(kind, count, i)])

    tables = [
        ("groups in the plan", GROUPS, table("a command and its undo, at groups", GROUPS, ON_GROUPS, of_groups)),
        ("standing edits", EDITS, table("a pair of commands, after edits", EDITS, AFTER, of_edits)),
    ]
    if picture:
        from growth_picture import draw

        with open(picture, "w") as out:
            out.write(draw(tables))


if __name__ == "__main__":
    main(*sys.argv[1:])

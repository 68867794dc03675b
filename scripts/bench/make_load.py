#!/usr/bin/env python3
"""Prints an input of one load: make_load.py NAME COUNT. The same name and count give the same input."""
import random
import sys


def telegram(head, packets):
    """The digits of a telegram of 210 bits: a header and packets as bits, packet 255, ones."""
    bits = head + packets + "1" * 8
    bits = bits + "1" * (210 - len(bits)) + "000000"
    return f"{int(bits, 2):054x}"


def field(value, width):
    return f"{value:0{width}b}"


def header(country, number, pig=0, total=0, dup=0):
    return "1" + field(33, 7) + "0" + field(pig, 3) + field(total, 3) + field(dup, 2) + field(255, 8) + field(country, 10) + field(number, 14) + "1"


def link(number):
    return field(5, 8) + "01" + field(69, 13) + "01" + field(500, 15) + "0" + field(number, 14) + "1" + "00" + field(12, 6) + field(0, 5)


def revocation(tsr):
    return field(66, 8) + "01" + field(31, 13) + field(tsr, 8)


def group(n):
    """Group n: a link to the next group and a packet 66."""
    country, number = n // 16000, n % 16000
    return telegram(header(country, number), link((number + 1) % 16000) + revocation(n % 256))


def plan(count, out):
    out.append("plan 1")
    for n in range(count):
        out.append("group")
        out.append(group(n))


def name(n):
    return f"{n // 16000}.{n % 16000}"


def mixed(count, groups, out, rng):
    for i in range(count):
        n = rng.randrange(groups)
        kind = i % 8
        if kind == 0:
            out.append(f"set {name(n)} 0 0 D_LINK 0 {rng.randrange(32768)}")
        elif kind == 1:
            out.append(f"seth {name(n)} 0 M_MCOUNT {rng.randrange(256)}")
        elif kind == 2:
            out.append(f"insert {name(n)} 0 0 42403e0a")
        elif kind == 3:
            out.append(f"delete {name(n)} 0 0")
        elif kind == 4:
            out.append(f"move {name(n)} 0 1 0")
        elif kind == 5:
            out.append(f"turn {name(n)}")
        elif kind == 6:
            out.append(f"set {name(n)} 0 0 Q_DIR 0 2")
        else:
            out.append("undo")


def scattered(count, groups, out, rng):
    """Groups added all over a plan, and in between groups of it dropped, old and new."""
    plan(groups, out)
    out.append("edits")
    held = [name(n) for n in range(groups)]
    for i in range(count):
        country, number = 500 + i // 16000, i % 16000
        out.append(f"add {rng.randrange(len(held) + 1)} {telegram(header(country, number), revocation(i % 256))}")
        held.append(f"{country}.{number}")
        if i % 2 == 1:
            k = rng.randrange(len(held))
            held[k], held[-1] = held[-1], held[k]
            out.append(f"drop {held.pop()}")


def main(load, count):
    out, rng = [], random.Random(7)
    if load == "plan":
        plan(count, out)
        out.append("edits")
    elif load == "commands":
        plan(1, out)
        out.append("edits")
        out += ["seth 0.0 0 M_MCOUNT 7", "undo"] * (count // 2)
    elif load == "sets":
        plan(100, out)
        out.append("edits")
        for i in range(count // 2):
            pkt = i // 100 % 2
            out += [f"set {name(i % 100)} 0 {pkt} {['D_LINK', 'NID_TSR'][pkt]} 0 {i % 256}", "undo"]
    elif load == "mixed":
        plan(10000, out)
        out.append("edits")
        mixed(count, 10000, out, rng)
    elif load == "redo":
        plan(10000, out)
        out.append("edits")
        third = count // 3
        for i in range(third):
            out.append(f"seth {name(i % 10000)} 0 M_MCOUNT {i % 256}")
        out += ["undo"] * third + ["redo"] * third
    elif load == "strikes":
        plan(10000, out)
        out.append("edits")
        for i in range(count):
            out.append(f"seth {name(i % 10000)} 0 M_MCOUNT {i % 256}")
        for i in range(200):
            out.append(f"strike {1 + i}")
            out.append("redo")
    elif load == "neighbours":
        plan(1, out)
        out.append("edits")
        for i in range(count):
            out.append(f"add {1 if i == 0 else 2} {group(1 + i)}")
        for _ in range(20):
            out += ["strike 1", "redo"]
    elif load == "renumber":
        plan(10000, out)
        out.append("edits")
        for i in range(count):
            n = i % 10000
            out += [f"renumber {name(n)} {15999}", f"renumber 0.15999 {n}"]
    elif load == "turn":
        plan(10000, out)
        out.append("edits")
        for i in range(count):
            out.append(f"turn {name(i % 10000)}")
    elif load == "journal":
        plan(10000, out)
        out.append(f"journal 2 {count + 1}")
        for i in range(count):
            before = 255 if i < 10000 else (i - 10000) % 256
            out.append(f"{i + 1} seth b{i % 10000}/0 M_MCOUNT {i % 256} {before}")
        out.append("edits")
    elif load == "drops":
        plan(10000, out)
        out.append("edits")
        for i in range(count):
            out += [f"drop {name(5000)}", f"add 5000 {group(5000)}"]
    elif load == "scattered":
        scattered(count, 100000, out, rng)
    print("\n".join(out))


if __name__ == "__main__":
    main(sys.argv[1], int(sys.argv[2]))

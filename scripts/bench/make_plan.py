"""Prints a plan of COUNT groups and no command, of pseudo-random values.

Three groups of four have one telegram of 210 bits, with packets 5 and 66, and one of three of these 44 too. Each fourth
has two telegrams: one of 830 bits with packets 5, 21, 27, 41, 65 and 44, and one of 210 bits with packet 66.
"""
import random
import sys


def fixed(value, width):
    return format(value, f"0{width}b")


def some(*widths):
    return "".join(fixed(random.getrandbits(width), width) for width in widths)


def packet(number, body):
    return fixed(number, 8) + some(2) + fixed(23 + len(body), 13) + body


def element():
    country = fixed(1, 1) + some(10) if random.random() < 0.1 else fixed(0, 1)
    return some(15) + country + some(14, 1, 2, 6)


def linking(count):
    return packet(5, some(2) + element() + fixed(count - 1, 5) + "".join(element() for _ in range(count - 1)))


def speeds():
    difference = fixed(random.randrange(3), 2) + some(4, 7)
    return packet(27, some(2, 15, 7, 1) + fixed(1, 5) + difference + fixed(1, 5) + some(15, 7, 1) + fixed(0, 5))


def others():
    gradients = packet(21, some(2, 15, 1, 8) + fixed(1, 5) + some(15, 1, 8))
    level = packet(41, some(2, 15) + fixed(1, 3) + some(8, 15) + fixed(0, 5))
    restriction = packet(65, some(2, 8, 15, 15, 1, 7))
    return gradients + speeds() + level + restriction + packet(44, some(16))


def telegram(width, pig, total, packets):
    """The telegram as a number, with the spare bits after it, of country 0 and number 0."""
    head = fixed(1, 1) + fixed(33, 7) + fixed(0, 1) + fixed(pig, 3) + fixed(total - 1, 3) + fixed(0, 2)
    bits = head + some(8) + fixed(0, 24) + some(1) + packets + fixed(255, 8)
    return int(bits.ljust(width, "1"), 2) << -width % 8


def single(i):
    return telegram(210, 0, 1, linking(1) + packet(66, some(8)) + (packet(44, some(16)) if i % 3 == 0 else ""))


random.seed(1)
singles = [single(i) for i in range(1000)]
firsts = [telegram(830, 0, 2, linking(4) + others()) for _ in range(1000)]
seconds = [telegram(210, 1, 2, packet(66, some(8))) for _ in range(1000)]

sys.stdout.write("plan 1\n")
for i in range(int(sys.argv[1])):
    identity = 1 + i // 16000 << 14 | i % 16000  # NID_C and NID_BG, bits 25 to 48
    short, long, k = identity << 210 - 49 + 6, identity << 830 - 49 + 2, i % 1000
    if i % 4 < 3:
        sys.stdout.write(f"group\n{singles[k] | short:054x}\n")
    else:
        sys.stdout.write(f"group\n{firsts[k] | long:0208x}\n{seconds[k] | short:054x}\n")
sys.stdout.write("edits\n")

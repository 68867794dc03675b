"""Prints telegrams in digits: COUNT lines of 210 or of 830 bits, pseudo-random, the bits after the last one zero."""
import random
import sys

bits, count = int(sys.argv[1]), int(sys.argv[2])
spare = -bits % 8
random.seed(bits)
lines = []
for _ in range(1000):
    value = random.getrandbits(bits) << spare
    lines.append(value.to_bytes((bits + spare) // 8, "big").hex())
for i in range(count):
    sys.stdout.write(lines[i % len(lines)] + "\n")

#!/usr/bin/env python3
"""Prints random inputs, one a line: seed, flags of the call, and the input in base64.

usage: print_random_inputs.py COUNT [FROM]
"""

import base64
import sys
from pathlib import Path

sys.path.insert(0, str(Path(__file__).resolve().parents[2] / "reference"))
from random_inputs import make_input  # noqa: E402

FLAGS = {"--quiet": 1, "--stop": 2, "--journal": 4, "--json": 8}


def main() -> int:
    count, start = int(sys.argv[1]), int(sys.argv[2]) if len(sys.argv) > 2 else 0
    for seed in range(start, start + count):
        made = make_input(seed, "medium" if seed % 50 == 49 else "small")
        flags = sum(FLAGS.get(word, 0) for word in set(made.arguments))  # other words have no flag of the call
        print(seed, flags, base64.b64encode(made.text).decode())
    return 0


if __name__ == "__main__":
    sys.exit(main())

#!/usr/bin/env python3
"""The flows of the page in headless Chromium, with the network off. Prints a line for each; ends with 1 where one fails.

usage: flows.py [NAME ..]     (edit, files, check, week, look, large; all of them without a name; large takes minutes)
The page is that of PAGE, the program that of BALISEPLAN.
"""

import importlib
import sys

from browser import Page
from runner import Runner

ALL = ("edit", "files", "check", "week", "look", "large")


def main() -> int:
    failed = 0
    for name in sys.argv[1:] or ALL:
        runner = Runner(Page())
        for flow in importlib.import_module(f"{name}_flows").FLOWS:
            if not runner.run(f"{name}: {flow.__name__.replace('_', ' ')}", flow):
                break  # each flow goes on where the one before ended
        failed += runner.end()
    print(f"{failed} failed")
    return 1 if failed else 0


if __name__ == "__main__":
    sys.exit(main())

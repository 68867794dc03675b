"""Starts plandesk; says in one line what is missing. It has to run on any Python, to say that."""

import importlib.util
import sys

NEEDED = ("click", "rich", "jinja2")


def lack():
    # type: () -> str
    """What keeps this Python from running plandesk, and what to install; empty where nothing does."""
    if sys.version_info < (3, 11):
        return "Python 3.11 or later is needed (on Debian: apt-get install python3)"
    absent = [name for name in NEEDED if importlib.util.find_spec(name) is None]
    packages = " ".join("python3-" + name for name in absent)
    if not absent:
        return ""
    return "%s doesn't see %s (on Debian: apt-get install %s, and run /usr/bin/python3)" % (
        sys.executable,
        ", ".join(absent),
        packages,
    )


def main():
    # type: () -> None
    missing = lack()
    if missing:
        sys.stderr.write("plandesk: %s\n" % missing)
        sys.exit(3)
    from plandesk.cli import main as run

    run()


if __name__ == "__main__":
    main()

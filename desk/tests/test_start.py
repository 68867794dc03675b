"""How plandesk is started: pages that say the same as --help, Pythons that lack packages, completion, pipes."""

from __future__ import annotations

import os
import re
import subprocess
import sys
import venv
from pathlib import Path

import click
import pytest
from conftest import TOP, Desk, call
from plandesk import VERSION
from plandesk.cli import main

DESK = TOP / "desk"
NAMES = sorted(main.commands)
PAGES = {"manual": TOP / "man" / "plandesk.1", "README": DESK / "README.md"}


def options_of(command: click.Command) -> set[str]:
    return {name for param in command.params if isinstance(param, click.Option) for name in param.opts}


def run(*words: str, **more: str) -> subprocess.CompletedProcess[str]:
    environment = os.environ | {"PYTHONPATH": str(DESK)} | more
    return subprocess.run(words, capture_output=True, text=True, env=environment)


@pytest.mark.parametrize("name", NAMES)
def test_each_page_has_each_command_with_its_options(name: str) -> None:
    """And no option that there isn't."""
    due = {option for option in options_of(main.commands[name]) if option.startswith("--")} - {"--help"}
    section = PAGES["manual"].read_text().replace("\\-", "-").partition(f".SS {name}\n")[2]
    section = re.split(r"\n\.S[SH] ", section)[0]
    assert section, f"man/plandesk.1 has no part {name}"
    assert set(re.findall(r"--[a-z-]+", section)) == due
    row = next((line for line in PAGES["README"].read_text().splitlines() if line.startswith(f"| `{name}")), "")
    assert set(re.findall(r"--[a-z-]+", row)) == due, f"desk/README.md, row {name}"
    short = main.commands[name].get_short_help_str(200).rstrip(".")
    for page in PAGES.values():
        assert short in page.read_text().replace("\\-", "-"), f"{page}: {short}"


def test_help_and_version() -> None:
    text = call("--help").output
    for name in NAMES:
        assert name in text
        assert call(name, "--help").exit_code == 0
    for page in PAGES.values():
        page_text = page.read_text().replace("\\-", "-")
        for word in ("BALISEFIELDS", "BALISEFACTS", "BALISEPLAN_REFERENCE", "PLANDESK_WAIT", "130"):
            assert word in text and word in page_text
    assert VERSION in call("--version").output
    assert f'version = "{VERSION}"' in (DESK / "pyproject.toml").read_text()


def test_a_python_without_packages_says_which(tmp_path: Path) -> None:
    venv.create(tmp_path / "bare")
    done = run(str(tmp_path / "bare" / "bin" / "python"), "-m", "plandesk", "status")
    assert (done.returncode, done.stdout) == (3, "")
    assert "doesn't see click, rich, jinja2 (on Debian: apt-get install python3-click" in done.stderr
    assert len(done.stderr.splitlines()) == 1


def test_the_starter_finds_a_python(line: Path) -> None:
    done = run(str(DESK / "bin" / "plandesk"), "-C", str(line), "status", "--json")
    assert done.returncode == 0, done.stderr


@pytest.mark.parametrize("shell", ["bash", "zsh"])
def test_completion(shell: str, line: Path) -> None:
    stored = (TOP / "completions" / f"plandesk.{shell}").read_text()
    made = run(sys.executable, "-B", "-m", "plandesk", _PLANDESK_COMPLETE=f"{shell}_source").stdout
    assert made.strip() and made.strip() in stored
    words = {"_PLANDESK_COMPLETE": f"{shell}_complete", "COMP_WORDS": f"plandesk -C {line} show 5.3", "COMP_CWORD": "4"}
    assert "5.300" in run(sys.executable, "-B", "-m", "plandesk", **words).stdout
    words |= {"COMP_WORDS": "plandesk ver", "COMP_CWORD": "1"}
    assert "verify" in run(sys.executable, "-B", "-m", "plandesk", **words).stdout


def test_a_reader_that_takes_no_more(week: Desk, line: Path) -> None:
    words = [sys.executable, "-B", "-m", "plandesk", "-C", str(line), "show", "5.300"]
    process = subprocess.Popen(words, cwd=DESK, stdout=subprocess.PIPE, stderr=subprocess.PIPE)
    assert process.stdout is not None and process.stderr is not None
    process.stdout.close()
    assert process.wait() == 0
    assert process.stderr.read() == b""


def test_no_colours_in_a_pipe(week: Desk) -> None:
    for words in (["log"], ["diff"], ["status"], ["reviews"], ["show"]):
        assert "\x1b" not in week(*words).output


def test_a_fault_of_plandesk_is_no_traceback(line: Path, monkeypatch: pytest.MonkeyPatch) -> None:
    from click.testing import CliRunner
    from plandesk import desk

    def broken(*_: object, **__: object) -> None:
        raise RuntimeError("unexpected")

    monkeypatch.setattr(desk, "load", broken)
    result = CliRunner(mix_stderr=True).invoke(main, ["-C", str(line), "status"])
    assert (result.exit_code, "Traceback" in result.output) == (3, False)
    assert "RuntimeError('unexpected')" in result.output

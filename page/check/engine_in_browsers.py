#!/usr/bin/env python3
"""Compares the engine in Chromium and in Firefox with the program: worked rows and examples with every set of flags.

usage: engine_in_browsers.py PROGRAM
Random fields and digits are compared with the reference.
In Firefox the page also opens the worked line, edits it and checks a delivery.
"""

import base64
import subprocess
import sys
from pathlib import Path
from typing import Any

from browser import TOP, Page
from firefox import Firefox

NAMES = ("quiet", "stop", "journal", "json")
RUN = """const bytes = Uint8Array.from(atob(args[0]), (c) => c.charCodeAt(0)), found = [];
for (const flags of args[1]) {
  const { status, output } = await baliseplan.run(bytes, flags);
  let text = '';
  for (let i = 0; i < output.length; i += 32768) text += String.fromCharCode(...output.subarray(i, i + 32768));
  found.push([status, btoa(text)]);
}
return found;"""
FIELDS = """const found = [];
for (const [way, input] of args[0]) {
  const { status, output } = await baliseplan.fields(way, Uint8Array.from(atob(input), (c) => c.charCodeAt(0)));
  found.push([status, btoa(String.fromCharCode(...output))]);
}
return found;"""
SESSION = """const app = baliseplan.app, text = document.getElementById('example-plan').textContent, bytes = new TextEncoder().encode(text);
await app.open({name: 'line.base', bytes, handle: null}, null);
const replies = [];
for (const command of ['set 5.200 1 0 V_TSR 0 6', 'renumber 5.200 250', 'turn 5.300', 'strike 1']) replies.push(...(await app.run([command])).replies.map((r) => r.text));
const until = async (seen) => { for (let i = 0; i < 600 && !seen(); i += 1) await new Promise((r) => setTimeout(r, 50)); };
app.jumpTo('5.250');
await until(() => document.querySelector('.group-head h2')?.textContent === '5.250');
const tiles = document.querySelectorAll('.tile').length;
app.show('line');
await until(() => document.querySelectorAll('svg.picture .node').length > 0);
const nodes = document.querySelectorAll('svg.picture .node').length;
const plan = await app.worker.call('plan');
const found = await app.worker.call('check', {base: bytes, journal: new TextEncoder().encode(app.journal), delivered: new TextEncoder().encode(plan)});
await until(() => app.keeper.status !== '');
const kept = app.keeper.status;
app.savedJournal = app.journal;
app.show('edit');
return {replies, tiles, nodes, verdict: found.verdict, reviews: app.openReviews.length, kept};"""


def inputs() -> list[tuple[str, bytes]]:
    paths = sorted([*TOP.glob("checks/rows/*.in"), *TOP.glob("examples/*.plan")])
    base = (TOP / "examples/line.base").read_bytes() + b"edits\nturn 5.300\nrenumber 5.200 250\nstrike 1\n"
    return [*((path.name, path.read_bytes()) for path in paths), ("line.base", base)]


def natives(program: str) -> dict[tuple[str, int], tuple[int, bytes]]:
    """What the program answers, for each input and each set of flags."""
    found = {}
    for name, data in inputs():
        for flags in range((1 << len(NAMES)) + 1):
            given = ["--" + word for bit, word in enumerate(NAMES) if flags >> bit & 1]
            words = ["--unknown"] if flags >> len(NAMES) else given
            run = subprocess.run([program, *words], input=data, capture_output=True)
            found[name, flags] = (run.returncode, run.stdout)
    return found


def compare(browser: Any, words: str, expected: dict[tuple[str, int], tuple[int, bytes]]) -> int:
    differ = runs = 0
    for name, data in inputs():
        answers = browser.call(RUN, base64.b64encode(data).decode(), list(range(17)))
        for flags, (status, output) in enumerate(answers):
            runs += 1
            code = 3 if 29 <= status <= 32 else status
            if (code, base64.b64decode(output)) != expected[name, flags]:
                differ += 1
                print(f"differs in {words}: {name}, flags {flags}")
    print(f"{words}: {runs} runs, {differ} differ", flush=True)
    return differ + (runs < 1000)


def compare_fields(browser: Any, words: str) -> int:
    """Random items both ways, beside what the reference answers."""
    script = Path(__file__).with_name("print_random_fields.py")
    lines = subprocess.run([sys.executable, script, "100"], capture_output=True, text=True, check=True).stdout.splitlines()
    due = [line.split(" ") for line in lines]
    answers = browser.call(FIELDS, [[way, given] for way, _, given, _ in due])
    found = [(3 if status >= 29 else status, output) for status, output in answers]
    differ = sum(one != (int(status), output) for one, (_, status, _, output) in zip(found, due, strict=True))
    print(f"{words}: {len(due)} inputs of fields and digits, {differ} differ", flush=True)
    return differ


def main() -> int:
    program = str(Path(sys.argv[1]).resolve())
    expected = natives(program)
    page = Page()
    version = page.driver.capabilities["browserVersion"]
    failed = compare(page, f"Chromium {version}", expected) + compare_fields(page, f"Chromium {version}")
    page.quit()
    firefox = Firefox()
    try:
        failed += compare(firefox, f"Firefox {firefox.version}", expected) + compare_fields(firefox, f"Firefox {firefox.version}")
        session = firefox.call(SESSION)
        wanted = {"replies": ["ok 1", "ok 2", "ok 3", "struck 1"], "nodes": 6, "verdict": "yes", "reviews": 6, "kept": "kept"}
        tiles = session.pop("tiles")
        if session != wanted or tiles < 20:
            failed += 1
            print(f"Firefox: the page has {session} and {tiles} values")
        else:
            print("Firefox: opened, edited, drawn and checked")
        firefox.shot("firefox")
    finally:
        firefox.quit()
    return 1 if failed else 0


if __name__ == "__main__":
    sys.exit(main())

#!/usr/bin/env python3
"""An audit of the page as it is drawn: contrast of texts, names, sizes and ids, headings, labels. In both themes, at two
widths, in each view. Ends with 1 where something is found.

usage: audit.py
"""

import sys
from typing import Any

from browser import Page
from check_flows import JOURNAL, PLAN, check
from runner import BASE

AUDIT = """
const parse = (c) => { const m = c.match(/[\\d.]+/g).map(Number); return {r: m[0], g: m[1], b: m[2], a: m[3] ?? 1}; };
const over = (a, b) => ({r: a.r * a.a + b.r * (1 - a.a), g: a.g * a.a + b.g * (1 - a.a), b: a.b * a.a + b.b * (1 - a.a), a: 1});
const part = (v) => { v /= 255; return v <= .03928 ? v / 12.92 : ((v + .055) / 1.055) ** 2.4; };
const light = (c) => .2126 * part(c.r) + .7152 * part(c.g) + .0722 * part(c.b);
const ground = (e) => { const chain = []; for (let x = e; x; x = x.parentElement) chain.push(parse(getComputedStyle(x).backgroundColor)); return chain.reverse().reduce((all, c) => over(c, all), {r: 255, g: 255, b: 255, a: 1}); };
const seen = (e) => e.checkVisibility({opacityProperty: true, visibilityProperty: true});
const called = (e) => e.tagName.toLowerCase() + '.' + (e.getAttribute('class') ?? '').replaceAll(' ', '.');
const found = [];
let texts = 0, controls = 0;
const walker = document.createTreeWalker(document.body, NodeFilter.SHOW_TEXT);
for (let node = walker.nextNode(); node; node = walker.nextNode()) {
  const e = node.parentElement;
  if (!node.data.trim() || !e || ['SCRIPT', 'STYLE', 'NOSCRIPT', 'TITLE', 'OPTION'].includes(e.tagName.toUpperCase()) || !seen(e) || e.closest(':disabled')) continue;
  texts += 1;
  const style = getComputedStyle(e), svg = e instanceof SVGElement;
  const back = svg ? parse(getComputedStyle(e.closest('svg')).backgroundColor) : ground(e), front = over(parse(svg ? style.fill : style.color), back);
  const [x, y] = [light(front), light(back)].sort((a, b) => b - a), ratio = (x + .05) / (y + .05), size = parseFloat(style.fontSize);
  if (ratio < (size >= 24 || (size >= 18.66 && style.fontWeight >= 700) ? 3 : 4.5)) found.push(`contrast ${Math.round(ratio * 100) / 100} ${called(e)}`);
}
const nameOf = (e) => e.getAttribute('aria-label') || (e.getAttribute('aria-labelledby') && document.getElementById(e.getAttribute('aria-labelledby'))?.textContent) || e.closest('label')?.textContent.trim() || (e.id && document.querySelector(`label[for="${e.id}"]`)?.textContent) || (e.matches('button, a, summary') && e.textContent.trim()) || e.title;
for (const e of document.querySelectorAll('button, input, select, textarea, a[href], summary, [tabindex="0"], [role=img], [role=listbox], [role=tabpanel], dialog')) {
  if (!seen(e) || e.classList.contains('skip')) continue;
  controls += 1;
  if (!nameOf(e)) found.push('no name ' + called(e));
  const box = e.getBoundingClientRect();
  if (e.matches('button, input, select, textarea') && !e.matches('table button') && (box.width < 24 || box.height < 24) && !e.closest('label')) found.push(`small ${Math.round(box.width)}x${Math.round(box.height)} ${called(e)}`);
}
const ids = [...document.querySelectorAll('[id]')].map((e) => e.id);
for (const id of ids.filter((id, i) => ids.indexOf(id) !== i)) found.push('twice #' + id);
for (const e of document.querySelectorAll('[aria-controls], [aria-activedescendant], [aria-labelledby]'))
  for (const name of ['aria-controls', 'aria-activedescendant', 'aria-labelledby']) if (e.hasAttribute(name) && seen(e) && !document.getElementById(e.getAttribute(name)) && name !== 'aria-controls') found.push(`${name} names nothing ${called(e)}`);
const levels = [...document.querySelectorAll('h1, h2, h3, h4')].filter(seen).map((e) => Number(e.tagName[1]));
levels.forEach((level, i) => { if (i > 0 && level > levels[i - 1] + 1) found.push(`heading ${levels[i - 1]} then ${level}`); });
if (!document.documentElement.lang || !document.title || !document.querySelector('main')) found.push('no language, title or main');
return {texts, controls, found: [...new Set(found)]};
"""
EDITS = """await baliseplan.app.run(['set 5.200 1 0 V_TSR 0 6']); await baliseplan.app.run(['seth 5.100 0 M_DUP 1']); await baliseplan.app.run(['undo']);
await baliseplan.app.run(['turn 5.300']); await baliseplan.app.run(['drop 9.9']); baliseplan.app.jumpTo('5.200');
await new Promise((r) => setTimeout(r, 400)); document.querySelector('.card [data-key^=bits]').click(); baliseplan.app.tell('A message', 'bad')"""
WAIT = "await new Promise((r) => setTimeout(r, 350))"
ROLES = ("button", "textbox", "combobox", "listbox", "checkbox", "searchbox", "link", "tab", "tablist", "region", "dialog", "progressbar", "img")


class Audit:
    def __init__(self) -> None:
        self.failed = 0
        self.texts = self.controls = 0

    def look(self, page: Page, where: str) -> None:
        result: dict[str, Any] = page.call(AUDIT)
        self.texts += result["texts"]
        self.controls += result["controls"]
        if result["found"]:
            self.failed += 1
            print(f"{where}: {result['found']}")

    def names(self, page: Page, where: str) -> None:
        """As a screen reader has it: every control has a name."""
        nodes = page.cdp("Accessibility.getFullAXTree", {})["nodes"]
        bare = [n["role"]["value"] for n in nodes if not n.get("ignored") and n["role"]["value"] in ROLES and not n.get("name", {}).get("value")]
        if bare:
            self.failed += 1
            print(f"{where}: without a name {bare}")

    def views(self, page: Page, where: str, narrow: bool) -> None:
        self.look(page, where + " start")
        page.drop(("base.plan", BASE))
        page.wait(lambda: page.call("return baliseplan.app.loaded"))
        page.call(EDITS)
        for pane in ("groups", "group", "side") if narrow else ("group",):
            page.call(f"baliseplan.app.emit('pane', args[0]); {WAIT}", pane)
            self.look(page, f"{where} edit {pane}")
        for side in ("edits", "reviews", "changes"):
            page.call(f"baliseplan.app.emit('side', args[0]); {WAIT}", side)
            self.look(page, f"{where} {side}")
            self.names(page, f"{where} {side}")
        page.call(f"baliseplan.app.emit('pane', 'group'); {WAIT}")
        for key in ("insert 1", "form 0 0", "renumber"):
            page.call(f"document.querySelector(`[data-key='${{args[0]}}']`).click(); {WAIT}", key)
            self.look(page, f"{where} {key}")
            self.names(page, f"{where} {key}")
            page.call("document.querySelector('dialog').close()")
        page.drop(("wrong.plan", BASE.replace(b"5023a0", b"502320")))
        page.button("Open anyway", "dialog").click()
        page.wait(lambda: page.all("dialog .fields-view"))
        page.css(".fields-view summary").click()
        self.look(page, f"{where} bad plan")
        self.names(page, f"{where} bad plan")
        page.call("document.querySelector('dialog').close()")
        page.call("document.querySelector('[data-at=\"1 0 V_TSR 0\"]').click()")
        self.look(page, f"{where} editor")
        for form in ("Picture", "Text"):
            page.call(f"baliseplan.app.show('line'); {WAIT}; [...document.querySelectorAll('.segments button')].find((b) => b.textContent === args[0]).click(); {WAIT}", form)
            self.look(page, f"{where} line {form}")
            self.names(page, f"{where} line {form}")
        page.call(f"baliseplan.app.show('check'); {WAIT}")
        check(page, PLAN.replace(b"a1007f80a0fa", b"a1007f00a0fa"), JOURNAL)
        self.look(page, f"{where} check")
        self.names(page, f"{where} check")
        page.call("baliseplan.app.savedJournal = baliseplan.app.journal")


def main() -> int:
    audit = Audit()
    for dark in (False, True):
        for width in (1280, 420):
            page = Page(width, 860, dark)
            audit.views(page, f"{'dark' if dark else 'light'} {width}", width < 900)
            page.quit()
    print(f"{audit.texts} texts and {audit.controls} controls looked at, {audit.failed} places with a fault")
    return 1 if audit.failed else 0


if __name__ == "__main__":
    sys.exit(main())

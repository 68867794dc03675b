#!/usr/bin/env python3
"""Times of the page in headless Chromium, in milliseconds, and the longest time for which it answered nothing.

usage: timings.py [COUNT ..]     (5, 2,000 and 100,000 groups)
"""

import base64
import json
import sys
from typing import Any

from browser import Page
from runner import BASE, line_of

BODY = """
const bytes = Uint8Array.from(atob(args[0]), (c) => c.charCodeAt(0)), app = baliseplan.app, result = {};
const frame = () => new Promise((r) => requestAnimationFrame(() => setTimeout(r)));
let stall = 0, last = performance.now(), on = true;
(function tick() { const now = performance.now(); stall = Math.max(stall, now - last - 16); last = now; if (on) setTimeout(tick, 0); })();
const time = async (label, work) => {
  stall = 0; const t = performance.now(); await work(); await frame();
  result[label] = { ms: Math.round(performance.now() - t), stall: Math.round(stall) };
};
const calibration = performance.now();
structuredClone(Array.from({length: 100000}, (_, i) => ({id: String(i), balises: 2, packets: '', pending: true})));
result.calibration = Math.round(performance.now() - calibration);
await time('open', () => app.open({name: 'line.base', bytes, handle: null}, null));
await time('all packets and links', async () => { while (!app.whole || app.decoding) await frame(); });
const middle = Math.floor(app.groups.length / 2), id = app.groups[middle].id, next = app.groups[middle + 1].id;
await time('show a group', async () => { app.select(middle); await app.worker.call('plan'); });
await time('set', () => app.run([`set ${id} 0 0 D_LINK 0 777`]));
result['set'].engine = Math.round(app.runMs);
await time('renumber', () => app.run([`renumber ${id} 16100`]));
await time('turn', () => app.run([`turn ${next}`]));
await time('undo', () => app.run(['undo']));
await time('strike', () => app.run(['strike 1']));
await time('what depends on an edit', () => app.worker.call('chain', {serial: 2, most: 12}));
await time('search', async () => { const s = document.getElementById('search'); s.value = '1.77'; s.dispatchEvent(new Event('input')); s.value = ''; s.dispatchEvent(new Event('input')); });
await time('line', async () => { app.show('line'); await frame(); while (!document.querySelector('svg.picture .node, svg.picture .dots')) await frame(); });
app.show('edit');
const delivered = new TextEncoder().encode(await app.worker.call('plan')), journal = new TextEncoder().encode(app.journal);
await time('check', async () => { const found = await app.worker.call('check', {base: bytes, journal, delivered}); if (found.verdict !== 'yes') throw new Error(found.verdict); });
await time('check, links', () => app.worker.call('checkLinks'));
result.rows = document.querySelectorAll('#groups .row').length;
result.heap = Math.round((performance.memory?.usedJSHeapSize ?? 0) / 1048576);
on = false;
app.savedJournal = app.journal;
return result;
"""


def measure(page: Page, data: bytes) -> dict[str, Any]:
    return dict(page.call(BODY, base64.b64encode(data).decode()))


def main() -> int:
    for count in map(int, sys.argv[1:] or ["5", "2000", "100000"]):
        page = Page()
        data = BASE if count == 5 else line_of(count)
        print(count, len(data), json.dumps(measure(page, data)), flush=True)
        page.quit()
    return 0


if __name__ == "__main__":
    sys.exit(main())

"use strict";
(() => {
  const all = (selector, root = document) => [...root.querySelectorAll(selector)];

  // Pages: a list shows its first items, and more when asked.
  const pagers = all("[data-page]").map((list) => {
    const size = Number(list.dataset.page);
    const items = all(":scope > .item", list);
    let shown = size, words = "", printing = false;
    const bar = document.createElement("div");
    bar.className = "more";
    (list.closest("table")?.parentElement ?? list).after(bar);
    const draw = () => {
      const match = words ? items.filter((item) => item.textContent.toLowerCase().includes(words)) : items;
      const keep = new Set(printing ? items : match.slice(0, shown));
      items.forEach((item) => { item.hidden = !keep.has(item); });
      bar.replaceChildren();
      const rest = match.length - Math.min(shown, match.length);
      if (rest > 0) {
        for (const [text, to] of [[`${Math.min(size, rest)} more`, shown + size], ["all", Infinity]]) {
          const button = document.createElement("button");
          button.textContent = `Show ${text}`;
          button.onclick = () => { shown = to; draw(); };
          bar.append(button);
        }
        bar.append(`${shown.toLocaleString("en")} of ${match.length.toLocaleString("en")} ${list.dataset.what}`);
      } else if (words) {
        bar.append(`${match.length.toLocaleString("en")} of ${items.length.toLocaleString("en")} ${list.dataset.what}`);
      }
    };
    draw();
    return {
      list, draw,
      filter(text) { words = text.trim().toLowerCase(); shown = size; draw(); },
      print(on) { printing = on; draw(); },
      reveal(item) { const at = items.indexOf(item); if (at >= shown) { shown = at + 1; draw(); } },
    };
  });
  all("[data-filter]").forEach((input) => {
    const pager = pagers.find((each) => each.list === document.querySelector(input.dataset.filter));
    input.oninput = () => pager.filter(input.value);
  });

  // A link to a group opens it, wherever it is.
  const open = () => {
    const target = location.hash && document.getElementById(decodeURIComponent(location.hash.slice(1)));
    if (!target || !target.classList.contains("item")) return;
    pagers.find((each) => each.list === target.parentElement)?.reveal(target);
    target.open = true;
    target.scrollIntoView({ block: "start" });
  };
  addEventListener("hashchange", open);
  open();

  // Paper has no folding.
  let closed = [];
  addEventListener("beforeprint", () => {
    pagers.forEach((each) => each.print(true));
    const shut = all("details:not([open])");
    closed.push(...shut);
    shut.forEach((each) => { each.open = true; });
  });
  addEventListener("afterprint", () => {
    closed.forEach((each) => { each.open = false; });
    closed = [];
    pagers.forEach((each) => each.print(false));
  });

  // Edits: what a strike of one would meet.
  const dependents = JSON.parse(document.getElementById("dependents").textContent);
  const needs = {};
  for (const [from, list] of Object.entries(dependents)) for (const to of list) (needs[to] ??= []).push(Number(from));
  const rows = new Map(all("tr[data-edit]").map((row) => [Number(row.dataset.edit), row]));
  const panel = document.getElementById("strike");
  let held = null, marked = [];
  const runs = (numbers) => {
    const out = [];
    for (const n of numbers) { const last = out.at(-1); if (last && n === last[1] + 1) last[1] = n; else out.push([n, n]); }
    return out.map(([a, b]) => (a === b ? `${a}` : b === a + 1 ? `${a}, ${b}` : `${a} to ${b}`)).join(", ");
  };
  const mark = (serial) => {
    marked.forEach((row) => row.classList.remove("self", "dep", "need"));
    marked = [];
    panel.hidden = serial === null;
    if (serial === null) return;
    const put = (n, name) => { const row = rows.get(n); if (row) { row.classList.add(name); marked.push(row); } };
    const deps = dependents[serial] ?? [];
    put(serial, "self");
    deps.forEach((n) => put(n, "dep"));
    (needs[serial] ?? []).forEach((n) => put(n, "need"));
    if (rows.get(serial).classList.contains("undone")) { panel.textContent = `Edit ${serial} is undone.`; return; }
    const code = document.createElement("code");
    code.textContent = deps.length ? `plandesk strike ${serial} --with-dependents` : `plandesk strike ${serial}`;
    panel.replaceChildren(
      deps.length ? `A strike of ${serial} would be refused: ${runs(deps)} ${deps.length === 1 ? "depends" : "depend"} on it. ` : `Nothing depends on edit ${serial}: its strike is accepted. `,
      code);
  };
  if (panel) rows.forEach((row, serial) => {
    row.onmouseenter = () => { if (held === null) mark(serial); };
    row.onmouseleave = () => { if (held === null) mark(null); };
    row.onclick = () => { held = held === serial ? null : serial; mark(held === null ? serial : held); };
    row.onkeydown = (event) => {
      if (event.key === "Enter" || event.key === " ") { event.preventDefault(); row.onclick(); }
      if (event.key === "Escape") { held = null; mark(null); }
    };
  });
})();

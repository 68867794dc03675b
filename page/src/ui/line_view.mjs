// @ts-check
/** The line: a picture or a text, the chosen group with its links, and what is wrong with the links. */
import { metresText, packetName } from '../core/variables.mjs';
import { button, h, plural, put, s } from './dom.mjs';
import { unknownWords } from './groups.mjs';
import { HEIGHT, drawing, overview } from './line_drawing.mjs';
import { LineModel, Viewport } from './line_model.mjs';
import { lineText, linkTables } from './line_text.mjs';

const LEGEND = 'A triangle is a balise and points in the nominal direction of its group. Arcs above the track are links for trains running to the right, arcs below for trains to the left. A red arc names a group that the plan hasn’t; a dashed one disagrees with the distances of other links. A small square marks packets whose content a renumbering doesn’t follow. The picture is laid out by the links alone.';

/** @param {import('./app.mjs').App} app */
export function lineView(app) {
  return new LineView(app).element;
}

class LineView {
  /** @param {import('./app.mjs').App} app */
  constructor(app) {
    this.app = app;
    this.view = new Viewport();
    /** @type {LineModel | null} */ this.model = null;
    /** the version of the plan that is laid out */ this.version = -1;
    this.asking = false;
    this.line = 0;
    this.asText = false;
    this.svg = s('svg.picture',
      { role: 'application', tabindex: 0, 'aria-label': 'Picture of the line. Arrow keys choose groups, plus and minus zoom, 0 shows all, Enter opens the group. The same as text: the button Text.' });
    this.map = s('svg.overview', { 'aria-hidden': 'true' });
    this.text = lineText(this.app, () => this.model, (node) => this.#choose(node));
    this.text.element.classList.add('line-text');
    this.lines = h('select', { 'aria-label': 'Line', onchange: () => this.#showLine(Number(this.lines.value)) });
    this.form = h('div.segments', { role: 'group', 'aria-label': 'Form' });
    this.spacing = h('div.segments', { role: 'group', 'aria-label': 'Spacing' });
    this.caption = h('div.caption', { 'aria-live': 'polite' });
    this.tables = h('div.link-tables');
    this.marks = h('p.muted.small', { role: 'status' });
    this.search = h('input',
      { type: 'search', placeholder: 'Group, as 5.200', 'aria-label': 'Look for a group', size: 12, onkeydown: (/** @type {KeyboardEvent} */ event) => { if (event.key === 'Enter') this.#find(); } });
    this.zooms = h('div.buttons', null,
      button({
        icon: 'minus', title: 'Zoom out (-)', onclick: () => this.#zoom(1 / 1.5),
      }), button({ icon: 'plus', title: 'Zoom in (+)', onclick: () => this.#zoom(1.5) }),
      button({ icon: 'fit', text: 'All', title: 'Show all (0)', onclick: () => this.#fit() }), button({ icon: 'print', title: 'Print', class: 'quiet', onclick: () => print() }));
    this.legend = h('p.legend.muted.small', null, LEGEND);
    this.element = h('section.line-view', { 'aria-label': 'The line' }, h('h2.sr', null, 'The line'),
      h('header.tools', null, this.lines, this.form, this.spacing, this.search, this.zooms, this.marks),
      this.map, this.svg, this.text.element, this.caption, this.tables, this.legend);
    this.#listen();
  }

  #listen() {
    const { app, svg } = this;
    app.on('view',
      () => { if (app.view === 'line') requestAnimationFrame(() => this.#refresh()); }); // in sight it has a width
    for (const event of ['plan', 'links', 'decoded']) app.on(event,
      () => { if (app.view === 'line') this.#refresh(); });
    app.on('select', () => { if (app.view === 'line') this.#draw(); });
    app.on('opened', () => Object.assign(this, { model: null, line: 0, version: -1 }));
    new ResizeObserver(() => this.#draw()).observe(this.element);
    svg.addEventListener('wheel', (/** @type {WheelEvent} */ event) => this.#wheel(event), { passive: false });
    svg.addEventListener('keydown', (/** @type {KeyboardEvent} */ event) => this.#key(event));
    svg.addEventListener('click', (/** @type {MouseEvent} */ event) => this.#click(event));
    this.map.addEventListener('pointerdown', (/** @type {PointerEvent} */ event) => {
      const { view } = this;
      view.left = ((event.offsetX - 10) / (view.width - 20)) * view.span - view.width / 2 / view.zoom;
      this.#draw();
    });
    this.#listenToDrags();
  }

  #listenToDrags() {
    /** @type {{x: number, left: number} | null} */
    let drag = null;
    this.svg.addEventListener('pointerdown',
      (/** @type {PointerEvent} */ event) => { drag = { x: event.clientX, left: this.view.left }; });
    addEventListener('pointermove', (event) => {
      if (!drag || Math.abs(event.clientX - drag.x) <= 3) return;
      this.view.left = drag.left - (event.clientX - drag.x) / this.view.zoom;
      this.#draw();
    });
    addEventListener('pointerup', () => { drag = null; });
  }

  /** Has the worker lay the line out where the plan is another one than before. */
  async #refresh() {
    const { app } = this;
    if (!app.whole) return put(this.marks, `Reading the links, ${Math.round(app.read * 100)} %`);
    if (this.version === app.version) return this.#draw();
    if (this.asking) return;
    this.asking = true;
    const { version } = app;
    try {
      const line = await app.worker.call('layout');
      if (version !== app.version) return;
      this.version = version;
      const first = this.model === null;
      this.model = new LineModel(line, app.groups);
      this.#showLine(Math.min(this.line, Math.max(0, this.model.lines - 1)), first);
    } finally {
      this.asking = false;
      if (version !== app.version && app.view === 'line') this.#refresh();
    }
  }

  /** @param {number} l @param {boolean} [fit] */
  #showLine(l, fit = true) {
    const { model, view, app } = this;
    if (!model) return;
    this.line = l;
    view.take(model, l);
    put(this.lines,
      Array.from({ length: model.lines }, (_, i) => h('option', { value: i, selected: i === l }, `Line ${i + 1}`)));
    this.lines.hidden = model.lines < 2;
    const { off, missing } = model.faults(l);
    const last = view.nodes[view.nodes.length - 1];
    const here = view.nodes.reduce((sum, node) => sum + Number(!model.isMissing(node)), 0);
    const unknown = unknownWords(app.groups.filter(({ packets }) => packets.includes('?')));
    put(this.marks, [
      plural(here, 'group'), metresText(last === undefined ? 0
        : model.line.metre[last]), missing > 0 && plural(missing, 'dangling link'),
      off > 0 && `${plural(off, 'link')} ${off === 1 ? 'disagrees' : 'disagree'} in distance`, unknown && `a renumbering doesn’t follow numbers in ${unknown}`,
    ].filter(Boolean).join(' · '));
    this.text.show(view.nodes);
    this.#segments();
    if (fit) this.#fit();
    else this.#draw();
  }

  #segments() {
    /** @param {string} text @param {boolean} on @param {() => void} choose */
    const segment = (text, on, choose) => h('button',
      { type: 'button', 'aria-pressed': String(on), onclick: () => { choose(); this.#showLine(this.line); } }, text);
    put(this.form, segment('Picture', !this.asText, () => { this.asText = false; }),
      segment('Text', this.asText, () => { this.asText = true; }));
    put(this.spacing, segment('even', this.view.even, () => { this.view.even = true; }),
      segment('true distances', !this.view.even, () => { this.view.even = false; }));
    for (const part of [this.svg, this.map]) part.style.display = this.asText ? 'none' : '';
    for (const part of [this.spacing, this.zooms, this.legend]) part.hidden = this.asText;
    this.text.element.hidden = !this.asText;
  }

  get #chosen() {
    const { app, model } = this;
    return model && app.selected >= 0 && model.line.line[app.selected] === this.line ? app.selected : -1;
  }

  #draw() {
    const { app, model, view, svg } = this;
    if (!model || app.view !== 'line' || this.version !== app.version) return;
    const chosen = this.#chosen;
    this.#describe(chosen);
    if (this.asText) return this.text.select(chosen);
    view.width = svg.clientWidth || view.width;
    svg.setAttribute('viewBox', `0 0 ${view.width} ${HEIGHT}`);
    this.map.setAttribute('viewBox', `0 0 ${view.width} 26`);
    svg.style.height = HEIGHT + 'px';
    /** @type {import('./line_drawing.mjs').Scene} */
    const scene = {
      model, view, chosen, isChanged: (node) => app.changed.has(node), isUnknown: (node) => app.groups[node]?.packets.includes('?') ?? false,
      onchoose: (node) => { app.select(node); svg.focus(); }, onopen: (node) => this.#open(node),
    };
    put(svg, drawing(scene));
    put(this.map, overview(scene));
  }

  /** @param {number} node */
  #open(node) {
    this.app.jump({ group: node, pig: null, pkt: null });
  }

  /** @param {number} node */
  #describe(node) {
    const { app, model } = this;
    if (node < 0 || !model) {
      put(this.tables);
      return put(this.caption, h('span.muted', null, 'Choose a group.'));
    }
    const { id, balises, packets } = app.groups[node];
    const names = [...new Set(packets.split(/[ |?]+/).filter(Boolean))].map((number) => `${number} ${packetName(Number(number))}`).join(', ');
    put(this.caption, h('h3.mono', null, id), h('span', null, plural(balises, 'balise'), ', ',
      model.headingWords(node)), h('span.muted', null, names),
      button({ icon: 'jump', text: 'Open', class: 'primary', 'aria-label': `Open ${id}`, onclick: () => this.#open(node) }));
    put(this.tables, linkTables(model, node, (other) => this.#choose(other)));
  }

  /** @param {number} node */
  #choose(node) {
    const { app, model, view } = this;
    if (!model || model.isMissing(node)) return;
    if (model.line.line[node] !== this.line) this.#showLine(model.line.line[node], false);
    view.reveal(node);
    app.select(node);
  }

  #find() {
    const id = this.search.value.trim();
    const node = this.app.byId.get(id);
    if (node === undefined || !this.model) return this.app.tell(`No group of the plan is ${id}.`, 'bad');
    if (this.model.line.line[node] !== this.line) this.#showLine(this.model.line.line[node], false);
    this.view.center(node);
    this.app.select(node);
  }

  #fit() {
    this.view.width = this.svg.clientWidth || this.view.width;
    this.view.fit();
    this.#draw();
  }

  /** @param {number} factor @param {number} [around] */
  #zoom(factor, around) {
    this.view.scale(factor, around);
    this.#draw();
  }

  /** @param {1 | -1} step */
  #move(step) {
    const { model, view } = this;
    if (!model) return;
    const now = this.#chosen < 0 ? -1 : model.position[this.#chosen];
    for (let i = Math.max(0, now + step); i >= 0 && i < view.nodes.length; i += step)
      if (!model.isMissing(view.nodes[i])) return this.#choose(view.nodes[i]);
  }

  /** @param {WheelEvent} event */
  #wheel(event) {
    event.preventDefault();
    if (event.ctrlKey
      || Math.abs(event.deltaY) > Math.abs(event.deltaX)) return this.#zoom(Math.exp(-event.deltaY / 400), event.offsetX);
    this.view.left += event.deltaX / this.view.zoom;
    this.#draw();
  }

  /**
   * Chooses the group that is nearest.
   * @param {MouseEvent} event
   */
  #click(event) {
    const { model, view, svg } = this;
    if (!model || /** @type {Element} */ (event.target).closest('.node')) return;
    const want = view.left + event.offsetX / view.zoom;
    const next = view.firstAt(want);
    const near = [view.nodes[next - 1], view.nodes[next]].filter((node) => node !== undefined && !model.isMissing(node))
      .sort((a, b) => Math.abs(view.unit(a) - want) - Math.abs(view.unit(b) - want))[0];
    if (near === undefined || Math.abs(view.x(near) - event.offsetX) >= 30) return;
    this.app.select(near);
    svg.focus();
  }

  /** @param {KeyboardEvent} event */
  #key(event) {
    /** @type {Record<string, () => void>} */
    const keys = {
      ArrowRight: () => this.#move(1), ArrowLeft: () => this.#move(-1), '+': () => this.#zoom(1.5), '=': () => this.#zoom(1.5),
      '-': () => this.#zoom(1 / 1.5), 0: () => this.#fit(), Enter: () => {
        if (this.#chosen >= 0) this.#open(this.#chosen);
        
      },
    };
    if (event.ctrlKey || !keys[event.key]) return;
    event.preventDefault();
    keys[event.key]();
  }
}

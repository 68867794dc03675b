// @ts-check
/** The laid out line as the views of it read it, and the part of it that is in sight. */
import { VARIABLES, metresText } from '../core/variables.mjs';

/** @typedef {import('../core/line.mjs').Line} Line */

export class LineModel {
  /** @param {Line} line @param {import('./app.mjs').Summary[]} groups */
  constructor(line, groups) {
    this.line = line;
    this.groups = groups;
    this.lines = Math.max(0, line.lineStart.length - 1);
    /** the place of each node within its line */
    this.position = new Int32Array(line.order.length);
    for (let l = 0; l < this.lines; l += 1)
      for (let i = line.lineStart[l]; i < line.lineStart[l + 1]; i += 1) this.position[line.order[i]] = i - line.lineStart[l];
  }

  /**
   * The nodes of a line from left to right.
   * @param {number} l
   */
  nodesOf(l) {
    return this.line.order.subarray(this.line.lineStart[l] ?? 0, this.line.lineStart[l + 1] ?? 0);
  }

  /**
   * Whether links name it and the plan hasn't it.
   * @param {number} node
   */
  isMissing(node) {
    return node >= this.line.groups;
  }

  /** @param {number} node */
  id(node) {
    return this.isMissing(node) ? this.line.missing[node - this.line.groups] : this.groups[node]?.id ?? '';
  }

  /**
   * The links of a node, of both ends.
   * @param {number} node
   */
  edgesOf(node) {
    return this.line.edgeList.subarray(this.line.edgeStart[node], this.line.edgeStart[node + 1]);
  }

  /** @param {number} node */
  headingWords(node) {
    return this.line.heading[node] > 0 ? 'lies as the picture' : 'lies the other way round';
  }

  /**
   * What a link says.
   * @param {number} e
   */
  edge(e) {
    const { from, to, metres, nominal, dir, place, off, ahead } = this.line.edges;
    const [pig, pkt, k] = place.subarray(3 * e, 3 * e + 3);
    return {
      from: from[e], to: to[e], metres: Number.isNaN(metres[e]) ? null : metres[e], nominal: nominal[e] < 0 ? null
        : nominal[e] === 1,
      dir: dir[e], pig, pkt, k, off: off[e], ahead: ahead[e] === 1,
    };
  }

  /** @param {ReturnType<LineModel['edge']>} edge */
  edgeWords({ metres, nominal, dir, off }) {
    const passed = nominal === null ? '' : nominal ? ', passed nominal' : ', passed reverse';
    const wrong = off === 0 ? '' : `, ${Math.abs(off)} m ${off > 0 ? 'shorter' : 'longer'} than other links have it`;
    return `${metres === null ? 'infill' : metresText(metres)}${passed}, for trains ${VARIABLES.Q_DIR.values?.[dir]}${wrong}`;
  }

  /**
   * How many links of a line disagree, and how many name nothing.
   * @param {number} l
   */
  faults(l) {
    let [off, missing] = [0, 0];
    const { from, to, off: by } = this.line.edges;
    for (let e = 0; e < from.length; e += 1) {
      if (this.line.line[from[e]] !== l) continue;
      if (by[e] !== 0) off += 1;
      if (this.isMissing(to[e])) missing += 1;
    }
    return { off, missing };
  }
}

/** The largest zoom: pixels for a group, or for a metre. */
const MOST_EVEN = 260;
const MOST_TRUE = 4;
const MARGIN = 60;

/** Which part of a line is in sight. A unit is a group (even spacing) or a metre (true distances). */
export class Viewport {
  constructor() {
    this.even = true;
    this.zoom = 1;
    this.left = 0;
    this.width = 800;
    /** @type {LineModel | null} */ this.model = null;
    /** @type {Int32Array} */ this.nodes = new Int32Array(0);
  }

  /** @param {LineModel} model @param {number} l */
  take(model, l) {
    this.model = model;
    this.nodes = model.nodesOf(l);
  }

  /** @param {number} node */
  unit(node) {
    if (!this.model) return 0;
    return this.even ? this.model.position[node] : this.model.line.metre[node];
  }

  get span() {
    const last = this.nodes[this.nodes.length - 1];
    return Math.max(1e-9, last === undefined ? 0 : this.unit(last));
  }

  /** @param {number} node */
  x(node) {
    return (this.unit(node) - this.left) * this.zoom;
  }

  fit() {
    this.zoom = Math.max((this.width - 2 * MARGIN) / this.span, 1e-9);
    if (this.even) this.zoom = Math.min(this.zoom, 220);
    this.left = -((this.width - this.span * this.zoom) / 2) / this.zoom;
  }

  /** @param {number} factor @param {number} [around] pixel that stays */
  scale(factor, around = this.width / 2) {
    const held = this.left + around / this.zoom;
    const least = (this.width - 2 * MARGIN) / this.span / 2;
    this.zoom = Math.min(this.even ? MOST_EVEN : MOST_TRUE, Math.max(least, this.zoom * factor));
    this.left = held - around / this.zoom;
  }

  /** @param {number} node */
  center(node) {
    if (this.even && this.zoom < 60) this.zoom = 90;
    this.left = this.unit(node) - this.width / 2 / this.zoom;
  }

  /**
   * Brings a node into sight.
   * @param {number} node
   */
  reveal(node) {
    const px = this.x(node);
    if (px < MARGIN || px > this.width - MARGIN) this.left = this.unit(node) - this.width / 2 / this.zoom;
  }

  /**
   * The first place whose node is at or right of a unit.
   * @param {number} value
   */
  firstAt(value) {
    let [low, high] = [0, this.nodes.length];
    while (low < high) {
      const middle = (low + high) >> 1;
      if (this.unit(this.nodes[middle]) < value) low = middle + 1;
      else high = middle;
    }
    return low;
  }

  /** The nodes in sight, with one more at each side. */
  seen() {
    const from = Math.max(0, this.firstAt(this.left - 40 / this.zoom) - 1);
    const to = Math.min(this.nodes.length, this.firstAt(this.left + (this.width + 40) / this.zoom) + 1);
    return this.nodes.subarray(from, to);
  }
}

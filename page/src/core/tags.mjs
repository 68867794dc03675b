// @ts-check
/**
 * Where tags stand, as the engine says it (docs/FORMATS.md, Facts). A group's lines are read when it is asked for, since
 * a large plan has millions of them.
 */

/** @typedef {{group: number, pig: number | null, pkt: number | null}} Place */
/** @typedef {{telegram: string, packets: string[]}[]} Shape the tags of a group's telegrams and packets, as they stand */

const FIRST = 'facts 1\n';
const GROUP = /^\d+\.\d+ [bn]\d+$/;

export class Tags {
  /** @param {string} text an output of the engine */
  constructor(text) {
    if (!text.startsWith(FIRST)) throw new Error('an output without tags');
    this.text = text;
    /** @type {string[]} tags of the groups in plan order */ this.order = [];
    /** @type {number[]} where the lines after each group's own begin, and at last the end */ this.starts = [];
    /** @type {Map<string, number> | null} */ this.index = null;
    /** @type {Map<number, Shape>} of the groups that were asked for */ this.shapes = new Map();
    for (let at = FIRST.length; at < text.length; at = this.#groupAfter(at)) this.#take(at);
  }

  /** @param {number} at where the line of a group begins */
  #take(at) {
    const end = this.text.indexOf('\n', at);
    const words = this.text.slice(at + 'group '.length, end);
    if (!this.text.startsWith('group ', at) || !GROUP.test(words)) throw new Error('a line that is no group: ' + words.slice(0, 60));
    this.order.push(words.slice(words.indexOf(' ') + 1));
    this.starts.push(end + 1);
  }

  /** @param {number} at */
  #groupAfter(at) {
    const next = this.text.indexOf('\ngroup ', at);
    return next < 0 ? this.text.length : next + 1;
  }

  /** @param {string} tag index of a group in the plan, or -1 */
  groupAt(tag) {
    this.index ??= new Map(this.order.map((each, i) => [each, i]));
    return this.index.get(tag) ?? -1;
  }

  /**
   * The tags in a group.
   * @param {number} index
   */
  shape(index) {
    const shape = this.shapes.get(index) ?? this.#read(index);
    this.shapes.set(index, shape);
    return shape;
  }

  /** @param {number} index */
  #read(index) {
    /** @type {Shape} */
    const shape = [];
    const lines = this.text.slice(this.starts[index], this.#groupAfter(this.starts[index] - 1)).split('\n');
    lines.pop();
    for (const line of lines) {
      const words = line.split(' ');
      if (words[0] === 'telegram' && words.length === 4 && Number(words[2]) === shape.length) shape.push({ telegram: words[3], packets: [] });
      else if (words[0] === 'packet' && words.length === 5 && Number(words[2]) === shape.length - 1
        && Number(words[3]) === shape[shape.length - 1].packets.length) shape[shape.length - 1].packets.push(words[4]);
      else throw new Error('a line that is no tag: ' + line.slice(0, 60));
    }
    return shape;
  }

  /**
   * Present place of `G/T/P`, `G/T` or `G`.
   * @param {string} path @returns {Place | null} null where it isn't in the plan
   */
  find(path) {
    const [g, t, p] = path.split('/');
    const group = this.groupAt(g);
    if (group < 0) return null;
    if (t === undefined) return { group, pig: null, pkt: null };
    const shape = this.shape(group);
    const pig = shape.findIndex(({ telegram }) => telegram === t);
    if (pig < 0) return null;
    const pkt = p === undefined ? null : shape[pig].packets.indexOf(p);
    return pkt !== null && pkt < 0 ? null : { group, pig, pkt };
  }

  /**
   * The path of a present place: the way back of `find`.
   * @param {number} group @param {number} pig @param {number} pkt
   */
  pathOf(group, pig, pkt) {
    const { telegram, packets } = this.shape(group)[pig];
    return `${this.order[group]}/${telegram}/${packets[pkt]}`;
  }
}

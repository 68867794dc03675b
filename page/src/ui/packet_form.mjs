// @ts-check
/**
 * The fields of a packet as a form: values with units, parts that are added and taken out. The engine makes its digits.
 */
import { LAYOUTS, blankForm, isChosen, packetFields } from '../core/layouts.mjs';
import { VARIABLES, meaning, mostOf, rawValue } from '../core/variables.mjs';
import { valueHint, valueInput } from './editor.mjs';
import { button, h, put } from './dom.mjs';

/**
 * @typedef {import('../core/layouts.mjs').Node} Node
 * @typedef {import('../core/layouts.mjs').Leaf} Leaf
 * @typedef {import('../core/layouts.mjs').Repeated} Repeated
 */

/** Most parts after N_ITER, by its bits. */
const MOST_PARTS = 31;

export class PacketForm {
  /**
   * What is typed tells the form around it by its own event; `changed` tells of parts that are added or taken out.
   * @param {number} number @param {number} direction @param {Node[]} nodes @param {() => void} changed
   */
  constructor(number, direction, nodes, changed) {
    this.number = number;
    this.direction = direction;
    this.nodes = nodes;
    this.changed = changed;
    /** @type {Map<Leaf, string>} what was typed and isn't a value, with the reason */
    this.errors = new Map();
    /** @type {Map<Leaf, {input: any, sense: any}>} */
    this.inputs = new Map();
    this.element = h('div.packet-form');
    this.#paint();
  }

  /**
   * The form of a new packet: distances in metres, for trains running in the nominal direction.
   * @param {number} number @param {() => void} changed
   */
  static blank(number, changed) {
    const nodes = blankForm(LAYOUTS[number]);
    for (const node of nodes) if ('name' in node && node.name === 'Q_SCALE') node.value = 1;
    return new PacketForm(number, 1, nodes, changed);
  }

  /** What was typed and is no value, or ''. */
  get error() {
    const [first] = this.errors;
    return first ? `${first[0].name}: ${first[1]}` : '';
  }

  /** The fields in bit order, but L_PACKET. */
  get fields() {
    return packetFields(this.number, this.direction, this.nodes);
  }

  get #scale() {
    const leaf = this.nodes.find((node) => 'name' in node && node.name === 'Q_SCALE');
    return leaf && 'name' in leaf ? leaf.value : undefined;
  }

  #paint() {
    const direction = /** @type {Leaf} */ ({ name: 'Q_DIR', value: this.direction });
    this.inputs.clear();
    put(this.element, this.#leaf(direction, (value) => { this.direction = value; }), this.#all(this.nodes));
    for (const leaf of [...this.errors.keys()]) if (!this.inputs.has(leaf)) this.errors.delete(leaf);
    this.#senses();
  }

  /** @param {Node[]} nodes @returns {any[]} */
  #all(nodes) {
    return nodes.map((node) => {
      if ('name' in node) return this.#leaf(node, (value) => { node.value = value; });
      if ('when' in node) return isChosen(node, nodes) ? this.#all(node.nodes) : [];
      return this.#parts(node);
    });
  }

  /** @param {Leaf} leaf @param {(value: number) => void} set */
  #leaf(leaf, set) {
    const { name } = leaf;
    const input = valueInput(name, leaf.value);
    const sense = h('small.sense');
    this.inputs.set(leaf, { input, sense });
    input.addEventListener(input.matches('select') ? 'change' : 'input', () => {
      const raw = rawValue(name, input.value, this.#scale);
      const error = 'error' in raw ? raw.error : raw.value > mostOf(name) ? `at most ${mostOf(name)}` : '';
      if (error) this.errors.set(leaf, error);
      else this.errors.delete(leaf);
      if (!error && 'value' in raw) set(leaf.value = raw.value);
      if (VARIABLES[name].steering) this.#repaintAt(leaf);
      this.#senses();
    });
    return h('label.field-row', null,
      h('span', null, h('b.mono', null, name), ' ', h('small.muted', null, VARIABLES[name].what)), input, sense);
  }

  /**
   * A steering value decides which fields there are.
   * @param {Leaf} leaf
   */
  #repaintAt(leaf) {
    this.#paint();
    this.inputs.get(leaf)?.input.focus();
  }

  /** What each value means; distances follow Q_SCALE. */
  #senses() {
    for (const [leaf, { sense }] of this.inputs) {
      const error = this.errors.get(leaf);
      sense.classList.toggle('bad', error !== undefined);
      put(sense,
        error ?? (VARIABLES[leaf.name].values ? '' : meaning(leaf.name, leaf.value, this.#scale) || valueHint(leaf.name)));
    }
  }

  /** @param {Repeated} node */
  #parts(node) {
    const least = node.first ? 1 : 0;
    const change = () => { this.#paint(); this.changed(); };
    const parts = node.list.map((part, i) => h('fieldset.part-form', null,
      h('legend', null, `${node.part} ${i}`, ' ', node.list.length > least && button({
        icon: 'cross', title: `Take out ${node.part} ${i}`, class: 'quiet', onclick: () => {
          node.list.splice(i, 1);
          change();
          
        },
      })),
      this.#all(part)));
    const add = button({
      icon: 'plus', text: `One ${node.part} more`, class: 'quiet', disabled: node.list.length >= MOST_PARTS + least,
      onclick: () => { node.list.push(blankForm(node.items)); change(); },
    });
    return [parts, add];
  }
}


// @ts-check
/**
 * The packets that the engine knows, as forms to fill in: which fields a form shows. The engine makes their digits, and
 * refuses a form that it has other fields for.
 */

/**
 * @typedef {string | {when: [name: string, values: number[]], items: Item[]} | {part: string, first: boolean, items: Item[]}} Item
 * a variable; what follows it for some values; or N_ITER parts, where `first` means that one more stands before N_ITER
 * @typedef {{name: string, value: number}} Leaf
 * @typedef {{when: [string, number[]], nodes: Node[]}} Choice
 * @typedef {{part: string, first: boolean, items: Item[], list: Node[][]}} Repeated
 * @typedef {Leaf | Choice | Repeated} Node what a form holds
 */

/** @type {Item[]} */
const COUNTRY = ['Q_NEWCOUNTRY', { when: ['Q_NEWCOUNTRY', [1]], items: ['NID_C'] }];
/** @type {Item[]} */
const DIFFERENCE = [
  'Q_DIFF', { when: ['Q_DIFF', [0]], items: ['NC_CDDIFF'] }, { when: ['Q_DIFF', [1, 2]], items: ['NC_DIFF'] }, 'V_DIFF',
];

/**
 * What follows the first three fields, by packet.
 * @type {Record<number, Item[]>}
 */
export const LAYOUTS = {
  5: ['Q_SCALE', { part: 'link', first: true,
    items: ['D_LINK', ...COUNTRY, 'NID_BG', 'Q_LINKORIENTATION', 'Q_LINKREACTION', 'Q_LOCACC'] }],
  21: ['Q_SCALE', { part: 'gradient', first: true, items: ['D_GRADIENT', 'Q_GDIR', 'G_A'] }],
  27: ['Q_SCALE', { part: 'section', first: true,
    items: ['D_STATIC', 'V_STATIC', 'Q_FRONT', { part: 'difference', first: false, items: DIFFERENCE }] }],
  41: ['Q_SCALE', 'D_LEVELTR', { part: 'level', first: true,
    items: ['M_LEVELTR', { when: ['M_LEVELTR', [1]], items: ['NID_NTC'] }, 'L_ACKLEVELTR'] }],
  65: ['Q_SCALE', 'NID_TSR', 'D_TSR', 'L_TSR', 'Q_FRONT', 'V_TSR'],
  66: ['NID_TSR'],
  136: [...COUNTRY, 'NID_BG'],
};
/** The variable that begins a part, by packet. */
export const PART_START = /** @type {Record<number, string>} */ ({
  5: 'D_LINK', 21: 'D_GRADIENT', 27: 'D_STATIC', 41: 'M_LEVELTR',
});
/** What a part is called, by packet. */
export const PART_NAME = /** @type {Record<number, string>} */ ({
  5: 'link', 21: 'gradient', 27: 'section', 41: 'level',
});

/**
 * A form with all values 0, and one part where one must be.
 * @param {Item[]} items @returns {Node[]}
 */
export function blankForm(items) {
  return items.map((item) => {
    if (typeof item === 'string') return { name: item, value: 0 };
    if ('when' in item) return { when: item.when, nodes: blankForm(item.items) };
    return { ...item, list: item.first ? [blankForm(item.items)] : [] };
  });
}

/**
 * Whether what follows a variable is there.
 * @param {Choice} choice @param {Node[]} nodes that it stands among
 */
export function isChosen({ when: [name, values] }, nodes) {
  const leaf = nodes.find((node) => 'name' in node && node.name === name);
  return leaf !== undefined && values.includes(/** @type {Leaf} */ (leaf).value);
}

/**
 * The fields of a form in bit order, N_ITER among them.
 * @param {Node[]} nodes @returns {[string, number][]}
 */
export function fieldsOf(nodes) {
  return nodes.flatMap((node) => {
    if ('name' in node) return [/** @type {[string, number]} */ ([node.name, node.value])];
    if ('when' in node) return isChosen(node, nodes) ? fieldsOf(node.nodes) : [];
    const parts = node.list.map(fieldsOf);
    const before = node.first ? 1 : 0;
    return [...parts.slice(0, before).flat(), /** @type {[string, number]} */ (['N_ITER', node.list.length - before]),
      ...parts.slice(before).flat()];
  });
}

/**
 * The form of a decoded packet.
 * @param {number} number @param {[string, number][]} fields after the first three
 */
export function formOf(number, fields) {
  let at = 0;
  const next = () => fields[at++]?.[1] ?? 0;
  /** @param {Item[]} items @returns {Node[]} */
  const read = (items) => {
    /** @type {Node[]} */
    const nodes = [];
    for (const item of items) {
      if (typeof item === 'string') nodes.push({ name: item, value: next() });
      else if ('when' in item) {
        const choice = { when: item.when, nodes: blankForm(item.items) };
        if (isChosen(choice, nodes)) choice.nodes = read(item.items);
        nodes.push(choice);
      } else {
        const list = item.first ? [read(item.items)] : [];
        for (let count = next(); count > 0; count -= 1) list.push(read(item.items));
        nodes.push({ ...item, list });
      }
    }
    return nodes;
  };
  return read(LAYOUTS[number]);
}

/**
 * The fields of a packet, but L_PACKET, which the engine works out.
 * @param {number} number @param {number} direction @param {Node[]} form @returns {[string, number][]}
 */
export const packetFields = (number, direction, form) =>
  [['NID_PACKET', number], ['Q_DIR', direction], ...fieldsOf(form)];

/**
 * A packet for trains in the nominal direction, with all other values 0.
 * @param {number} number
 */
export const blankFields = (number) => packetFields(number, 1, blankForm(LAYOUTS[number]));

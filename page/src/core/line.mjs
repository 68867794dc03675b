// @ts-check
/**
 * Where the groups of a line stand in a picture, by their links alone. It is a picture and no check: links that don't
 * agree with it are marked. All is in arrays of numbers, so that a worker can hand it over at no cost.
 */

/**
 * @typedef {import('./links.mjs').Link} Link
 * @typedef {object} Edges the links, one a place
 * @property {Int32Array} from @property {Int32Array} to nodes
 * @property {Float64Array} metres NaN for an infill reference
 * @property {Int8Array} nominal 1, 0, or -1 where it isn't said
 * @property {Int8Array} dir Q_DIR of the packet
 * @property {Int32Array} place PIG, PKT and K, three to a link
 * @property {Float64Array} off metres by which it disagrees with the picture
 * @property {Int8Array} ahead 1 where it is drawn to the right
 * @typedef {object} Line
 * @property {number} groups number of groups of the plan: nodes from there on are only named by links
 * @property {string[]} missing identities of these
 * @property {Float64Array} metre along its line, of each node
 * @property {Int8Array} heading 1 where its nominal direction is that of the picture, else -1
 * @property {Int32Array} line of each node
 * @property {Int32Array} order the nodes from left to right, line by line
 * @property {Int32Array} lineStart where each line begins in `order`, and its end
 * @property {Edges} edges
 * @property {Int32Array} edgeStart where the links of each node begin in `edgeList`
 * @property {Int32Array} edgeList
 */

/** Metres that are drawn for a link without a distance, and between groups without links. */
const UNKNOWN = 100;
const APART = 400;
/** What a link is worth for the tree: confirmed ones by their length, others after them, infill last. */
const UNCONFIRMED = 1e9;
const NO_DISTANCE = 1e12;

/** @param {string[]} ids of the groups @param {Link[][]} links of each group @returns {Line} */
export function layOut(ids, links) {
  const { edges, missing } = edgesOf(ids, links);
  const nodes = ids.length + missing.length;
  const ties = adjacency(edges, nodes, spanningTree(edges, nodes));
  const placed = place(edges, nodes, ties);
  const lines = joinSingles(placed, nodes);
  straighten(placed, lines);
  const { order, lineStart } = ordered(placed, nodes, lines);
  measure(edges, placed);
  const { start: edgeStart, list: edgeList } = adjacency(edges, nodes);
  return { groups: ids.length, missing, ...placed, order, lineStart, edges, edgeStart, edgeList };
}

/**
 * The links as numbers; what they name and the plan hasn't are nodes too.
 * @param {string[]} ids @param {Link[][]} links
 */
function edgesOf(ids, links) {
  const byId = new Map(ids.map((id, i) => [id, i]));
  /** @type {string[]} */
  const missing = [];
  const count = links.reduce((sum, list) => sum + list.length, 0);
  /** @type {Edges} */
  const edges = {
    from: new Int32Array(count), to: new Int32Array(count), metres: new Float64Array(count), nominal: new Int8Array(count),
    dir: new Int8Array(count), place: new Int32Array(3 * count), off: new Float64Array(count), ahead: new Int8Array(count),
  };
  let e = 0;
  for (const [from, list] of links.entries())
    for (const link of list) {
      let to = byId.get(link.to);
      if (to === undefined) {
        to = ids.length + missing.length;
        byId.set(link.to, to);
        missing.push(link.to);
      }
      edges.from[e] = from;
      edges.to[e] = to;
      edges.metres[e] = link.metres ?? NaN;
      edges.nominal[e] = link.nominal === null ? -1 : Number(link.nominal);
      edges.dir[e] = link.dir;
      edges.place.set([link.pig, link.pkt, link.k], 3 * e);
      e += 1;
    }
  return { edges, missing };
}

/**
 * The edges at each node, of both ends.
 * @param {Edges} edges @param {number} nodes @param {ArrayLike<number>} [chosen]
 */
function adjacency({ from, to }, nodes, chosen = from.map((_, e) => e)) {
  const start = new Int32Array(nodes + 1);
  for (let i = 0; i < chosen.length; i += 1)
    for (const end of endsOf(from[chosen[i]], to[chosen[i]])) start[end + 1] += 1;
  for (let n = 0; n < nodes; n += 1) start[n + 1] += start[n];
  const list = new Int32Array(start[nodes]);
  const next = start.slice(0, nodes);
  for (let i = 0; i < chosen.length; i += 1)
    for (const end of endsOf(from[chosen[i]], to[chosen[i]])) {
      list[next[end]] = chosen[i];
      next[end] += 1;
    }
  return { start, list };
}

/** @param {number} a @param {number} b */
const endsOf = (a, b) => (a === b ? [a] : [a, b]);

/**
 * What each link is worth for the picture: those that both ends say first, then the shorter ones; of links that
 * contradict each other those that a third group bears out.
 * @param {Edges} edges @param {number} nodes
 */
function worthOf(edges, nodes) {
  const { from, to, metres } = edges;
  /** @type {Map<number, number[]>} the links of each pair of groups */
  const pairs = new Map();
  for (let e = 0; e < from.length; e += 1) {
    const key = pairKey(from[e], to[e], nodes);
    const list = pairs.get(key);
    if (list) list.push(e);
    else pairs.set(key, [e]);
  }
  const worth = Float64Array.from(metres, (m) => (Number.isNaN(m) ? NO_DISTANCE : m + UNCONFIRMED));
  /** @type {{start: Int32Array, list: Int32Array} | null} */
  let around = null;
  for (const list of pairs.values()) {
    if (list.length < 2) continue;
    const agreed = list.filter((e) => list.some((other) => from[other] !== from[e] && metres[other] === metres[e]));
    for (const e of agreed) worth[e] = metres[e];
    if (agreed.length > 0 || list.every((e) => metres[e] === metres[list[0]])) continue;
    around ??= adjacency(edges, nodes);
    for (const e of list) if (isBorneOut(edges, e, nodes, pairs, around)) worth[e] = metres[e];
  }
  return worth;
}

/** @param {number} a @param {number} b @param {number} nodes */
const pairKey = (a, b, nodes) => Math.min(a, b) * nodes + Math.max(a, b);

/**
 * Whether a group that has links with both ends of a link has them at distances that fit it.
 * @param {Edges} edges @param {number} e @param {number} nodes @param {Map<number, number[]>} pairs
 * @param {{start: Int32Array, list: Int32Array}} around
 */
function isBorneOut({ from, to, metres }, e, nodes, pairs, { start, list }) {
  for (let i = start[from[e]]; i < start[from[e] + 1]; i += 1) {
    const near = list[i];
    const third = from[near] === from[e] ? to[near] : from[near];
    if (third === to[e]) continue;
    for (const far of pairs.get(pairKey(third, to[e], nodes)) ?? []) {
      const [x, y, wanted] = [metres[near], metres[far], metres[e]];
      if (x + y === wanted || Math.abs(x - y) === wanted) return true;
    }
  }
  return false;
}

/**
 * Links that hold all together, by their worth.
 * @param {Edges} edges @param {number} nodes
 */
function spanningTree(edges, nodes) {
  const worth = worthOf(edges, nodes);
  const sorted = Int32Array.from(worth.keys()).sort((a, b) => worth[a] - worth[b] || a - b);
  const parent = Int32Array.from({ length: nodes }, (_, n) => n);
  /** @param {number} node */
  const root = (node) => {
    while (parent[node] !== node) {
      parent[node] = parent[parent[node]];
      node = parent[node];
    }
    return node;
  };
  return sorted.filter((e) => {
    const [a, b] = [root(edges.from[e]), root(edges.to[e])];
    parent[a] = b;
    return a !== b;
  });
}

/** @typedef {{metre: Float64Array, heading: Int8Array, line: Int32Array}} Placed */

/**
 * Walks the tree from each group that has no place yet.
 * @param {Edges} edges @param {number} nodes @param {{start: Int32Array, list: Int32Array}} tree @returns {Placed}
 */
function place(edges, nodes, { start, list }) {
  const placed = {
    metre: new Float64Array(nodes), heading: new Int8Array(nodes).fill(1), line: new Int32Array(nodes).fill(-1),
  };
  const waiting = new Int32Array(nodes);
  let lines = 0;
  for (let first = 0; first < nodes; first += 1) {
    if (placed.line[first] >= 0) continue;
    placed.line[first] = lines;
    waiting[0] = first;
    for (let at = 0, end = 1; at < end; at += 1)
      for (let i = start[waiting[at]]; i < start[waiting[at] + 1]; i += 1) {
        const other = placeOther(edges, list[i], waiting[at], placed);
        if (other >= 0) waiting[end++] = other;
      }
    lines += 1;
  }
  return placed;
}

/**
 * Places the other end of a link, and returns it, or -1 where it has a place.
 * @param {Edges} edges @param {number} e @param {number} near @param {Placed} placed
 */
function placeOther({ from, to, metres, nominal, dir }, e, near, { metre, heading, line }) {
  const forth = from[e] === near;
  const other = forth ? to[e] : from[e];
  if (line[other] >= 0) return -1;
  const way = dir[e] === 0 ? -1 : 1; // so the train runs, in the directions of `from`
  const same = nominal[e] < 0 || (nominal[e] === 1) === (way === 1);
  heading[other] = same ? heading[near] : -heading[near];
  const distance = Number.isNaN(metres[e]) ? UNKNOWN : metres[e];
  metre[other] = forth ? metre[near] + way * heading[near] * distance : metre[near] - way * heading[other] * distance;
  line[other] = line[near];
  return other;
}

/**
 * Groups without links would each be a line: they share the last one. Returns the number of lines.
 * @param {Placed} placed @param {number} nodes
 */
function joinSingles({ metre, line }, nodes) {
  const sizes = new Int32Array(nodes);
  for (let n = 0; n < nodes; n += 1) sizes[line[n]] += 1;
  const renamed = new Int32Array(nodes).fill(-1);
  let kept = 0;
  for (let l = 0; l < nodes; l += 1) if (sizes[l] > 1) renamed[l] = kept++;
  let single = 0;
  for (let n = 0; n < nodes; n += 1) {
    const to = renamed[line[n]];
    if (to < 0) metre[n] = APART * single++;
    line[n] = to < 0 ? kept : to;
  }
  return single > 0 ? kept + 1 : kept;
}

/**
 * Each line begins at 0, and most of its groups head to the right.
 * @param {Placed} placed @param {number} lines
 */
function straighten({ metre, heading, line }, lines) {
  const sum = new Int32Array(lines);
  for (let n = 0; n < line.length; n += 1) sum[line[n]] += heading[n];
  const first = new Float64Array(lines).fill(Infinity);
  for (let n = 0; n < line.length; n += 1) {
    if (sum[line[n]] < 0) {
      metre[n] = -metre[n];
      heading[n] = -heading[n];
    }
    first[line[n]] = Math.min(first[line[n]], metre[n]);
  }
  for (let n = 0; n < line.length; n += 1) metre[n] -= first[line[n]];
}

/** @param {Placed} placed @param {number} nodes @param {number} lines */
function ordered({ metre, line }, nodes, lines) {
  const order = Int32Array.from({ length: nodes }, (_, n) => n).sort((a, b) => line[a] - line[b] || metre[a] - metre[b]
    || a - b);
  const lineStart = new Int32Array(lines + 1);
  for (let n = 0; n < nodes; n += 1) lineStart[line[n] + 1] += 1;
  for (let l = 0; l < lines; l += 1) lineStart[l + 1] += lineStart[l];
  return { order, lineStart };
}

/**
 * By how much each link disagrees with the picture.
 * @param {Edges} edges @param {Placed} placed
 */
function measure(edges, { metre, heading }) {
  for (let e = 0; e < edges.from.length; e += 1) {
    const way = (edges.dir[e] === 0 ? -1 : 1) * heading[edges.from[e]];
    const drawn = (metre[edges.to[e]] - metre[edges.from[e]]) * way;
    edges.off[e] = Number.isNaN(edges.metres[e]) ? 0 : Math.round((drawn - edges.metres[e]) * 10) / 10;
    edges.ahead[e] = way > 0 ? 1 : 0;
  }
}

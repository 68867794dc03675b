// @ts-check
/** The picture of a line: groups as balises on a track, links as arcs. Only what is in sight is drawn. */
import { grouped, metresText } from '../core/variables.mjs';
import { plural, s } from './dom.mjs';

/**
 * @typedef {import('./line_model.mjs').LineModel} LineModel
 * @typedef {import('./line_model.mjs').Viewport} Viewport
 * @typedef {object} Scene
 * @property {LineModel} model @property {Viewport} view
 * @property {number} chosen node, or -1
 * @property {(node: number) => boolean} isChanged
 * @property {(node: number) => boolean} isUnknown whether it has packets that the engine doesn't know
 * @property {(node: number) => void} onchoose @property {(node: number) => void} onopen
 */

export const HEIGHT = 270;
const TRACK = 111;
const LABEL_ROOM = 62;
/** With more groups in sight only the arcs of the chosen one are drawn. */
const MOST_ARCS = 260;
/** With less room for a group, a stroke stands for all of a pixel. */
const CROWDED = 5;

/** @param {Scene} scene */
export function drawing(scene) {
  const { view, chosen, model } = scene;
  const seen = view.seen();
  const room = seen.length > 1 ? view.width / seen.length : view.width;
  const edges = [...edgesInSight(model, seen, chosen)].map((e) => model.edge(e)).filter(({ to }) => model.line.line[to] === model.line.line[seen[0]]);
  const named = namedNodes(view, seen, chosen);
  const groups = room < CROWDED
    ? [crowd(scene, seen), chosen >= 0 && groupMark(scene, chosen, LABEL_ROOM, true)]
    : Array.from(seen, (node) => groupMark(scene, node, room, named.has(node)));
  return [arrowHeads(), rails(view), ticks(view), edges.map((edge) => arc(scene, edge)),
    edges.map((edge) => arcText(view, edge)), groups].flat(2);
}

function arrowHeads() {
  return s('defs', null, ['', '-red', '-on'].map((kind) => s('marker', {
    id: 'head' + kind, viewBox: '0 0 8 8', refX: 7, refY: 4, markerUnits: 'userSpaceOnUse', markerWidth: 9, markerHeight: 9, orient: 'auto-start-reverse',
  }, s('path', { d: 'M0 0 8 4 0 8z', class: 'head' + kind }))));
}

/** @param {Viewport} view */
function rails(view) {
  const from = Math.max(0, -view.left * view.zoom - 30);
  const to = Math.min(view.width, (view.span - view.left) * view.zoom + 30);
  return [-3, 3].map((dy) => s('line.rail', { x1: from, x2: to, y1: TRACK + dy, y2: TRACK + dy }));
}

/**
 * Kilometres below the track.
 * @param {Viewport} view
 */
function ticks({ even, left, zoom, width, span }) {
  if (even) return [];
  const step = [100, 200, 500, 1000, 2000, 5000, 10000, 20000, 50000, 100000, 200000,
    500000].find((each) => each * zoom > 90) ?? 1000000;
  const found = [];
  for (let metre = Math.max(0,
    Math.ceil(left / step) * step); (metre - left) * zoom < width && metre <= span; metre += step)
    found.push(s('g', { transform: `translate(${(metre - left) * zoom} ${HEIGHT - 18})` }, s('line.tick', { y1: -6, y2: 0 }),
      s('text.tick', { y: 12, 'text-anchor': 'middle' }, step >= 1000 ? `${grouped(metre / 1000)} km` : `${grouped(metre)} m`)));
  return found;
}

/** @param {LineModel} model @param {Int32Array} seen @param {number} chosen */
function edgesInSight(model, seen, chosen) {
  /** @type {Set<number>} */
  const edges = new Set();
  if (seen.length <= MOST_ARCS) for (const node of seen) for (const e of model.edgesOf(node)) edges.add(e);
  if (chosen >= 0) for (const e of model.edgesOf(chosen)) edges.add(e);
  return edges;
}

/**
 * Names from left to right where there is room, that of the chosen one always.
 * @param {Viewport} view @param {Int32Array} seen @param {number} chosen
 */
function namedNodes(view, seen, chosen) {
  const named = new Set(chosen < 0 ? [] : [chosen]);
  let free = -Infinity;
  for (const node of seen) {
    const px = view.x(node);
    if (px < free || (chosen >= 0 && node !== chosen && Math.abs(px - view.x(chosen)) < LABEL_ROOM)) continue;
    named.add(node);
    free = px + LABEL_ROOM;
  }
  return named;
}

/**
 * The feet and the height of an arc. Below the track the names come first.
 * @param {Viewport} view @param {ReturnType<LineModel['edge']>} edge
 */
function bow(view, { from, to, ahead }) {
  const side = ahead ? -1 : 1;
  const lean = Math.min(5, Math.abs(view.x(to) - view.x(from)) / 6) * -side;
  const [a, b] = [view.x(from) + lean, view.x(to) - lean];
  return { side, a, b, height: Math.min(112, 16 + Math.abs(b - a) * 0.2), foot: side < 0 ? 14 : 38 };
}

/** @param {Scene} scene @param {ReturnType<LineModel['edge']>} edge */
function arc({ model, view, chosen }, edge) {
  const { side, a, b, height, foot } = bow(view, edge);
  const red = model.isMissing(edge.to);
  const on = edge.from === chosen ? ' on' : edge.to === chosen ? ' to' : '';
  const [p, q] = [TRACK + side * foot, TRACK + side * (foot + height)];
  return s('g', { class: `arc${red ? ' red' : ''}${on}${edge.off !== 0 ? ' off' : ''}` },
    s('path',
      { d: `M${a} ${p} C${a} ${q} ${b} ${q} ${b} ${p}`, 'marker-end': `url(#head${red ? '-red' : on ? '-on' : ''})` }),
    s('title', null, `${model.id(edge.from)} → ${model.id(edge.to)}: ${model.edgeWords(edge)}`));
}

/**
 * Distances lie above all arcs.
 * @param {Viewport} view @param {ReturnType<LineModel['edge']>} edge
 */
function arcText(view, edge) {
  const { side, a, b, height, foot } = bow(view, edge);
  if (edge.metres === null || Math.abs(b - a) <= 84) return null;
  const y = TRACK + side * (foot + height * 0.75) + (side > 0 ? 14 : -5);
  return s('text.metres', { class: edge.off !== 0 ? 'off' : '', x: (a + b) / 2, y, 'text-anchor': 'middle' },
    metresText(edge.metres));
}

/** @param {Scene} scene @param {Int32Array} seen */
function crowd({ view, isChanged }, seen) {
  const all = new Set();
  const changed = new Set();
  for (const node of seen) {
    const px = Math.round(view.x(node));
    all.add(px);
    if (isChanged(node)) changed.add(px);
  }
  /** @param {Set<number>} places @param {number} half */
  const strokes = (places, half) => [...places].map((px) => `M${px} ${TRACK - half}v${2 * half}`).join('');
  return s('g', null, s('path.dots', { d: strokes(all, 6) }), s('path.dots.changed', { d: strokes(changed, 10) }));
}

/** @param {Scene} scene @param {number} node @param {number} room @param {boolean} labelled */
function groupMark(scene, node, room, labelled) {
  const { model, view, chosen, isChanged, isUnknown, onchoose, onopen } = scene;
  const missing = model.isMissing(node);
  const small = room < 16;
  const balises = missing ? 1 : model.groups[node].balises;
  const words = missing ? `${model.id(node)}: not in this plan`
    : `${model.id(node)}: ${plural(balises, 'balise')}, ${model.headingWords(node)}`;
  const count = small ? 1 : balises;
  const size = small ? 4 : 7;
  const gap = Math.min(size * 1.9, (room * 0.7) / count);
  const heading = model.line.heading[node];
  const classes = `node${node === chosen ? ' on' : ''}${missing ? ' missing' : ''}${isChanged(node) ? ' changed' : ''}`;
  return s('g', {
    class: classes, transform: `translate(${view.x(node)} ${TRACK})`, onclick: () => { if (!missing) onchoose(node); },
    ondblclick: () => { if (!missing) onopen(node); },
  },
    s('title', null, words),
    s('rect.hit', { x: -Math.min(room, 60) / 2, y: -40, width: Math.min(room, 60), height: 80 }),
    node === chosen && s('rect.halo',
      { x: -(count * gap) / 2 - 5, y: -13, width: count * gap + 10, height: 26, rx: 6 }),
    Array.from({ length: count }, (_, i) => {
      const cx = (i - (count - 1) / 2) * gap;
      return s('path.balise-mark',
        { d: `M${cx - (size / 1.4) * heading} ${-size}L${cx + size * heading} 0L${cx - (size / 1.4) * heading} ${size}z` });
    }),
    labelled && s('text.label', { y: 27, 'text-anchor': 'middle' }, model.id(node)),
    !small && isUnknown(node) && s('rect.unknown-mark', { x: -3, y: 31, width: 6, height: 6 }));
}

/**
 * The whole line in little, with the window that is in sight.
 * @param {Scene} scene
 */
export function overview({ model, view, isChanged }) {
  const scale = (view.width - 20) / view.span;
  /** @type {Map<number, number>} */ const bins = new Map();
  /** @type {Map<number, string>} */ const marked = new Map();
  for (const node of view.nodes) {
    const bin = Math.round(10 + view.unit(node) * scale);
    bins.set(bin, (bins.get(bin) ?? 0) + 1);
    if (model.isMissing(node)) marked.set(bin, 'missing');
    else if (isChanged(node) && !marked.has(bin)) marked.set(bin, 'changed');
  }
  const most = Math.max(1, ...bins.values());
  const window = {
    x: Math.max(0, 10 + view.left * scale), width: Math.max(6, Math.min(view.width, (view.width / view.zoom) * scale)),
  };
  return [
    s('path.bins', { d: [...bins].map(([bin, count]) => `M${bin} 20v${-4 - (12 * count) / most}`).join('') }),
    [...marked].map(([bin, kind]) => s('line', { class: kind, x1: bin, x2: bin, y1: 20, y2: 26 })),
    s('rect.window', { ...window, y: 1, height: 24, rx: 3 }),
  ].flat();
}

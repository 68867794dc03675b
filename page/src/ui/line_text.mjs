// @ts-check
/** The line as text: what the picture shows, a row for each group, from left to right. And the links of one group. */
import { unknownPackets } from '../core/links.mjs';
import { VARIABLES, metresText } from '../core/variables.mjs';
import { h, icon } from './dom.mjs';
import { VirtualList } from './list.mjs';

/** @typedef {import('./line_model.mjs').LineModel} LineModel */

/** Links of one group that are shown at once. */
const MOST_LINKS = 60;

/** @param {LineModel} model @param {number} node */
function linkWords(model, node) {
  const edges = [...model.edgesOf(node)].map((e) => model.edge(e));
  const out = edges.filter(({ from }) => from === node).map((edge) => `to ${model.id(edge.to)}${model.isMissing(edge.to) ? ' (not in the plan)' : ''} ${model.edgeWords(edge)}`);
  const named = edges.filter(({ from, to }) => to === node && from !== node).map(({ from }) => model.id(from));
  return [...out, named.length > 0 ? 'named by ' + named.join(', ') : ''].filter(Boolean).join('; ') || 'no links';
}

/**
 * A list of all groups of a line.
 * @param {import('./app.mjs').App} app @param {() => LineModel | null} modelOf @param {(node: number) => void} choose
 */
export function lineText(app, modelOf, choose) {
  return new VirtualList({
    id: 'line-text', label: 'The line as text', rowHeight: 56, onselect: choose,
    render: (node) => {
      const model = modelOf();
      if (!model) return [];
      const missing = model.isMissing(node);
      const group = app.groups[node];
      const unknown = missing ? [] : unknownPackets(group);
      const about = missing ? 'not in this plan'
        : `${group.balises} ${group.balises === 1 ? 'balise' : 'balises'}, ${model.headingWords(node)}`
        + (unknown.length > 0 ? `, unknown packets ${unknown.join(', ')}`
          : '') + (app.changed.has(node) ? ', changed' : '');
      return [
        h('span.mono.at', null, metresText(model.line.metre[node])),
        h('span.edit-words', null,
          h('span', null, h('b.mono', { class: missing ? 'bad' : '' }, model.id(node)), ' ',
            h('span.muted', null, about)),
          h('small.muted', null, linkWords(model, node))),
      ];
    },
  });
}

/**
 * The links of one group, each with what it says.
 * @param {LineModel} model @param {number} node @param {(node: number) => void} choose
 */
export function linkTables(model, node, choose) {
  const edges = [...model.edgesOf(node)].map((e) => model.edge(e));
  return [
    linkTable(model, 'It links to', edges.filter(({ from }) => from === node), 'to', choose),
    linkTable(model, 'Named by', edges.filter(({ from, to }) => to === node && from !== node), 'from', choose),
  ];
}

/**
 * @param {LineModel} model @param {string} title @param {ReturnType<LineModel['edge']>[]} edges
 * @param {'from'|'to'} end @param {(node: number) => void} choose
 */
function linkTable(model, title, edges, end, choose) {
  if (edges.length === 0) return null;
  const heads = ['group', 'distance', 'passed', 'for trains', 'stands in'];
  return h('section', null, h('h3', null, title), h('div.scroll-x', {
    tabindex: 0, role: 'region', 'aria-label': title,
  }, h('table', null,
    h('thead', null, h('tr', null, heads.map((word) => h('th', { scope: 'col' }, word)))),
    h('tbody', null, edges.slice(0, MOST_LINKS).map((edge) => linkRow(model, edge, edge[end], choose))))));
}

/**
 * @param {LineModel} model @param {ReturnType<LineModel['edge']>} edge @param {number} node
 * @param {(node: number) => void} choose
 */
function linkRow(model, edge, node, choose) {
  const { metres, nominal, dir, off, pig, pkt } = edge;
  const name = model.isMissing(node)
    ? h('span.bad', null, icon('warn'), model.id(node), ' (not in the plan)')
    : h('button.linkish', { type: 'button', onclick: () => choose(node) }, model.id(node));
  return h('tr', null,
    h('td.mono', null, name),
    h('td', null, metres === null ? 'infill' : metresText(metres),
      off !== 0 && h('span.amber', null, ` ${off > 0 ? '+' : '−'}${Math.abs(off)} m drawn`)),
    h('td', null, nominal === null ? '' : nominal ? 'nominal' : 'reverse'),
    h('td.muted', null, VARIABLES.Q_DIR.values?.[dir]),
    h('td.muted.small', null, `balise ${pig}, packet ${pkt}`));
}

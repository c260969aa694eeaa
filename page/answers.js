// The answers about the chosen report: who hears it, how often it goes out, at each hop limit and at each node.
import { $, cell, copy, download, fill, html, numberIn, press } from './dom.js';
import { setHop } from './edits.js';
import { HOP_LIMITS, NO_CHAIN, NO_HOP_LIMIT, chainLengths, isDelivered, leastHopLimit, mostBytes, mostTransmissions, networkBytes, reached } from './plan.js';
import { transmissions } from './plan.js';
import { change, state } from './state.js';
import { counted, csvOf, grouped, listed, named, shortened } from './words.js';

const COLUMNS = ['node', 'name', 'state', 'chain', 'path count', 'repeats', 'times sent', 'bytes sent', 'cuts off', 'puts out of reach'];
export const QUICK = 100_000; // where counting stops while one types
export const given = (net) => ({ pairs: net.pairBytes, marks: net.marks });
export const repeatersOf = (net, ...but) => net.nodes.filter((node, i) => node.repeats && !but.includes(i)).length;

// Counts rise with the hop limit, so that none is tried above one that was stopped.
export function answersOf(net) {
  const all = given(net), lengths = chainLengths(all, 0), others = repeatersOf(net, 0), size = numberIn('size'), hops = [];
  for (const hop of HOP_LIMITS) {
    const sent = hops.at(-1)?.sent.enough ? { enough: true, value: null, counts: null } : transmissions(all, 0, hop, QUICK);
    hops.push({ hop, hear: reached(hop, lengths), sent, worst: mostTransmissions(others, hop) });
  }
  const { sent, worst } = hops[net.hop];
  return { lengths, hops, sent, worst, others, size, bytes: sent.enough ? null : networkBytes(all, 0, net.hop, size), least: leastHopLimit(lengths),
    worstBytes: mostBytes(others, net.hop, size), least_sent: QUICK, counting: sent.enough };
}

// The count of the chosen report; while it goes on, and where it was stopped, as far as it has come.
export const sentWords = (answers) => (answers.sent.enough ? `≥ ${grouped(answers.least_sent)}` : grouped(answers.sent.value));
export const heardWords = (hear, all) => (hear === all ? 'all' : `${grouped(hear)} of ${grouped(all)}`);

export function showAnswers() {
  showHeadline();
  showFigures();
  showHops();
}

function showHeadline() {
  const { net, answers } = state, all = net.nodes.length - 1, { hear } = answers.hops[net.hop], from = net.nodes[0].address;
  const missing = net.nodes.filter((_, i) => i > 0 && !isDelivered(net.hop, answers.lengths[i])).map((node) => node.address);
  const every = all === 1 ? 'The other node hears' : `All ${grouped(all)} others hear`;
  const some = `${grouped(hear)} of ${grouped(all)} ${hear === 1 ? 'hears' : 'hear'}`;
  const first = all ? `${hear === all ? every : some} a report from ${from}.` : 'There is no other node.';
  const alone = net.alone.length && `Without a line of ${net.alone.length === 1 ? 'its' : 'their'} own (a wrong digit?): ${listed(net.alone)}.`;
  $('headline').replaceChildren(html('p', {}, first), missing.length ? html('p', { class: 'bad' }, `Not reached: ${listed(missing)}.`) : '',
    all ? html('p', { class: 'dim' }, leastWords()) : '', alone ? html('p', { class: 'dim' }, alone) : '');
}
function leastWords() {
  const { net, answers } = state, unlinked = net.nodes.filter((_, i) => answers.lengths[i] === NO_CHAIN).length;
  if (answers.least === 7) return 'Only hop limit 7, which is never lowered, reaches all.';
  if (answers.least < NO_HOP_LIMIT) return `Hop limit ${answers.least} is the least that reaches all.`;
  return unlinked ? `No hop limit reaches ${counted(unlinked, 'node')}: no chain of hearings leads there.` : 'No hop limit reaches all.';
}

export function showFigures() {
  const { answers } = state, worst = shortened(answers.worst), one = answers.sent.value === 1, isHeld = document.activeElement?.id === 'stop-count';
  const badge = () => html('span', { class: 'badge proved' }, 'proved');
  const figure = (value, title, words, ...more) => html('div', { class: 'figure' }, html('b', { class: value.length > 9 ? 'long' : null, title }, value),
    html('span', {}, words), badge(), ...more);
  const going = () => [html('span', { class: 'dim', role: 'status' }, 'still counting … '), html('button', { type: 'button', id: 'stop-count' }, 'Stop')];
  const note = answers.counting ? going() : answers.sent.enough ? [html('span', { class: 'dim' }, 'the count was stopped there')] : [];
  const what = `${one ? 'transmission' : 'transmissions'} of one report${answers.sent.enough ? '' : ', at most,'} on this network`;
  $('figures').replaceChildren(
    figure(sentWords(answers), null, what, ...note),
    figure(worst.short, worst.whole, `in the worst network with ${counted(answers.others, 'other repeater')}`));
  if (isHeld) $('stop-count')?.focus({ preventScroll: true });
}

export function showHops() {
  const { net, answers } = state, all = net.nodes.length - 1;
  const sentAt = ({ hop, sent }) => (hop === net.hop ? sentWords(answers) : sent.enough ? `≥ ${grouped(QUICK)}` : grouped(sent.value));
  const cells = (each) => [cell(String(each.hop)), cell(heardWords(each.hear, all), each.hear < all ? 'n bad' : 'n'), cell(sentAt(each), 'n'),
    cell(shortened(each.worst).short, 'n', shortened(each.worst).whole)];
  const row = (each) => {
    const isOn = each.hop === net.hop, acts = { tabindex: -1, onclick: () => change(setHop(state.text, each.hop)), onkeydown: press };
    return html('tr', { class: isOn ? 'on' : null, 'data-hop': each.hop, 'aria-current': isOn ? 'true' : null, ...acts }, ...cells(each));
  };
  fill($('hops-table').tBodies[0], answers.hops, row);
}

export const lengthWords = (i) => {
  const length = state.answers.lengths[i];
  return i === 0 ? 'origin' : length === NO_CHAIN ? 'no chain' : isDelivered(state.net.hop, length) ? String(length) : `${length}: too far`;
};
function byChain() {
  const { net: { nodes }, answers: { lengths } } = state;
  return [...nodes.keys()].sort((a, b) => lengths[a] - lengths[b] || nodes[a].address - nodes[b].address);
}

export function showNodes() {
  const { net, answers } = state, { counts } = answers.sent;
  fill($('nodes-table').tBodies[0], byChain(), (i) => {
    const node = net.nodes[i], got = i === 0 || isDelivered(net.hop, answers.lengths[i]);
    return html('tr', { tabindex: -1, 'data-row': node.address, onkeydown: press }, cell(String(node.address)), cell(node.name, 'name', node.name),
      cell(lengthWords(i), got ? 'n' : 'n bad'), cell(counts ? grouped(counts[i]) : '–', 'n'),
      cell(answers.bytes ? grouped(answers.bytes.counts[i]) : '–', 'n'));
  });
}

// A mark also stands for lists that stop the report.
export const ifLetIn = (node) => (node.repeats ? '' : ' if its lists let it in');
export const heardAfter = (i) => `hears it after ${counted(state.answers.lengths[i], 'hearing')}${ifLetIn(state.net.nodes[i])}`;

// The answers as a text, as one would write them in a mail.
export function answersText() {
  const { net, answers } = state, linesOf = (id) => [...$(id).children].map((line) => line.textContent.replace(/\s+/g, ' ')).filter(Boolean);
  const node = (i) => {
    const words = i === 0 ? 'the originator' : lengthWords(i).replace(/^\d+$/, heardAfter(i));
    const sends = answers.sent.counts ? `, sends it ${counted(answers.sent.counts[i], 'time')}` : '';
    return `${named(net.nodes[i])}${net.nodes[i].repeats ? '' : ' (does not repeat)'}: ${words}${sends}`;
  };
  return [
    `Report from ${named(net.nodes[0])}, hop limit ${net.hop}, ${counted(answers.size, 'byte')}`, ...linesOf('headline'),
    `Transmissions on this network${answers.sent.enough ? '' : ', at most'}: ${sentWords(answers)}`,
    ...(answers.bytes ? [`Bytes on this network, at most: ${grouped(answers.bytes.value)}`] : []),
    `Transmissions in the worst network with ${counted(answers.others, 'other repeater')}: ${shortened(answers.worst).whole}`, ...byChain().map(node),
    ...linesOf('condition-words')].map((line) => `${line}\n`).join('');
}
// The columns are those of ./reach --csv, and the names.
export function nodesCsv() {
  const { net, answers, failures } = state, { counts } = answers.sent;
  const row = (i) => {
    const node = net.nodes[i], length = answers.lengths[i], got = isDelivered(net.hop, length), failure = failures.find((one) => one.address === node.address);
    const kind = i === 0 ? 'originator' : got ? `delivered${ifLetIn(node)}` : length === NO_CHAIN ? 'no chain' : 'out of reach';
    return [node.address, node.name, kind, length === NO_CHAIN ? '' : length, got ? length - 1 : '', node.repeats ? 'yes' : 'no',
      ...(counts ? [counts[i], answers.bytes.counts[i]] : ['', '']), failure?.cut.join(' ') ?? '', failure?.beyond.join(' ') ?? ''];
  };
  return csvOf([COLUMNS, ...byChain().map(row)]);
}

export function startAnswers() {
  $('copy-answers').addEventListener('click', () => copy(answersText(), 'Answers'));
  $('csv-nodes').addEventListener('click', () => download('nodes.csv', nodesCsv(), 'text/csv'));
}

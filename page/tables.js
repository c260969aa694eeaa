// What takes longer than one frame: which failure cuts whom off, every originator, and a long count of the chosen report.
import { QUICK, given, heardWords, showFigures, showHops, showNodes } from './answers.js';
import { $, MANY, cell, copy, download, fill, html, press } from './dom.js';
import { setOriginator } from './edits.js';
import { NO_HOP_LIMIT } from './plan.js';
import { change, state } from './state.js';
import { counted, csvOf, grouped, listed } from './words.js';
import { Work } from './work.js';

const SHOWN = 60, NAMED = 10; // groups of failures that are listed at once, nodes named in one
const COLUMNS = [
  ['address', 'Originator', 1, null], ['name', 'Name', 1, null], ['hear', 'Hear it', -1, 'n'], ['least', 'Least hop limit', -1, 'n'],
  ['sent', 'Sent here', -1, 'n'],
];
let work, lines = [], sort = ['sent', -1], redraw, showTime;

export function startTables(module, drawn, timed) {
  work = { failures: new Work(module), originators: new Work(module), report: new Work(module) };
  [redraw, showTime] = [drawn, timed];
  $('stop-originators').addEventListener('click', () => (work.originators.stop(), showWorking('stopped')));
  $('csv-originators').addEventListener('click', () => download('originators.csv', originatorsCsv(), 'text/csv'));
  $('copy-failures').addEventListener('click', () => copy($('failures').innerText, 'Failures'));
  $('figures').addEventListener('click', (event) => {
    if (event.target.id !== 'stop-count') return;
    work.report.stop();
    state.answers.counting = false;
    showFigures();
  });
}

// Begins anew with each change of the network. What goes on is kept for the tests.
export function startJobs() {
  const { net, answers } = state, all = { net: given(net), hop: net.hop, from: 0, size: answers.size, quick: QUICK };
  const busy = new Set(), show = () => (document.documentElement.dataset.busy = [...busy].join(' '));
  const run = (kind, told) => {
    busy.add(kind);
    work[kind].run(kind, all, (found) => {
      if (found !== null) return told(found);
      busy.delete(kind);
      show();
    });
  };
  state.failures = [];
  showWorking('');
  busy.add('nodes');
  afterDrawing(net.nodes.length, () => {
    showNodes();
    busy.delete('nodes');
    show();
  });
  run('failures', (found) => found.failures && showFailures(found.failures));
  run('originators', (found) => (found.rows ? (showOriginators(found.rows), showWorking('')) : showWorking(workingWords(found))));
  if (answers.counting) run('report', showReport);
  else work.report.stop();
  show();
}
// Rows of many nodes come after the drawing and the first answers, so that these are soon seen.
function afterDrawing(nodes, work) {
  if (nodes <= MANY) return work();
  requestAnimationFrame(() => setTimeout(() => work()));
}
const workingWords = ({ done, of, again }) => `${again ? `counting to ${grouped(again)}: ` : ''}${grouped(done)} of ${grouped(of)}`;
function showWorking(words) {
  $('working').textContent = words;
  $('stop-originators').hidden = !words || words === 'stopped';
}

function showReport(found) {
  const { answers } = state;
  if (found.least) answers.least_sent = found.least;
  if (found.stopped) Object.assign(answers, { least_sent: found.stopped, counting: false });
  if (found.sent) {
    Object.assign(answers, { sent: found.sent, bytes: found.bytes, counting: false });
    showNodes();
  }
  showFigures();
  showHops();
  showTime();
}

// ---- failures ----
// Nodes whose failure loses the same others stand together.
function groupsOf(failures) {
  const groups = new Map();
  for (const failure of failures) {
    const key = `${failure.cut} ${failure.beyond}`;
    groups.set(key, [...(groups.get(key) ?? []), failure]);
  }
  return [...groups.values()];
}

function showFailures(failures) {
  const { net } = state, addresses = (places) => places.map((i) => net.nodes[i].address);
  state.failures = failures.map(({ failed, cut, beyond }) => {
    const { address, name } = net.nodes[failed];
    return { address, name, cut: addresses(cut), beyond: addresses(beyond) };
  });
  const groups = groupsOf(state.failures), rows = groups.slice(0, SHOWN).map(failureRow);
  if (groups.length > SHOWN) rows.push(html('p', { class: 'dim' }, `and ${counted(groups.length - SHOWN, 'more line')}`));
  if (!rows.length) rows.push(html('p', { class: 'dim' }, 'No single node’s failure cuts off another, or puts it out of reach at this hop limit.'));
  $('failures').replaceChildren(...rows);
}

function failureRow(group) {
  const [{ cut, beyond }] = group, mark = (address) => () => state.marked !== address && ((state.marked = address), redraw());
  const who = ({ address, name }) => html('button', { class: 'who', type: 'button', title: name, onfocus: mark(address), onblur: mark(null) }, String(address));
  const said = [];
  if (cut.length) said.push(`no chain leads to ${listed(cut, NAMED)}`);
  if (beyond.length) said.push(`out of reach at this hop limit: ${listed(beyond, NAMED)}`);
  const names = group.flatMap((one, i) => (i ? [' or ', who(one)] : [who(one)]));
  return html('p', { onpointerenter: mark(group[0].address), onpointerleave: mark(null) }, 'Without ', ...names, `: ${said.join('; ')}.`);
}

// ---- every originator ----
function showOriginators(rows) {
  const { net } = state;
  lines = rows.map((row) => ({ ...row, address: net.nodes[row.place].address, name: net.nodes[row.place].name }));
  showLines();
}
const valueOf = (line, by) => (by === 'sent' ? line.sent ?? line.least_sent + 0.5 : line[by]);
function compared(a, b) {
  const [by, way] = sort, x = valueOf(a, by), y = valueOf(b, by);
  if (x !== y) return x < y ? -way : way;
  return by === 'sent' && a.lower !== b.lower ? way * (a.lower - b.lower) : a.address - b.address;
}

function showLines() {
  const [by, way] = sort, most = Math.max(...lines.map((line) => valueOf(line, 'sent')));
  const sortBy = (key, first) => () => {
    sort = [key, by === key ? -way : first];
    showLines();
    document.querySelector(`[data-sort=${key}]`).focus();
  };
  const head = ([key, title, first, look]) => html('th', { scope: 'col', class: look, 'aria-sort': key === by ? (way > 0 ? 'ascending' : 'descending') : null },
    html('button', { type: 'button', 'data-sort': key, onclick: sortBy(key, first) }, title));
  $('everyone').tHead.rows[0].replaceChildren(...COLUMNS.map(head));
  fill($('everyone').tBodies[0], [...lines].sort(compared), (line) => originatorRow(line, most));
}
function originatorRow(line, most) {
  const n = state.net.nodes.length - 1, isOn = line.address === state.net.nodes[0].address, isNone = line.least === NO_HOP_LIMIT;
  const sent = html('td', { class: 'n' }, line.sent === null ? `≥ ${grouped(line.least_sent)}` : grouped(line.sent));
  if (line.sent === most && lines.some((other) => other.sent !== most)) sent.append(html('span', { class: 'dim' }, ' most'));
  const acts = { tabindex: -1, onkeydown: press, onclick: () => change(setOriginator(state.text, line.address)) };
  return html('tr', { class: isOn ? 'on' : null, 'aria-current': isOn ? 'true' : null, 'data-origin': line.address, ...acts }, cell(String(line.address)),
    cell(line.name, 'name', line.name), cell(heardWords(line.hear, n), line.hear < n ? 'n bad' : 'n'),
    cell(isNone ? 'none' : String(line.least), isNone ? 'n bad' : 'n'), sent);
}
function originatorsCsv() {
  const others = state.net.nodes.length - 1;
  const row = (line) => [line.address, line.name, line.hear, others, line.least === NO_HOP_LIMIT ? '' : line.least, line.sent ?? '', line.least_sent];
  return csvOf([['originator', 'name', 'hear it', 'others', 'least hop limit', 'sendings', 'sendings at least'], ...[...lines].sort(compared).map(row)]);
}

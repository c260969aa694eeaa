// The drawing's panel: what is drawn of the network, where, and the line below it in which the chosen node or hearing is changed.
import { heardAfter } from './answers.js';
import { $, download, html } from './dom.js';
import { Drawing } from './draw.js';
import { addHearing, addNode, removeHearing, removeNode, setAddress, setName, setOriginator, setPlaces, setRepeats } from './edits.js';
import { mapLayout } from './layout.js';
import { isHeard } from './network.js';
import { NO_CHAIN, isDelivered } from './plan.js';
import { ringLayout } from './rings.js';
import { change, state } from './state.js';
import { counted, listed } from './words.js';

const CAPTIONED = 40, LONGEST = 20, GLIDING = 80, GLIDE = 220;
let drawing, computed = {}, frame = 0;

const placesNow = () => new Map([...drawing.at].filter(([address]) => state.net.place.has(address)));
export const removeSelected = () => {
  const { selected, net, text } = state;
  state.selected = null;
  if (selected?.pair) change(removeHearing(removeHearing(text, ...selected.pair), ...[...selected.pair].reverse()));
  else if (selected && net.nodes.length > 1) change(removeNode(text, selected.node));
};
export function select(what) {
  if (JSON.stringify(what) === JSON.stringify(state.selected)) return;
  state.selected = what;
  draw();
}
export const refit = () => state.net && drawing.place();

export function startDrawing(radios) {
  drawing = new Drawing($('canvas'), { select, link, moved, add });
  $('add').addEventListener('click', () => {
    const [x, y, w, h] = drawing.shown;
    add([x + w / 2, y + h - 60]);
  });
  $('tidy').addEventListener('click', () => {
    computed = {};
    drawing.box = null;
    change(setPlaces(state.text, new Map()));
    draw();
    drawing.whole();
  });
  $('picture').addEventListener('click', () => download('network.svg', drawing.picture(), 'image/svg+xml'));
  const pickLayout = radios([$('as-map'), $('as-rings')], (button) => setLayout(button.id === 'as-map' ? 'map' : 'rings'));
  radios([$('tool-move'), $('tool-link')], (button) => {
    drawing.tool = button.id === 'tool-move' ? 'move' : 'link';
    $('canvas').classList.toggle('linking', drawing.tool === 'link');
  });
  const setLayout = (layout) => {
    state.layout = layout;
    drawing.box = null;
    draw();
  };
  drawing.toMap = () => (pickLayout($('as-map')), (state.layout = 'map'));
}

function link(a, b) {
  const { net, text } = state, hears = isHeard(net, net.place.get(a), net.place.get(b));
  state.selected = { pair: [a, b] };
  change(hears ? addHearing(text, b, a) : addHearing(text, a, b));
  draw();
}
// A dragged node leaves all others where they are: their places go into the text.
function moved() {
  const at = placesNow();
  if (state.layout === 'rings') drawing.toMap();
  change(setPlaces(state.text, at));
}
function add(point) {
  const used = state.net.place, high = Math.max(...used.keys()), at = placesNow();
  let address = high < 65535 ? high + 1 : 0;
  while (used.has(address)) address++;
  state.selected = { node: address };
  change(setPlaces(addNode(state.text, address), at.set(address, point)));
}

// ---- where nodes stand ----
// Whether two networks have the same nodes, repeaters and hearings, in whatever order.
function isSame(net, old) {
  if (!old || net.nodes.length !== old.nodes.length || net.pairs.length !== old.pairs.length) return false;
  const places = net.nodes.map((node) => old.place.get(node.address));
  return net.nodes.every((node, i) => old.nodes[places[i]]?.repeats === node.repeats) && net.pairs.every(([a, b]) => isHeard(old, places[a], places[b]));
}
function places() {
  const { net, answers, layout } = state, isRings = layout === 'rings';
  const isPinned = !isRings && net.nodes.every((node) => net.at.has(node.address));
  if (isPinned) return { at: new Map(net.at), rings: [] };
  if (layout !== computed.layout || !isSame(net, computed.net) || (isRings && net.nodes[0].address !== computed.net.nodes[0].address)) {
    const rings = isRings ? ringLayout(net, answers.lengths) : null, map = rings ? null : mapLayout(net, computed.map);
    computed = { layout, net, at: rings ? rings.at : map, rings: rings?.rings ?? [], map: rings ? computed.map : map.raw };
  }
  const at = new Map(computed.at);
  if (!isRings) for (const [address, point] of net.at) if (at.has(address)) at.set(address, point);
  return { at, rings: computed.rings };
}

// ---- what is drawn ----
function nodesDrawn() {
  const { net, answers } = state, small = net.nodes.length <= CAPTIONED;
  return net.nodes.map((node, i) => {
    const length = answers.lengths[i], got = isDelivered(net.hop, length);
    const kind = i === 0 ? 'originator' : got ? 'delivered' : length === NO_CHAIN ? 'unlinked' : 'missed';
    const far = counted(length, 'hearing');
    const words = { originator: 'the originator', delivered: heardAfter(i), missed: `out of reach, ${far} away`,
      unlinked: 'no chain of hearings leads there' }[kind];
    const caption = small ? (node.name.length > LONGEST ? `${node.name.slice(0, LONGEST - 1)}…` : node.name) : '';
    return { address: node.address, kind, repeats: node.repeats, under: i === 0 ? 'origin' : length === NO_CHAIN ? '–' : String(length), caption,
      title: `${node.address}${node.name ? ` ${node.name}` : ''}: ${words}${node.repeats ? '' : '; does not repeat'}` };
  });
}
function linksDrawn() {
  const { net, answers } = state, links = [], steps = [];
  const isStep = (a, b) => answers.lengths[b] === answers.lengths[a] + 1 && isDelivered(net.hop, answers.lengths[b]) && (net.nodes[a].repeats || a === 0);
  for (const [a, b] of net.pairs) {
    const both = isHeard(net, b, a);
    if (both && a > b) continue;
    const step = isStep(a, b) || (both && isStep(b, a));
    (step ? steps : links).push({ a: net.nodes[a].address, b: net.nodes[b].address, both, step });
  }
  return [...links, ...steps];
}

export function draw() {
  const { net, selected, marked, failures } = state, { at, rings } = places(), nodes = nodesDrawn(), failure = failures.find((one) => one.address === marked);
  const cut = failure ? new Set([...failure.cut, ...failure.beyond]) : null, lastRing = net.hop < 7 ? net.hop + 1 : 0;
  glide({ nodes, links: linksDrawn(), rings, lastRing, selected, marked, cut }, at);
  const isLost = nodes.some((node) => node.kind === 'missed' || node.kind === 'unlinked'), isBase = nodes.some((node) => !node.repeats);
  const legend = [
    ['o', 'originator'], ['d', 'hears it, after n hearings'], isLost && ['m', 'does not hear it'], isBase && ['b', 'does not repeat'], ['s', 'shortest chain'],
  ];
  $('legend').replaceChildren(...legend.filter(Boolean).map(([look, words]) => html('span', {}, html('i', { class: look }), words)));
  inspect();
}

// From the old places to the new in a fifth of a second, unless the user wants no motion or there are many.
function glide(model, to) {
  cancelAnimationFrame(frame);
  const from = new Map(drawing.at), isFar = ([address, [x, y]]) => from.has(address) && Math.hypot(from.get(address)[0] - x, from.get(address)[1] - y) > 2;
  if (to.size > GLIDING || ![...to].some(isFar) || matchMedia('(prefers-reduced-motion: reduce)').matches) return drawing.show(model, to);
  drawing.show(model, new Map([...to].map(([address, point]) => [address, from.get(address) ?? point])));
  const begin = performance.now(), start = new Map(drawing.at);
  const tick = (now) => {
    const t = Math.max(0, Math.min(1, (now - begin) / GLIDE)), ease = t * (2 - t);
    for (const [address, [x, y]] of to) {
      const [u, v] = start.get(address);
      drawing.at.set(address, [u + (x - u) * ease, v + (y - v) * ease]);
    }
    drawing.place();
    if (t < 1) frame = requestAnimationFrame(tick);
  };
  frame = requestAnimationFrame(tick);
}

// ---- the chosen node or hearing ----
const button = (words, onclick, look = null) => html('button', { type: 'button', class: look, onclick }, words);
const checkbox = (checked, words, set) => {
  const box = html('input', { type: 'checkbox', checked, onchange: (event) => set(event.target.checked) });
  return html('label', {}, box, words);
};
const HINT = 'Click a node or a line to change it. To add a hearing, choose “Link” or hold Shift, and drag from a node to one that hears it. '
  + 'Double-click to add a node.';
function inspect() {
  const { net, selected } = state, box = $('inspector');
  if (!selected) return box.replaceChildren(html('span', { class: 'dim' }, HINT));
  if (selected.pair) return inspectPair(box, ...selected.pair);
  const key = JSON.stringify(selected), focused = document.activeElement;
  const isTyping = box.contains(focused) && focused.matches('input[type=text],input[type=number]');
  if (box.dataset.key === key && isTyping) return;
  box.dataset.key = key;
  inspectNode(box, net, selected.node);
}

function inspectPair(box, a, b) {
  const { net } = state, hears = (p, q) => isHeard(net, net.place.get(p), net.place.get(q));
  if (!net.place.has(a) || !net.place.has(b) || !(hears(a, b) || hears(b, a))) return (state.selected = null), inspect();
  const one = (p, q) => checkbox(hears(p, q), `${q} hears ${p}`, (isOn) => change((isOn ? addHearing : removeHearing)(state.text, p, q)));
  box.replaceChildren(html('strong', {}, `${a} – ${b}`), one(a, b), one(b, a), button('Remove', removeSelected, 'danger'));
}

function inspectNode(box, net, address) {
  const place = net.place.get(address), node = net.nodes[place], hearers = net.pairs.filter(([a]) => a === place).map(([, b]) => net.nodes[b].address);
  const heard = net.pairs.filter(([, b]) => b === place).map(([a]) => net.nodes[a].address);
  const rename = (event) => change(setName(state.text, address, event.target.value), true);
  const readdress = (event) => {
    const wanted = event.target.valueAsNumber;
    if (!Number.isInteger(wanted) || wanted < 0 || wanted > 65535 || net.place.has(wanted)) return void (event.target.value = address);
    state.selected = { node: wanted };
    change(setAddress(state.text, address, wanted));
  };
  box.replaceChildren(
    html('label', {}, 'Address', html('input', { type: 'number', min: 0, max: 65535, value: address, onchange: readdress })),
    html('label', {}, 'Name', html('input', { type: 'text', value: node.name, maxlength: 60, oninput: rename })),
    checkbox(node.repeats, 'repeats', (isOn) => change(setRepeats(state.text, address, isOn))),
    place !== 0 && button('Make originator', () => change(setOriginator(state.text, address))),
    net.nodes.length > 1 && button('Remove', removeSelected, 'danger'),
    html('span', { class: 'wide dim' }, `Heard by ${listed(hearers, 14) || 'no one'}. Hears ${listed(heard, 14) || 'no one'}.`));
}

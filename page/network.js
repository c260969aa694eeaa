// A network as text, in the form of ./reach, and what it says. Two kinds of comment say more: that of a node's first line is its name, and a line
// `# places 1200@-40,12 ..` says where nodes stand in the drawing.
export const EXAMPLE = `# Who hears whom in a valley

2                     # hop limit

# a node: who hears it
1200: 2001 2002       # Rain gauge
2001: 1200 2002 2003  # Ridge west
2002: 1200 2001 2003  # Ridge east
2003: 2001 2004 3000  # Pass
2004: 2003 2005       # Mill
2005: 2004 3001       # Down the valley
3000 -: 2003          # District base
3001 -: 2005          # Town base
`;

const NODES = 255, HEARINGS = 16384, TEXT = 65535;
const OTHER = /[^0-9\t\v\f\r :,-]/; // what stands in no line
const MARKED = /^[\s:,]*\d+(?:[\s:,]*-(?![\d-]))+[\s:,\d]*$/; // a node's line with its mark
const TAKEN = 'only numbers, spaces, “:”, “,” and “-” stand here; comments begin with “#”';
const MARK = '“-” stands alone after a node’s own address, and says that it does not repeat';
const PLACES = /^\s*#\s*places\s/, PLACE = /(\d+)@(-?\d+),(-?\d+)/g;
export const isPlaces = (line) => PLACES.test(line);
export const halves = (line) => {
  const at = line.indexOf('#');
  return at < 0 ? [line, ''] : [line.slice(0, at), line.slice(at)];
};
export const numbersIn = (body) => body.match(/\d+/g) ?? [];
const keyOf = (sender, hearer) => sender * 256 + hearer;
export const isHeard = (net, sender, hearer) => net.seen[keyOf(sender, hearer)] === 1;

class Fault extends Error {
  constructor(line, words) {
    super(words);
    this.line = line;
  }
}
const need = (holds, line, words) => {
  if (!holds) throw new Fault(line, words);
};

// { hop, hopLine, nodes: [{ address, line, name, repeats }], pairs: [[sender, hearer]], place: Map, seen, alone: [address], at: Map, pairBytes, marks },
// or { fault: { line, words } }. Lines count from 0.
export function parseNetwork(text) {
  const lines = text.split('\n');
  const net = { hop: null, hopLine: -1, nodes: [], pairs: [], place: new Map(), seen: new Uint8Array(256 * 256), alone: [], at: new Map(), said: 0 };
  try {
    need(new TextEncoder().encode(text).length <= TEXT, lines.length - 1, 'the text has more than 65,535 bytes');
    lines.forEach((line, at) => (isPlaces(line) ? takePlaces(net, line) : takeLine(net, line, at)));
    need(net.hop !== null, lines.length - 1, 'the text ends before the hop limit');
    need(net.nodes.length, lines.length - 1, 'the text ends before the originator’s line');
  } catch (fault) {
    if (!(fault instanceof Fault)) throw fault;
    return { fault: { line: fault.line, words: fault.message } };
  }
  net.alone = net.nodes.filter((node) => node.line < 0).map((node) => node.address);
  net.pairBytes = bytesOf(net.pairs);
  net.marks = Uint8Array.from(net.nodes, (node) => (node.repeats ? 0 : 1));
  return net;
}

function bytesOf(pairs) {
  const bytes = new Uint8Array(2 * pairs.length);
  pairs.forEach(([sender, hearer], i) => {
    bytes[2 * i] = sender;
    bytes[2 * i + 1] = hearer;
  });
  return bytes;
}

function takePlaces(net, line) {
  for (const [, address, x, y] of line.matchAll(PLACE)) net.at.set(Number(address), [Number(x), Number(y)]);
}

function placeOf(net, address) {
  const place = net.place.get(address) ?? net.nodes.length;
  if (place === net.nodes.length) {
    net.place.set(address, place);
    net.nodes.push({ address, line: -1, name: '', repeats: true });
  }
  return place;
}

function takeLine(net, line, at) {
  const [body, comment] = halves(line), other = body.match(OTHER), words = numbersIn(body);
  need(!other, at, other && `character ${other.index + 1}, “${other[0]}”: ${TAKEN}`);
  need(!body.includes('-') || (net.hop !== null && MARKED.test(body)), at, MARK);
  if (!words.length) return;
  if (net.hop === null) return takeHop(net, words, at);
  const large = words.find((word) => Number(word) > 65535);
  need(!large, at, `${large}: an address is at most 65,535`);
  const [sender, ...hearers] = words.map((word) => placeOf(net, Number(word))), node = net.nodes[sender];
  if (node.line < 0) Object.assign(node, { line: at, name: comment.slice(1).trim() });
  if (body.includes('-')) node.repeats = false;
  for (const hearer of hearers) {
    if (hearer === sender || isHeard(net, sender, hearer)) continue;
    net.seen[keyOf(sender, hearer)] = 1;
    net.pairs.push([sender, hearer]);
  }
  net.said += hearers.length;
  need(net.nodes.length <= NODES, at, 'there are more than 255 nodes');
  need(net.said <= HEARINGS, at, 'there are more than 16,384 hearings');
}

function takeHop(net, words, at) {
  need(Number(words[0]) <= 7, at, 'the hop limit, the first number, is 0 to 7');
  need(words.length === 1, at, 'the hop limit stands alone on its line');
  net.hop = Number(words[0]);
  net.hopLine = at;
}

// What a file says if it is a text: UTF-8, or UTF-16 with its mark, or else a byte for each character. Lines end with LF, CR LF or CR.
export function textOf(content) {
  const bytes = new Uint8Array(content), wide = { '255 254': 'utf-16le', '254 255': 'utf-16be' }[`${bytes[0]} ${bytes[1]}`];
  let text;
  try {
    text = new TextDecoder(wide ?? 'utf-8', { fatal: true }).decode(bytes);
  } catch {
    text = new TextDecoder('latin1').decode(bytes);
  }
  return text.replace(/\r\n?/g, '\n');
}

// Each edit of a network as a change of its text: comments, order and spacing stay as the user wrote them.
import { halves, isPlaces, numbersIn, parseNetwork } from './network.js';

const NAME_COLUMN = 21, PLACES_WIDTH = 100;
const ownLine = (net, address) => net.nodes[net.place.get(address)]?.line ?? -1;
const withComment = (body, comment) => (comment ? `${body.trimEnd().padEnd(NAME_COLUMN)} ${comment}` : body.trimEnd());
const edited = (text, change) => {
  const lines = text.split('\n'), net = parseNetwork(text);
  return net.fault ? text : (change(lines, net) ?? lines).join('\n');
};
// At the end, but before the places.
const append = (lines, line) => {
  const places = lines.filter(isPlaces), others = lines.filter((each) => !isPlaces(each));
  while (others.length && others.at(-1).trim() === '') others.pop();
  return [...others, line, ...places, ''];
};
// Each number of the lines below the hop limit: kept (undefined), changed or dropped (null).
function mapNumbers(lines, net, change) {
  for (let at = net.hopLine + 1; at < lines.length; at++) {
    const [body, comment] = halves(lines[at]), first = Number(numbersIn(body)[0]);
    let place = 0, changed = false;
    const next = body.replace(/[\s,]*\d+/g, (found) => {
      const word = found.match(/\d+/)[0], to = change(Number(word), place++ === 0, first);
      if (to === undefined) return found;
      changed = true;
      return to === null ? '' : found.replace(word, to);
    });
    if (changed) lines[at] = withComment(next, comment);
  }
}

export const setHop = (text, hop) => edited(text, (lines, net) => {
  lines[net.hopLine] = lines[net.hopLine].replace(/\d+/, hop);
});
export const addNode = (text, address) => edited(text, (lines) => append(lines, `${address}:`));
export const removeNode = (text, address) => edited(text, (lines, net) => {
  const own = (line) => Number(numbersIn(halves(line)[0])[0]) === address;
  mapNumbers(lines, net, (number, isFirst) => (number === address && !isFirst ? null : undefined));
  return lines.filter((line, at) => at <= net.hopLine || !own(line));
});
export const addHearing = (text, sender, hearer) => edited(text, (lines, net) => {
  const at = ownLine(net, sender);
  if (at < 0) return append(lines, `${sender}: ${hearer}`);
  const [body, comment] = halves(lines[at]);
  lines[at] = withComment(`${body.trimEnd()}${/:/.test(body) || numbersIn(body).length > 1 ? '' : ':'} ${hearer}`, comment);
});
export const removeHearing = (text, sender, hearer) => edited(text, (lines, net) => {
  mapNumbers(lines, net, (number, isFirst, first) => (!isFirst && first === sender && number === hearer ? null : undefined));
  const isLost = !net.nodes.some((node) => node.address === hearer && node.line >= 0);
  return isLost ? append(lines, `${hearer}:`) : lines; // a node does not go with its last hearing
});
export const setRepeats = (text, address, repeats) => edited(text, (lines, net) => {
  const at = ownLine(net, address);
  if (at < 0) return repeats ? lines : append(lines, `${address} -:`);
  if (!repeats) lines[at] = withComment(halves(lines[at])[0].replace(/\d+/, '$& -'), halves(lines[at])[1]);
  else lines.forEach((line, i) => {
    const [body, comment] = halves(line);
    if (i > net.hopLine && Number(numbersIn(body)[0]) === address && body.includes('-')) lines[i] = withComment(body.replace(/\s*-/, ''), comment);
  });
});
export const setName = (text, address, name) => edited(text, (lines, net) => {
  const at = ownLine(net, address), clean = name.replace(/[\r\n]/g, ' ').trim();
  if (at < 0) return append(lines, withComment(`${address}:`, clean && `# ${clean}`));
  lines[at] = withComment(halves(lines[at])[0], clean && `# ${clean}`);
});
export const setAddress = (text, address, to) => edited(text, (lines, net) => {
  mapNumbers(lines, net, (number) => (number === address ? to : undefined));
  return lines.map((line) => (isPlaces(line) ? line.replace(new RegExp(`\\b${address}@`), `${to}@`) : line));
});
// The originator's first line comes before all others.
export const setOriginator = (text, address) => edited(text, (lines, net) => {
  const at = ownLine(net, address), first = net.nodes[0].line;
  const line = at < 0 ? `${address}:` : lines.splice(at, 1)[0];
  lines.splice(first, 0, line);
});
// Where the nodes stand in the drawing: a Map from address to [x, y], or none.
export const setPlaces = (text, at) => edited(text, (lines, net) => {
  const others = lines.filter((line) => !isPlaces(line)), rows = [];
  while (others.length && others.at(-1).trim() === '') others.pop();
  for (const [address, [x, y]] of at) {
    const word = ` ${address}@${Math.round(x)},${Math.round(y)}`;
    if (!net.place.has(address)) continue;
    if (!rows.length || rows.at(-1).length + word.length > PLACES_WIDTH) rows.push('# places');
    rows[rows.length - 1] += word;
  }
  return [...others, ...rows, ''];
});

// The originator in the middle, the others in rings by their shortest chain, each in the part of the ring that its branch has.
import { NO_CHAIN } from './plan.js';

const STEP = 67, ALONG = 50;

// { at: a Map from address to [x, y], rings: their radii }.
export function ringLayout(net, lengths) {
  const children = branchesOf(net, lengths), at = new Map(), longest = Math.max(...[...lengths].filter((l) => l !== NO_CHAIN), 0);
  const radius = radiiOf(lengths, longest), ends = new Map();
  const endsOf = (i) => {
    if (!ends.has(i)) ends.set(i, children[i].length ? children[i].reduce((sum, c) => sum + endsOf(c), 0) : 1);
    return ends.get(i);
  };
  const put = (i, from, to, length) => {
    const angle = (from + to) / 2;
    at.set(net.nodes[i].address, [radius[length] * Math.cos(angle), radius[length] * Math.sin(angle)]);
    let start = from;
    for (const child of children[i]) {
      const part = ((to - from) * endsOf(child)) / endsOf(i);
      put(child, start, start + part, length + 1);
      start += part;
    }
  };
  put(0, -Math.PI, Math.PI, 0);
  const lost = net.nodes.filter((_, i) => lengths[i] === NO_CHAIN);
  lost.forEach((node, i) => {
    const angle = (i / lost.length) * 2 * Math.PI - Math.PI / 2;
    at.set(node.address, [radius[longest + 1] * Math.cos(angle), radius[longest + 1] * Math.sin(angle)]);
  });
  return { at: turned(at), rings: radius.slice(1, longest + 1) };
}

// For each node those whose shortest chain goes on from it.
function branchesOf(net, lengths) {
  const children = net.nodes.map(() => []), taken = new Set([0]);
  const steps = net.pairs.filter(([a, b]) => lengths[b] === lengths[a] + 1 && lengths[b] !== NO_CHAIN).sort((p, q) => lengths[p[0]] - lengths[q[0]]);
  for (const [a, b] of steps) if (!taken.has(b) && (net.nodes[a].repeats || a === 0)) taken.add(b), children[a].push(b);
  return children;
}

function radiiOf(lengths, longest) {
  const counts = new Array(longest + 2).fill(0), radius = [0];
  lengths.forEach((length) => counts[length === NO_CHAIN ? longest + 1 : length]++);
  for (let l = 1; l < counts.length; l++) radius[l] = Math.max(radius[l - 1] + STEP, (counts[l] * ALONG) / (2 * Math.PI));
  return radius;
}

// The long way across.
function turned(at) {
  let xx = 0, yy = 0, xy = 0;
  for (const [x, y] of at.values()) (xx += x * x), (yy += y * y), (xy += x * y);
  const angle = 0.5 * Math.atan2(2 * xy, xx - yy), c = Math.cos(angle), s = Math.sin(angle);
  const sum = [...at.values()].reduce((total, [x, y]) => total + x * c + y * s, 0), side = sum < 0 ? -1 : 1;
  return new Map([...at].map(([address, [x, y]]) => [address, [side * (x * c + y * s), side * (y * c - x * s)]]));
}

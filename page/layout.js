// Where nodes stand on the map: by distances in hearings, classical scaling for a start, then stress majorization. The same network always gives the same
// picture, whoever originates. A Map from address to [x, y]; one hearing is about 84 long. `raw` is the same before a long thin network is folded.
import { isHeard } from './network.js';

const GAP = 84, LEAST = 54 / GAP, ROUNDS = [8, 80], WORK = 500_000; // pairs of nodes that are looked at in all rounds

// Parts that no hearing joins are laid out by themselves, the largest on top, the others in rows below it.
export function mapLayout(net, before) {
  const near = neighbours(net), parts = partsOf(near).sort((p, q) => q.length - p.length);
  const made = parts.map((members) => partLayout(net, members, near, before)), at = new Map();
  const room = (points) => [0, 1].map((k) => [Math.min(...points.map((p) => p[1][k])), Math.max(...points.map((p) => p[1][k]))]);
  const [[left, right], [, bottom]] = room(made[0]);
  let x = left, row = bottom + GAP, next = row;
  made.forEach((points, i) => {
    const [[l, r], [t, b]] = room(points);
    if (i > 0 && x + r - l > right) (x = left), (row = next + GAP);
    for (const [address, [u, v]] of points) at.set(address, i === 0 ? [u, v] : [u - l + x, v - t + row]);
    if (i > 0) (x += r - l + GAP), (next = Math.max(next, row + b - t));
  });
  return Object.assign(folded(at), { raw: at });
}

function neighbours(net) {
  const near = net.nodes.map(() => []);
  for (let at = 0; at < net.pairBytes.length; at += 2) {
    const a = net.pairBytes[at], b = net.pairBytes[at + 1];
    if (a > b && isHeard(net, b, a)) continue;
    near[a].push(b);
    near[b].push(a);
  }
  return near;
}

function partsOf(near) {
  const part = new Int32Array(near.length).fill(-1), parts = [];
  for (let i = 0; i < near.length; i++) {
    if (part[i] >= 0) continue;
    const members = [i];
    part[i] = parts.length;
    for (let k = 0; k < members.length; k++) for (const j of near[members[k]]) if (part[j] < 0) (part[j] = parts.length), members.push(j);
    parts.push(members);
  }
  return parts;
}

// A long thin network goes to and fro down the picture, as a valley's chain of 40 would else be a thread.
function folded(at) {
  const xs = [...at.values()].map((p) => p[0]), ys = [...at.values()].map((p) => p[1]);
  const left = Math.min(...xs), wide = Math.max(...xs) - left, high = Math.max(...ys) - Math.min(...ys);
  const row = high + 1.3 * GAP, rows = Math.round(Math.sqrt(wide / (1.4 * row)));
  if (at.size < 14 || rows < 2 || wide < 4 * row) return new Map(at);
  const columns = Math.ceil((wide / GAP + 1) / rows), span = columns * GAP;
  return new Map([...at].map(([address, [x, y]]) => {
    const r = Math.min(rows - 1, Math.floor((x - left + GAP / 2) / span)), u = x - left - r * span;
    return [address, [r % 2 ? (columns - 1) * GAP - u : u, y + r * row]];
  }));
}

// Of one part: a list of [address, [x, y]].
function partLayout(net, members, near, before) {
  const n = members.length, address = (k) => net.nodes[members[k]].address;
  if (n === 1) return [[address(0), [0, 0]]];
  const place = new Int32Array(net.nodes.length);
  members.forEach((i, k) => (place[i] = k));
  const beside = members.map((i) => near[i].map((j) => place[j])), d = distances(beside);
  const was = (k) => before?.get(address(k)), known = members.filter((_, k) => was(k)).length, warm = known > 1 && known >= n * 0.7;
  // Ordered by address, so that the order of lines does not turn the picture over.
  const [x, y] = warm ? resumed(beside, was) : scaled(d, n, members.map((_, k) => k).sort((a, b) => address(a) - address(b)));
  const inverse = d.map((far) => (far ? 1 / far : 0)), rounds = Math.max(ROUNDS[0], Math.min(ROUNDS[1], WORK / (n * net.nodes.length)));
  for (let round = 0; round < (warm ? rounds / 2 : rounds); round++) majorize(inverse, x, y);
  if (!warm) turn(x, y);
  apart(x, y);
  return members.map((_, k) => [address(k), [x[k] * GAP, y[k] * GAP]]);
}

// A small change of a network moves its picture little: it goes on from where the nodes were, a new one from its neighbours.
function resumed(beside, was) {
  return [0, 1].map((axis) => Float64Array.from(beside, (others, k) => {
    const around = was(k) ? [was(k)] : others.map(was).filter(Boolean);
    return (around.reduce((sum, p) => sum + p[axis], 0) / (around.length || 1) + (was(k) ? 0 : 50 - 20 * axis + k)) / GAP;
  }));
}

function distances(beside) {
  const n = beside.length, d = new Float64Array(n * n), queue = new Int32Array(n);
  for (let from = 0; from < n; from++) {
    const row = from * n;
    let count = 1;
    queue[0] = from;
    for (let i = 0; i < count && count < n; i++) {
      const one = queue[i], far = d[row + one] + 1;
      for (const next of beside[one]) if (next !== from && d[row + next] === 0) (d[row + next] = far), (queue[count++] = next);
    }
  }
  return d;
}

// No two nodes on each other.
function apart(x, y) {
  for (let round = 0, moved = true; moved && round < 12; round++) {
    moved = false;
    for (let i = 0; i < x.length; i++) {
      for (let j = 0; j < i; j++) {
        const dx = x[i] - x[j], dy = y[i] - y[j], square = dx * dx + dy * dy;
        if (square >= LEAST * LEAST) continue;
        const far = Math.sqrt(square) || 1e-6, push = (LEAST - far) / 2 / far;
        (x[i] += dx * push), (x[j] -= dx * push), (y[i] += dy * push), (y[j] -= dy * push);
        moved = true;
      }
    }
  }
}

// The two main axes of the squared distances, less their means, by power iteration on both at once.
function scaled(d, n, order) {
  const b = d.map((far) => (far * far) / -2), x = new Float64Array(n), y = new Float64Array(n), mean = new Float64Array(n);
  for (let at = 0; at < b.length; at++) mean[at % n] += b[at] / n;
  const all = mean.reduce((sum, each) => sum + each / n, 0);
  for (let i = 0, at = 0; i < n; i++) for (let j = 0; j < n; j++, at++) b[at] += all - mean[i] - mean[j];
  order.forEach((i, place) => ((x[i] = Math.sin(place * 1.7 + 0.3)), (y[i] = Math.sin(place * place * 1.1 + 0.5))));
  let sizes;
  for (let round = 0; round < (n > 120 ? 14 : 40); round++) {
    powered(b, x, y);
    sizes = [shortened(x), shortened(y, x)];
  }
  return [x, y].map((axis, k) => axis.map((value, i) => value * Math.sqrt(sizes[k]) + Math.sin(i * 12.9) * 1e-3));
}

function powered(b, x, y) {
  const n = x.length, u = x.slice(), v = y.slice();
  for (let i = 0, at = 0; i < n; i++) {
    let sx = 0, sy = 0;
    for (let j = 0; j < n; j++, at++) (sx += b[at] * u[j]), (sy += b[at] * v[j]);
    (x[i] = sx), (y[i] = sy);
  }
}

// Takes away what an axis has of another, and makes it 1 long; how long it was.
function shortened(axis, other = null) {
  const along = other ? axis.reduce((sum, value, i) => sum + value * other[i], 0) : 0;
  for (let i = 0; other && i < axis.length; i++) axis[i] -= along * other[i];
  const size = Math.sqrt(axis.reduce((sum, value) => sum + value * value, 0)) || 1;
  for (let i = 0; i < axis.length; i++) axis[i] /= size;
  return size;
}

// One round: each node goes to where the others want it, each by its distance. `inverse` has 1 / distance, and 0 for a node and itself.
function majorize(inverse, x, y) {
  const n = x.length;
  for (let i = 0, at = 0; i < n; i++) {
    let sx = 0, sy = 0, sum = 0;
    for (let j = 0; j < n; j++, at++) {
      const near = inverse[at], weight = near * near, dx = x[i] - x[j], dy = y[i] - y[j], push = near / (Math.sqrt(dx * dx + dy * dy) || 1e-6);
      sx += weight * x[j] + dx * push;
      sy += weight * y[j] + dy * push;
      sum += weight;
    }
    x[i] = sx / sum;
    y[i] = sy / sum;
  }
}

// The long way across.
function turn(x, y) {
  const n = x.length, mx = x.reduce((a, b) => a + b, 0) / n, my = y.reduce((a, b) => a + b, 0) / n;
  let xx = 0, yy = 0, xy = 0;
  for (let i = 0; i < n; i++) (x[i] -= mx), (y[i] -= my), (xx += x[i] ** 2), (yy += y[i] ** 2), (xy += x[i] * y[i]);
  const angle = 0.5 * Math.atan2(2 * xy, xx - yy), c = Math.cos(angle), s = Math.sin(angle), flip = x[0] * c + y[0] * s > 0 ? -1 : 1;
  for (let i = 0; i < n; i++) [x[i], y[i]] = [flip * (x[i] * c + y[i] * s), y[i] * c - x[i] * s];
}

// Lines and names that keep clear of nodes.
export const R = 21; // of a node

// How far a line that would go through another node is bent around it, to the side that takes the smaller bend.
export function bendOf(drawing, link, x, y, u, v, far) {
  let most = 0;
  for (const [address] of drawing.discs) {
    if (address === link.a || address === link.b) continue;
    const [p, q] = drawing.at.get(address), along = ((p - x) * (u - x) + (q - y) * (v - y)) / far, aside = ((q - y) * (u - x) - (p - x) * (v - y)) / far;
    if (along < 0 || along > far || Math.abs(aside) > R + 6) continue;
    const need = ((aside > 0 ? -1 : 1) * 2 * (R + 12 - Math.abs(aside))) / Math.max(0.35, (4 * along * (far - along)) / (far * far));
    if (Math.abs(need) > Math.abs(most)) most = need;
  }
  return most;
}

// Of each side: its angle, where the name begins, how it is anchored, and how much it is liked.
const SIDES = [[Math.PI / 2, 0, R + 15, 'middle', 0.5], [-Math.PI / 2, 0, -R - 8, 'middle', 0.4], [0, R + 7, 4, 'start', 0], [Math.PI, -R - 7, 4, 'end', 0]];
const between = (a, b) => Math.abs(Math.atan2(Math.sin(a - b), Math.cos(a - b)));

// A name stands on that side of its node which is farthest from its lines: below, above, right or left. Without room it is left out: the node's title has it.
export function placeCaptions(drawing) {
  const angles = new Map([...drawing.discs.keys()].map((address) => [address, []])), s = drawing.size;
  for (const { link } of drawing.lines) {
    const [x, y] = drawing.at.get(link.a), [u, v] = drawing.at.get(link.b);
    angles.get(link.a).push(Math.atan2(v - y, u - x));
    angles.get(link.b).push(Math.atan2(y - v, x - u));
  }
  const taken = [...drawing.discs.keys()].map((address) => {
    const [x, y] = drawing.at.get(address);
    return [x - R * s, y - R * s, x + R * s, y + R * s, address];
  });
  for (const [address, group] of drawing.discs) {
    const text = group.querySelector('.caption');
    if (text) placeCaption(text, address, drawing.at.get(address), angles.get(address), taken, s);
  }
}

function placeCaption(text, address, [x, y], angles, taken, s) {
  const wide = text.textContent.length * 5.9 * s;
  const free = (side) => side[4] + Math.min(1.5, ...angles.map((angle) => between(angle, side[0])));
  const boxOf = ([, dx, dy, anchor]) => {
    const left = x + dx * s - (anchor === 'middle' ? wide / 2 : anchor === 'end' ? wide : 0);
    return [left, y + (dy - 10) * s, left + wide, y + (dy + 3) * s];
  };
  const clear = (side) => {
    const [l, t, r, b] = boxOf(side);
    return !taken.some(([p, q, u, v, who]) => who !== address && l < u && r > p && t < v && b > q);
  };
  const best = [...SIDES].sort((p, q) => free(q) - free(p)).find((side) => free(side) > 0.35 && clear(side));
  text.style.display = best ? '' : 'none';
  if (!best) return;
  taken.push([...boxOf(best), address]);
  text.setAttribute('x', best[1]);
  text.setAttribute('y', best[2]);
  text.style.textAnchor = best[3];
}

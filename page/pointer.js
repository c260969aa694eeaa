// The pointer and the keys on the drawing: choose, move, link, zoom, go from node to node.
import { el } from './dom.js';

const TOUCH = 4, NEAR = 7; // pixels

export function listenTo(drawing) {
  const { svg } = drawing;
  svg.addEventListener('pointerdown', (event) => pressed(drawing, event));
  svg.addEventListener('wheel', (event) => zoomed(drawing, event), { passive: false });
  svg.addEventListener('dblclick', (event) => {
    if (!event.target.closest('[data-node],[data-pair]')) drawing.on.add(drawing.point(event));
  });
  svg.addEventListener('keydown', (event) => stepped(drawing, event));
  svg.addEventListener('focusin', (event) => {
    const node = event.target.closest('[data-node]');
    if (node && !drawing.isShowing && node.matches(':focus-visible')) drawing.on.select({ node: Number(node.dataset.node) });
  });
}

// Zooms where the pointer is. A page that is longer than the window scrolls instead, unless Ctrl is held or the drawing is in use.
function zoomed(drawing, event) {
  const isScrolling = !event.ctrlKey && !event.metaKey && !drawing.box && !drawing.svg.matches(':focus-within');
  if (isScrolling && document.documentElement.scrollHeight > innerHeight) return;
  event.preventDefault();
  const [x, y] = drawing.point(event), [left, top, w, h] = drawing.shown, by = Math.exp(event.deltaY * 0.0015);
  if (w * by > 40000 || w * by < 60) return;
  drawing.box = [x - (x - left) * by, y - (y - top) * by, w * by, h * by];
  drawing.fit();
}

// The line nearest to a point, where all lines are one path and cannot be clicked themselves.
function nearestPair(drawing, [x, y]) {
  const reach = (NEAR * drawing.shown[2]) / drawing.room[0];
  let best = null, least = reach;
  for (const { link } of drawing.many ? drawing.lines : []) {
    const [a, b] = drawing.at.get(link.a), [u, v] = drawing.at.get(link.b), span = (u - a) ** 2 + (v - b) ** 2 || 1;
    const along = Math.max(0, Math.min(1, ((x - a) * (u - a) + (y - b) * (v - b)) / span)), off = Math.hypot(x - a - along * (u - a), y - b - along * (v - b));
    if (off < least) (least = off), (best = [link.a, link.b]);
  }
  return best;
}

function pressed(drawing, event) {
  if (event.button !== 0) return;
  document.activeElement?.blur(); // keys are the drawing's from now on
  const node = event.target.closest('[data-node]'), line = event.target.closest('[data-pair]');
  const client = [event.clientX, event.clientY], from = drawing.point(event);
  const address = node && Number(node.dataset.node), isLinking = node && (drawing.tool === 'link' || event.shiftKey);
  const drag = isLinking ? linking(drawing, node, address) : node ? moving(drawing, address) : line ? null : panning(drawing, client);
  let moved = false;
  const move = (now) => {
    if (!moved && Math.hypot(now.clientX - client[0], now.clientY - client[1]) < TOUCH) return;
    moved = true;
    drag?.move(now);
  };
  const up = () => {
    for (const [kind, heard] of [['pointermove', move], ['pointerup', up], ['pointercancel', up]]) removeEventListener(kind, heard);
    drawing.held = false;
    if (moved) return drag?.end();
    const pair = line ? line.dataset.pair.split(' ').map(Number) : node ? null : nearestPair(drawing, from);
    drawing.on.select(node ? { node: address } : pair ? { pair } : null);
    if (node) drawing.discs.get(address)?.focus({ preventScroll: true });
  };
  for (const [kind, heard] of [['pointermove', move], ['pointerup', up], ['pointercancel', up]]) addEventListener(kind, heard);
  event.preventDefault();
}

function linking(drawing, node, address) {
  const thread = el('path', { class: 'thread' });
  let target = null;
  drawing.layer.append(thread);
  return {
    move(event) {
      const [x, y] = drawing.at.get(address), [u, v] = drawing.point(event);
      thread.setAttribute('d', `M${x} ${y}L${u} ${v}`);
      const over = document.elementFromPoint(event.clientX, event.clientY)?.closest('[data-node]');
      target?.classList.remove('target');
      target = over && over !== node ? over : null;
      target?.classList.add('target');
    },
    end() {
      thread.remove();
      target?.classList.remove('target');
      if (target) drawing.on.link(address, Number(target.dataset.node));
    },
  };
}

function moving(drawing, address) {
  return {
    move(event) {
      drawing.held = true;
      drawing.at.set(address, drawing.point(event));
      drawing.place();
    },
    end: () => drawing.on.moved(address, drawing.at.get(address)),
  };
}

function panning(drawing, client) {
  const begin = drawing.shown.slice();
  return {
    move(event) {
      const scale = begin[2] / drawing.room[0];
      drawing.box = [begin[0] - (event.clientX - client[0]) * scale, begin[1] - (event.clientY - client[1]) * scale, begin[2], begin[3]];
      drawing.fit();
    },
    end() {},
  };
}

// Arrow keys go to the nearest node that way.
function stepped(drawing, event) {
  const node = event.target.closest?.('[data-node]'), way = { ArrowRight: [1, 0], ArrowLeft: [-1, 0], ArrowDown: [0, 1], ArrowUp: [0, -1] }[event.key];
  if (!node || !way) return;
  event.preventDefault();
  const address = Number(node.dataset.node), [x, y] = drawing.at.get(address);
  let best = null, least = Infinity;
  for (const [other] of drawing.discs) {
    const [u, v] = drawing.at.get(other), along = (u - x) * way[0] + (v - y) * way[1], aside = Math.abs((u - x) * way[1]) + Math.abs((v - y) * way[0]);
    if (other === address || along <= 1 || along + 2 * aside >= least) continue;
    (least = along + 2 * aside), (best = other);
  }
  if (best === null) return;
  drawing.on.select({ node: best });
  drawing.discs.get(best).focus({ preventScroll: true });
}

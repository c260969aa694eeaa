// The drawing: an SVG that is made anew when the network or its answers change, and moved in place while something is dragged.
import { SVG, el, setAll } from './dom.js';
import { R, bendOf, placeCaptions } from './labels.js';
import { listenTo } from './pointer.js';

const MANY = 500, CROWD = 80; // lines that share one path, nodes without names

const round = (more) => el('circle', { class: more ? 'halo' : null, r: R + more });
const square = (more) => {
  const wide = R + more, high = R * 0.86 + more;
  return el('rect', { class: more ? 'halo' : null, x: -wide, y: -high, width: 2 * wide, height: 2 * high, rx: 5 + more });
};
const shaped = (shape) => {
  const words = [el('text', { class: 'address', y: -0.5 }), el('text', { class: 'under', y: 11.5 })];
  return el('g', { role: 'button' }, el('title'), shape(5), shape(0), ...words);
};
const REPEATER = shaped(round), OTHER = shaped(square); // every node is a copy of one of these: making each anew takes several times as long

export class Drawing {
  // on: select(what), link(a, b), moved(address, point), add(point)
  constructor(svg, on) {
    Object.assign(this, { svg, on, at: new Map(), size: 1, tool: 'move', held: false, box: null }); // `box` is set while the user has zoomed
    this.layer = svg.querySelector('#layer');
    this.room = [svg.clientWidth || 600, svg.clientHeight || 400]; // kept, since asking for it would lay the page out in the midst of a change
    new ResizeObserver(([{ contentRect }]) => this.resized(contentRect)).observe(svg);
    listenTo(this);
  }

  // model: { nodes: [{ address, kind, under, caption, repeats, title }], links: [{ a, b, both, step }], rings, lastRing, selected, marked, cut }
  show(model, at) {
    this.model = model;
    this.at = at;
    const focused = document.activeElement?.closest?.('[data-node]')?.dataset.node, back = el('g', { class: 'rings' }), links = el('g'), nodes = el('g');
    model.rings.forEach((radius, i) => back.append(el('circle', { class: i + 1 === model.lastRing ? 'ring last' : 'ring', r: radius })));
    this.many = model.links.length > MANY ? [el('path', { class: 'link' }), el('path', { class: 'link step' }), el('path', { class: 'link chosen' })] : null;
    if (this.many) links.append(...this.many);
    this.lines = model.links.map((link) => (this.many ? { link } : this.line(link, links)));
    this.discs = new Map(model.nodes.map((node) => [node.address, this.disc(node, nodes)]));
    this.place();
    this.layer.replaceChildren(back, links, nodes);
    this.isShowing = true; // a node that keeps the focus is not chosen by that
    if (focused !== undefined) this.discs.get(Number(focused))?.focus({ preventScroll: true });
    this.isShowing = false;
  }

  resized({ width, height }) {
    if (!width) return; // another part of the page is shown
    this.room = [width, height];
    if (this.discs) this.place();
  }

  isChosen({ a, b }) {
    const pair = this.model.selected?.pair;
    return !!pair && ((pair[0] === a && pair[1] === b) || (pair[0] === b && pair[1] === a));
  }

  line(link, links) {
    const tip = link.both ? null : `url(#${link.step ? 'tip-step' : 'tip'})`;
    const line = el('path', { class: `link${link.step ? ' step' : ''}${this.isChosen(link) ? ' chosen' : ''}`, 'marker-end': tip });
    const wide = el('path', { class: 'grip', 'data-pair': `${link.a} ${link.b}` });
    const title = link.both ? `${link.a} and ${link.b} hear each other` : `${link.b} hears ${link.a}; ${link.a} does not hear ${link.b}`;
    links.append(el('g', {}, el('title', {}, title), line, wide));
    return { link, line, wide };
  }

  disc(node, nodes) {
    const { selected, cut, marked } = this.model, chosen = selected?.node === node.address;
    const look = ['node', node.kind, chosen && 'chosen', cut?.has(node.address) && 'cut', marked === node.address && 'failed'].filter(Boolean).join(' ');
    const tabbed = chosen || (!selected?.node && node.kind === 'originator');
    const group = (node.repeats ? REPEATER : OTHER).cloneNode(true), [title, , , address, under] = group.children;
    setAll(group, { class: look, 'data-node': node.address, tabindex: tabbed ? 0 : -1, 'aria-label': node.title, 'aria-pressed': chosen });
    title.textContent = node.title;
    address.textContent = node.address;
    under.textContent = node.under;
    if (node.caption) group.append(el('text', { class: 'caption', y: R + 15 }, node.caption));
    nodes.append(group);
    return group;
  }

  // Nodes are drawn larger where the whole is drawn small, as far as there is room between them.
  resize() {
    const points = [...this.at.values()], scale = this.room[0] / this.shown[2];
    let near = Infinity;
    if (scale < 0.85) {
      for (let i = 0; i < points.length; i++) {
        for (let j = 0; j < i; j++) near = Math.min(near, (points[i][0] - points[j][0]) ** 2 + (points[i][1] - points[j][1]) ** 2);
      }
    }
    this.size = Math.max(1, Math.min(0.85 / scale, (Math.sqrt(near) - 16) / (2 * R), 2));
    this.svg.classList.toggle('far', scale * this.size < 0.55);
    this.svg.classList.toggle('small', scale * this.size < 0.78 || this.size > 1.3);
  }

  place() {
    if (!this.held) this.fit(), this.resize();
    if (this.many) this.placeMany();
    else this.lines.forEach((line) => this.placeLine(line));
    if (this.discs.size <= CROWD) placeCaptions(this);
    for (const [address, group] of this.discs) {
      const [x, y] = this.at.get(address), larger = this.size === 1 ? '' : ` scale(${this.size.toFixed(2)})`;
      group.setAttribute('transform', `translate(${x.toFixed(1)} ${y.toFixed(1)})${larger}`);
    }
  }

  placeMany() {
    const d = ['', '', ''];
    for (const { link } of this.lines) {
      const [x, y] = this.at.get(link.a), [u, v] = this.at.get(link.b);
      d[this.isChosen(link) ? 2 : link.step ? 1 : 0] += `M${Math.round(x)} ${Math.round(y)}L${Math.round(u)} ${Math.round(v)}`;
    }
    this.many.forEach((path, i) => path.setAttribute('d', d[i]));
  }

  placeLine({ link, line, wide }) {
    const [x, y] = this.at.get(link.a), [u, v] = this.at.get(link.b), far = Math.hypot(u - x, v - y) || 1;
    const start = R * this.size + 1, end = R * this.size + (link.both ? 1 : 4), bend = this.discs.size > CROWD ? 0 : bendOf(this, link, x, y, u, v, far);
    const a = (x + u) / 2 + ((y - v) / far) * bend, b = (y + v) / 2 + ((u - x) / far) * bend;
    const rim = (p, q, r) => {
      const long = Math.hypot(a - p, b - q) || 1;
      return `${(p + ((a - p) / long) * r).toFixed(1)} ${(q + ((b - q) / long) * r).toFixed(1)}`;
    };
    const way = bend ? `Q${a.toFixed(1)} ${b.toFixed(1)} ` : 'L', d = `M${rim(x, y, start)}${way}${rim(u, v, end)}`;
    line.setAttribute('d', d);
    wide.setAttribute('d', d);
  }

  // All nodes in view, not larger than life and a third.
  fit() {
    let box = this.box;
    if (!box) {
      const points = [...this.discs.keys()].map((address) => this.at.get(address)), xs = points.map((p) => p[0]), ys = points.map((p) => p[1]);
      const left = Math.min(...xs) - 60, right = Math.max(...xs) + 60, top = Math.min(...ys) - 48, bottom = Math.max(...ys) + 48;
      const [width, height] = this.room;
      const scale = Math.min(1.35, width / (right - left), height / (bottom - top)), w = width / scale, h = height / scale;
      box = [(left + right - w) / 2, (top + bottom - h) / 2, w, h];
    }
    this.svg.setAttribute('viewBox', box.map((value) => value.toFixed(1)).join(' '));
    this.shown = box;
  }

  whole() {
    this.box = null;
    this.place();
  }

  point(event) {
    const point = new DOMPoint(event.clientX, event.clientY).matrixTransform(this.svg.getScreenCTM().inverse());
    return [point.x, point.y];
  }

  // The drawing as a file of its own: colours as they are now, nothing that only a pointer needs.
  picture() {
    const copy = this.svg.cloneNode(true), sheet = copy.querySelector('style'), style = getComputedStyle(document.documentElement);
    const [left, top, w, h] = this.shown;
    copy.setAttribute('xmlns', SVG);
    copy.setAttribute('width', w.toFixed(0));
    copy.setAttribute('height', h.toFixed(0));
    copy.querySelectorAll('.grip').forEach((grip) => grip.remove());
    sheet.textContent = sheet.textContent.replace(/var\((--[\w-]+)\)/g, (_, name) => style.getPropertyValue(name).trim());
    sheet.after(el('rect', { x: left, y: top, width: w, height: h, fill: style.getPropertyValue('--panel').trim() }));
    return new XMLSerializer().serializeToString(copy);
  }
}

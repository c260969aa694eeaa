// Small helpers over the document.
import { named } from './words.js';

export const $ = (id) => document.getElementById(id);

export function html(name, attributes = {}, ...children) {
  const made = document.createElement(name);
  for (const [key, value] of Object.entries(attributes)) {
    if (key.startsWith('on')) made.addEventListener(key.slice(2), value);
    else if (value === true) made.setAttribute(key, '');
    else if (value !== false && value !== null && value !== undefined) made.setAttribute(key, value);
  }
  made.append(...children.filter((child) => child !== null && child !== undefined && child !== false));
  return made;
}

export const SVG = 'http://www.w3.org/2000/svg';
export function el(name, attributes = {}, ...children) {
  const made = document.createElementNS(SVG, name);
  setAll(made, attributes);
  made.append(...children);
  return made;
}
export function setAll(element, attributes) {
  for (const key in attributes) if (attributes[key] !== null) element.setAttribute(key, attributes[key]);
}

const timers = new Map(); // of what is not filled yet: choices and tables
const noteFilling = () => (document.documentElement.dataset.filling = timers.size || ''); // for the tests

export const MANY = 60; // above so many nodes, choices and rows come later
const PAUSE = 250; // milliseconds without a change, then a choice is filled
// Fills a choice of nodes, if they are others than before, and chooses one. Hundreds take long to style. So a choice of many gets the chosen one at once. The
// others come at a pause, or when the user turns to the choice.
export function offer(select, nodes, chosen) {
  const made = nodes.map(named).join('\n');
  const put = (isAll) => {
    const some = isAll ? nodes : nodes.filter((node) => node.address === chosen);
    select.replaceChildren(...some.map((node) => new Option(named(node), node.address)));
    select.value = chosen;
    select.made = isAll ? made : null;
    select.onfocus = select.onpointerenter = isAll ? null : () => put(true);
    clearTimeout(timers.get(select));
    if (isAll) timers.delete(select);
    else timers.set(select, setTimeout(put, PAUSE, true));
    noteFilling();
  };
  if (select.made === made) select.value = chosen;
  else put(nodes.length <= MANY || select.matches(':focus, :hover'));
}

const lastGood = new Map();
// The number in a field; where that is none, or out of its range, the field is marked by its style, and the last good number stays.
export function numberIn(id) {
  const field = $(id);
  if (field.validity.valid && field.value !== '') lastGood.set(id, field.valueAsNumber);
  return lastGood.get(id);
}

// A cell of a table.
export const cell = (words, look = null, title = null) => html('td', { class: look, title }, words);

// Rows that are clicked: Enter and the space bar click too, the arrow keys go from row to row, and the tab key goes to one of them.
export const press = (event) => {
  const row = event.currentTarget, next = { ArrowDown: row.nextElementSibling, ArrowUp: row.previousElementSibling }[event.key];
  const isClick = event.key === 'Enter' || event.key === ' ';
  if (next || isClick) event.preventDefault();
  if (isClick) row.click();
  if (next) (row.tabIndex = -1), (next.tabIndex = 0), next.focus();
};
// Fills a table's body with a row for each item. Those in view come at once and the others soon after, since hundreds take long to lay out. The row that had
// the focus, known by its first cell, has it again.
const FIRST = 40, HIGH = 24, above = new WeakMap(); // rows that come together, pixels of a row; rows scrolled past
export function fill(body, items, rowOf) {
  const keyOf = (row) => row.cells[0].textContent, held = body.contains(document.activeElement) ? keyOf(document.activeElement) : null;
  const put = (from, to) => {
    const rows = items.slice(from, to).map(rowOf), focused = rows.find((row) => keyOf(row) === held);
    const stop = focused ?? rows.find((row) => row.matches('.on')) ?? (from ? null : rows[0]);
    if (stop) body.querySelector('[tabindex="0"]')?.setAttribute('tabindex', -1), (stop.tabIndex = 0);
    body.append(...rows);
    if (focused && document.activeElement === document.body) focused.focus({ preventScroll: true });
    if (to < items.length) timers.set(body, setTimeout(put, 0, to, to + FIRST));
    else timers.delete(body);
    noteFilling();
  };
  if (!above.has(body)) {
    above.set(body, 0);
    body.closest('.scroll')?.addEventListener('scroll', (event) => above.set(body, Math.ceil(event.target.scrollTop / HIGH)), { passive: true });
  }
  clearTimeout(timers.get(body));
  body.replaceChildren();
  put(0, FIRST + above.get(body));
}

export function download(name, content, type) {
  const link = html('a', { href: URL.createObjectURL(new Blob([content], { type })), download: name });
  link.click();
  setTimeout(() => URL.revokeObjectURL(link.href), 1000);
}

let saying = 0;
// Says for a moment that something was done, to eyes and to screen readers.
export function tell(words) {
  const box = $('told');
  box.textContent = words;
  box.hidden = false;
  clearTimeout(saying);
  saying = setTimeout(() => (box.hidden = true), 1800);
}

// Puts a text on the clipboard. Where a browser has none for a file, a selection is copied the old way.
export async function copy(text, what) {
  try {
    await navigator.clipboard.writeText(text);
  } catch {
    const area = html('textarea', { class: 'unseen' });
    area.value = text;
    document.body.append(area);
    area.select();
    document.execCommand('copy');
    area.remove();
  }
  document.documentElement.dataset.copied = text.length;
  tell(`${what} copied`);
}

// One choice of several: the arrow keys go from one to the next, and the tab key goes to the chosen one.
export function radios(buttons, chosen) {
  const pick = (one) => {
    for (const button of buttons) {
      button.setAttribute(button.getAttribute('role') === 'tab' ? 'aria-selected' : 'aria-checked', button === one);
      button.tabIndex = button === one ? 0 : -1;
    }
  };
  const choose = (button) => {
    pick(button);
    chosen(button);
  };
  for (const button of buttons) {
    button.addEventListener('click', () => choose(button));
    button.addEventListener('keydown', (event) => {
      const step = { ArrowRight: 1, ArrowDown: 1, ArrowLeft: -1, ArrowUp: -1 }[event.key];
      if (!step) return;
      event.preventDefault();
      const next = buttons[(buttons.indexOf(button) + step + buttons.length) % buttons.length];
      next.focus();
      choose(next);
    });
  }
  pick(buttons.find((b) => b.getAttribute('aria-checked') === 'true' || b.getAttribute('aria-selected') === 'true') ?? buttons[0]);
  return pick;
}

// The page's one state is the text of the network. Every change, typed, clicked or dragged, is a change of it; all else is made from it.
import { parseNetwork } from './network.js';

const STEPS = 200, PAUSE = 700; // steps that can be undone; milliseconds without typing that begin a new one
export const state = {
  text: '', net: null, fault: null, answers: null, failures: [], selected: null, marked: null, layout: 'map', undone: [], redone: [], typedAt: -Infinity,
};
const heard = { text: [], network: [] };
export const whenText = (listener) => heard.text.push(listener);
export const whenNetwork = (listener) => heard.network.push(listener);

export function change(text, isTyped = false) {
  if (text === state.text) return;
  const now = performance.now();
  if (!isTyped || now - state.typedAt > PAUSE) state.undone.push(state.text);
  if (state.undone.length > STEPS) state.undone.shift();
  state.redone = [];
  state.typedAt = isTyped ? now : -Infinity;
  take(text);
}

function back(from, to) {
  if (!from.length) return;
  to.push(state.text);
  state.typedAt = -Infinity;
  take(from.pop());
}
export const undo = () => back(state.undone, state.redone);
export const redo = () => back(state.redone, state.undone);

// A wrong text is kept as it stands; the network and its answers stay those of the last good one.
export function take(text) {
  state.text = text;
  const net = parseNetwork(text);
  state.fault = net.fault ?? null;
  heard.text.forEach((listener) => listener());
  if (net.fault) return;
  state.net = net;
  if (state.selected?.node !== undefined && !net.place.has(state.selected.node)) state.selected = null;
  refresh();
}
export const refresh = () => heard.network.forEach((listener) => listener());

// The page: opens the library, then its three parts.
import { showCommand, showTime, startAir } from './air.js';
import { answersOf, showAnswers, startAnswers } from './answers.js';
import { startBox } from './box.js';
import { $, offer, radios } from './dom.js';
import { setHop, setOriginator } from './edits.js';
import { startEditor } from './editor.js';
import { EXAMPLE } from './network.js';
import { startPdu } from './pdu.js';
import { draw, refit, removeSelected, select, startDrawing } from './picture.js';
import { change, redo, refresh, state, take, undo, whenNetwork } from './state.js';
import { startJobs, startTables } from './tables.js';
import { bytesOfBase64, openLibrary } from './wasm.js';
import { counted } from './words.js';

const PARTS = ['network', 'pdu', 'box'], THEMES = ['system', 'light', 'dark'];

// All that is shown of a network. What it took is kept for the tests.
function update() {
  const took = {}, timed = (name, work) => {
    const begin = performance.now();
    work();
    took[name] = Math.round((performance.now() - begin) * 10) / 10;
  };
  timed('answers', () => (state.answers = answersOf(state.net)));
  timed('controls', showControls);
  timed('drawing', draw);
  timed('words', () => (showAnswers(), showTime(), showCommand()));
  timed('jobs', startJobs);
  document.documentElement.dataset.took = JSON.stringify(took);
}

function showControls() {
  const { net } = state;
  offer($('originator'), [...net.nodes].sort((a, b) => a.address - b.address), net.nodes[0].address);
  $('hop').value = net.hop;
  $('hop-value').textContent = net.hop;
  $('hop-words').textContent = net.hop === 7 ? 'never lowered: no limit' : `up to ${counted(net.hop + 1, 'hearing')}`;
}

function theme(wanted) {
  const system = matchMedia('(prefers-color-scheme: dark)').matches ? 'dark' : 'light';
  Object.assign(document.documentElement.dataset, { theme: wanted === 'system' ? system : wanted, wanted });
  $('theme').textContent = `Theme: ${wanted}`;
}
function startTheme() {
  theme('system');
  matchMedia('(prefers-color-scheme: dark)').addEventListener('change', () => theme(document.documentElement.dataset.wanted));
  $('theme').addEventListener('click', () => theme(THEMES[(THEMES.indexOf(document.documentElement.dataset.wanted) + 1) % THEMES.length]));
  addEventListener('beforeprint', () => (document.documentElement.dataset.theme = 'light'));
  addEventListener('afterprint', () => theme(document.documentElement.dataset.wanted));
}

function startKeys() {
  addEventListener('keydown', (event) => {
    const isIn = (words) => !!event.target.closest?.(words), isUndo = (event.ctrlKey || event.metaKey) && ['z', 'y'].includes(event.key.toLowerCase());
    if ($('network').hidden) return;
    if (isUndo && !isIn('.inspector input')) event.preventDefault(), (event.shiftKey || event.key.toLowerCase() === 'y' ? redo : undo)();
    if ((event.key === 'Delete' || event.key === 'Backspace') && state.selected && !isIn('input,textarea,select')) event.preventDefault(), removeSelected();
    if (event.key === 'Escape' && state.selected) select(null);
  });
}

function startControls() {
  $('hop').addEventListener('input', () => change(setHop(state.text, $('hop').value), true));
  $('originator').addEventListener('change', () => change(setOriginator(state.text, Number($('originator').value))));
  $('size').addEventListener('input', refresh);
  $('nodes-table').addEventListener('click', (event) => {
    const row = event.target.closest('[data-row]');
    if (row) select({ node: Number(row.dataset.row) });
  });
  radios(PARTS.map((part) => $(`tab-${part}`)), (button) => {
    for (const part of PARTS) $(part).hidden = button.getAttribute('aria-controls') !== part;
    if (button.id === 'tab-network') refit();
  });
}

async function start() {
  startTheme();
  let module;
  try {
    module = await WebAssembly.compile(bytesOfBase64($('wasm').textContent));
    await openLibrary(module);
  } catch {
    for (const part of PARTS) $(part).hidden = true;
    $('unable').hidden = false;
    return;
  }
  startEditor();
  startControls();
  startKeys();
  startDrawing(radios);
  startAnswers();
  startAir();
  startTables(module, draw, showTime);
  whenNetwork(update);
  take(EXAMPLE);
  startPdu();
  startBox();
  document.documentElement.dataset.ready = Math.round(performance.now());
}
start();

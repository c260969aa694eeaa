// The text: typed, opened, saved, dropped, undone; a wrong line is marked.
import { $, copy, download, html } from './dom.js';
import { textOf } from './network.js';
import { change, redo, state, undo, whenText } from './state.js';

export function startEditor() {
  const source = $('source');
  whenText(showText);
  source.addEventListener('input', () => change(source.value, true));
  source.addEventListener('scroll', () => ($('gutter').scrollTop = source.scrollTop));
  $('undo').addEventListener('click', undo);
  $('redo').addEventListener('click', redo);
  $('open').addEventListener('click', () => $('file').click());
  $('file').addEventListener('change', () => {
    if ($('file').files[0]) openFile($('file').files[0]);
    $('file').value = '';
  });
  $('save').addEventListener('click', () => download('network.txt', state.text, 'text/plain'));
  $('copy-text').addEventListener('click', () => copy(state.text, 'Text'));
  addEventListener('dragover', (event) => {
    if (![...(event.dataTransfer?.types ?? [])].includes('Files')) return;
    event.preventDefault();
    $('drop').hidden = false;
  });
  addEventListener('dragleave', (event) => {
    if (!event.relatedTarget) $('drop').hidden = true;
  });
  addEventListener('drop', (event) => {
    $('drop').hidden = true;
    if (!event.dataTransfer.files[0]) return;
    event.preventDefault();
    $('tab-network').click();
    openFile(event.dataTransfer.files[0]);
  });
}

async function openFile(file) {
  change(textOf(await file.arrayBuffer()));
}

function showText() {
  const source = $('source'), { fault, text } = state, count = text.split('\n').length;
  if (source.value !== text) {
    const top = source.scrollTop;
    source.value = text;
    source.scrollTop = top;
  }
  showGutter(count, fault);
  $('printed').textContent = text;
  $('undo').disabled = !state.undone.length;
  $('redo').disabled = !state.redone.length;
  source.setAttribute('aria-invalid', !!fault);
  $('fault').textContent = fault ? `Line ${fault.line + 1}: ${fault.words}. The answers are those of the last good text.` : '';
}

function showGutter(count, fault) {
  const gutter = $('gutter'), numbers = Array.from({ length: count }, (_, line) => `${line + 1}\n`), bad = fault ? fault.line : count;
  const marked = fault ? [html('b', { class: 'bad' }, String(bad + 1)), '\n'] : [];
  gutter.replaceChildren(numbers.slice(0, bad).join(''), ...marked, numbers.slice(bad + 1).join(''));
  requestAnimationFrame(() => (gutter.scrollTop = $('source').scrollTop)); // at once it would lay the page out in the midst of a change
}

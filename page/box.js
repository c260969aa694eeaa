// What a box would do: a node's settings, its eight lists and a batch go to the library, and the results of the walk are shown as `relay` prints them.
import { NotHex, bytesOf } from './digits.js';
import { $, cell, copy, html, radios } from './dom.js';
import { showHex } from './pdu.js';
import { changeOver, layLists, walk } from './reading.js';
import { counted, hexOf, meaningOf } from './words.js';

const KINDS = [
  ['source_pass', 'Source pass'], ['source_reject', 'Source reject'], ['destination_pass', 'Destination pass'], ['destination_reject', 'Destination reject'],
];
const ORDER = ['first', 'second'], CHOICES = ['off', ...ORDER], MOST_LINES = 400;
const LIST_NAMES = KINDS.flatMap(([, name]) => ORDER.map((which) => `the ${which} ${name.toLowerCase()} list`));
const EXAMPLE = { own: 2000, batch: '0300100B03E80640007001081212032413220276\n000000000005' };
const asked = { edition: 12, text: '' };

class Wrong extends Error {
  constructor(id, words) {
    super(words);
    this.id = id;
  }
}

export function startBox() {
  $('lists').replaceChildren(...KINDS.map(listFields));
  radios([...document.querySelectorAll('[data-box-edition]')], (button) => {
    asked.edition = Number(button.dataset.boxEdition);
    showBox();
  });
  for (const choice of [0, 1, 2]) $(`all-${choice}`).addEventListener('click', () => chooseAll(choice));
  $('box').addEventListener('input', showBox);
  $('box-example').addEventListener('click', () => {
    $('own').value = EXAMPLE.own;
    $('batch').value = EXAMPLE.batch;
    showBox();
  });
  $('box-copy').addEventListener('click', () => copy(asked.text, 'Lines'));
  $('box-example').click();
}

function listFields([kind, name]) {
  const choice = html('select', { id: kind, 'aria-label': `${name} list in use` }, ...CHOICES.map((words, value) => html('option', { value }, words)));
  const field = (which) => html('input', { type: 'text', id: `${kind}_${which}`, spellcheck: 'false', autocomplete: 'off', placeholder: 'e.g. 1000-1999, 3000',
    'aria-label': `${name}, ${which} list: ranges of addresses` });
  const ranges = (which) => html('label', {}, `${which} `, field(which));
  return html('fieldset', {}, html('legend', {}, name), choice, ...ORDER.map(ranges));
}

const wholeNumber = (id, most, words) => {
  const value = $(id).value.trim();
  if (!/^\d+$/.test(value) || Number(value) > most) throw new Wrong(id, words);
  return Number(value);
};
// Ranges of addresses: `1000-1999, 3000`. What is wrong with a range of two addresses is for the library to say.
function listOf(id, name) {
  const words = $(id).value.split(/[\s,;]+/).filter(Boolean);
  return Uint16Array.from(words.flatMap((word) => {
    const range = word.match(/^(\d{1,5})(?:(?:-|–|\.\.)(\d{1,5}))?$/);
    const isGood = range && [range[1], range[2] ?? 0].every((value) => Number(value) <= 65535);
    if (!isGood) throw new Wrong(id, `${name}: “${word}” is not an address, nor two with “-” between, of at most 65,535`);
    return [Number(range[1]), Number(range[2] ?? range[1])];
  }));
}
const nodeOf = () => ({
  edition: asked.edition, own: wholeNumber('own', 65535, 'the own address is a number from 0 to 65,535'),
  echo: $('echo').checked, repeating: $('repeating').checked,
  ...Object.fromEntries(KINDS.map(([kind]) => [kind, Number($(kind).value)])),
});
function batchOf() {
  try {
    return bytesOf($('batch').value);
  } catch (why) {
    if (why instanceof NotHex) throw new Wrong('batch', `the batch, ${why.message}`);
    throw why;
  }
}

function chooseAll(choice) {
  const changed = changeOver(nodeOf(), choice);
  for (const [kind] of KINDS) $(kind).value = changed[kind];
  showBox();
}

function showBox() {
  for (const field of $('box').querySelectorAll('[aria-invalid]')) field.removeAttribute('aria-invalid');
  try {
    const eight = KINDS.flatMap(([kind, name]) => ORDER.map((which) => listOf(`${kind}_${which}`, `${name}, ${which}`)));
    const node = nodeOf(), lists = layLists(eight), batch = batchOf();
    $('box-fault').textContent = '';
    showWalk(node, lists, batch);
  } catch (why) {
    if (!(why instanceof Wrong)) throw why;
    $(why.id).setAttribute('aria-invalid', 'true');
    $('box-fault').textContent = `${why.message[0].toUpperCase()}${why.message.slice(1)}. What is shown is of the last good settings.`;
  }
}

const lineOf = ({ offset, answer, repeated }, i) =>
  [i + 1, offset, answer.delivery, answer.repeat, repeated.length ? hexOf(repeated, '') : '-', answer.has_last_sender ? answer.last_sender : '-'].join(' ');

function showWalk(node, lists, batch) {
  const { steps, refused, end } = lists.number ? { steps: [], refused: lists.number, end: 0 } : walk(node, lists.block, batch);
  const lines = refused ? [`refused ${refused}`] : [`relay ${node.own}`, ...steps.map(lineOf), `end ${steps.length} ${end}`];
  asked.text = lines.map((line) => `${line}\n`).join('');
  const more = lines.length - MOST_LINES, shown = lines.slice(0, MOST_LINES);
  if (more > 0) shown.push(`.. ${counted(more, 'line')} more; “Copy lines” has them all`);
  $('relay-lines').textContent = shown.join('\n');
  const delivered = steps.filter(({ answer }) => answer.delivery === 0).length, repeats = steps.filter(({ answer }) => answer.repeat === 0).length;
  const whose = lists.number ? `; it is ${LIST_NAMES[lists.list]}` : '';
  const title = refused ? html('p', { class: 'refused' }, html('b', {}, `Refused, ${refused}: `), meaningOf(refused), whose)
    : html('p', {}, `${counted(steps.length, 'PDU')}: ${delivered} delivered, ${repeats} repeated. `, html('span', { class: 'badge proved' }, 'proved'));
  $('box-headline').replaceChildren(title);
  $('walk').tBodies[0].replaceChildren(...steps.slice(0, MOST_LINES).map((step, i) => stepRow(step, i, batch)));
  $('walk').hidden = !steps.length;
}

// The first bytes of some.
const begun = (bytes) => hexOf(bytes.slice(0, 16)) + (bytes.length > 16 ? ' ..' : '');
const readable = (bytes, words) => html('button', { type: 'button', class: 'plain', onclick: () => {
  showHex(hexOf(bytes), 'pdu');
  $('tab-pdu').click();
} }, words);

function stepRow({ offset, answer, repeated }, i, batch) {
  const { delivery, repeat, taken } = answer, start = offset + answer.delivered_place, payload = batch.slice(start, start + answer.delivered_length);
  const got = delivery === 0 ? `delivered: ${payload.length ? begun(payload) : 'an empty payload'}` : `${delivery}: ${meaningOf(delivery)}`;
  const sent = repeat === 0 ? html('span', {}, 'repeated: ', readable(repeated, begun(repeated))) : `${repeat}: ${meaningOf(repeat)}`;
  return html('tr', {}, cell(readable(batch.slice(offset, taken ? offset + taken : batch.length), `PDU ${i + 1}`)), cell(String(offset), 'n'),
    cell(answer.has_last_sender ? String(answer.last_sender) : '–'), cell(got, delivery ? 'dim' : null), cell(sent, repeat ? 'dim' : null));
}

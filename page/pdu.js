// The part of the page that says what bytes say: every field in words, the bytes coloured by field, and each shows the other under the pointer.
import { NotHex, bytesOf } from './digits.js';
import { $, cell, copy, html, radios } from './dom.js';
import { textOfParts, tell } from './told.js';
import { grouped, hex2, meaningOf } from './words.js';

const MOST_BYTES = 2000, MOST_PARTS = 60;
const EXAMPLES = {
  pdu: '03 00 00 0B 03 E8 06 40 01 07 D0\n70 01 08 12 12 03 24 13 22 02 76', batch: '0300100B03E80640007001081212032413220276\n02001001 03E8 00 2A',
  exchange: '14 0F 84 00 07 02 00 10 01 03 E8 00 84 01 01 2A 05',
};
const asked = { kind: 'pdu', edition: 12, text: '' };
let pickKind;

export function startPdu() {
  const kinds = [...document.querySelectorAll('[data-kind]')];
  pickKind = radios(kinds, (button) => setKind(button.dataset.kind));
  radios([...document.querySelectorAll('[data-edition]')], (button) => {
    asked.edition = Number(button.dataset.edition);
    showPdu();
  });
  $('hex').addEventListener('input', showPdu);
  $('pdu-example').addEventListener('click', () => showHex(EXAMPLES[asked.kind], asked.kind));
  $('pdu-copy').addEventListener('click', () => copy(asked.text, 'Fields'));
  showHex(EXAMPLES.pdu, 'pdu');
}
function setKind(kind) {
  asked.kind = kind;
  showPdu();
}
export function showHex(text, kind) {
  $('hex').value = text;
  pickKind(document.querySelector(`[data-kind=${kind}]`));
  setKind(kind);
}

function showPdu() {
  let bytes;
  try {
    bytes = bytesOf($('hex').value);
  } catch (why) {
    if (!(why instanceof NotHex)) throw why;
    $('hex-fault').textContent = `${why.message[0].toUpperCase()}${why.message.slice(1)}. The fields are those of the last good bytes.`;
    return $('hex').setAttribute('aria-invalid', true);
  }
  $('hex-fault').textContent = '';
  $('hex').setAttribute('aria-invalid', false);
  const parts = bytes.length ? tell[asked.kind](bytes, asked.edition) : [];
  asked.text = textOfParts(parts);
  showParts(bytes, parts);
}

function showParts(bytes, parts) {
  const cells = [...bytes.subarray(0, MOST_BYTES)].map((byte, at) => html('span', { 'data-at': at }, hex2(byte), html('small', {}, String(at)))), rows = [];
  for (const { fields = [], number, place } of parts) {
    const own = fields.filter((field) => field.group && field.name !== 'last sender');
    for (const field of own) cells.slice(field.from, field.to).forEach((one) => one.classList.add(field.group));
    if (number && place.at >= 0 && cells.length) cells[Math.min(place.at, cells.length - 1)].classList.add('wrong');
  }
  const shown = parts.slice(0, MOST_PARTS).map((part) => partShown(part, cells, rows));
  if (parts.length > MOST_PARTS) shown.push(html('p', { class: 'dim' }, `and ${grouped(parts.length - MOST_PARTS)} more; “Copy” has them all`));
  $('bytes').replaceChildren(...cells, bytes.length > MOST_BYTES ? html('p', { class: 'dim' }, `and ${grouped(bytes.length - MOST_BYTES)} bytes more`) : '');
  $('pdus').replaceChildren(...(shown.length ? shown : [html('p', { class: 'dim' }, 'Paste the bytes of a PDU, or take the example.')]));
  cells.forEach((one, at) => {
    const light = (on) => rows.forEach(([field, row]) => row.classList.toggle('hot', on && at >= field.from && at < field.to));
    one.addEventListener('pointerenter', () => light(true));
    one.addEventListener('pointerleave', () => light(false));
  });
}

function partShown(part, cells, rows) {
  if (part.note) return html('p', { class: 'dim note' }, part.note[0].toUpperCase() + part.note.slice(1));
  const table = part.fields.length ? tableOf(part.fields, cells, rows) : '', badge = html('span', { class: 'badge proved' }, 'proved');
  if (!part.number) return html('article', { class: 'pdu' }, html('h3', {}, part.title), html('p', { class: 'dim' }, `${part.under} `, badge), table);
  const lines = part.place.words.replace('--exchange', '“Serial exchange”').split('\n').map((line) => line.trim()).filter(Boolean);
  const said = lines.map((line) => html('p', { class: 'dim' }, line[0].toUpperCase() + line.slice(1)));
  const refused = html('div', { class: 'refused' }, html('p', {}, html('b', {}, `${part.before}refused, ${part.number}: `), meaningOf(part.number)), ...said);
  return html('article', { class: 'pdu' }, refused, table);
}

function bytesWords({ from, to, bits }) {
  if (to === from) return '';
  const bytes = to === from + 1 ? `byte ${from}` : `bytes ${from}–${to - 1}`;
  return bits ? `${bytes}, bit${bits.length > 1 ? 's' : ''} ${bits}` : bytes;
}
function tableOf(fields, cells, rows) {
  return html('table', {}, html('tbody', {}, ...fields.map((field) => {
    const light = (on) => () => cells.slice(field.from, field.to).forEach((one) => one.classList.toggle('hot', on));
    const row = html('tr', { tabindex: 0, onpointerenter: light(true), onpointerleave: light(false), onfocus: light(true), onblur: light(false) },
      cell(field.group ? html('i', { class: field.group }) : ''), html('th', { scope: 'row' }, field.name),
      cell(field.words.join(' '), field.name === 'payload' ? 'mono' : null), cell(bytesWords(field)));
    rows.push([field, row]);
    return row;
  })));
}

// What some bytes say, as parts to be shown and as the text that ./show prints: a PDU, a batch or a serial exchange. A part is { lines, title, under, fields }
// or, where something was refused, { number, place, fields, before }.
import { editionName, fieldLines, fieldsOf, nodesOf, rowsInHex } from './fields.js';
import { readExchange, readPdu, walkToRead } from './reading.js';
import { exchangePlace, placeOf, span } from './refusals.js';
import { counted, grouped, meaningOf } from './words.js';

const LENGTHS_ALONE = '\n      PDUs are found by their lengths alone: where an earlier one was cut, none need begin here';
const SERIAL = '\n      the bytes are a serial exchange: --exchange shows it';
const BATCH = 16384;

function shownPdu(what, header, edition, start) {
  const fields = fieldsOf(header, start), size = `${counted(header.pdu_length, 'byte')}, edition ${editionName(edition)}`, nodes = nodesOf(header);
  const lines = [`${what}${size}: ${nodes}`, ...fields.flatMap((field) => fieldLines(field.name, field.words))];
  return { lines, title: nodes[0].toUpperCase() + nodes.slice(1), under: `${what}${size}`, fields };
}
function refusedPart(number, place, before = '') {
  const lines = `${before}refused, ${number}: ${meaningOf(number)}${place.words ? `\n      found ${place.words}` : ''}`.split('\n');
  return { number, place, before, fields: place.fields, lines };
}

function tellPdu(bytes, edition) {
  const header = readPdu(bytes, edition);
  if (header.number) {
    const place = placeOf(header.number, bytes, edition);
    return [refusedPart(header.number, place.words && readExchange(bytes).number === 0 ? { ...place, words: place.words + SERIAL } : place)];
  }
  const after = bytes.length - header.pdu_length, where = `from byte ${header.pdu_length} on (--batch shows PDUs that lie back to back)`;
  const note = `${counted(after, 'byte')} after the PDU, ${where}`;
  return [shownPdu('PDU of ', header, edition, 0), ...(after ? [{ lines: [note], note: note.replace('--batch', '“Batch”') }] : [])];
}

function tellBatch(bytes, edition) {
  const { steps, refused } = walkToRead(bytes, edition), parts = [];
  if (refused) return [refusedPart(refused, { at: BATCH, words: `at byte ${BATCH}; it has ${grouped(bytes.length)} bytes`, fields: [] })];
  for (const [i, { offset, answer }] of steps.entries()) {
    const rest = bytes.subarray(offset);
    if (!answer.taken) {
      const place = placeOf(answer.delivery, rest, edition, offset);
      const words = place.words + (offset ? LENGTHS_ALONE : '');
      return [...parts, refusedPart(answer.delivery, { ...place, words }, `PDU ${i + 1}, from byte ${offset} on: `)];
    }
    parts.push(shownPdu(`PDU ${i + 1}, at byte ${offset}, of `, readPdu(rest, edition), edition, offset));
  }
  const note = `batch of ${counted(bytes.length, 'byte')}: ${counted(steps.length, 'PDU')}`;
  return [...parts, { lines: [note], note }];
}

function tellExchange(bytes, edition) {
  const x = readExchange(bytes);
  if (x.number) return [refusedPart(x.number, exchangePlace(x.number, bytes, edition))];
  const side = (name, place, length) => [name, place, bytes.slice(place, place + length)];
  const sides = [side('header', x.header_place, x.header_length), side('payload', x.payload_place, x.payload_length)];
  const where = (place, part) => (part.length ? span(place, part.length) : `empty, at byte ${place}`), note = `exchange of ${counted(bytes.length, 'byte')}`;
  const lines = [note, ...sides.flatMap(([name, place, part]) => fieldLines(name, [where(place, part), ...rowsInHex(part)]))];
  const joined = Uint8Array.of(...sides[0][2], ...sides[1][2]), part = shownPdu('PDU of ', readPdu(joined, edition), edition, 0);
  const moved = (at) => (at < x.header_length ? at + x.header_place : at - x.header_length + x.payload_place);
  for (const field of part.fields) if (field.to > field.from) [field.from, field.to] = [moved(field.from), moved(field.to - 1) + 1];
  return [{ lines, note: `${note}; ${sides.map(([name, place, content]) => `${name}: ${where(place, content)}`).join('; ')}` }, part];
}

export const tell = { pdu: tellPdu, batch: tellBatch, exchange: tellExchange };
export const textOfParts = (parts) => parts.map((part) => part.lines.join('\n') + '\n').join('');

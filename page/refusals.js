// The byte where the reading of a PDU or of an exchange was refused. That it is refused, and with which number, is the library's answer; where, is worked out
// here, in the words of ./show.
import { fieldsOf, nodesOf } from './fields.js';
import { elementAt, readPadded, readPdu } from './reading.js';
import { counted, grouped, hex2 } from './words.js';

const RUNS = [10, 11, 20], LEVELS = 4, EXCHANGE = 20, PARTS = [[1024, 'header'], [1025, 'payload']], LONGEST = 32771;
export const span = (start, length) => (length === 1 ? `byte ${start}` : `bytes ${start} to ${start + length - 1}`);

const FIRST_BYTE = {
  2: (byte) => `: its version, the highest two bits, is ${byte >> 6}`,
  3: (byte) => `: its protocol, the three bits after the highest two, is ${(byte >> 3) & 7}`,
  4: () => ': its destination bit, the lowest, is clear',
};

// { at, words, fields }: the byte, what is said of it, and the fields that are whole before it.
export function placeOf(number, bytes, edition, start = 0) {
  const end = start + bytes.length;
  if (number === 1) return { at: end, words: `at byte ${end}, where they end`, fields: [] };
  if (number === 5 || number === 6) return cutPlace(bytes, edition, start, end);
  if (FIRST_BYTE[number]) return { at: start, words: `at byte ${start}, which is ${hex2(bytes[0])}${FIRST_BYTE[number](bytes[0])}`, fields: [] };
  return { at: end, words: '', fields: [] };
}

function cutPlace(bytes, edition, start, end) {
  const whole = readPadded(bytes, edition), fields = fieldsOf(whole, start);
  const known = fields.filter((f) => f.to > f.from && f.to <= end && f.name !== 'last sender');
  const made = (words) => ({ at: end, words: `at byte ${end}, where they end: ${words}`, fields: known });
  const missing = fields.find((f) => ['destination', 'PDU ID', 'path count', 'path'].includes(f.name) && f.to > end);
  if (missing) return made(`the ${missing.name} should stand at ${span(missing.from, missing.to - missing.from)}`);
  const left = whole.pdu_length - bytes.length, lacks = `${grouped(left)} ${left === 1 ? 'is' : 'are'} missing`;
  return made(`its payload has ${counted(whole.payload_length, 'byte')}, and ${lacks}\n      its header is whole: ${nodesOf(whole)}`);
}

// ---- elements ----
// All elements of a run and those inside them, in the order in which they begin; or the first that is at fault: { place, words }.
function elementsOf(bytes, at, end, level, found) {
  const run = bytes.subarray(0, end), padded = new Uint8Array(end + LONGEST);
  padded.set(run);
  while (at < end) {
    const one = elementAt(padded, at);
    if (one.value_place > end) return { place: at, words: ': its type or its length is cut' };
    if (level > LEVELS) return { place: at, words: '' };
    if (elementAt(run, at).number) {
      const around = level === 1 ? 'bytes end' : 'element around it ends', early = `${around} ${counted(one.end - end, 'byte')} too early`;
      return { place: at, words: `: its type is ${one.type_number}, its length ${counted(one.value_length, 'byte')}, and the ${early}` };
    }
    found.push({ place: at, level, type: one.type_number, start: one.value_place, end: one.end });
    const inner = RUNS.includes(one.type_number) && elementsOf(bytes, one.value_place, one.end, level + 1, found);
    if (inner) return inner;
    at = one.end;
  }
  return null;
}

function notExchange(found) {
  const outer = found.filter((one) => one.level === 1);
  if (!outer.length) return [0, 'at byte 0: there is no element'];
  if (outer[0].type !== EXCHANGE) return [0, `at byte 0, where an element of type ${outer[0].type} begins`];
  if (outer.length > 1) return [outer[1].place, `at byte ${outer[1].place}, where another element begins`];
  for (const [type, name] of PARTS) {
    const parts = found.filter((one) => one.level === 2 && one.type === type);
    if (parts.length > 1) return [parts[1].place, `at byte ${parts[1].place}, where a second ${name} begins`];
    if (!parts.length) return [0, `at byte 0, where the exchange begins: it holds no ${name}`];
  }
  return [0, ''];
}

function notSplit(joined, header, payload, edition) {
  const read = readPdu(joined, edition), length = header.end - header.start;
  const begins = `at byte ${header.place}, where the element of the header begins`;
  if (length !== read.header_length) return [header.place, `${begins}: it has ${counted(length, 'byte')}, the header ${read.header_length}`];
  const at = payload.start + read.payload_length, there = `the element at byte ${payload.place} has ${grouped(payload.end - payload.start)}`;
  return [at, `at byte ${at}: the header says ${counted(read.payload_length, 'byte')} of payload, and ${there}`];
}

export function exchangePlace(number, bytes, edition) {
  const found = [], fault = elementsOf(bytes, 0, bytes.length, 1, found), made = ([at, words]) => ({ at, words, fields: [] });
  if (number === 57 || number === 58) return made([fault?.place ?? 0, fault ? `at byte ${fault.place}, where the element begins${fault.words}` : '']);
  if (number === 59) return made(notExchange(found));
  const [header, payload] = PARTS.map(([type]) => found.find((one) => one.level === 2 && one.type === type));
  const joined = Uint8Array.of(...bytes.subarray(header.start, header.end), ...bytes.subarray(payload.start, payload.end));
  if (number === 63) return made(notSplit(joined, header, payload, edition));
  if (FIRST_BYTE[number]) return placeOf(number, joined, edition, header.end > header.start ? header.start : payload.start);
  const begin = `their elements begin at bytes ${header.place} and ${payload.place}`;
  return { at: -1, fields: [], words: `${placeOf(number, joined, edition).words}\n      counted in header and payload put together; ${begin}` };
}

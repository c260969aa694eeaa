// A PDU that was read, every field of it in the words of ./show. Which bytes a field has is worked out here; what they say is the library's answer.
import { counted, hexOf } from './words.js';

const NAME = 21, ROW = 32, WIDE = 100; // characters of a field's name, bytes of a line in hex, characters of a line of words
export const editionName = (edition) => ({ 11: '1.1', 12: '1.2' })[edition];
const yes = (flag, words) => (flag ? (words ? `yes: ${words}` : 'yes') : 'no');
const hopWords = (h) => {
  if (h === 7) return '7: never lowered, so it sets no limit';
  return h === 0 ? '0: it is not repeated again' : `${h}: it may be repeated ${counted(h, 'more time')}`;
};

function wrapped(words) {
  const lines = [''];
  for (const word of words) {
    if (lines.at(-1) && lines.at(-1).length + 1 + word.length > WIDE) lines.push('');
    lines[lines.length - 1] += (lines.at(-1) ? ' ' : '') + word;
  }
  return lines;
}
const cut = (text, size) => text.match(new RegExp(`.{1,${size}}`, 'gs')) ?? [];
const hexRows = (bytes) => Array.from({ length: Math.ceil(bytes.length / ROW) }, (_, i) => hexOf(bytes.slice(i * ROW, (i + 1) * ROW)));

// The fields in order: { name, words: lines, from, to, group, bits }. Bytes count from `start`; a field that is not there has none.
export function fieldsOf(h, start) {
  const fields = [];
  const add = (name, words, from, length, group, bits = '') => fields.push(
    { name, words: [words].flat().map(String), from, to: from + length, group: length ? group : '', bits });
  const one = (name, words, at, group, bits) => add(name, words, start + at, 1, group, bits);
  one('version', 0, 0, 'service', '7–6');
  one('protocol', h.protocol ? '1: reliable' : '0: best efforts', 0, 'service', '5–3');
  one('time stamp request', yes(h.time_stamp_request), 0, 'service', '2');
  one('path bit', yes(h.path_bit, 'each node that repeats it adds its address'), 0, 'service', '1');
  one('destination bit', yes(h.has_destination), 0, 'service', '0');
  one('port', h.port, 1, 'port', '7–4');
  if (h.has_encrypted) one('encrypted', yes(h.encrypted), 1, 'port', '3');
  const reserved = h.has_encrypted ? h.reserved : `${h.reserved}: three bits, as edition 1.1 has no encrypted flag`;
  one('reserved', reserved, 1, 'port', h.has_encrypted ? '2–1' : '3–1');
  one('ACK', yes(h.ack, h.protocol === 1 ? 'it is an acknowledgement' : 'without a meaning, since only reliable service has it'), 1, 'port', '0');
  one('added header', yes(h.added_header, 'nodes repeat it and do not deliver it'), 2, 'length', '7');
  one('hop limit', hopWords(h.hop_limit), 2, 'length', '6–4');
  add('payload length', counted(h.payload_length, 'byte'), start + 2, 2, 'length');
  add('source', h.source, start + 4, 2, 'source');
  addressFields(h, start, add);
  payloadFields(h, start, add);
  return fields;
}

function addressFields(h, start, add) {
  let at = start + 6;
  const next = (name, words, length, group) => (add(name, words, at, length, group), (at += length));
  next('destination', h.has_destination ? h.destination : 'none: it is for everyone', h.has_destination ? 2 : 0, 'destination');
  next('PDU ID', h.protocol === 1 ? h.pdu_id : 'none: only reliable service has one', h.protocol === 1 ? 1 : 0, 'id');
  next('path count', h.path_bit ? h.path_count : 'none', h.path_bit ? 1 : 0, 'count');
  const path = !h.path_bit ? 'none: it has no path bit, so no node adds its address' : !h.path_count ? 'empty: no node has repeated it yet'
    : wrapped(h.path.map((address, i) => `${address}${i + 1 < h.path_count ? ',' : ''}`));
  next('path', path, 2 * h.path_count, 'path');
  const why = h.path_count ? 'the last of its path' : 'the source, since no node has repeated it';
  const words = h.has_last_sender ? `${h.last_sender}: ${why}` : 'unknown: it has no path';
  add('last sender', words, h.path_count ? at - 2 : start + 4, h.has_last_sender ? 2 : 0, h.path_count ? 'path' : 'source');
}

function payloadFields(h, start, add) {
  const at = start + h.header_length, isText = h.payload.length && h.payload.every((byte) => byte >= 32 && byte < 127);
  add('payload', h.payload.length ? hexRows(h.payload) : 'empty', at, h.payload.length, 'payload');
  if (isText) add('payload as text', cut(String.fromCharCode(...h.payload), WIDE), at, h.payload.length, 'payload');
}

export function nodesOf(h) {
  const to = h.has_destination ? h.destination : 'everyone', sender = h.has_last_sender ? h.last_sender : 'an unknown node';
  return `from ${h.source} to ${to}, heard from ${sender}`;
}
export const fieldLines = (name, [first, ...others]) => [`  ${name.padEnd(NAME)}${first}`, ...others.map((line) => ' '.repeat(NAME + 2) + line)];
export const rowsInHex = (bytes) => hexRows(bytes);

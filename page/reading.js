// PDUs, batches, exchanges and elements as the library reads them.
import { call } from './wasm.js';

const NO_LISTS = new Uint16Array(0), ANSWERED = 0, REFUSED = 2, PDU_LIMIT = 4615;

// The header of the PDU at the start of the bytes, with its path and its payload. A number other than 0 says why there is none.
export function readPdu(bytes, edition) {
  const header = call('mant_read', edition, bytes);
  header.path = Array.from({ length: header.path_count }, (_, place) => call('mant_path_address', bytes, place));
  header.payload = bytes.slice(header.header_length, header.pdu_length);
  return header;
}

// The same of bytes that are cut: what is there, with zeros behind it.
export function readPadded(bytes, edition) {
  const padded = new Uint8Array(bytes.length + PDU_LIMIT);
  padded.set(bytes);
  return readPdu(padded, edition);
}

export const readExchange = (bytes) => call('mant_read_exchange', bytes);
export const elementAt = (run, place) => call('mant_element_at', run, place);

// Each step of a node's walk over a batch: where the PDU begins, the answer, and the repeated PDU. { refused: 54 } where the batch is too long.
export function walk(node, lists, batch) {
  const output = new Uint8Array(PDU_LIMIT), steps = [];
  let cursor = { place: 0, ended: false };
  for (;;) {
    const { kind, answer, next } = call('mant_step', node, lists, batch, cursor, output);
    if (kind === REFUSED) return { steps, refused: answer.delivery, end: 0 };
    if (kind !== ANSWERED) return { steps, refused: 0, end: cursor.place };
    steps.push({ offset: cursor.place, answer, repeated: output.slice(0, answer.repeated_length) });
    cursor = next;
  }
}

// A node that drops nothing and repeats nothing, to find the PDUs of a batch.
const NO_CHOICE = { source_pass: 0, source_reject: 0, destination_pass: 0, destination_reject: 0 };
const observer = (edition) => ({ edition, own: 0, echo: false, repeating: false, ...NO_CHOICE });
export const walkToRead = (batch, edition) => walk(observer(edition), NO_LISTS, batch);

// Lays eight lists into a block: { block, number, list }; a number other than 0 is the first fault, and `list` says whose.
export function layLists(eight) {
  const block = new Uint16Array(1040);
  return { block, ...call('mant_lay_eight', block, ...eight) };
}
export const changeOver = (node, choice) => call('mant_change_over', node, choice);

// The proved library, compiled to WebAssembly. Nothing is decided here: values go in and come out as include/mant.h declares them. STRUCTS and FUNCTIONS are
// written by the build from that header: of each struct its size and fields with their places, of each function what it returns and takes.
const ROOM = 1 << 19; // bytes for the arguments of one call
const KINDS = { bool: 'Uint8', uint8_t: 'Uint8', uint16_t: 'Uint16', uint32_t: 'Uint32', size_t: 'Uint32', uint64_t: 'BigUint64' };
const SIZES = { bool: 1, uint8_t: 1, uint16_t: 2, uint32_t: 4, size_t: 4, uint64_t: 8 };
let lib, view, heap, end;

export const bytesOfBase64 = (text) => Uint8Array.from(atob(text.trim()), (c) => c.charCodeAt(0));

export async function openLibrary(module) {
  lib = (await WebAssembly.instantiate(module, {})).exports;
  heap = (lib.__heap_base.value + 15) & ~15;
  const missing = heap + ROOM - lib.memory.buffer.byteLength;
  if (missing > 0) lib.memory.grow(Math.ceil(missing / 65536));
  view = new DataView(lib.memory.buffer);
}

function room(bytes) {
  const at = end;
  end = (end + bytes + 7) & ~7;
  if (end > heap + ROOM) throw new RangeError('the arguments of a call have more bytes than there is room for');
  return at;
}

const getNumber = (type, at) => (type === 'bool' ? view.getUint8(at) !== 0 : view[`get${KINDS[type]}`](at, true));
const setNumber = (type, at, value) => view[`set${KINDS[type]}`](at, type === 'uint64_t' ? BigInt(value) : Number(value), true);
const getValue = (type, at) => (STRUCTS[type] ? getStruct(type, at) : getNumber(type, at));

function getStruct(type, at) {
  const made = {};
  for (const [name, kind, place, many = 0] of STRUCTS[type][1]) {
    const size = STRUCTS[kind]?.[0] ?? SIZES[kind];
    made[name] = many ? Array.from({ length: many }, (_, i) => getValue(kind, at + place + i * size)) : getValue(kind, at + place);
  }
  return made;
}

function setStruct(type, at, value) {
  for (const [name, kind, place] of STRUCTS[type][1]) {
    if (STRUCTS[kind]) setStruct(kind, at + place, value[name]);
    else setNumber(kind, at + place, value[name]);
  }
}

// Copies an array of the caller's into the library's memory. What the call left there is copied back, so that outputs and lent memory are the caller's.
function lend(array, lent) {
  const at = room(array.byteLength), inside = new Uint8Array(lib.memory.buffer, at, array.byteLength);
  const outside = new Uint8Array(array.buffer, array.byteOffset, array.byteLength);
  inside.set(outside);
  lent.push(() => outside.set(inside));
  return at;
}

// Calls a function of the header. A slice is given as one typed array, a struct as an object. What it returns is a number, a flag or an object.
export function call(name, ...values) {
  const [answers, parameters] = FUNCTIONS[name], words = [], lent = [];
  end = heap;
  const result = STRUCTS[answers] ? room(STRUCTS[answers][0]) : 0;
  if (result) words.push(result);
  parameters.forEach(([type, kind], i) => {
    const value = values[i];
    if (kind === 'slice') words.push(lend(value, lent), value.length);
    else if (kind === 'array') words.push(lend(value, lent));
    else if (kind === 'struct') {
      const at = room(STRUCTS[type][0]);
      setStruct(type, at, value);
      words.push(at);
    } else words.push(type === 'uint64_t' ? BigInt(value) : Number(value));
  });
  const returned = lib[name](...words);
  for (const back of lent) back();
  if (result) return getStruct(answers, result);
  return answers === 'bool' ? (returned & 1) !== 0 : answers === 'uint8_t' ? returned & 0xff : answers === 'uint16_t' ? returned & 0xffff : returned;
}

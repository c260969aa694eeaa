// libmant.wasm from JavaScript alone: it needs no import and exports the header's functions; document 002's example is read, repeated and bounded.
import assert from 'node:assert';
import fs from 'node:fs';
const folder = process.argv[2];
const module = new WebAssembly.Module(fs.readFileSync(`${folder}/libmant.wasm`));
const { structs, functions } = JSON.parse(fs.readFileSync(`${folder}/libmant.json`, 'utf8'));
assert.deepEqual(WebAssembly.Module.imports(module), []);
const exported = WebAssembly.Module.exports(module).map(({ name }) => name).sort();
assert.deepEqual(exported, [...Object.keys(functions), 'memory', '__heap_base'].sort());
const { exports } = new WebAssembly.Instance(module);
const sizes = { bool: 1, uint8_t: 1, uint16_t: 2, uint32_t: 4, size_t: 4, uint64_t: 8 };
let free = exports.__heap_base.value;

function room(bytes) {
    const place = (free + 7) & ~7;
    free = place + bytes;
    if (free > exports.memory.buffer.byteLength) {
        exports.memory.grow(Math.ceil((free - exports.memory.buffer.byteLength) / 65536));
    }
    return place;
}

// A struct of the header in memory, with the fields that are given; and one that is read from there.
function write(kind, fields = {}) {
    const place = room(structs[kind].size), view = new DataView(exports.memory.buffer);
    for (const [name, value] of Object.entries(fields)) {
        const [offset, type] = structs[kind].fields[name];
        const bits = sizes[type] * 8;
        bits === 64 ? view.setBigUint64(place + offset, BigInt(value), true) : view[`setUint${bits}`](place + offset, Number(value), true);
    }
    return place;
}

function read(kind, place) {
    const view = new DataView(exports.memory.buffer), found = {};
    for (const [name, [offset, type, times]] of Object.entries(structs[kind].fields)) {
        if (times === undefined && type in sizes) {
            const bits = sizes[type] * 8;
            found[name] = bits === 64 ? view.getBigUint64(place + offset, true) : view[`getUint${bits}`](place + offset, true);
        }
    }
    return found;
}

// A struct that is returned is written where the first argument points; a struct that is passed is passed by its address.
function called(name, ...given) {
    const kind = functions[name].returns, place = kind in structs ? room(structs[kind].size) : undefined;
    const result = place === undefined ? exports[name](...given) : exports[name](place, ...given);
    return place === undefined ? result : read(kind, place);
}

const bytes = Buffer.from('0300100B03E80640007001081212032413220276', 'hex');
const pdu = room(bytes.length), output = room(bytes.length + 2);
new Uint8Array(exports.memory.buffer).set(bytes, pdu);
const header = called('mant_read', 12n, pdu, bytes.length);
assert.equal(header.number, 0);
assert.equal(header.source, 1000);
assert.equal(header.destination, 1600);
assert.equal(header.pdu_length, bytes.length);
const node = write('MantNode', { edition: 12, own: 2000, echo: 1, repeating: 1 });
const answer = called('mant_hear', node, 0, 0, pdu, bytes.length, output, bytes.length + 2);
assert.equal(answer.repeat, 0);
assert.equal(answer.repeated_length, bytes.length + 2);
assert.equal(called('mant_limits').pdu, 4615);

// The bounds, against JavaScript's own numbers without a limit: products of 64 bits are made by a function that only libmant.wasm has. So there are also sizes
// whose product with the nodes is just below 64 bits and just above.
const most = 2n ** 64n - 1n, start = free, small = Array.from({ length: 41 }, (_, nodes) => BigInt(nodes));
const large = [2n ** 31n + 1n, 2n ** 32n - 1n, 2n ** 32n, 2n ** 32n + 1n, 2n ** 33n + 5n, 2n ** 63n, most];
let bounds = 0;

function compare(nodes, hops, size) {
    let times = 0n, bytes = 0n;
    for (let hop = 0n, ways = 1n; hop <= (hops === 7n || hops > nodes ? nodes : hops); ways *= nodes - hop, hop++) {
        times += ways;
        bytes += ways * (size + 2n * hop);
    }
    for (const [name, bound, given] of [['mant_most_transmissions', times, [nodes, hops]], ['mant_most_bytes', bytes, [nodes, hops, size]]]) {
        free = start;
        const found = called(name, ...given);
        assert.deepEqual([found.number, found.too_large, found.value], bound > most ? [0, 1, 0n] : [0, 0, bound], `${name} ${given}`);
        bounds++;
    }
}

for (const nodes of [...small, ...large]) {
    const about = nodes === 0n ? 0n : most / nodes, near = [about - 3n, about - 2n, about - 1n, about, about + 1n];
    for (let hops = 0n; hops <= (nodes > 40n ? 3n : 7n); hops++) {
        for (const size of [0n, 1n, 20n, 4615n, ...large, ...near].filter((size) => size >= 0n && size <= most)) {
            compare(nodes, hops, size);
        }
    }
}
console.log(`${Object.keys(functions).length} functions exported to JavaScript, no import, ${bounds} bounds`);

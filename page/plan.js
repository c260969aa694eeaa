// What the library answers about a network: { pairs, marks }, both as bytes. Pairs are places, a sender's and then that of a node that hears it; a mark
// other than 0 says that a node does not repeat. Every answer here is a proved function's.
import { call } from './wasm.js';

export const NO_CHAIN = 255;
export const NO_HOP_LIMIT = 8;
export const HOP_LIMITS = [0, 1, 2, 3, 4, 5, 6, 7];
const NO_FAILURE = 255, ROW = 256, UNBOUNDED = 2n ** 64n - 1n;
let table = new Uint8Array(0), leastOf = null;

// How many hearings the shortest chain from a place to each node has; 255 where there is none. `failed` is the place of a node that is out of order.
export function chainLengths(net, from, failed = NO_FAILURE) {
  const lengths = new Uint8Array(net.marks.length);
  if (!call('mant_chain_lengths', net.pairs, net.marks, from, failed, lengths)) throw new RangeError('this network is not served');
  return lengths;
}

// The least hop limit that reaches all nodes of these lengths; 8 where none does.
export const leastHopLimit = (lengths) => call('mant_least_hop_limit', lengths);

// Whether a report with a hop limit is delivered to a node of this length: whether the least hop limit that reaches it is not greater.
export function isDelivered(hop, length) {
  leastOf ??= Array.from({ length: 256 }, (_, each) => leastHopLimit(Uint8Array.of(each)));
  return length !== 0 && leastOf[length] <= hop;
}
export const reached = (hop, lengths) => lengths.reduce((sum, length) => sum + (isDelivered(hop, length) ? 1 : 0), 0);

function counted(net, name, from, hop, more) {
  const nodes = net.marks.length, counts = new BigUint64Array(nodes);
  if (table.length !== nodes * ROW) table = new Uint8Array(nodes * ROW);
  const found = call(name, net.pairs, from, hop, ...more, net.marks.slice(), counts, table);
  if (found.number || !found.served) throw new RangeError('this network is not served');
  return { enough: found.enough, value: found.enough ? null : Number(found.value), counts: found.enough ? null : counts };
}
// How often one report goes out, and how often each node sends it; or that it is at least `enough`, where counting stopped.
export const transmissions = (net, from, hop, enough) => counted(net, 'mant_network_transmissions', from, hop, [enough]);
// The same in bytes, for a fresh report of this size.
export const networkBytes = (net, from, hop, size) => counted(net, 'mant_network_bytes', from, hop, [size, UNBOUNDED]);

// In the worst network of so many repeaters: a BigInt, or null where 64 bits do not hold it.
const bound = (found) => (found.too_large ? null : found.value);
export const mostTransmissions = (repeaters, hop) => bound(call('mant_most_transmissions', repeaters, hop));
export const mostBytes = (repeaters, hop, size) => bound(call('mant_most_bytes', repeaters, hop, size));
// The most transmissions of one command and its acknowledgements in the worst network; null where 64 bits do not hold it.
export const mostForCommand = (tries, repeaters, hop, back) => bound(call('mant_most_for_command', tries, repeaters, hop, repeaters, back));
// The same from the counts of one sending and of one acknowledgement on a network that is known (`command-heard` in crate `planning_one_command`): arithmetic.
export const commandTotal = (tries, command, acknowledgement) => (BigInt(tries) + 1n) * BigInt(command) * (1n + BigInt(acknowledgement));

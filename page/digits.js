// Hex digits in a text, in the forms that ./show takes: white space, `:`, `,`, `-` and `0x` between bytes and comments after `#` are passed over. A date, a
// time or an offset at a line's start, as in a console's log, is refused, since it has the look of bytes.
const BETWEEN = /[:,-]|(?<![0-9A-Za-z])0[xX](?=[0-9A-Fa-f])/g;
const MARK = /^\s*(?:(?<date>[0-9]{4}-[0-9]{2}-[0-9]{2})|(?<time>[0-9]{2}:[0-9]{2}:[0-9]{2})|(?<offset>[0-9A-Fa-f]{4,}:))\s+[0-9A-Fa-f]/;

export class NotHex extends Error {}

function wordsOf(text) {
  const words = [];
  text.split(/\r\n|\r|\n/).forEach((whole, at) => {
    let line = whole.split('#')[0];
    const mark = line.match(MARK);
    if (mark) {
      const [kind, found] = Object.entries(mark.groups).find(([, value]) => value);
      throw new NotHex(`line ${at + 1}: ${found} looks like the ${kind} of what follows, not like bytes; take it away`);
    }
    line = line.replace(BETWEEN, (found) => ' '.repeat(found.length));
    const other = line.match(/[^0-9A-Fa-f\s]/u);
    if (other) throw new NotHex(`line ${at + 1}, character ${other.index + 1}: '${other[0]}' is not a hex digit`);
    for (const word of line.split(/\s+/).filter(Boolean)) words.push([at + 1, word]);
  });
  return words;
}

// Whether the first word of each line, of some, says how many bytes stand before it, as in a dump of bytes.
function areOffsets(words, base) {
  const lines = new Map();
  for (const [number, word] of words) lines.set(number, [...(lines.get(number) ?? []), word]);
  let before = 0;
  for (const [first, ...others] of lines.values()) {
    const isNumber = [...first.toLowerCase()].every((digit) => parseInt(digit, 16) < base);
    if (first.length < 4 || first.length > 8 || !isNumber || parseInt(first, base) !== before) return false;
    before += Math.floor(others.join('').length / 2);
  }
  return lines.size > 1 && before > 0;
}

// The bytes of a text. A digit alone among words can be a byte without its 0 as well as half of one, and is refused.
export function bytesOf(text) {
  const words = wordsOf(text), digits = words.map(([, word]) => word).join('');
  const alone = words.length > 1 && words.find(([, word]) => word.length === 1);
  if (alone) throw new NotHex(`line ${alone[0]}: the digit ${alone[1]} stands alone; a byte has two, as 0${alone[1]}`);
  if ([16, 10, 8].some((base) => areOffsets(words, base))) {
    throw new NotHex(`line ${words[0][0]}: ${words[0][1]} and the first word of each other line look like offsets, not like bytes; take them away`);
  }
  if (digits.length % 2) {
    const odd = words.map(([line]) => line).find((line) => words.filter(([number]) => number === line).reduce((sum, [, word]) => sum + word.length, 0) % 2);
    throw new NotHex(`${digits.length} hex digit${digits.length === 1 ? '' : 's'}; a byte has two, and line ${odd} has an odd number`);
  }
  return Uint8Array.from(digits.match(/../g) ?? [], (byte) => parseInt(byte, 16));
}

// Numbers and lists in words, as they are shown everywhere on the page. MEANINGS is written by the build from docs/NUMBERS.md.
const digits = new Intl.NumberFormat('en');
export const grouped = (n) => (n < 1000 ? String(n) : digits.format(n));
export const counted = (n, what) => `${grouped(n)} ${what}${Number(n) === 1 ? '' : 's'}`;
export const listed = (all, most = 8) => all.slice(0, most).join(', ') + (all.length > most ? ` and ${grouped(all.length - most)} more` : '');
export const meaningOf = (number) => MEANINGS[number] ?? 'no such number';
export const hex2 = (byte) => byte.toString(16).padStart(2, '0').toUpperCase();
export const hexOf = (bytes, between = ' ') => [...bytes].map(hex2).join(between);
export const named = (node) => (node.name ? `${node.address} ${node.name}` : String(node.address));

const POWERS = '⁰¹²³⁴⁵⁶⁷⁸⁹';
// A bound that can be too long to read is shown short; its title has every digit.
export function shortened(value) {
  if (value === null) return { short: '> 1.8 × 10¹⁹', whole: 'more than 18,446,744,073,709,551,615, which is as far as is counted' };
  const whole = grouped(value);
  if (value <= 9_999_999_999n) return { short: whole, whole };
  const [digits, power] = Number(value).toExponential(1).split('e+');
  return { short: `≈ ${digits} × 10${[...power].map((d) => POWERS[d]).join('')}`, whole };
}

export function seconds(s) {
  if (!Number.isFinite(s)) return '–';
  if (s < 600) return `${s.toLocaleString('en', { maximumFractionDigits: s < 10 ? 2 : s < 100 ? 1 : 0 })} s`;
  const units = [[86400 * 365, 'year'], [86400, 'day'], [3600, 'hour'], [60, 'minute']];
  const [size, unit] = units.find(([least]) => s >= 2 * least) ?? units[3];
  return `${counted(Math.round(s), 'second')}, about ${counted(Math.round(s / size), unit)}`;
}

// Rows of values as CSV, with CR LF as spreadsheets want it.
const quoted = (value) => (/[",\r\n]/.test(value) ? `"${String(value).replaceAll('"', '""')}"` : value);
export const csvOf = (rows) => rows.map((row) => `${row.map(quoted).join(',')}\r\n`).join('');

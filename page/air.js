// Seconds on the air, which are arithmetic on proved counts, and what one command costs.
import { QUICK, given, repeatersOf, sentWords } from './answers.js';
import { $, html, numberIn, offer } from './dom.js';
import { HOP_LIMITS, commandTotal, mostForCommand, transmissions } from './plan.js';
import { state } from './state.js';
import { counted, grouped, seconds, shortened } from './words.js';

const rowsOf = (rows) => rows.flatMap(([words, value, title]) => [html('dt', {}, words), html('dd', { title }, value)]);

export function showTime() {
  const { answers } = state, rate = numberIn('rate'), slot = numberIn('slot'), sent = answers.sent.value, bytes = answers.bytes?.value;
  const worst = shortened(answers.worstBytes);
  const rows = [['Bytes, this network', answers.bytes ? grouped(bytes) : `${sentWords(answers)} sendings`], ['Bytes, worst network', worst.short, worst.whole]];
  if (answers.bytes) rows.push([`${grouped(bytes)} × 8 / ${grouped(rate)}`, seconds((bytes * 8) / rate)]);
  if (answers.bytes) rows.push([`${counted(sent, 'slot')} of ${grouped(slot)} s`, seconds(sent * slot)]);
  $('air').replaceChildren(...rowsOf(rows));
}

// A message to a node: the node itself does not repeat it, nor does the one that sent it.
const carried = (net, from, to, hop) => {
  const { pairs, marks } = given(net), own = marks.slice();
  own[to] = 1;
  return transmissions({ pairs, marks: own }, from, hop, QUICK).value;
};

export function showCommand() {
  const { net } = state, select = $('command-to'), others = net.nodes.slice(1), wanted = select.value;
  const bases = others.filter((node) => !node.repeats), chosen = others.find((node) => String(node.address) === wanted) ?? bases[0] ?? others[0];
  offer(select, others, chosen?.address);
  $('command').hidden = !chosen;
  if (chosen) showCost(net.place.get(chosen.address));
}
function showCost(to) {
  const { net } = state, tries = numberIn('tries'), back = Number($('back').value);
  const there = carried(net, 0, to, net.hop), answer = carried(net, to, 0, back), isKnown = there !== null && answer !== null;
  const here = isKnown ? shortened(commandTotal(tries, there, answer)) : { short: `more than ${grouped(QUICK)}`, whole: null };
  const worst = shortened(mostForCommand(tries, repeatersOf(net, 0, to), net.hop, back));
  const count = (value) => (value === null ? `≥ ${grouped(QUICK)}` : grouped(value));
  $('command-cost').replaceChildren(...rowsOf([
    [`Transmissions, this network${isKnown ? ', at most' : ''}`, html('b', {}, here.short), here.whole], ['in the worst network', worst.short, worst.whole],
    ['of one sending of the command', count(there)], ['of one acknowledgement', count(answer)]]));
  $('command-formula').textContent = `${counted(tries + 1, 'sending')} × ${count(there)} × (1 + ${count(answer)})`;
}

export function startAir() {
  for (const id of ['rate', 'slot']) $(id).addEventListener('input', showTime);
  $('back').replaceChildren(...HOP_LIMITS.map((hop) => html('option', { value: hop, selected: hop === 2 }, String(hop))));
  for (const id of ['tries', 'back', 'command-to']) $(id).addEventListener('input', showCommand);
}

"""What the page shows, taken from its document, for tests/run_page."""

# Sets the text, then fields by name if they are given, each as a user does, who turns to it first. Waits until nothing is worked on, and says all that is
# answered about the network.
NETWORK = """
const [text, given, done] = arguments.length === 3 ? arguments : [arguments[0], {}, arguments[1]];
const $ = (id) => document.getElementById(id);
const put = (id, value) => ($(id).dispatchEvent(new Event('focus')), ($(id).value = value), $(id).dispatchEvent(new Event('input')));
put('source', text);
for (const [id, value] of Object.entries(given)) put(id, value);
const cells = (rows) => [...rows].map((row) => [...row.cells].map((cell) => (/^[\\d,]+$/.test(cell.title) ? cell.title : cell.textContent)));
const pairs = (id) => [...$(id).querySelectorAll('dd')].map((dd) => dd.title || dd.textContent);
const texts = (id) => [...$(id).children].map((line) => line.textContent);
const drawn = (node) => [node.dataset.node, ['originator', 'delivered', 'missed', 'unlinked'].find((kind) => node.classList.contains(kind)),
  node.querySelector('.under').textContent, node.querySelector('circle, rect').tagName, node.getAttribute('aria-label')];
const linked = (grip) => [...grip.dataset.pair.split(' ').map(Number).sort((a, b) => a - b), grip.parentNode.querySelector('.link').classList.contains('step')];
const look = () => {
  if (document.documentElement.dataset.busy !== '' || document.documentElement.dataset.filling !== '') return setTimeout(look, 2);
  const isCommand = !$('command').hidden;
  done({ headline: texts('headline'), figures: [...document.querySelectorAll('#figures b')].map((b) => b.title || b.textContent),
    nodes: cells($('nodes-table').tBodies[0].rows), hops: cells($('hops-table').tBodies[0].rows), everyone: cells($('everyone').tBodies[0].rows),
    failures: texts('failures'), air: pairs('air'), command: isCommand ? pairs('command-cost') : null,
    formula: isCommand ? $('command-formula').textContent : '', fault: $('fault').textContent,
    drawn: [...document.querySelectorAll('[data-node]')].map(drawn),
    links: [...document.querySelectorAll('[data-pair]')].map(linked).sort((p, q) => p[0] - q[0] || p[1] - q[1]) });
};
look();
"""

# What is shown of bytes, part by part: a PDU with its title and its fields, a refusal, or a note.
PDU = """
const [kind, edition, list] = arguments, $ = (id) => document.getElementById(id), hex = $('hex');
document.querySelector(`[data-kind=${kind}]`).click();
document.querySelector(`[data-edition="${edition}"]`).click();
const text = (part, css) => part.querySelector(css)?.textContent ?? null;
const partOf = (part) => ({ title: text(part, 'h3'), under: text(part, 'h3 + p'), refused: text(part, '.refused b'),
  note: part.tagName === 'P' ? part.textContent : null,
  fields: [...part.querySelectorAll('tr')].map((row) => [1, 2, 3].map((at) => row.cells[at].textContent)) });
return list.map((text) => {
  hex.value = text;
  hex.dispatchEvent(new Event('input'));
  return { fault: $('hex-fault').textContent, parts: [...$('pdus').children].map(partOf) };
});
"""

# What the button beside an element would copy.
COPIED = """
const [id, done] = arguments;
const write = (text) => done(text);
Object.defineProperty(navigator, 'clipboard', { value: { writeText: async (text) => write(text) }, configurable: true });
document.getElementById(id).click();
"""

# Settings, lists and a batch as typed into the box; the lines that it prints and the rows of its table.
BOX = """
const { edition = 12, ...given } = arguments[0], $ = (id) => document.getElementById(id);
document.querySelector(`[data-box-edition="${edition}"]`).click();
for (const [id, value] of Object.entries(given)) {
  if (typeof value === 'boolean') $(id).checked = value;
  else $(id).value = value;
}
$('batch').dispatchEvent(new Event('input', { bubbles: true }));
return { lines: $('relay-lines').textContent, fault: $('box-fault').textContent, headline: $('box-headline').textContent,
  rows: [...$('walk').tBodies[0].rows].map((row) => [...row.cells].map((cell) => cell.textContent)) };
"""

"""How the page looks and is read: both themes, two widths, names for screen readers, contrast, no request, and without WebAssembly one sentence."""
import re

from drive import Browser

WIDTHS, HEIGHTS = (1440, 390), {1440: 1100, 390: 844}
PARTS = ('network', 'pdu', 'box')
PAIRS = (('ink', 'panel'), ('ink', 'page'), ('dim', 'panel'), ('dim', 'page'), ('dim', 'soft'), ('accent', 'panel'), ('accent', 'accent-soft'),
         ('warn', 'panel'), ('on-reached', 'reached'),
         *(('ink', f'f-{field}') for field in ('service', 'port', 'length', 'source', 'destination', 'id', 'count', 'path', 'payload')))
LINES = tuple((line, 'panel') for line in ('link', 'step', 'reached', 'warn', 'focus', 'accent'))
LEAST = {PAIRS: 4.5, LINES: 3}  # WCAG 2.1, AA: for text, and for lines and shapes
NAMELESS = """
const seen = (e) => e.offsetParent !== null || e.getClientRects().length;
const labelled = (e) => (e.getAttribute('aria-labelledby') ?? '').split(' ').some((id) => document.getElementById(id)?.textContent);
const named = (e) => e.textContent.trim() || e.getAttribute('aria-label') || e.title || e.labels?.length || labelled(e);
const controls = [...document.querySelectorAll('button, input, select, textarea, [tabindex="0"], [role=tab], [role=radio]')];
return controls.filter((e) => seen(e) && !named(e)).map((e) => e.outerHTML);
"""
WIDER = """return document.documentElement.scrollWidth > innerWidth ||
    [...document.querySelectorAll('main:not([hidden]) .panel')].some((panel) => panel.scrollWidth > panel.clientWidth + 1)"""


def brightness(colour):
    digits = colour.strip().lstrip('#')
    digits = ''.join(digit * 2 for digit in digits) if len(digits) == 3 else digits
    parts = [int(digits[at:at + 2], 16) / 255 for at in (0, 2, 4)]
    return sum(share * (part / 12.92 if part <= 0.04045 else ((part + 0.055) / 1.055) ** 2.4) for share, part in zip((0.2126, 0.7152, 0.0722), parts))


def contrast(first, second):
    low, high = sorted(map(brightness, (first, second)))
    return (high + 0.05) / (low + 0.05)


def seen(tally, b, page, folder):
    """Every part in both themes and both widths, as the page opens; the screenshots lie in a folder."""
    b.open(page)
    b.until("return document.documentElement.dataset.busy === ''", 'the page does not end its work')
    for dark in (False, True):
        for width in WIDTHS:
            b.look(width, HEIGHTS[width], dark)
            b.until(f"return document.documentElement.dataset.theme === '{'dark' if dark else 'light'}'", 'the theme does not follow the system')
            for part in PARTS:
                b.run("document.getElementById(`tab-${arguments[0]}`).click(); scrollTo(0, 0)", part)
                what = f'{part}, {width} wide, {"dark" if dark else "light"}'
                tally.same(f'{what}: nothing is wider than its room', b.run(WIDER), False)
                tally.same(f'{what}: every control has a name', b.run(NAMELESS), [])
                b.screenshot(folder / f'{part}-{width}-{"dark" if dark else "light"}.png')
        for pairs, least in LEAST.items():
            for pair in pairs:
                colours = b.run("return arguments[0].map((name) => getComputedStyle(document.documentElement).getPropertyValue(`--${name}`))", pair)
                tally.same(f'{" on ".join(pair)}, {"dark" if dark else "light"}: contrast', contrast(*colours) >= least, True)
    b.look(1440, 900, False)
    b.run("document.getElementById('tab-network').click()")
    chosen = [b.run("document.getElementById('theme').click(); return document.documentElement.dataset.theme") for _ in range(3)]
    tally.same('the theme by its button', chosen, ['light', 'dark', 'light'])


def hovering(tally, b):
    """A field and its bytes show each other."""
    b.run("document.getElementById('tab-pdu').click(); document.querySelector('[data-kind=pdu]').click(); document.getElementById('pdu-example').click()")
    over = "document.querySelector(arguments[0]).dispatchEvent(new PointerEvent('pointerenter'))"
    b.run("[...document.querySelectorAll('#pdus tr')].find((row) => row.cells[1].textContent === 'source').setAttribute('data-mine', '')")
    b.run(over, '[data-mine]')
    tally.same('a field shows its bytes', b.run("return [...document.querySelectorAll('.bytes .hot')].map((cell) => cell.dataset.at)"), ['4', '5'])
    b.run(over, '[data-at="8"]')
    tally.same('a byte shows its fields', b.run("return [...document.querySelectorAll('#pdus tr.hot')].map((row) => row.cells[1].textContent)"), ['path count'])
    coloured = b.run("return [...document.querySelectorAll('.bytes span')].map((cell) => cell.className.split(' ')[0])")
    tally.same('bytes are coloured by field', coloured[:11], 'service port length length source source destination destination count path path'.split())
    b.run("document.getElementById('tab-network').click()")


def alone(tally, page):
    """Without WebAssembly there is one sentence, and nothing else."""
    with Browser(900, 700, before='delete globalThis.WebAssembly') as b:
        b.open(page, "return !document.getElementById('unable').hidden")
        shown = b.run("return [...document.querySelectorAll('main, #unable')].filter((e) => e.offsetHeight).map((e) => e.textContent)")
        tally.same('without WebAssembly', (len(shown), 'does not run WebAssembly' in shown[0], len(re.findall(r'[.;]', shown[0]))), (1, True, 2))


def without_worker(tally, page, asked):
    """Where a browser has no Worker for a file, the page does all work itself."""
    with Browser(1440, 900, before='delete globalThis.Worker') as b:
        b.open(page)
        asked(tally, b)


def quiet(tally, b):
    """Nothing was asked for but the page itself and what it saved, and nothing was said on the console."""
    others = [address[:80] for address in b.requests() if not address.startswith(('file:', 'blob:', 'chrome:', 'data:'))]
    tally.same('no request leaves the page', others, [])
    tally.same('no message on the console', [entry['message'] for entry in b.log()], [])
    refused = b.wait("const done = arguments[0]; fetch('https://example.org/').then(() => done('taken'), () => done('refused'))")
    tally.same('and none could', refused, 'refused')

"""255 nodes: how long the page takes to answer and draw, when it fills choices of nodes, and what it does with counts that take long."""
import math
import re
import time

import facts

GAP, STRAINED = 84, 0.03  # how long one hearing is drawn; how far distances are off in a grid that is drawn well, squared and in the mean
LIMIT = 100  # milliseconds of the processor from a change to its answers and drawing
LEAST, MOST = 2, 30  # tries: a machine that is busy with other things is slower for a while
WORK = ('ScriptDuration', 'LayoutDuration', 'RecalcStyleDuration')
TIMED = """const s = document.getElementById('source'); s.value = arguments[0]; const t = performance.now(); s.dispatchEvent(new Event('input'));
document.body.getBoundingClientRect(); return performance.now() - t"""
# Types texts one after another, turns to the two choices of nodes if that is wanted, and says which node each has chosen and which nodes it has.
TYPED = """const source = document.getElementById('source'), choices = ['originator', 'command-to'].map((id) => document.getElementById(id));
for (const text of arguments[0]) (source.value = text), source.dispatchEvent(new Event('input'));
if (arguments[1]) for (const one of choices) one.dispatchEvent(new Event(arguments[1]));
return choices.map((one) => [Number(one.value), [...one.options].map((option) => Number(option.value))])"""
CHOSEN = "const one = document.getElementById('command-to'); one.value = arguments[0]; one.dispatchEvent(new Event('input'))"
FOCUSED = "document.getElementById('originator')[arguments[0]]()"
PAUSE = 0.3  # seconds after which a choice is filled


def grid(hop, wide=15, high=17):
    lines = [str(hop)]
    for y in range(high):
        for x in range(wide):
            near = [100 + (y + j) * wide + x + i for j in (-1, 0, 1) for i in (-1, 0, 1) if (i or j) and 0 <= x + i < wide and 0 <= y + j < high]
            lines.append(f'{100 + y * wide + x}: ' + ' '.join(map(str, near)))
    return '\n'.join(lines)


def chain(hop, nodes=255):
    return f'{hop}\n' + '\n'.join(f'{i}: {i - 1} {i + 1}' for i in range(2, nodes))


def crowd(hop):
    return f'{hop}\n' + '\n'.join(f'{i}: ' + ' '.join(str(j) for j in range(1, 256) if j != i and (i * 31 + j * 17) % 4 == 0) for i in range(1, 256))


def worked(b):
    """How long the page's thread has worked, in milliseconds of the processor, so that a busy machine does not count."""
    return sum(one['value'] for one in b.cdp('Performance.getMetrics')['metrics'] if one['name'] in WORK) * 1000


def timed(tally, b):
    """The best of two, and of more as long as none is in time; each network is new to the page each time."""
    b.cdp('Performance.enable', timeDomain='threadTicks')
    for name, text in (('a grid, hop limit 2', grid(2)), ('a grid, hop limit 6', grid(6)), ('a chain, hop limit 7', chain(7)), ('16,000 hearings', crowd(6))):
        spent, seen = [], []
        while len(spent) < LEAST or (min(spent) >= LIMIT and len(spent) < MOST):
            b.wait(facts.NETWORK, '1\n1: 2')
            before = worked(b)
            seen.append(b.run(TIMED, text))
            spent.append(worked(b) - before)
        print(f'page: 255 nodes, {name}: {min(seen):.0f} ms with the first drawing, {min(spent):.0f} ms of the processor, the best of {len(spent)}')
        tally.same(f'{name}: answered in time', min(spent) < LIMIT, True)
    b.cdp('Performance.disable')


def untwisted(tally, b):
    """Grids are drawn as grids, not folded: the distance of two nodes is near their hearings."""
    for wide, high in ((15, 17), (14, 14), (5, 5)):
        b.wait(facts.NETWORK, '1\n1: 2')  # else the drawing goes on from where the nodes of the last grid were
        b.wait(facts.NETWORK, grid(2, wide, high))
        places = b.run("return [...document.querySelectorAll('[data-node]')].map((node) => [Number(node.dataset.node) - 100, node.getAttribute('transform')])")
        at = {number: [float(word) for word in re.findall(r'-?[\d.]+', where)[:2]] for number, where in places}
        pairs = [(math.dist(at[a], at[b]) / GAP, max(abs(a % wide - b % wide), abs(a // wide - b // wide))) for a in at for b in at if a < b]
        tally.same(f'a grid of {wide} by {high}, drawn', sum((far / hearings - 1) ** 2 for far, hearings in pairs) / len(pairs) < STRAINED, True)


def deep(tally, b):
    """The deepest count, along a chain of 255 nodes; its answer is known."""
    found = b.wait(facts.NETWORK, chain(7))
    tally.same('a chain of 255 nodes', (found['figures'][0], found['headline'][0]), ('255', 'All 254 others hear a report from 2.'))


def choices(tally, b):
    """A choice of many nodes has the chosen one alone while texts are typed, and all of them at a pause or when one turns to it."""
    def typed(what, texts, wanted, turned=''):
        tally.same(f'choices of nodes: {what}', b.run(TYPED, texts, turned), wanted)

    def paused(what, wanted):
        b.until("return document.documentElement.dataset.filling === ''", 'a choice of nodes is not filled')
        time.sleep(PAUSE)
        typed(f'{what}, at a pause', [], wanted)

    few, many, others = '1\n1: 2', [*range(1, 256)], [1, *range(3, 256)]
    b.wait(facts.NETWORK, few)
    typed('many', [chain(7)], [[2, [2]], [1, [1]]])
    paused('many', [[2, many], [1, others]])
    for turned in ('focus', 'pointerenter'):
        typed(f'many, {turned}', [few, chain(7)], [[2, many], [1, others]], turned)
    typed('few after many', [chain(6, 254), few], [[1, [1, 2]], [2, [2]]])
    paused('few after many', [[1, [1, 2]], [2, [2]]])
    typed('many after many', [chain(6, 254), chain(6, 200)], [[2, [2]], [1, [1]]])
    paused('many after many', [[2, many[:200]], [1, others[:199]]])
    typed('another originator', [chain(7), chain(7).replace('\n', '\n9:\n', 1)], [[9, [9]], [1, [1]]])
    paused('another originator', [[9, many], [1, [2, 1, *range(3, 9), *range(10, 256)]]])
    b.wait(facts.NETWORK, chain(7))
    b.run(CHOSEN, 100)
    typed('the chosen one, in the same nodes', [chain(6)], [[2, many], [100, others]], 'focus')
    typed('the chosen one, in fewer', [chain(6, 200)], [[2, [2]], [100, [100]]])
    paused('the chosen one', [[2, many[:200]], [100, others[:199]]])
    b.run(FOCUSED, 'focus')
    typed('the one that has the focus', [chain(6)], [[2, many], [100, [100]]])
    b.run(FOCUSED, 'blur')


def long_count(tally, b):
    """A count that does not end soon goes on beside the page, says how far it is, and can be stopped."""
    b.run(TIMED, grid(7))
    b.until("return document.getElementById('stop-count') && document.querySelector('#figures b').textContent !== '≥ 100,000'", 'a long count does not go on')
    b.run("document.getElementById('stop-count').click()")
    shown = b.run("return document.getElementById('figures').textContent")
    tally.same('stopped', ('the count was stopped there' in shown, '≥' in shown), (True, True))
    b.until("return !document.getElementById('stop-originators').hidden", 'the table of originators says nothing of its progress')
    b.run("document.getElementById('stop-originators').click()")
    tally.same('the table, stopped', b.run("return document.getElementById('working').textContent"), 'stopped')
    tally.same('the page answers on', b.wait(facts.NETWORK, '1\n1: 2\n2: 3')['figures'][0], '2')
    b.run(TIMED, grid(4))
    b.until("return /^[\\d,]+$/.test(document.querySelector('#figures b').textContent)", 'a longer count does not end', 40)
    tally.same('a longer count ends', int(b.run("return document.querySelector('#figures b').textContent").replace(',', '')) > 100, True)

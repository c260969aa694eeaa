"""The page as a person uses it: typing, dragging, keys, opening, saving, dropping, undoing, wrong input."""
import json
import pathlib
import re
import time

from drive import CONTROL, DELETE, DOWN, ENTER, ESCAPE, RIGHT, SHIFT
import facts
from trying import TOP

EXAMPLE = TOP / 'examples/network.txt'
TEXT = "return document.getElementById('source').value"
SET = "const s = document.getElementById('source'); s.value = arguments[0]; s.dispatchEvent(new Event('input'));"
PLACE = "return document.querySelector(`[data-node=\"${arguments[0]}\"]`).getAttribute('transform')"
STILL = 0.1  # seconds that a browser takes to lay the page out anew


SHOWN = """return [document.getElementById('fault').textContent, document.querySelector('#gutter .bad')?.textContent,
    [...document.querySelectorAll('#nodes-table tbody tr')].map((row) => [...row.cells].map((cell) => cell.textContent)),
    document.getElementById('source').getAttribute('aria-invalid')]"""
STANDING = "return [...document.querySelectorAll('[data-node]')].map((node) => [node.dataset.node, node.getAttribute('transform')]).sort()"
# a text, the line that is wrong, and words of what is said
MARK = '“-” stands alone after a node’s own address'
WRONG = (('2\n12x: 4', 2, 'character 3, “x”'), ('8\n1: 2', 1, '0 to 7'), ('', 1, 'ends before the hop limit'), ('3', 1, 'originator'),
         ('1 2\n3', 1, 'alone on'),
         ('2\n70000: 1', 2, 'at most 65,535'), ('2\n1: 2 - 3', 2, MARK), ('2\n1 -2', 2, MARK), ('2\n- 1', 2, MARK), ('2-\n1', 1, MARK), ('2\n1 --: 2', 2, MARK),
         ('2\n1:\u00a02', 2, 'character 3'), ('0\n1:' + ' 2' * 16385, 2, 'more than 16,384 hearings'),
         ('1\n' + ' '.join(map(str, range(256))), 2, 'more than 255 nodes'), ('1\n1: 2\n#' + 'x' * 65535, 3, 'more than 65,535 bytes'))
SORTED = """const head = document.querySelector(`[data-sort=${arguments[0]}]`).parentNode, rows = [...document.querySelectorAll('#everyone tbody tr')];
    return [rows.map((row) => Number(row.cells[head.cellIndex].textContent)), head.getAttribute('aria-sort')]"""
NUMBER = """const [id, value, shown] = arguments, field = document.getElementById(id); field.value = value; field.dispatchEvent(new Event('input'));
    return [field.matches(':invalid') || field.value === '', document.getElementById(shown).textContent]"""
NUMBERS = (('size', '3', '30', 'air'), ('size', '', '20', 'air'), ('rate', '0', '4800', 'air'), ('slot', '-1', '0.5', 'air'), ('tries', '300', '3', 'command'))
FOCUSED = """const rows = [...document.querySelectorAll(`${arguments[0]} tbody tr`)];
    return [document.activeElement.cells?.[0].textContent, rows.filter((row) => row.tabIndex === 0).length]"""
DROP = """const d = new DataTransfer(); d.items.add(new File([arguments[0]], 'n.txt'));
    dispatchEvent(new DragEvent('drop', { dataTransfer: d, cancelable: true }))"""
HEADLINE = "return document.querySelector('#headline p').textContent === '{}'"
TABLES = (('csv-nodes', 'nodes.csv', 'node,name,state,chain,path count,repeats,times sent,bytes sent,cuts off,puts out of reach', '#nodes-table tbody tr'),
          ('csv-originators', 'originators.csv', 'originator,name,hear it,others', '#everyone tbody tr'))
OPENED = ((b'\xef\xbb\xbf1\r\n7: 8\r\n8: 9\r\n', 'All 2 others hear a report from 7.'),
          ('3\n12: 13 # Übergang\n'.encode('utf-16'), 'The other node hears a report from 12.'),
          (b'0\r5: 6 # \xdcbergang\r6: 7', '1 of 2 hears a report from 5.'))


class Hands:
    def __init__(self, tally, b):
        self.same, self.b = tally.same, b

    def text(self):
        return self.b.run(TEXT)

    def lines(self, address):
        return [line for line in self.text().split('\n') if line.startswith(str(address))]

    def headline(self):
        return self.b.run("return document.querySelector('#headline p').textContent")

    def sent(self):
        return self.b.run("return document.querySelector('#figures b').textContent")

    def typing(self):
        self.same('the example', (self.headline(), self.sent()), ('5 of 7 hear a report from 1200.', '7'))
        self.same('it is the network of ./reach', *(re.findall(r'\d+', re.sub('#.*', '', text)) for text in (self.text(), EXAMPLE.read_text())))
        copied = self.b.wait(facts.COPIED, 'copy-answers')
        self.same('a base station in the copied answers', [line for line in copied.split('\n') if line.startswith('3000 ')], [
            '3000 District base (does not repeat): hears it after 3 hearings if its lists let it in, sends it 0 times'])
        self.b.type('#source', '2005: 3000\n')
        self.same('typed: a hearing more', self.b.run("return document.querySelectorAll('[data-pair=\"2005 3000\"]').length"), 1)
        self.b.click('#undo')
        self.same('undone', '2005: 3000' in self.text(), False)
        self.b.click('#redo')
        self.same('done again', '2005: 3000' in self.text(), True)
        self.b.run("document.getElementById('source').focus()")
        self.b.keys('z', held=CONTROL)
        self.same('undone by Ctrl Z', '2005: 3000' in self.text(), False)

    def dragging(self):
        time.sleep(STILL)
        was, (x, y) = self.b.run(PLACE, 3001), self.b.centre('[data-node="3001"] rect:not(.halo)')
        self.b.drag((x, y), (x - 40, y + 60))
        time.sleep(STILL)
        moved = self.b.run(PLACE, 3001)
        self.same('dragged: the node is elsewhere, and its line as it was', (moved != was, self.lines('3001 -')), (True, ['3001 -: 2005          # Town base']))
        self.same('and its place is in the text', '3001@' in self.text() and '# places' in self.text(), True)
        self.b.drag(self.b.centre('[data-node="1200"]'), self.b.centre('[data-node="2004"]'), SHIFT)
        self.same('Shift and drag: a hearing', self.lines(1200), ['1200: 2001 2002 2004  # Rain gauge'])
        self.b.drag(self.b.centre('[data-node="2004"]'), self.b.centre('[data-node="1200"]'), SHIFT)
        self.same('and back', self.lines(2004), ['2004: 2003 2005 1200  # Mill'])
        self.b.keys(DELETE)
        self.same('Delete: both are gone', (self.lines(1200), self.lines(2004)), (['1200: 2001 2002       # Rain gauge'], ['2004: 2003 2005       # Mill']))
        self.b.click('#tool-link')
        self.b.drag(self.b.centre('[data-node="3000"]'), self.b.centre('[data-node="2004"]'))
        self.same('the tool Link', self.lines('3000 -'), ['3000 -: 2003 2004     # District base'])
        self.b.run("[...document.querySelectorAll('#inspector input')].at(-1).click()")
        self.same('the other way, by its box', self.lines(2004), ['2004: 2003 2005 3000  # Mill'])
        self.b.click('#inspector .danger')
        self.b.click('#tool-move')

    def nodes(self):
        self.b.click('#add')
        self.same('Add node', self.lines(3002), ['3002:'])
        self.b.type('#inspector input[type=text]', 'New site')
        self.same('named in the drawing', self.lines(3002), ['3002:'.ljust(22) + '# New site'])
        self.b.run("document.querySelector('#inspector input[type=checkbox]').click()")
        self.same('marked as one that does not repeat', self.lines(3002), ['3002 -:'.ljust(22) + '# New site'])
        self.b.run("const a = document.querySelector('#inspector input[type=number]'); a.value = 4000; a.dispatchEvent(new Event('change'))")
        found = '3002' in self.text(), self.lines(4000), '4000@' in self.text()
        self.same('given another address, in its place too', found, (False, ['4000 -:'.ljust(22) + '# New site'], True))
        self.b.click('#inspector .danger')
        self.same('removed', [line for line in self.text().split('\n') if '4000' in line and not line.startswith('# places')], [])
        self.b.click('#tidy')
        self.same('Tidy takes the places away', '# places' in self.text(), False)

    def keyboard(self):
        self.b.type('#hop', RIGHT + RIGHT)
        self.same('the slider by keys', self.headline(), 'All 7 others hear a report from 1200.')
        self.same('and in the text', self.text().split('\n')[2], '4'.ljust(22) + '# hop limit')
        self.b.run("document.querySelector('[data-node=\"2003\"]').focus()")
        self.b.keys(RIGHT)
        chosen = self.b.run("return document.querySelector('#inspector input').value")
        self.same('arrow keys in the drawing choose another node', chosen not in ('2003', ''), True)
        self.b.keys(ESCAPE)
        self.same('Escape lets go', self.b.run("return document.querySelectorAll('#inspector input').length"), 0)
        self.b.run("document.querySelector('[data-origin=\"3001\"]').focus()")
        self.b.keys(ENTER)
        self.same('another originator, from the table, by Enter', self.headline().endswith('from 3001.'), True)
        self.b.wait(facts.NETWORK, self.text())
        self.same('its row keeps the focus, the tab key goes to it', self.b.run(FOCUSED, '#everyone'), ['3001', 1])
        self.b.run("document.querySelector('[data-hop=\"3\"]').focus()")
        self.b.keys(DOWN)
        self.same('arrow keys go from row to row', self.b.run(FOCUSED, '#hops-table'), ['4', 1])
        self.b.run("document.querySelector('[data-hop=\"0\"]').click()")
        self.same('a hop limit from the table', self.b.run("return document.getElementById('hop').value"), '0')
        self.b.run("document.getElementById('tab-network').focus()")
        self.b.keys(RIGHT)
        self.same('arrow keys go from part to part', self.b.run("return document.getElementById('pdu').hidden"), False)
        self.b.click('#tab-network')

    def tables(self):
        """Rows in another order, by the head of a column; a failure shown in the drawing."""
        self.b.run("document.querySelector('[data-hop=\"2\"]').click()")
        self.b.wait(facts.NETWORK, self.text())
        for key, order in (('address', 1), ('address', -1), ('least', -1)):
            self.b.run("document.querySelector(`[data-sort=${arguments[0]}]`).click()", key)
            column, sorted_as = self.b.run(SORTED, key)
            self.same(f'sorted by {key}', (column, sorted_as), (sorted(column, reverse=order < 0), 'ascending' if order > 0 else 'descending'))
        self.b.run("document.querySelector('[data-sort=sent]').click()")
        lost = self.b.run("""const line = document.querySelector('#failures p'); line.dispatchEvent(new PointerEvent('pointerenter'));
            const cut = [...document.querySelectorAll('.node.cut')].map((node) => node.dataset.node); line.dispatchEvent(new PointerEvent('pointerleave'));
            return [line.textContent, cut, document.querySelectorAll('.node.cut').length]""")
        self.same('a failure is shown in the drawing', (len(lost[1]) > 0, all(node in lost[0] for node in lost[1]), lost[2]), (True, True, 0))

    def wrong(self):
        good = self.b.wait(facts.NETWORK, self.text())
        for text, line, words in WRONG:
            self.b.run(SET, text)
            said, marked, rows, invalid = self.b.run(SHOWN)
            self.same(f'{text[:20]!r}: said', f'Line {line}: ' in said and words in said, True)
            self.same(f'{text[:20]!r}: its line is marked, and the answers stay', (marked, rows, invalid), (str(line), good['nodes'], 'true'))
        while self.b.run("return document.getElementById('fault').textContent"):
            self.b.click('#undo')
        self.same('undone to the last good text', self.b.wait(facts.NETWORK, self.text())['nodes'], good['nodes'])

    def numbers(self):
        """A number that is none, or out of its range, is marked, and the last good one stays."""
        for field, bad, good, shown in NUMBERS:
            found = [self.b.run(NUMBER, field, value, shown) for value in (good, bad, good)]
            self.same(f'{field} {bad!r}', (found[0][0], found[1][0], found[1][1] == found[0][1] == found[2][1]), (False, True, True))

    def marks(self):
        """A node that does not repeat, in all forms of its mark."""
        before = self.text()
        for text in ('1\n1 - - : 2', '1\n1 : - 2', '1\n1- 2', '1\n1: 2\n1 -', '1\n1: 2\n1 -:'):
            self.b.run(SET, text)
            found = [self.b.run(SHOWN)[0], *self.b.run("return [...document.querySelectorAll('[data-node=\"1\"] rect, [data-pair]')].map((e) => e.tagName)")]
            self.same(f'{text!r}: a mark', found, ['', 'path', 'rect', 'rect'])
        self.b.run(SET, before)

    def saving(self):
        """A dragged node, saved as text and as a picture; tables for a spreadsheet; answers copied. The text and where the nodes stand."""
        time.sleep(STILL)
        x, y = self.b.centre('[data-node="2003"]')
        self.b.drag((x, y), (x + 33, y - 21))
        time.sleep(STILL)
        self.b.click('#save')
        saved = self.b.saved('network.txt')
        self.same('saved text', saved, self.text())
        self.b.click('#picture')
        picture = self.b.saved('network.svg')
        self.same('saved picture: its nodes, no var(), no script', (picture.count('data-node'), 'var(' in picture, 'script' in picture), (8, False, False))
        for button, name, head, table in TABLES:
            self.b.click(f'#{button}')
            rows = self.b.saved(name).split('\r\n')
            self.same(name, (rows[0].startswith(head), len(rows)), (True, 10))
            shown = self.b.run("return [...document.querySelectorAll(arguments[0])].map((row) => [row.cells[0].textContent, row.cells[1].textContent])", table)
            self.same(f'{name}: its rows', [row.split(',')[:2] for row in rows[1:-1]], shown)
        copied = self.b.wait(facts.COPIED, 'copy-answers')
        self.same('copied answers', ('3001 Town base' in copied, 'who hears the report for certain' in copied, self.headline() in copied), (True, True, True))
        return saved, self.b.run(STANDING)

    def files(self):
        saved, places = self.saving()
        folder = pathlib.Path(self.b.folder.name)
        for content, words in OPENED:
            (folder / 'mine.txt').write_bytes(content)
            self.b.type('#file', str(folder / 'mine.txt'))
            self.b.until(HEADLINE.format(words), f'{content!r} is not opened')
        self.b.run(DROP, saved)
        self.b.until("return document.querySelectorAll('[data-node]').length === 8", 'a dropped file is not opened')
        time.sleep(STILL)
        self.same('opened again, every node stands where it was', self.b.run(STANDING), places)

    def printed(self):
        """The page as it is printed: text, answers and drawing, without buttons."""
        self.b.cdp('Emulation.setEmulatedMedia', media='print')
        shown = self.b.run("""const seen = (id) => document.getElementById(id).getBoundingClientRect().height > 0;
            return [seen('printed'), seen('canvas'), seen('nodes-table'), seen('open'), seen('source')]""")
        self.b.cdp('Emulation.setEmulatedMedia', media='')
        self.same('printed', shown, [True, True, True, False, False])


def all_of(tally, b):
    hands = Hands(tally, b)
    for part in (hands.typing, hands.dragging, hands.nodes, hands.keyboard, hands.tables, hands.wrong, hands.numbers, hands.marks, hands.files, hands.printed):
        part()
    tally.same('copied: what is said', json.loads(b.run("return JSON.stringify(document.getElementById('told').textContent)")).endswith('copied'), True)

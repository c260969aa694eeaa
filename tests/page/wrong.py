"""Pages that are wrong in one place: the tests must see each of them."""
import json

import boxes
import network_answers
import paging
import pdus
import sizes
from trying import TOP, Tally

LIBRARY, SEED, COUNT = TOP / 'target/boards/wasm32', 1, 12


def some_networks(tally, b):
    network_answers.generated(tally, b, SEED, COUNT)


def some_pdus(tally, b):
    pdus.generated(tally, b, 'pdu', SEED, 10 * COUNT)


def some_boxes(tally, b):
    boxes.generated(tally, b, SEED, COUNT)


# what is wrong, the module, its text there and that of the wrong page, and the part of the test that must see it
WRONG = (
    ('a hop too many', 'plan', 'leastOf[length] <= hop', 'leastOf[length] <= hop + 1', some_networks),
    ('no node fails', 'plan', 'net.marks, from, failed, lengths', 'net.marks, from, NO_FAILURE, lengths', some_networks),
    ('every node repeats', 'network', 'node.repeats ? 0 : 1', '0', some_networks),
    ('a hearing is lost', 'network', 'bytesOf(net.pairs)', 'bytesOf(net.pairs.slice(1))', some_networks),
    ('the destination repeats', 'air', 'own[to] = 1', 'own[to] = own[to]', some_networks),
    ('two bytes short', 'answers', 'networkBytes(all, 0, net.hop, size)', 'networkBytes(all, 0, net.hop, size - 2)', some_networks),
    ('a choice lacks a node', 'dom', 'isAll ? nodes :', 'isAll ? nodes.slice(1) :', sizes.choices),
    ('another field', 'fields', "add('source', h.source", "add('source', h.destination", some_pdus),
    ('edition 1.2 alone', 'reading', "call('mant_read', edition, bytes)", "call('mant_read', 12, bytes)", some_pdus),
    ('lists in each other’s place', 'box', "const ORDER = ['first', 'second']", "const ORDER = ['second', 'first']", some_boxes),
    ('echo off', 'box', "echo: $('echo').checked", 'echo: false', boxes.jobs))


class Seen(Exception):
    """A wrong page was seen."""


class Silent(Tally):
    """Ends at the first difference after something that is the same: a page that answers nothing right is no test."""

    def same(self, what, found, wanted):
        self.asked, self.differ = self.asked + 1, self.differ + (found != wanted)
        if 0 < self.differ < self.asked:
            raise Seen


def page_with(module, old, new):
    """The page with a change in one of its modules."""
    text, read = paging.module(module), paging.module
    if text.count(old) != 1:
        raise ValueError(f'page/{module}.js has {text.count(old)} times {old}')
    paging.module = lambda name: text.replace(old, new) if name == module else read(name)
    try:
        return paging.page((LIBRARY / 'libmant.wasm').read_bytes(), json.loads((LIBRARY / 'libmant.json').read_text()))
    finally:
        paging.module = read


def seen(tally, b, folder):
    file = folder / 'wrong.html'
    for what, module, old, new, part in WRONG:
        file.write_text(page_with(module, old, new))
        b.open(file)
        is_seen = False
        try:
            part(Silent(), b)
        except Seen:
            is_seen = True
        tally.same(f'a wrong page, {what}, is seen', is_seen, True)
    file.unlink()

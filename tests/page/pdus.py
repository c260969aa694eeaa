"""What the page says of bytes: generated PDUs, batches and exchanges against the reference model, and whole texts against those stored for ./show."""
import re

import facts
import model
from network_answers import counted
from trying import TOP

SHOWN = 60  # parts that are shown at once
EMPTY = 'Paste the bytes of a PDU, or take the example.'
FLAGS = ('time stamp request', 'path bit', 'destination bit', 'encrypted', 'ACK', 'added header')


def plain(name, words):
    """A field without what is explained behind it, as the model has it."""
    if name in FLAGS:
        return '1' if words.startswith('yes') else '0'
    if name in ('payload', 'payload as text'):
        return words
    if name == 'path':
        return words.split(':')[0].replace(',', '')
    return words.split(' ' if name == 'payload length' else ':')[0].replace(',', '')


def shown(part):
    """A part as it is compared: a note, a refusal, or a PDU with its values and the place of its payload. Fields before a refusal are left out."""
    if part['note'] or part['refused']:
        return part['note'] or part['refused']
    fields = part['fields']
    return part['title'], part['under'], {name: plain(name, words) for name, words, _ in fields}, [where for name, _, where in fields if name == 'payload']


def pdu(words, edition, what, place=0):
    """A PDU as it should be shown. Its first byte is at a place, or its payload alone where an exchange has it elsewhere."""
    read = model.Pdu(words)
    to, sender = 'everyone' if read.destination is None else read.destination, 'an unknown node' if read.last is None else read.last
    first, size = place + read.header_length, len(read.payload)
    where = '' if not size else f'byte {first}' if size == 1 else f'bytes {first}–{first + size - 1}'
    under = f'{what}{counted(read.length, "byte")}, edition {edition[0]}.{edition[1]} proved'
    return (f'From {read.source} to {to}, heard from {sender}', under, read.fields, [where]), read


def pdu_parts(content, edition, answered):
    if answered[0] != '0':
        return [f'refused, {answered[0]}: ']
    part, read = pdu(answered[1:], edition, 'PDU of ')
    after = f'{counted(len(content) - read.length, "byte")} after the PDU, from byte {read.length} on (“Batch” shows PDUs that lie back to back)'
    return [part, after] if len(content) > read.length else [part]


def batch_parts(content, edition, answered):
    number, *words = answered
    if number != '0':
        return [f'refused, {number}: ']
    parts, count = [], 0
    while words:
        place, number, *words = words
        count += 1
        if number != '0':
            return [*parts, f'PDU {count}, from byte {place} on: refused, {number}: ']
        parts.append(pdu(words, edition, f'PDU {count}, at byte {place}, of ', int(place))[0])
        words = words[len(model.HEADER):]
    return [*parts, f'Batch of {counted(len(content), "byte")}: {counted(count, "PDU")}']


def exchange_parts(content, edition, answered):
    number, *words = answered
    if number != '0':
        return [f'refused, {number}: ']

    def where(part, place):
        size = len(model.bytes_of(part))
        return f'empty, at byte {place}' if not size else f'byte {place}' if size == 1 else f'bytes {place} to {int(place) + size - 1}'

    header, payload, header_place, payload_place, _, *fields = words
    note = f'Exchange of {counted(len(content), "byte")}; header: {where(header, header_place)}; payload: {where(payload, payload_place)}'
    return [note, pdu(fields, edition, 'PDU of ', int(payload_place) - len(model.bytes_of(header)))[0]]


PARTS = {'pdu': pdu_parts, 'batch': batch_parts, 'exchange': exchange_parts}


def generated(tally, b, kind, seed, count):
    """So many inputs of a kind, half of them under each edition."""
    lines = model.asked(kind, seed, count)
    for edition in ('11', '12'):
        mine = [(asked[1], answered) for asked, answered in lines if asked[0] == edition]
        for (digits, answered), found in zip(mine, b.run(facts.PDU, kind, int(edition), [digits.strip('.') for digits, _ in mine])):
            content = model.bytes_of(digits)
            wanted = PARTS[kind](content, edition, answered) if content else [EMPTY]
            more = [f'and {len(wanted) - SHOWN:,} more; “Copy” has them all'] if len(wanted) > SHOWN else []
            tally.same(f'{kind} {digits} under edition {edition}', [shown(part) for part in found['parts']], wanted[:SHOWN] + more)


def expanded(text):
    return re.sub(r'([0-9A-F]{2})\*(\d+)', lambda found: found.group(1) * int(found.group(2)), text)


def stored(tally, b):
    """Every text stored for ./show whose bytes the page can be asked for: what it would copy is that text."""
    for file in sorted((TOP / 'tests/show').glob('*.txt')):
        for block in re.split(r'^(?=\$ \./show)', file.read_text(), flags=re.M)[1:]:
            line, rest = block.split('\n', 1)
            words, _, given = line.removeprefix('$ ./show').partition('<')
            words = words.split()
            status = re.search(r'^= (\d)$', rest, re.M)[1]
            edition = (re.search(r'--edition[ =](\S+)', line) or ['', '12'])[1].replace('.', '')
            words = re.sub(r'--edition[ =]\S+', '', ' '.join(words)).split()
            kind = 'exchange' if '--exchange' in words else 'batch' if '--batch' in words else 'pdu'
            text = expanded(given) or ' '.join(word for word in words if not word.startswith('--'))
            if status not in '01' or edition not in ('11', '12') or '.' in text or '/' in text or not text.strip():
                continue
            b.run(facts.PDU, kind, int(edition), [text])
            lines = [re.sub(r'^2> (show: )?', '', part) for part in rest.split('\n') if part and not part.startswith('= ')]
            tally.same(line[:200], b.wait(facts.COPIED, 'pdu-copy').split('\n'), [*lines, ''])


# Texts that are no bytes: what is said, and the last good bytes stay.
WRONG = (('12:33:01 03 00 10', 'Line 1: 12:33:01 looks like the time'), ('03 0', 'the digit 0 stands alone'), ('030', '3 hex digits; a byte has two'),
         ('03 zz', "Line 1, character 4: 'z' is not a hex digit"), ('0000: 03 00\n0002: 04', 'looks like the offset'),
         ('0000 0300\n0002 0400', 'look like offsets'))


def wrong(tally, b):
    good = '0300100B03E80640007001081212032413220276'
    for text, words in WRONG:
        before, after = b.run(facts.PDU, 'pdu', 12, [good, text])
        tally.same(f'{text!r}: said', words in after['fault'], True)
        tally.same(f'{text!r}: the last good bytes stay', after['parts'], before['parts'])
    forms = ['0x03 0x00:10-0B,03 E8 06 40 00\n7001081212032413220276 # a comment', good.lower()]
    for found in b.run(facts.PDU, 'pdu', 12, forms):
        tally.same('another form of the same bytes', (found['fault'], found['parts']), ('', before['parts']))

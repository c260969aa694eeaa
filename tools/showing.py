"""A PDU, an exchange or a batch in words, for ./show. What it holds and why it is refused is what the library returns (python/mant.py)."""
import mant
from fields import counted, field, hex_rows, pdu_lines, span
from places import exchange_place, place_of

LENGTHS_ALONE = '\n      PDUs are found by their lengths alone: where an earlier one was cut, none need begin here'
SERIAL = '\n      the bytes are a serial exchange: --exchange shows it'


class Refusal(Exception):
    """Why nothing more is shown, in words."""


def refusal(number, place, what=''):
    return Refusal(f'{what}refused, {number}: {number.meaning}' + (f'\n      found {place}' if place else ''))


def is_exchange(content):
    try:
        return mant.read_exchange(content) is not None
    except mant.Refused:
        return False


def pdu(content, edition):
    try:
        header = mant.read(content, edition)
    except mant.Refused as refused:
        place = place_of(refused.number, content)
        raise refusal(refused.number, place + SERIAL if place and is_exchange(content) else place) from refused
    yield from pdu_lines('PDU of ', header, edition)
    after = content[header.pdu_length:]
    if after:
        yield f'{counted(len(after), "byte")} after the PDU, from byte {header.pdu_length} on (--batch shows PDUs that lie back to back)'


def exchange(content, edition):
    try:
        found = mant.read_exchange(content)
    except mant.Refused as refused:
        raise refusal(refused.number, exchange_place(refused.number, content)) from refused
    yield f'exchange of {counted(len(content), "byte")}'
    for name, place, part in (('header', found.header_place, found.header), ('payload', found.payload_place, found.payload)):
        where = span(place, len(part)) if part else f'empty, at byte {place}'
        yield from field(name, [where, *hex_rows(part)])
    yield from pdu(found.header + found.payload, edition)


def batch(content, edition):
    count = 0
    observer = mant.Node(own=0, edition=edition, echo=False, repeating=False)  # drops nothing
    try:
        for count, step in enumerate(mant.walk(content, observer), 1):
            rest, number = content[step.offset:], step.answer.delivery
            if not step.answer.taken:
                found = place_of(number, rest, step.offset) + (LENGTHS_ALONE if step.offset else '')
                raise refusal(number, found, f'PDU {count}, from byte {step.offset} on: ')
            yield from pdu_lines(f'PDU {count}, at byte {step.offset}, of ', mant.read(rest, edition), edition)
    except mant.Refused as refused:
        raise refusal(refused.number, f'at byte {mant.limits().batch}; it has {len(content):,} bytes') from refused
    yield f'batch of {counted(len(content), "byte")}: {counted(count, "PDU")}'

"""The byte where the reading of a PDU or of an exchange was refused, for ./show. That it is refused, and with which number, is what the library returns
(python/mant.py); where, is worked out here."""
import collections

import mant
from fields import counted, nodes_of, span

RUNS, LEVELS = (10, 11, 20), 4  # the types of elements that hold elements, and how deep they may stand
EXCHANGE, PARTS = 20, {1024: 'header', 1025: 'payload'}  # the type of an exchange, and of the two that it holds
FIRST_BYTE = (mant.Number.WRONG_VERSION, mant.Number.UNKNOWN_PROTOCOL, mant.Number.NO_DESTINATION)  # refused for what the first byte says
Element = collections.namedtuple('Element', 'place level kind start end')  # its value lies from start to end


class Fault(Exception):
    """The place of an element that does not end in what it stands in, or stands too deep, and what is wrong with it."""


def parts_of(header):
    """The parts of a header that not every PDU has, each with its length."""
    if header.destination is not None:
        yield 'the destination', 2
    if header.pdu_id is not None:
        yield 'the PDU ID', 1
    if header.path is not None:
        yield 'the path count', 1
        yield 'the path', 2 * len(header.path)


def cut_place(content, start):
    """Where the bytes end in a header or a payload. What is there is read with zeros behind it."""
    whole = mant.read(content + bytes(mant.limits().pdu))
    at = whole.header_length - sum(length for _, length in parts_of(whole))
    for name, length in parts_of(whole):
        if len(content) < at + length:
            return f'at byte {start + len(content)}, where they end: {name} should stand at {span(start + at, length)}'
        at += length
    missing = whole.pdu_length - len(content)
    there = f'its payload has {counted(len(whole.payload), "byte")}, and {missing:,} {"is" if missing == 1 else "are"} missing'
    return f'at byte {start + len(content)}, where they end: {there}\n      its header is whole: {nodes_of(whole)}'


def place_of(number, content, start=0):
    """Where the reading of a PDU was refused; the bytes before the PDU are counted."""
    if number == mant.Number.TOO_SHORT:
        return f'at byte {start + len(content)}, where they end'
    if number in (mant.Number.HEADER_CUT, mant.Number.PAYLOAD_CUT):
        return cut_place(content, start)
    if number in FIRST_BYTE:
        return f'at byte {start}, which is {content[0]:02X}{first_byte_words(number, content[0])}'
    return ''


def first_byte_words(number, byte):
    if number == mant.Number.WRONG_VERSION:
        return f': its version, the highest two bits, is {byte >> 6}'
    if number == mant.Number.UNKNOWN_PROTOCOL:
        return f': its protocol, the three bits after the highest two, is {byte >> 3 & 7}'
    return ': its destination bit, the lowest, is clear'


def number_at(content, at, end):
    """A type or a length, in one byte or two, and the place after it."""
    size = 2 if content[at:at + 1] >= b'\x80' else 1
    if at + size > end:
        raise IndexError
    return int.from_bytes(content[at:at + size], 'big') & (0x7FFF if size == 2 else 0x7F), at + size


def elements(content, at, end, level=1):
    """Each element of a run, and those inside it, in the order in which they begin."""
    while at < end:
        begin = at
        try:
            kind, at = number_at(content, at, end)
            length, at = number_at(content, at, end)
        except IndexError:
            raise Fault(begin, ': its type or its length is cut') from None
        if level > LEVELS:
            raise Fault(begin, '')
        if at + length > end:
            around = 'bytes end' if level == 1 else 'element around it ends'
            raise Fault(begin, f': its type is {kind}, its length {counted(length, "byte")}, and the {around} {counted(at + length - end, "byte")} too early')
        yield Element(begin, level, kind, at, at + length)
        if kind in RUNS:
            yield from elements(content, at, at + length, level + 1)
        at += length


def first_fault(content):
    """The place of the first element that is at fault, and what is wrong with it, or None."""
    try:
        list(elements(content, 0, len(content)))
    except Fault as fault:
        return fault.args
    return None


def parts(found, kind):
    """The elements of a type just inside the exchange."""
    return [element for element in found if (element.level, element.kind) == (2, kind)]


def joined(content, header, payload):
    return content[header.start:header.end] + content[payload.start:payload.end]


def not_exchange_place(found):
    """Why elements without a fault are no exchange."""
    outer = [element for element in found if element.level == 1]
    if not outer:
        return 'at byte 0: there is no element'
    if outer[0].kind != EXCHANGE:
        return f'at byte 0, where an element of type {outer[0].kind} begins'
    if len(outer) > 1:
        return f'at byte {outer[1].place}, where another element begins'
    for kind, name in PARTS.items():
        places = [element.place for element in parts(found, kind)]
        if len(places) > 1:
            return f'at byte {places[1]}, where a second {name} begins'
        if not places:
            return f'at byte 0, where the exchange begins: it holds no {name}'
    return ''


def split_place(content, header, payload):
    """Where the two parts of a PDU do not meet, or bytes follow it."""
    read, length = mant.read(joined(content, header, payload)), header.end - header.start
    if length != read.header_length:
        return f'at byte {header.place}, where the element of the header begins: it has {counted(length, "byte")}, the header {read.header_length}'
    said, there = counted(len(read.payload), 'byte'), payload.end - payload.start
    return f'at byte {payload.start + len(read.payload)}: the header says {said} of payload, and the element at byte {payload.place} has {there:,}'


def exchange_place(number, content):
    """Where the reading of an exchange was refused."""
    if number in (mant.Number.ELEMENT_CUT, mant.Number.ELEMENT_TOO_DEEP):
        place, words = first_fault(content)
        return f'at byte {place}, where the element begins{words}'
    found = list(elements(content, 0, len(content)))
    if number == mant.Number.NOT_AN_EXCHANGE:
        return not_exchange_place(found)
    header, payload = (parts(found, kind)[0] for kind in PARTS)
    if number == mant.Number.NOT_SPLIT_AT_HEADER:
        return split_place(content, header, payload)
    if number in FIRST_BYTE:
        return place_of(number, joined(content, header, payload), header.start if header.end > header.start else payload.start)
    place = place_of(number, joined(content, header, payload))
    return f'{place}\n      counted in header and payload put together; their elements begin at bytes {header.place} and {payload.place}'

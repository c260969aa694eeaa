"""A PDU that was read, every field of it in words, for ./show."""
import textwrap

PROTOCOLS = {0: '0: best efforts', 1: '1: reliable'}
WIDTH, ROW = 21, 32  # characters of a field's name, bytes of a line in hex


def counted(number, what):
    return f'{number:,} {what}' + ('' if number == 1 else 's')


def hex_rows(content):
    """Bytes in hex, a row of them a line."""
    return [content[at:at + ROW].hex(' ').upper() for at in range(0, len(content), ROW)]


def span(start, length):
    return f'byte {start}' if length == 1 else f'bytes {start} to {start + length - 1}'


def edition_name(edition):
    return {11: '1.1', 12: '1.2'}.get(edition, str(edition))


def field(name, words):
    """A field's name and its words; further lines stand under them."""
    first, *others = words if isinstance(words, list) else [words]
    return [f'  {name.ljust(WIDTH)}{first}', *(' ' * (WIDTH + 2) + line for line in others)]


def yes(flag, words=''):
    return ('yes' + (f': {words}' if words else '')) if flag else 'no'


def hop_words(hop_limit):
    if hop_limit == 7:
        return '7: never lowered, so it sets no limit'
    return f'{hop_limit}: ' + ('it is not repeated again' if hop_limit == 0 else f'it may be repeated {counted(hop_limit, "more time")}')


def path_words(header):
    if header.path is None:
        return 'none: it has no path bit, so no node adds its address'
    if not header.path:
        return 'empty: no node has repeated it yet'
    return textwrap.wrap(', '.join(map(str, header.path)), 100)


def sender_words(header):
    if header.last_sender is None:
        return 'unknown: it has no path'
    return f'{header.last_sender}: ' + ('the last of its path' if header.path else 'the source, since no node has repeated it')


def bit_fields(header):
    """The fields of the first four bytes, in the order of their bits."""
    return [
        field('version', '0'),
        field('protocol', PROTOCOLS[header.protocol]),
        field('time stamp request', yes(header.time_stamp_request)),
        field('path bit', yes(header.path is not None, 'each node that repeats it adds its address')),
        field('destination bit', yes(header.destination is not None)),
        field('port', header.port),
        *([] if header.encrypted is None else [field('encrypted', yes(header.encrypted))]),
        field('reserved', f'{header.reserved}' + (': three bits, as edition 1.1 has no encrypted flag' if header.encrypted is None else '')),
        field('ACK', yes(header.ack, 'it is an acknowledgement' if header.protocol == 1 else 'without a meaning, since only reliable service has it')),
        field('added header', yes(header.added_header, 'nodes repeat it and do not deliver it')),
        field('hop limit', hop_words(header.hop_limit)),
        field('payload length', counted(len(header.payload), 'byte')),
    ]


def address_fields(header):
    """The fields after them."""
    return [
        field('source', header.source),
        field('destination', 'none: it is for everyone' if header.destination is None else header.destination),
        field('PDU ID', 'none: only reliable service has one' if header.pdu_id is None else header.pdu_id),
        field('path count', 'none' if header.path is None else len(header.path)),
        field('path', path_words(header)),
        field('last sender', sender_words(header)),
    ]


def payload_fields(payload):
    if not payload:
        return [field('payload', 'empty')]
    text = payload.decode('ascii') if all(32 <= byte < 127 for byte in payload) else None
    return [field('payload', hex_rows(payload)), *([] if text is None else [field('payload as text', [text[at:at + 100] for at in range(0, len(text), 100)])])]


def nodes_of(header):
    to = 'everyone' if header.destination is None else header.destination
    heard = 'heard from an unknown node' if header.last_sender is None else f'heard from {header.last_sender}'
    return f'from {header.source} to {to}, {heard}'


def pdu_lines(what, header, edition):
    """A PDU that was read: who it is from and for, then every field."""
    yield f'{what}{counted(header.pdu_length, "byte")}, edition {edition_name(edition)}: {nodes_of(header)}'
    for lines in bit_fields(header) + address_fields(header) + payload_fields(header.payload):
        yield from lines

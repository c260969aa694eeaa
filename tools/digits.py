"""Hex digits in a text, for ./relay and ./show: white space, `:`, `,`, `-` and `0x` between bytes and comments from `#` to the line's end are passed over.
A date, a time or an offset at a line's start, as in a console's log, is refused, since it has the look of bytes. ./reach reads its texts by `text_of` and
`LINE_END` too."""
import re

LINE_END = re.compile('\r\n|\r|\n')
BETWEEN = re.compile(r'[:,-]|(?<![0-9A-Za-z])0[xX](?=[0-9A-Fa-f])')
MARK = re.compile(r'\s*(?:(?P<date>[0-9]{4}-[0-9]{2}-[0-9]{2})|(?P<time>[0-9]{2}:[0-9]{2}:[0-9]{2})|(?P<offset>[0-9A-Fa-f]{4,}:))\s+[0-9A-Fa-f]')
UTF_16 = {b'\xff\xfe': 'utf-16-le', b'\xfe\xff': 'utf-16-be'}


class NotHex(Exception):
    """Why a text is not of hex digits, in words."""


def text_of(content):
    """What a file says if it is a text. A byte that no UTF-8 has, as in a comment in Latin-1, stands for one character."""
    try:
        return content[2:].decode(UTF_16[content[:2]]) if content[:2] in UTF_16 else content.decode('utf-8-sig')
    except UnicodeDecodeError:
        return (content[3:] if content[:3] == b'\xef\xbb\xbf' else content).decode('latin-1')


def words_of(text):
    """Each word of digits, with its line."""
    for number, line in enumerate(LINE_END.split(text), 1):
        line = line.split('#')[0]
        mark = MARK.match(line)
        if mark:
            raise NotHex(f'line {number}: {mark[mark.lastgroup]} looks like the {mark.lastgroup} of what follows, not like bytes; take it away')
        line = BETWEEN.sub(lambda found: ' ' * len(found.group()), line)
        other = re.search(r'[^0-9A-Fa-f\s]', line)
        if other:
            raise NotHex(f'line {number}, character {other.start() + 1}: {other.group()!r} is not a hex digit')
        yield from ((number, word) for word in line.split())


def are_offsets(words, base):
    """Whether the first word of each line, of some, says how many bytes stand before it, as in a dump of bytes."""
    lines = {}
    for number, word in words:
        lines.setdefault(number, []).append(word)
    before = 0
    for first, *others in lines.values():
        if not 4 <= len(first) <= 8 or first.lower().strip('0123456789abcdef'[:base]) or int(first, base) != before:
            return False
        before += len(''.join(others)) // 2
    return len(lines) > 1 and before > 0


def bytes_of(text):
    """The bytes of a text. A digit alone among words can be a byte without its 0 as well as half of one, and is refused."""
    words = list(words_of(text))
    digits = ''.join(word for _, word in words)
    for number, word in words if len(words) > 1 else ():
        if len(word) == 1:
            raise NotHex(f'line {number}: the digit {word} stands alone; a byte has two, as 0{word}')
    if any(are_offsets(words, base) for base in (16, 10, 8)):
        raise NotHex(f'line {words[0][0]}: {words[0][1]} and the first word of each other line look like offsets, not like bytes; take them away')
    if len(digits) % 2:
        odd = next(number for number, _ in words if sum(len(word) for line, word in words if line == number) % 2)
        raise NotHex(f'{len(digits)} hex digit{"" if len(digits) == 1 else "s"}; a byte has two, and line {odd} has an odd number')
    return bytes.fromhex(digits)

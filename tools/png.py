"""A browser's picture made small: a PNG of three bytes a point becomes one of a palette, with its 256 most frequent colours, to which every other goes that is
nearest. On a page of text that is hardly seen."""
import collections
import struct
import zlib

COLOURS, DEPTH, TRUE, PALETTE = 256, 8, 2, 3


def chunks(content):
    at = 8
    while at < len(content):
        length, kind = struct.unpack('>I4s', content[at:at + 8])
        yield kind, content[at + 8:at + 8 + length]
        at += 12 + length


def chunk(kind, content):
    return struct.pack('>I', len(content)) + kind + content + struct.pack('>I', zlib.crc32(kind + content))


def paeth(left, above, corner):
    guess = left + above - corner
    return min((abs(guess - left), 0, left), (abs(guess - above), 1, above), (abs(guess - corner), 2, corner))[2]


def unfiltered(kind, row, above):
    """A row's bytes, from what the filter of PNG left of them."""
    row = bytearray(row)
    for i, value in enumerate(row):
        left, corner = (row[i - 3], above[i - 3]) if i >= 3 else (0, 0)
        row[i] = (value + (0, left, above[i], (left + above[i]) // 2, paeth(left, above[i], corner) if kind == 4 else 0)[kind]) & 255
    return row


def rows_of(content):
    """The rows of a picture, each as its points of three bytes."""
    parts = collections.defaultdict(bytes)
    for kind, part in chunks(content):
        parts[kind] += part
    width, height, depth, colour = struct.unpack('>IIBB', parts[b'IHDR'][:10])
    if (depth, colour) != (DEPTH, TRUE):
        raise ValueError('not a picture of three bytes a point')
    raw, above, size = zlib.decompress(parts[b'IDAT']), bytearray(3 * width), 3 * width + 1
    for y in range(height):
        above = unfiltered(raw[y * size], raw[y * size + 1:(y + 1) * size], above)
        yield [bytes(above[x:x + 3]) for x in range(0, 3 * width, 3)]


def smaller(content):
    rows = list(rows_of(content))
    counts = collections.Counter(point for row in rows for point in row)
    kept = [colour for colour, _ in counts.most_common(COLOURS)]
    place = {colour: min(range(len(kept)), key=lambda i: sum((a - b) ** 2 for a, b in zip(kept[i], colour))) for colour in counts}
    head = struct.pack('>IIBBBBB', len(rows[0]), len(rows), DEPTH, PALETTE, 0, 0, 0)
    packed = zlib.compress(b''.join(b'\0' + bytes(place[point] for point in row) for row in rows), 9)
    return content[:8] + chunk(b'IHDR', head) + chunk(b'PLTE', b''.join(kept)) + chunk(b'IDAT', packed) + chunk(b'IEND', b'')

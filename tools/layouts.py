"""Where the nodes of a network stand in its drawing: in rings around the originator, one for each length of a shortest chain, and outside all rings those
that no chain reaches; or, for long chains, in columns, one for each length, side by side in bands that go to and fro down the page."""
import math
from typing import NamedTuple

SPACE, DISC, ROOM = 76, 21, 52
BESIDE, PITCH, GAP = 84, 2 * DISC + 14, 56  # from column to column, from disc to disc in a column, and between two bands


class Layout(NamedTuple):
    """The nodes' places, what is drawn behind them and what that is called, the lengths' names with their places, the left, right, top and bottom of what has
    to be shown besides, and how far steps of a shortest chain are bent that go around other nodes."""
    at: dict
    behind: list
    called: str
    names: list
    sides: tuple
    bends: dict


def farthest(hop_limit):
    """The longest chain that delivers a report; 7 is never lowered, and no network has a chain of 255."""
    return hop_limit + 1 if hop_limit < 7 else 255


def angles_of(lengths, below):
    """An angle for each node: each takes as much of the circle as the ends of its branches need, and those without a chain share it evenly."""
    angles = {}

    def ends(node):
        return sum(ends(other) for other in below[node]) or 1

    def spread(node, start, width):
        angles[node] = start + width / 2
        for other in below[node]:
            part = width * ends(other) / ends(node)
            spread(other, start, part)
            start += part

    alone = [node for node in lengths if lengths[node] is None]
    spread(next(iter(lengths)), -math.pi / 2, 2 * math.pi)
    for place, node in enumerate(alone):
        angles[node] = math.pi / 2 + 2 * math.pi * place / len(alone)
    return angles


def rings_of(lengths):
    """The radius of each ring, so that its nodes have room; the ring None is the outermost."""
    counts = {}
    for length in lengths.values():
        counts[length] = counts.get(length, 0) + 1
    radii, radius = {0: 0}, 0
    for length in sorted(key for key in counts if key) + [None] * (None in counts):
        radius = max(radius + SPACE, counts[length] * (2 * DISC + 8) / (2 * math.pi))
        radii[length] = radius
    return radii


def move_apart(lengths, radii, angles):
    """Moves the nodes of each ring along it until no two touch; the ring has room for them."""
    for ring, radius in radii.items():
        nodes = sorted((node for node in lengths if lengths[node] == ring), key=angles.get)
        need = (2 * DISC + 6) / radius if radius else 0
        for _ in range(400 if len(nodes) > 1 else 0):
            for place, node in enumerate(nodes):
                before = nodes[place - 1]
                gap = angles[node] - angles[before] + (2 * math.pi if place == 0 else 0)
                if gap < need:
                    angles[node] += (need - gap) / 2
                    angles[before] -= (need - gap) / 2


def off_line(point, start, end):
    """How far a point is from the line between two others."""
    (x, y), (u, v), (a, b) = start, end, point
    span = (u - x) ** 2 + (v - y) ** 2
    along = max(0, min(1, ((a - x) * (u - x) + (b - y) * (v - y)) / span)) if span else 0
    return math.hypot(a - x - along * (u - x), b - y - along * (v - y))


def length_places(radii, at, below):
    """Where the rings' lengths are written: on one ray, in the direction in which the nearest disc or straight arrow is farthest; not where that is near, and
    not straight to a side, where one would cover the next."""
    lines = [(at[one], at[other]) for one in below for other in [one, *below[one]]]

    def places(turn):
        return {ring: (radius * math.sin(turn), -radius * math.cos(turn)) for ring, radius in radii.items() if ring}

    def room(point):
        return min(ROOM, *(off_line(point, *line) for line in lines), ROOM)

    best = max((places(math.pi * part / 6) for part in range(12) if part % 6 != 3), key=lambda some: min(map(room, some.values()), default=0))
    return {ring: point for ring, point in best.items() if room(point) == ROOM}


def hearings(length):
    return f'{length} hearing{"s" if length > 1 else ""}'


def rings(hop_limit, lengths, below):
    radii, angles = rings_of(lengths), angles_of(lengths, below)
    move_apart(lengths, radii, angles)
    at = {node: (radii[length] * math.cos(angles[node]), radii[length] * math.sin(angles[node])) for node, length in lengths.items()}
    last = max(radii[length] for length in radii if length is not None and length <= farthest(hop_limit))
    names = [(x, y, hearings(length) + (f': the last at hop limit {hop_limit}' if length == farthest(hop_limit) else ''))
             for length, (x, y) in length_places(radii, at, below).items()]
    circles = [f'<circle class="ring{" last" * (length == farthest(hop_limit))}" r="{radius:.1f}"/>' for length, radius in radii.items() if length]
    return Layout(at, circles, 'ring', names, (-last, last, -last, last), {})


def columns_of(lengths, below):
    """The nodes of each length, in the order of the branches that they are on."""
    found, left = {}, [next(iter(lengths))]
    while left:
        node = left.pop()
        found.setdefault(lengths[node], []).append(node)
        left += reversed(below[node])
    return found


def bands_of(found, width):
    """For each band its lengths, its top and its bottom."""
    bottom = 0
    for first in range(0, len(found), width):
        band = range(first, min(first + width, len(found)))
        top = bottom + GAP * (first > 0)
        bottom = top + PITCH * max(len(found[length]) for length in band)
        yield band, top, bottom


def turns(found, below, at, width):
    """How far each step from a band to the next is bent: not at all from the lowest node to the uppermost, so far as the others need it to go around them."""
    for length in range(width, len(found), width):
        low, high = max(at[node][1] for node in found[length - 1]), min(at[node][1] for node in found[length])
        for sender in found[length - 1]:
            for node in below[sender]:
                start, end = at[sender][1], at[node][1]
                yield (sender, node), 0 if (start, end) == (low, high) else max(3 * DISC, (end - start) * 0.35)


def columns(hop_limit, lengths, below, width):
    """Bands of so many columns. Every other goes from right to left with its columns upside down, so that steps from band to band do not cross."""
    found, at, names, behind = columns_of(lengths, below), {}, [], []
    for band, top, bottom in bands_of(found, width):
        way = -1 if band.start // width % 2 else 1
        for length in band:
            x, nodes = way * (length - band.start - (width - 1) / 2) * BESIDE, found[length]
            tall = PITCH * len(nodes)
            at.update((node, (x, (top + bottom) / 2 + way * (row - (len(nodes) - 1) / 2) * PITCH)) for row, node in enumerate(nodes))
            if length:
                names.append((x, (top + bottom + tall) / 2 + 10 if length == band.start else top - 10, hearings(length)))
            if length == farthest(hop_limit):
                behind.append(f'<rect class="ring last" x="{x - DISC - 8:.1f}" y="{(top + bottom - tall) / 2:.1f}" '
                              f'width="{2 * DISC + 16}" height="{tall}" rx="{DISC}"/>')
    for place, node in enumerate(node for node in lengths if lengths[node] is None):
        at[node] = (place % width - (width - 1) / 2) * BESIDE, bottom + GAP + (place // width + 0.5) * PITCH
    bends = dict(turns(found, below, at, width))
    side = (width - 1) / 2 * BESIDE + max(bends.values(), default=0) / 2
    return Layout(at, behind, 'column', names, (-side, side, 0, bottom), bends)

"""A network as a drawing, from its text and the answer of the program `reach`: its nodes as discs, its hearings as arrows, and below them what they mean."""
import math

import layouts
import networks
from layouts import DISC
from networks import kind_of, state_of

KINDS = ('originator', 'delivered', 'out of reach', 'no chain')
MARGIN, LEGEND, LEAST = 24, 104, 620
PAGE, READABLE = (794, 1123), 1.4  # of A4 at 96 to the inch, and how far a drawing may be shrunk to fit it
NARROWEST = 5  # columns in a band
STYLE = ('<style>text{font-family:sans-serif;font-size:12px;fill:#222}.name{text-anchor:middle}.light{fill:#fff;font-weight:bold}.strong{font-weight:bold}'
         '.sent{text-anchor:middle;font-size:9px}'
         '.originator{fill:#111;stroke:#111}.delivered{fill:#2a7f74;stroke:#2a7f74}.out-of-reach,.no-chain{fill:#fff;stroke:#c2410c;stroke-width:3}'
         '.no-chain{stroke-dasharray:5 3}.chain{stroke:#333;stroke-width:2;fill:none}.other{stroke:#888;stroke-width:1;fill:none}'
         '.ring{fill:none;stroke:#ccc}.last{stroke:#2a7f74;stroke-width:1.6;stroke-dasharray:6 4}'
         '.length{text-anchor:middle;stroke:#fff;stroke-width:9px;paint-order:stroke}</style>')


def class_of(kind):
    return kind.replace(' ', '-')


def rim(centre, towards):
    """Where a line from a disc's centre towards a point leaves the disc."""
    far = math.hypot(towards[0] - centre[0], towards[1] - centre[1]) or 1
    return [c + (t - c) / far * (DISC + 3) for c, t in zip(centre, towards)]


def arrow(start, end, both, strong, bend):
    """A hearing from disc to disc; with two heads where each hears the other. It is bent away from the middle, one that is no step of a shortest chain by its
    own span."""
    (x, y), (u, v) = start, end
    span = math.hypot(u - x, v - y) or 1
    bend = bend if strong else min(span / 3, 70)
    sides = [((x + u) / 2 + side * bend * (y - v) / span, (y + v) / 2 + side * bend * (u - x) / span) for side in (1, -1)]
    (a, b) = max(sides, key=lambda point: math.hypot(*point))
    (x, y), (u, v) = rim(start, (a, b)), rim(end, (a, b))
    look, tip = ('chain', 'strong') if strong else ('other', 'weak')
    heads = f'marker-end="url(#{tip})"' + (f' marker-start="url(#{tip})"' if both else '')
    return f'<path class="{look}" d="M{x:.1f} {y:.1f}Q{a:.1f} {b:.1f} {u:.1f} {v:.1f}" {heads}/>'


def tip(name, colour):
    return (f'<marker id="{name}" viewBox="0 0 10 10" refX="9" refY="5" markerWidth="6" markerHeight="6" orient="auto-start-reverse">'
            f'<path d="M0 0L10 5L0 10z" fill="{colour}"/></marker>')


def legend(hop_limit, lengths, times, left, top):
    kinds = [kind_of(length, hop_limit) for length in lengths.values()]
    missed = kinds.count('out of reach') + kinds.count('no chain')
    reached = 'delivered over any chain' if hop_limit == 7 else f'delivered over up to {hop_limit + 1} hearing{"s" if hop_limit else ""}'
    yield (f'<text class="strong" x="{left:.1f}" y="{top:.1f}">hop limit {hop_limit}: {reached}; {missed} node{"" if missed == 1 else "s"} out of reach; '
           f'goes out {times}</text>')
    for kind in KINDS:
        if kind in kinds:
            yield f'<circle class="{class_of(kind)}" cx="{left + 7:.1f}" cy="{top + 21:.1f}" r="6"/><text x="{left + 20:.1f}" y="{top + 25:.1f}">{kind}</text>'
            left += 44 + 7 * len(kind)


def line_legend(last, left, y):
    """What the two kinds of arrows and the dashed ring or column mean."""
    for look, head, words in (('chain', 'strong', 'a step of a shortest chain'), ('other', 'weak', 'any other hearing')):
        yield f'<line class="{look}" x1="{left:.1f}" y1="{y - 4:.1f}" x2="{left + 26:.1f}" y2="{y - 4:.1f}" marker-end="url(#{head})"/>'
        yield f'<text x="{left + 34:.1f}" y="{y:.1f}">{words}</text>'
        left += 58 + 6 * len(words)
    if last:
        yield f'<line class="last" x1="{left:.1f}" y1="{y - 4:.1f}" x2="{left + 28:.1f}" y2="{y - 4:.1f}"/>'
        yield f'<text x="{left + 34:.1f}" y="{y:.1f}">the last {last} that is reached</text>'


def sent_legend(nodes, left, y):
    """What stands below the addresses."""
    words = ['how often the node sends the report'] * any(told.times is not None for told in nodes.values())
    words += ['\N{EN DASH} if it does not repeat'] * any(not told.repeats for told in nodes.values())
    yield f'<text x="{left:.1f}" y="{y:.1f}">below an address: {", ".join(words)}</text>' if words else ''


def length_names(names):
    for x, y, words in names:
        yield f'<text class="length" x="{x:.1f}" y="{y + 4:.1f}">{words}</text>'


def box(layout):
    """The part of the plane that shows all nodes, what stands behind them and the lengths' names: left, top, width, height."""
    discs = [(x - DISC, x + DISC, y - DISC, y + DISC) for x, y in layout.at.values()]
    sides = [layout.sides, *discs, *((x - 40, x + 40, y - 8, y + 8) for x, y, _ in layout.names)]
    left, right = min(side[0] for side in sides) - MARGIN, max(side[1] for side in sides) + MARGIN
    top, bottom = min(side[2] for side in sides) - MARGIN, max(side[3] for side in sides) + MARGIN
    spare = max(LEAST - (right - left), 0)
    return left - spare / 2, top, right - left + spare, bottom - top


def shrunk(layout):
    """How many times smaller a layout has to be for a page to show it."""
    _, _, width, height = box(layout)
    return max(width / PAGE[0], (height + LEGEND) / PAGE[1])


def layout_of(hop_limit, lengths, below):
    """Rings; where a page does not show them so that they can be read, those columns that it shows largest, if they are larger than the rings."""
    rings = layouts.rings(hop_limit, lengths, below)
    if shrunk(rings) <= READABLE:
        return rings
    longest = max(length for length in lengths.values() if length is not None)
    return min([rings, *(layouts.columns(hop_limit, lengths, below, width) for width in range(NARROWEST, longest + 2))], key=shrunk)


def hearing_lines(hearings, below, layout):
    """An arrow for each hearing, or one for two that go both ways; the steps of shortest chains above the others."""
    steps, pairs = {(sender, node) for sender in below for node in below[sender]}, set(hearings)
    for sender, node in sorted(hearings, key=lambda pair: pair in steps):
        other = (node, sender)
        if other in pairs and (other in steps or ((sender, node) not in steps and node < sender)):
            continue
        yield arrow(layout.at[sender], layout.at[node], other in pairs, (sender, node) in steps, layout.bends.get((sender, node), 0))


def sent_by(told):
    """How often a node sends the report, as it stands below its address."""
    if not told.repeats:
        return '\N{EN DASH}'
    return '' if told.times is None else f'{told.times:,}\N{MULTIPLICATION SIGN}'


def discs(hop_limit, nodes, at):
    for node, told in nodes.items():
        kind, (x, y) = kind_of(told.length, hop_limit), at[node]
        words = f'{node}: chain of {told.length}, {state_of(told, hop_limit)}' if told.length else f'{node}: {kind}'
        words += f', sends it {told.times} time{"" if told.times == 1 else "s"}' if told.times is not None else '' if told.repeats else ', does not repeat it'
        light, sent = ' light' if kind in ('originator', 'delivered') else '', sent_by(told)
        yield (f'<g><title>{words}</title><circle class="{class_of(kind)}" cx="{x:.1f}" cy="{y:.1f}" r="{DISC}"/>'
               f'<text class="name{light}" x="{x:.1f}" y="{y + (1 if sent else 4):.1f}">{node}</text>'
               + (f'<text class="sent{light}" x="{x:.1f}" y="{y + 12:.1f}">{sent}</text>' if sent else '') + '</g>')


def svg(text, answer):
    hop_limit, nodes = networks.nodes_of(answer)
    lengths = {node: told.length for node, told in nodes.items()}
    hearings = networks.hearings_of(text)
    below = networks.branches(nodes, hearings)
    layout = layout_of(hop_limit, lengths, below)
    left, top, width, height = box(layout)
    size = f'width="{width:.0f}" height="{height + LEGEND:.0f}"'
    last = layout.called if layouts.farthest(hop_limit) in lengths.values() else ''
    number, more = networks.TIMES.search(answer).groups()
    times = f'{int(number):,} time{"" if number == "1" else "s"}{more or ""}'
    parts = [f'<svg xmlns="http://www.w3.org/2000/svg" {size} viewBox="{left:.1f} {top:.1f} {width:.1f} {height + LEGEND:.1f}">', STYLE,
             f'<defs>{tip("strong", "#333")}{tip("weak", "#888")}</defs>', f'<rect x="{left:.1f}" y="{top:.1f}" {size} fill="#fff"/>',
             *layout.behind, *hearing_lines(hearings, below, layout), *length_names(layout.names), *discs(hop_limit, nodes, layout.at),
             f'<rect x="{left:.1f}" y="{top + height:.1f}" {size} fill="#fff"/>', *legend(hop_limit, lengths, times, left + 16, top + height + 22),
             *line_legend(last, left + 16, top + height + 69), *sent_legend(nodes, left + 16, top + height + 89), '</svg>', '']
    return '\n'.join(parts)

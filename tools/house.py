"""The crates as a house, for tools/picture and tools/docs: a floor for each line `## NAME: WORDS` of crates.txt, the first on the ground."""
import html
import re

WIDTH, ROOF, SIDE, HEAD, BOX, GAP, LETTER = 880, 84, 24, 30, 26, 8, 7.3
KINDS = (('library', 'code and its proof'), ('program', 'a program'), ('proofs', 'no code: statements and their proofs'))
STYLE = ('<style>text{font-family:sans-serif;font-size:13px;fill:#1f2328}.crate{font-family:monospace;font-size:12px;text-anchor:middle}'
         '.title{font-size:19px;font-weight:bold;text-anchor:middle}.name{font-weight:bold}.words{fill:#57606a;font-weight:normal}.paper{fill:#fff}'
         '.roof{fill:#8b4a3a}.roof+text{fill:#fff}.floor{fill:#f3f5f7;stroke:#8c959f}.library{fill:#dbe9f9;stroke:#4a7fb5}'
         '.program{fill:#d8efdc;stroke:#3b8a4f;stroke-width:2}.proofs{fill:#fff;stroke:#6e7781;stroke-dasharray:4 3}'
         '@media(prefers-color-scheme:dark){text{fill:#e6edf3}.words{fill:#9ea7b3}.paper{fill:#0d1117}.roof{fill:#7a3f31}.floor{fill:#161b22;stroke:#484f58}'
         '.library{fill:#17324f}.program{fill:#16391f}.proofs{fill:#0d1117;stroke:#8b949e}}</style>')


def floors(top):
    """The name of each floor, what it is for, and its crates, from the ground up."""
    found = []
    for line in (top / 'crates.txt').read_text().splitlines():
        name, _, words = line.removeprefix('## ').partition(':')
        if line.startswith('## '):
            found.append((name, words.strip(), []))
        elif name.strip() and not line.startswith('#'):
            found[-1][2].append(name.split()[0])
    return found


def unsupported(top):
    """The crates that stand on one that comes later, each with that one."""
    lines = [line.split('#')[0].partition(':') for line in (top / 'crates.txt').read_text().splitlines()]
    names = [' '.join(name.split()[:1]) for name, _, _ in lines]
    for place, (_, _, below) in enumerate(lines):
        yield from ((names[place], other) for other in below.split() if other in names[place:])


def lives(top, crate):
    """Which kind of crate it is, and what its source says first."""
    folder = top / 'crates' / crate / 'src'
    source = next(file for file in (folder / 'main.rt', folder / 'lib.rt') if file.exists())
    comment, code = re.match(r'((?://[^\n]*\n)*)(.*)', source.read_text(), re.S).groups()
    words = ' '.join(comment.split('\n//\n')[0].replace('//', ' ').split())
    return 'program' if source.name == 'main.rt' else 'library' if code.strip() else 'proofs', words


def rows(crates):
    """The crates as they stand side by side: each with its left edge and its width."""
    left, found = WIDTH, []
    for crate in crates:
        width = len(crate) * LETTER + 16
        if left + width > WIDTH - SIDE - GAP:
            left = SIDE + 2 * GAP
            found.append([])
        found[-1].append((crate, left, width))
        left += width + GAP
    return found


def box(kind, left, y, width):
    return f'<rect class="{kind}" x="{left:.1f}" y="{y}" width="{width:.1f}" height="{BOX}" rx="4"/>'


def floor(top, y, height, name, words, crates):
    yield f'<rect class="floor" x="{SIDE}" y="{y}" width="{WIDTH - 2 * SIDE}" height="{height}"/>'
    yield f'<text class="name" x="{SIDE + 2 * GAP}" y="{y + 21}">{html.escape(name)}<tspan class="words" dx="10">{html.escape(words)}</tspan></text>'
    for place, row in enumerate(rows(crates)):
        below = y + HEAD + place * (BOX + GAP)
        for crate, left, width in row:
            kind, says = lives(top, crate)
            yield (f'<g><title>{html.escape(says, quote=False)}</title>{box(kind, left, below, width)}'
                   f'<text class="crate" x="{left + width / 2:.1f}" y="{below + 17}">{crate}</text></g>')


def legend(y):
    left = SIDE
    for kind, words in KINDS:
        yield box(kind, left, y, 34) + f'<text x="{left + 42}" y="{y + 18}">{words}</text>'
        left += 74 + 7 * len(words)


def picture(top):
    parts, y, count = [], ROOF, 0
    for name, words, crates in reversed(floors(top)):
        height = HEAD + len(rows(crates)) * (BOX + GAP) + 2
        parts += floor(top, y, height, name, words, crates)
        y, count = y + height, count + len(crates)
    size = f'width="{WIDTH}" height="{y + 52}"'
    return '\n'.join([
        f'<svg xmlns="http://www.w3.org/2000/svg" {size} viewBox="0 0 {WIDTH} {y + 52}">', STYLE, '<rect class="paper" width="100%" height="100%"/>',
        f'<path class="roof" d="M{SIDE - 14} {ROOF}L{WIDTH / 2:.0f} 6L{WIDTH - SIDE + 14} {ROOF}z"/>'
        f'<text class="title" x="{WIDTH / 2:.0f}" y="{ROOF - 22}">{count} crates in {len(floors(top))} floors</text>', *parts, *legend(y + 14), '</svg>', ''])

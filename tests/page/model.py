"""What the reference model answers to generated inputs of the page: the lines of `jobs page` (rust/jobs/src/page.rs)."""
import subprocess

from trying import reading

HEADER = ('protocol', 'time stamp request', 'port', 'encrypted', 'reserved', 'ACK', 'added header', 'hop limit', 'source', 'destination', 'PDU ID', 'path',
          'last sender', 'payload', 'header length', 'PDU length')


def asked(kind, seed, count):
    """So many inputs of a kind: the words of each, and those of its answer."""
    child = reading('page', kind, str(seed), str(count), stdout=subprocess.PIPE, text=True)
    lines = child.communicate()[0].splitlines()
    if child.returncode != 0 or len(lines) != count:
        raise RuntimeError(f'`jobs page {kind} {seed} {count}` printed {len(lines)} lines')
    return [[part.split() for part in line.split(' = ')] for line in lines]


def value(word):
    return None if word == '-' else int(word)


def values(word, between=','):
    return [] if word == '.' else [value(each) for each in word.split(between)]


def table(word):
    return [] if word == '.' else [values(row) for row in word.split(';')]


def bytes_of(word):
    return b'' if word == '.' else bytes.fromhex(word)


class Pdu:
    """A PDU that was read: its fields by their names on the page, each as it is shown there before its explanation, and its lengths."""

    def __init__(self, words):
        named = dict(zip(HEADER, words))
        self.payload, self.length, self.header_length = bytes_of(named['payload']), int(named['PDU length']), int(named['header length'])
        path, self.destination, self.last = named['path'], value(named['destination']), value(named['last sender'])
        self.source, addresses = named['source'], [] if path == '-' else values(path)
        self.fields = {
            **{name: 'none' if word == '-' else word for name, word in named.items() if name not in ('header length', 'PDU length')},
            'version': '0', 'path bit': '0' if path == '-' else '1', 'destination bit': '0' if self.destination is None else '1',
            'payload length': str(len(self.payload)), 'path count': 'none' if path == '-' else str(len(addresses)),
            'path': ' '.join(map(str, addresses)) or ('none' if path == '-' else 'empty'), 'last sender': 'unknown' if self.last is None else str(self.last),
            'payload': self.payload.hex(' ').upper() or 'empty'}
        if named['encrypted'] == '-':
            del self.fields['encrypted']
        if self.payload and all(32 <= byte < 127 for byte in self.payload):
            text = self.payload.decode()
            self.fields['payload as text'] = ' '.join(text[at:at + 100] for at in range(0, len(text), 100))


class Network:
    """A network that is asked for, with a report's size and a command, and the answers."""

    def __init__(self, asked_words, answered):
        hop, lines, mute, size, to, tries, back = asked_words
        self.hop, self.lines, self.mute, self.size = int(hop), table(lines), values(mute), int(size)
        self.to, self.tries, self.back = value(to), int(tries), int(back)
        least, worst_bytes, nodes, hops, originators, failures, command = answered
        self.least, self.worst_bytes = value(least), value(worst_bytes)
        self.nodes, self.hops, self.originators = table(nodes), table(hops), table(originators)
        parts = [] if failures == '.' else [row.split(':') for row in failures.split(';')]
        self.failures = [(int(node), values(cut), values(far)) for node, cut, far in parts]
        self.command = None if command == '-' else values(command)
        self.others = len(self.nodes) - 1
        self.sent, self.bytes = sum(row[3] for row in self.nodes), sum(row[4] for row in self.nodes)

    def text(self, rng):
        """The network in the form of ./reach, with the spaces, commas and comments that it allows, and the name of each node."""
        lines, names = [rng.choice(['# a network', '', '  ']), f'{self.hop}{rng.choice(["", "   # hop limit"])}'], {}
        for node, *hearers in self.lines:
            mark, name = rng.choice([' -', ' - ', '-']) if node in self.mute else '', rng.choice(['', ' # a name', '#x, y: 7'])
            names[node] = name.lstrip(' #')
            lines.append(f'{node}{mark}{rng.choice([":", " :", ": "])} {rng.choice([" ", ", ", chr(9)]).join(map(str, hearers))}{name}')
        return '\n'.join(lines) + rng.choice(['', '\n', '\n\n']), names

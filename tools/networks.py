"""A network as ./reach is given it, a text, and the answer of the program `reach`: the nodes with their shortest chains and how often each sends the report,
the hearings and the branches, and whom failures cut off."""
import re
from typing import NamedTuple, Optional

TITLE = re.compile(r'hop limit (\d), originator (\d+)')
NODE = re.compile(r'node (\d+): (?:(the originator)|chain of (\d+) hearings?, (?:delivered with path count (\d+)(?: if its lists let it in)?|out of reach)'
                  r'|no chain, out of reach)'
                  r'(?:; (?:(does not repeat)|sends it (\d+) times?(?:, (\d+) bytes?)?))?')
TIMES = re.compile(r'^the report goes out (\d+) times?( or more)?.*$', re.M)
LOST = re.compile(r'^without node (\d+) (no chain leads to|hop limit \d does not reach)((?: \d+)+)$', re.M)
WHOLE = re.compile(rf'{TITLE.pattern}\n(?:{NODE.pattern}\n)+\d+ nodes? out of reach\n(?:the least hop limit that reaches all is \d|no hop limit reaches all)\n'
                   rf'the report goes out .*\n(?:that is .*\n)?(?:(?:without node .*\n)+|no single failure .*\n)This holds .*\n(?:.*\n){{4}}')
COLUMNS = 'node,state,chain,path count,repeats,times sent,bytes sent,cuts off,puts out of reach'


class Node(NamedTuple):
    """What the program says of a node: None where it says nothing."""
    length: Optional[int]
    path_count: Optional[int]
    repeats: bool
    times: Optional[int]
    octets: Optional[int]


def is_whole(answer):
    """Whether a text is all that the program prints for a network."""
    return WHOLE.fullmatch(answer) is not None


def nodes_of(answer):
    """The hop limit, and each node in order."""
    nodes = {}
    for node, originator, length, path_count, mute, times, octets in NODE.findall(answer):
        number = [int(word) if word else None for word in (length, path_count, times, octets)]
        nodes[int(node)] = Node(0 if originator else number[0], number[1], not mute, number[2], number[3])
    return int(TITLE.match(answer).group(1)), nodes


def lines_of(text):
    """The addresses of each line that has some, after that of the hop limit."""
    lines = [re.sub('[:,-]', ' ', line.split('#')[0]).split() for line in text.split('\n')]
    return [[int(word) for word in line] for line in lines if line][1:]


def hearings_of(text):
    """Each pair of a sender and a node that hears it, once, without those of a node with itself."""
    return list(dict.fromkeys((sender, node) for sender, *nodes in lines_of(text) for node in nodes if node != sender))


def branches(nodes, hearings):
    """For each node those whose shortest chain goes on from it; the first sender that is one hearing nearer, and sends the report, counts."""
    lengths = {node: told.length for node, told in nodes.items()}
    below, placed = {node: [] for node in lengths}, set()
    for sender, node in sorted(hearings, key=lambda pair: list(lengths).index(pair[0])):
        if nodes[sender].repeats and lengths[sender] is not None and lengths[node] == lengths[sender] + 1 and node not in placed:
            placed.add(node)
            below[sender].append(node)
    return below


def kind_of(length, hop_limit):
    if length is None:
        return 'no chain'
    return 'originator' if length == 0 else 'delivered' if hop_limit == 7 or length <= hop_limit + 1 else 'out of reach'


def state_of(told, hop_limit):
    """A node's kind; a mark also stands for lists that stop the report."""
    kind = kind_of(told.length, hop_limit)
    return 'delivered if its lists let it in' if kind == 'delivered' and not told.repeats else kind


def csv(answer):
    """A row for each node, after the names of the columns; what is not told is left empty, and several addresses have spaces between them."""
    hop_limit, nodes = nodes_of(answer)
    lost = {(int(node), words.startswith('no chain')): others.strip() for node, words, others in LOST.findall(answer)}
    rows = [(node, state_of(told, hop_limit), told.length, told.path_count, 'yes' if told.repeats else 'no', told.times if told.repeats else 0,
             told.octets if told.repeats else None if nodes[next(iter(nodes))].octets is None else 0, lost.get((node, True)), lost.get((node, False)))
            for node, told in nodes.items()]
    return '\n'.join([COLUMNS, *(','.join('' if field is None else str(field) for field in row) for row in rows), ''])

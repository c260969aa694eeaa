"""Networks of which it is known who hears whom, by the library: whom a report reaches, how often it goes out, and whom the failure of a node cuts off."""
import ctypes
from dataclasses import dataclass
from typing import Dict, Mapping, Optional, Tuple

import mant_c
from mant_types import ADDRESS, WORD_64, whole

NODE_LIMIT, AIRTIME_TABLE, NO_CHAIN, NO_NODE, NO_HOP_LIMIT = 255, 65280, 255, 255, 8  # those of C without MANT_
MOST_HOPS, WORD_16 = 7, 2**16 - 1
ENOUGH = 10_000_000  # where the count of transmissions stops


@dataclass(frozen=True)
class Reached:
    """A node of a network.

    address     its address
    chain       how many hearings its shortest chain has: 0 for the originator, None where there is no chain
    path_count  the smallest with which the report is delivered; None where it is not
    """
    address: int
    chain: Optional[int]
    path_count: Optional[int]

    @property
    def is_out_of_reach(self):
        return self.path_count is None and self.chain != 0


@dataclass(frozen=True)
class Reach:
    """Who is delivered a report: the nodes in the order in which they were named, and the least hop limit that reaches all, None if no chain leads to one."""
    nodes: Tuple[Reached, ...]
    least_hop_limit: Optional[int]

    @property
    def out_of_reach(self):
        """The addresses of the nodes that are not delivered the report."""
        return tuple(node.address for node in self.nodes if node.is_out_of_reach)


@dataclass(frozen=True)
class Airtime:
    """How often a report goes out, or how many bytes that is: in all, and from each node by its address."""
    total: int
    by_node: Mapping[int, int]


class Network:
    """A network of which it is known who hears whom. `heard_by` has for each node the nodes that hear it, as a dict or as pairs; the first is the originator.
    `not_repeating` has the nodes that do not repeat the report: repeating is off, their lists stop it, or it is for them.

    The results hold if the report is fresh and has a path; every node takes each transmission that it hears once, and no other; echo is on at every node, and
    no two have the same address; lists have no fault, and outputs have room. If transmissions are lost, the report goes out no more often. A node whose lists
    stop the report is not delivered it, and a report with a destination is delivered to that node alone. Include an uncertain hearing for the counts, and
    leave it out for chains and failures.

    >>> network = Network({1200: [2001, 2002], 2001: [2002, 3000], 2002: [2001, 3000]}, not_repeating=[3000])
    >>> network.reach(1).least_hop_limit, network.cut_off()
    (1, {})
    >>> network.transmissions(3)
    Airtime(total=5, by_node={1200: 1, 2001: 2, 2002: 2, 3000: 0})
    >>> network.bytes(3, size=20).total
    112
    """

    def __init__(self, heard_by, not_repeating=()):
        lines = [[node, *_hearing(node, nodes)] for node, nodes in (heard_by.items() if hasattr(heard_by, 'items') else heard_by)]
        if not lines:
            raise ValueError('heard_by names no node; the first is the originator')
        named = [[whole('an address', address, ADDRESS) for address in line] for line in lines]
        silent = [whole('an address', address, ADDRESS) for address in not_repeating]
        self.addresses = tuple(dict.fromkeys(address for line in (*named, silent) for address in line))
        if len(self.addresses) > NODE_LIMIT:
            raise ValueError('there are more than 255 nodes')
        place = {address: place for place, address in enumerate(self.addresses)}
        self._pairs = bytes(place[address] for line in named for heard in line[1:] for address in (line[0], heard))
        self._marks = bytes(address in silent for address in self.addresses)

    def lengths(self, failed=None):
        """The hearings of each node's shortest chain, in order; None if it has no chain. The node at the address `failed` neither sends nor hears, and has no
        chain itself."""
        place = NO_NODE if failed is None else self.addresses.index(failed)
        nodes = len(self.addresses)
        found = (ctypes.c_uint8 * nodes)()
        mant_c.library().mant_chain_lengths(self._pairs, len(self._pairs), self._marks, nodes, 0, place, found, nodes)
        return tuple(None if length == NO_CHAIN else length for length in found)

    def reach(self, hop_limit) -> Reach:
        """Who is delivered a report with this hop limit, 0 to 7."""
        hop_limit, lengths = whole('hop_limit', hop_limit, MOST_HOPS), self.lengths()
        values = bytes(NO_CHAIN if length is None else length for length in lengths)
        least = mant_c.library().mant_least_hop_limit(values, len(values))
        nodes = (Reached(address, length, _path_count(hop_limit, length)) for address, length in zip(self.addresses, lengths))
        return Reach(tuple(nodes), None if least == NO_HOP_LIMIT else least)

    def transmissions(self, hop_limit, enough=ENOUGH) -> Airtime:
        """How often a report with this hop limit goes out, its first sending included, and how often each node sends it. A count that reaches `enough`, which
        bounds the time, raises OverflowError."""
        enough = whole('enough', enough, WORD_64)
        return self._counted(hop_limit, 'mant_network_transmissions', enough, f'the report goes out {enough:,} times or more, and the count stops there')

    def bytes(self, hop_limit, size, enough=4615 * ENOUGH) -> Airtime:
        """The bytes of those transmissions, if the fresh report has this size, header included."""
        enough, size = whole('enough', enough, WORD_64), whole('size', size, WORD_16)
        return self._counted(hop_limit, 'mant_network_bytes', size, enough, f'{enough:,} bytes or more go out, and the count stops there')

    def cut_off(self) -> Dict[int, Tuple[int, ...]]:
        """The nodes that each failure cuts off, by the address of the failed node: they have a chain, and none without it. The originator does not fail."""
        whole_lengths, cut = self.lengths(), {}
        for failed in self.addresses[1:]:
            each = zip(self.addresses, whole_lengths, self.lengths(failed))
            lost = tuple(address for address, before, after in each if address != failed and before is not None and after is None)
            if lost:
                cut[failed] = lost
        return cut

    def _counted(self, hop_limit, name, *given):
        *given, words = given
        nodes = len(self.addresses)
        marks, counts, table = (ctypes.c_uint8 * nodes)(*self._marks), (ctypes.c_uint64 * nodes)(), ctypes.create_string_buffer(256 * nodes)
        found = getattr(mant_c.library(), name)(self._pairs, len(self._pairs), 0, whole('hop_limit', hop_limit, MOST_HOPS), *given, marks, nodes, counts, nodes,
                                                table, 256 * nodes)
        if found.enough:
            raise OverflowError(words)
        return Airtime(found.value, dict(zip(self.addresses, counts)))


def reach(hop_limit, heard_by, not_repeating=()) -> Reach:
    """Who is delivered a report with this hop limit, 0 to 7, on the network of these hearings (`Network`).

    >>> found = reach(1, {1200: [2001, 2002], 2001: [2003], 2003: [2004]})
    >>> found.out_of_reach, found.least_hop_limit
    ((2004,), 2)
    >>> found.nodes[3]
    Reached(address=2003, chain=2, path_count=1)
    """
    hop_limit = whole('hop_limit', hop_limit, MOST_HOPS)
    return Network(heard_by, not_repeating).reach(hop_limit)


def _hearing(node, nodes):
    if isinstance(nodes, int):
        raise TypeError(f'what hears {node} is {nodes}; give the addresses that hear it, as [{nodes}]')
    return nodes


def _path_count(hop_limit, length):
    """As the header says how to read a length."""
    return length - 1 if length and (hop_limit == MOST_HOPS or length <= hop_limit + 1) else None

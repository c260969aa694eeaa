"""The stations heard: who was heard, how often, and over how short a path."""
from typing import NamedTuple, Optional

import mant_c
import mant_given as given
from mant_c import library
from mant_types import ADDRESS, BYTE, WORD_64, Answer, flag, words_of, whole


class Station(NamedTuple):
    """A station that was heard: the PDUs read from it, those of them that echo dropped, and its shortest path count, None while none had the path bit.
    The counts stop at 65,535."""
    address: int
    reads: int
    echoes: int
    shortest_path: Optional[int]


class Stations:
    """Up to 128 stations, by rising address. It begins empty, or as the table whose `words` are given.

    >>> from mant import Node, hear, originate
    >>> stations, pdu = Stations(), originate(b'rain', source=1000, hop_limit=3, with_path=True)
    >>> stations.count_answer(pdu, hear(pdu, Node(own=2000)))
    >>> stations.count(1600, path_count=2)
    >>> list(stations)
    [Station(address=1000, reads=1, echoes=0, shortest_path=0), Station(address=1600, reads=1, echoes=0, shortest_path=2)]
    >>> stations.remove(1600)
    >>> stations.get(1600)
    Traceback (most recent call last):
        ...
    mant.Refused: 56: no such station is held
    """

    def __init__(self, words=()):
        self._table = words_of(mant_c.Stations, 'table', words, ADDRESS)

    @property
    def words(self):
        """The words that hold the table, to be kept elsewhere."""
        return tuple(self._table.words)

    def __len__(self):
        return library().mant_stations_held(self._table)

    def __iter__(self):
        """The stations by rising address."""
        return (self.at(place) for place in range(len(self)))

    def at(self, place):
        """The station at a place of the listing by rising address, the lowest at 0. Raises Refused with 56 from the number held on."""
        return _station(library().mant_station_at(self._table, whole('place', place, WORD_64)))

    def get(self, address):
        """The station of an address. Raises Refused with 56 if it is not held."""
        return _station(library().mant_station_of(self._table, whole('address', address, ADDRESS)))

    def remove(self, address):
        """Removes the station of an address. Raises Refused with 56 if it is not held. Heard again later, it starts anew."""
        given.checked(library().mant_remove_station(self._table, whole('address', address, ADDRESS)))

    def count(self, source, echo=False, path_count=None):
        """Counts a PDU that was read; without the path bit its path count is None. Raises Refused with 55 if its source is new and 128 stations are held."""
        heard = mant_c.Heard(
            whole('source', source, ADDRESS), flag('echo', echo), path_count is not None, 0 if path_count is None else whole('path count', path_count, BYTE))
        given.checked(library().mant_count_heard(self._table, heard))

    def count_answer(self, received, answer):
        """Counts the PDU at the start of the received bytes by what a node answered for it (`hear`, or a step of `walk`); nothing if none was read.
        Raises Refused with 55 if its source is new and 128 stations are held."""
        answer = given.a(Answer, 'answer', answer)
        counted = mant_c.Answer(delivery=answer.delivery, repeat=answer.repeat, taken=answer.taken)
        given.checked(library().mant_count_answer(self._table, *given.sliced('received', received), counted))


def _station(found):
    given.checked(found.number)
    station = found.station
    return Station(station.address, station.reads, station.echoes, station.shortest_path if station.has_path else None)

"""The transmit queue: PDUs that wait for the modem's next slot."""
from typing import NamedTuple

import mant_c
import mant_given as given
from mant_c import library
from mant_types import WORD_64, whole


class Level(NamedTuple):
    """How many PDUs a queue holds, and how many bytes they have together."""
    pdus: int
    bytes: int


class Queue:
    """Up to 32 PDUs, of 2,048 bytes together. It begins empty, or as the queue whose `memory` is given.

    >>> queue = Queue()
    >>> queue.add(bytes.fromhex('0200100103E8002A'))
    >>> queue.add(bytes.fromhex('0000000103E92B'))
    >>> queue.level
    Level(pdus=2, bytes=15)
    >>> queue.take(12).hex()
    '0200100103e8002a'
    >>> queue.take(6)
    Traceback (most recent call last):
        ...
    mant.Refused: 62: the output has no room for the oldest PDU of the queue
    """

    def __init__(self, memory=None):
        self._memory = mant_c.Queue()
        if memory is not None:
            memory, length = given.sliced('memory', memory), len(self._memory.bytes)
            if memory[1] != length:
                raise ValueError(f'a queue has {length} bytes, not {memory[1]}; a new one is made without bytes')
            self._memory.bytes[:] = memory[0]

    @property
    def memory(self):
        """The bytes that hold the queue, to be kept elsewhere."""
        return bytes(self._memory.bytes)

    @property
    def level(self):
        found = library().mant_queue_level(self._memory)
        return Level(found.pdus, found.bytes)

    def add(self, pdu):
        """Adds a PDU behind those held. Raises Refused with 61 if the bytes are not exactly one PDU, then with 60 if there is no room for it."""
        given.checked(library().mant_queue_add(self._memory, *given.sliced('pdu', pdu)))

    def take(self, room):
        """Takes as many of the oldest PDUs as fit so many bytes, and returns them as one batch, empty if none is held. Raises Refused with 62 if the oldest
        does not fit."""
        output = given.room(min(whole('room', room, WORD_64), len(self._memory.bytes)))
        batch = library().mant_queue_take(self._memory, *output)
        given.checked(batch.number)
        return output[0].raw[:batch.bytes]

    def clear(self):
        """Drops all PDUs held."""
        library().mant_queue_clear(self._memory)

"""What the functions of mant.py take and answer, and the settings that C can hold."""
import ctypes
import dataclasses
import functools
import operator
from dataclasses import dataclass
from typing import Optional, Sequence, Tuple

import mant_c
from mant_numbers import Number

EDITION_1_1, EDITION_1_2 = 11, 12
NO_LIST, FIRST_LIST, SECOND_LIST = 0, 1, 2
CHOICES = ('source_pass', 'source_reject', 'destination_pass', 'destination_reject')
EXCHANGE_LIMIT, EXCHANGE_TYPE, LIST_WORDS = 4626, 20, 1040  # those of C without MANT_
BYTE, ADDRESS, WORD_32, WORD_64 = 2**8 - 1, 2**16 - 1, 2**32 - 1, 2**64 - 1  # the most that a C type holds


@dataclass(frozen=True)
class Header:
    """What reading shows of a PDU, in the order of its bits.

    protocol            0 best efforts, 1 reliable
    time_stamp_request  whether a time stamp is asked for
    port                0 to 15
    encrypted           whether the payload is; None under edition 1.1, which has no encrypted flag
    reserved            the reserved bits, 0 to 3; under edition 1.1 with the encrypted flag above them, 0 to 7
    ack                 whether it is an acknowledgement
    added_header        whether another header follows
    hop_limit           how often it may still be repeated; 7 is never lowered
    source              the address of the originator
    destination         an address, or None: for everyone
    pdu_id              0 to 255, or None for best efforts
    path                the nodes that repeated it, in order; None without the path bit
    last_sender         who it was heard from: the last of its path, or the source where that is empty; None without the path bit
    payload             its bytes
    header_length       where the payload begins
    pdu_length          where the next PDU of a batch begins
    """
    protocol: int
    time_stamp_request: bool
    port: int
    encrypted: Optional[bool]
    reserved: int
    ack: bool
    added_header: bool
    hop_limit: int
    source: int
    destination: Optional[int]
    pdu_id: Optional[int]
    path: Optional[Tuple[int, ...]]
    last_sender: Optional[int]
    payload: bytes
    header_length: int
    pdu_length: int


@dataclass(frozen=True)
class Node:
    """What a node is set to. Each of the last four chooses one of the two lists of its kind, FIRST_LIST or SECOND_LIST, or none.

    own        its address
    edition    EDITION_1_1 or EDITION_1_2
    echo       whether it drops a PDU whose path or source is its own address
    repeating  whether it repeats at all

    >>> Node(own=2000, source_pass=3)
    Traceback (most recent call last):
        ...
    ValueError: source_pass is 3; it can be 0 to 2
    """
    own: int
    edition: int = EDITION_1_2
    echo: bool = True
    repeating: bool = True
    source_pass: int = NO_LIST
    source_reject: int = NO_LIST
    destination_pass: int = NO_LIST
    destination_reject: int = NO_LIST

    def __post_init__(self):
        for name in CHOICES:
            whole(name, getattr(self, name), SECOND_LIST)


@dataclass(frozen=True)
class Lists:
    """The address lists of a node, two of each kind. Each is low, high, low, high and so on, both ends included. Make them once: the values are copied here,
    and laid into one block at the first call that uses them.

    >>> Lists(source_pass=[1000, 1999]).source_pass
    (1000, 1999)
    """
    source_pass: Sequence[int] = ()
    source_pass_second: Sequence[int] = ()
    source_reject: Sequence[int] = ()
    source_reject_second: Sequence[int] = ()
    destination_pass: Sequence[int] = ()
    destination_pass_second: Sequence[int] = ()
    destination_reject: Sequence[int] = ()
    destination_reject_second: Sequence[int] = ()

    def __post_init__(self):
        for field in dataclasses.fields(self):
            object.__setattr__(self, field.name, values_of(field.name, getattr(self, field.name)))

    @functools.cached_property
    def _laid(self):
        block = (ctypes.c_uint16 * LIST_WORDS)()
        lists = (part for field in dataclasses.fields(self) for part in in_c(getattr(self, field.name)))
        mant_c.library().mant_lay_eight(block, *lists)
        return block


@dataclass(frozen=True)
class ListFault:
    """What is wrong with a node's lists. It is false if no list has a fault.

    number  22, 21 or 20, or 0 if no list has a fault
    list    the name in Lists of the first list that has a fault, or None
    """
    number: Number
    list: Optional[str]

    def __bool__(self):
        return self.number != Number.DONE


@dataclass(frozen=True)
class Answer:
    """What a node answers for one PDU.

    delivery     0 if it is delivered, or the number that says why not
    repeat       0 if it is repeated, or the number that says why not
    payload      what is delivered, or None
    repeated     the PDU to be sent, or None
    last_sender  who the PDU was heard from; None where that is unknown
    taken        how many bytes the PDU has; 0 where it was not read
    """
    delivery: Number
    repeat: Number
    payload: Optional[bytes]
    repeated: Optional[bytes]
    last_sender: Optional[int]
    taken: int


@dataclass(frozen=True)
class Step:
    """One PDU of a batch: where it begins, and the node's answer."""
    offset: int
    answer: Answer


@dataclass(frozen=True)
class Element:
    """An element of a run: its type, its value, and the places in the run where it begins and ends."""
    type_number: int
    value: bytes
    place: int
    end: int


@dataclass(frozen=True)
class Exchange:
    """Header and payload of a PDU as they lie in an exchange. Places count from its first byte."""
    header: bytes
    payload: bytes
    header_place: int
    payload_place: int


@dataclass(frozen=True)
class Limits:
    """Sizes in bytes; the path's in addresses, a list's in values."""
    fixed: int
    payload: int
    path: int
    header: int
    pdu: int
    list: int
    batch: int


class Record:
    """The last message number accepted from each of up to 64 sources, for `open`. `words` can be kept over a restart, and all
    129 given to a new one; without them it is empty.

    >>> Record().words[:3]
    (0, 0, 0)
    """

    def __init__(self, words=()):
        self._sources = words_of(mant_c.Sources, 'record', words, WORD_32)

    @property
    def words(self):
        return tuple(self._sources.words)


def words_of(made, name, words, most):
    """A struct of C that holds these words, all that it has or none."""
    words, held = [whole(f'a word of the {name}', word, most) for word in words], made()
    if len(words) not in (0, len(held.words)):
        raise ValueError(f'a {name} has {len(held.words)} words, not {len(words)}; a new one is made without words')
    held.words[:len(words)] = words
    return held


def values_of(name, values):
    """The values of a list, each one that C can hold."""
    return tuple(whole(f'a value of {name}', value, ADDRESS) for value in values)


def in_c(values):
    """Values as C takes them, with their count."""
    return (ctypes.c_uint16 * len(values))(*values), len(values)


def whole(name, value, most):
    """A whole number that C can hold."""
    try:
        value = operator.index(value)
    except TypeError:
        raise TypeError(f'{name} is {value!r}, which is no whole number') from None
    if not 0 <= value <= most:
        raise ValueError(f'{name} is {value}; it can be 0 to {most}')
    return value


def flag(name, value):
    if value not in (True, False):
        raise TypeError(f'{name} is {value!r}, which is neither True nor False')
    return bool(value)

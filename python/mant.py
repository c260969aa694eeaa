"""The MANT layer of ALERT2 for Python: the library libmant, called through ctypes. It needs Python 3.9 or newer, and no packages.

Make the library once with `tools/build shared mant` at the top of the clone, and set PYTHONPATH to the clone's folder `python`. MANT_LIB names a
library elsewhere. Arguments are anything like bytes; results are bytes.

>>> report = bytes.fromhex('0300100B03E80640007001081212032413220276')
>>> header = read(report)
>>> header.source, header.destination, header.hop_limit, header.path
(1000, 1600, 1, ())
>>> answer = hear(report, Node(own=2000))
>>> answer.delivery, answer.repeat, answer.repeated.hex()
(<Number.FOR_ANOTHER: 39>, <Number.DONE: 0>, '0300000b03e806400107d07001081212032413220276')

What there is:

reading      `read`, `path`
originating  `originate`
a node       `hear`, `walk`, `change_over`, `list_fault`, `list_holds`; `Stations` counts who was heard, `Queue` holds PDUs for the next slot
planning     `reach`, `Network`, `most_transmissions`, `most_bytes`, `most_for_command`
a decoder    `elements`, `read_exchange`, `write_exchange`
sealing      `seal`, `message_number`, `remove_source`, and `mant.open`, which opens a sealed PDU once, against a `Record`

`from mant import *` does not import `mant.open`, which would hide Python's own; see `help(mant.open)`. PDUs that wait for their acknowledgement are for C and
Rust only.

>>> import mant
>>> key, record = b'sixteen  letters', mant.Record()
>>> sealed = mant.seal(mant.originate(b'open gate 3', source=1000, hop_limit=3, with_path=True), key, number=1)
>>> mant.open(sealed, key, record)
b'open gate 3'

Errors:

Refused         the library refused the input; it has a `number` and a `meaning`
ValueError      a setting that C cannot hold (none is cut), a choice of list other than 0, 1 and 2, or a malformed network
OverflowError   a bound above 18,446,744,073,709,551,615, or a count that reached its limit
TypeError       a value of another type
LibraryMissing  there is no library; the message says how to make it

There is always room for what is written, so the numbers for a short output do not occur.

>>> originate(b'rain', source=1000, hop_limit=263)
Traceback (most recent call last):
    ...
mant.Refused: 10: the hop limit asked for is above 7
>>> originate(b'rain', source=70000, hop_limit=3)
Traceback (most recent call last):
    ...
ValueError: source is 70000; it can be 0 to 65535
"""
import ctypes
import dataclasses
from typing import Iterator

import mant_c
import mant_given as given
from mant_c import LibraryMissing, library
from mant_network import Airtime, Network, Reach, Reached, reach
from mant_numbers import VERSION, Number, Refused
from mant_queue import Level, Queue
from mant_stations import Station, Stations
from mant_types import (ADDRESS, BYTE, EDITION_1_1, EDITION_1_2, EXCHANGE_LIMIT, EXCHANGE_TYPE, FIRST_LIST, NO_LIST, SECOND_LIST, WORD_64,
                        Answer, Element, Exchange, Header, Limits, ListFault, Lists, Node, Record, Step, flag, whole)

# `open` is left out, so that `from mant import *` does not take the place of Python's own
__all__ = ['Airtime', 'Answer', 'EDITION_1_1', 'EDITION_1_2', 'EXCHANGE_TYPE', 'Element', 'Exchange', 'FIRST_LIST', 'Header', 'Level', 'LibraryMissing',
           'Limits', 'ListFault', 'Lists', 'NO_LIST', 'Network', 'Node', 'Number', 'Queue', 'Reach', 'Reached', 'Record', 'Refused', 'SECOND_LIST',
           'Station', 'Stations', 'Step', 'VERSION', 'change_over', 'elements', 'hear', 'limits', 'list_fault', 'list_holds', 'message_number',
           'most_bytes', 'most_for_command', 'most_transmissions', 'originate', 'path', 'reach', 'read', 'read_exchange', 'remove_source', 'seal', 'walk',
           'write_exchange']

# known by this module's name, whichever file they stand in
for _known in (Airtime, Answer, Element, Exchange, Header, Level, LibraryMissing, Limits, ListFault, Lists, Network, Node, Number, Queue, Reach, Reached,
               Record, Refused, Station, Stations, Step, reach):
    _known.__module__ = 'mant'


def limits():
    """The sizes, as the library has them.

    >>> limits().pdu, limits().batch
    (4615, 16384)
    """
    found = library().mant_limits()
    return Limits(*(getattr(found, field.name) for field in dataclasses.fields(Limits)))


def read(pdu, edition=EDITION_1_2):
    """The header of the PDU at the start of the bytes, as the edition shows it. Bytes behind the PDU are ignored.

    >>> read(bytes.fromhex('0100300203E80640AABB')).payload.hex()
    'aabb'
    >>> read(b'short')
    Traceback (most recent call last):
        ...
    mant.Refused: 1: too short: every PDU has 6 bytes or more
    """
    pdu = given.content('pdu', pdu)
    found = library().mant_read(whole('edition', edition, WORD_64), pdu, len(pdu))
    given.checked(found.number)
    return Header(
        protocol=found.protocol, time_stamp_request=found.time_stamp_request, port=found.port, encrypted=found.encrypted if found.has_encrypted else None,
        reserved=found.reserved, ack=found.ack, added_header=found.added_header, hop_limit=found.hop_limit, source=found.source,
        destination=found.destination if found.has_destination else None, pdu_id=found.pdu_id if found.protocol == 1 else None,
        path=_path(pdu, found), last_sender=found.last_sender if found.has_last_sender else None,
        payload=pdu[found.header_length:found.pdu_length], header_length=found.header_length, pdu_length=found.pdu_length)


def _path(pdu, found):
    if not found.path_bit:
        return None
    return tuple(library().mant_path_address(pdu, len(pdu), place) for place in range(found.path_count))


def path(pdu):
    """The path of the PDU at the start of the bytes, in order; None without the path bit.

    >>> path(bytes.fromhex('0200000003E80207D00BB8'))
    (2000, 3000)
    """
    return read(pdu).path


def originate(payload, *, source, hop_limit, destination=None, port=0, time_stamp_request=False, with_path=False, reliable=False, pdu_id=0,
              encrypted=False, edition=EDITION_1_2):
    """A fresh PDU with this payload. Without a destination it is for everyone. `encrypted` says that the payload is encrypted already.

    >>> originate(b'rain', source=1000, hop_limit=3, with_path=True).hex()
    '0200300403e8007261696e'
    """
    fresh = mant_c.Fresh(
        edition=whole('edition', edition, WORD_64), source=whole('source', source, ADDRESS), has_destination=destination is not None,
        destination=whole('destination', 0 if destination is None else destination, ADDRESS), hop_limit=whole('hop_limit', hop_limit, WORD_64),
        port=whole('port', port, WORD_64), time_stamp_request=flag('time_stamp_request', time_stamp_request), with_path=flag('with_path', with_path),
        reliable=flag('reliable', reliable), pdu_id=whole('pdu_id', pdu_id, BYTE), encrypted=flag('encrypted', encrypted))
    output = given.room()
    return given.written(library().mant_originate(fresh, *given.sliced('payload', payload), *output), output)


def list_fault(lists):
    """The first fault of a node's lists: its number, and the list that has it.

    >>> list_fault(Lists(source_pass=[1000, 1999]))
    ListFault(number=<Number.DONE: 0>, list=None)
    >>> list_fault(Lists(source_pass_second=[1999, 1000]))
    ListFault(number=<Number.LOW_ABOVE_HIGH: 20>, list='source_pass_second')
    """
    found = library().mant_list_fault(*given.block(lists))
    return ListFault(Number(found.number), dataclasses.fields(Lists)[found.list].name if found.number else None)


def change_over(node, choice):
    """Returns the node with all four kinds of list set to FIRST_LIST, SECOND_LIST or NO_LIST. A kind that was off is set too, and a pass list that is
    chosen and empty passes nothing.

    >>> change_over(Node(own=2000, source_pass=FIRST_LIST), SECOND_LIST).source_pass
    2
    """
    found = library().mant_change_over(given.node(node), whole('choice', choice, SECOND_LIST))
    return Node(**{field.name: getattr(found, field.name) for field in dataclasses.fields(Node)})


def list_holds(values, address):
    """Whether a range of a list holds an address.

    >>> list_holds([1000, 1999, 3000, 3000], 3000)
    True
    """
    return library().mant_list_holds(*given.listed('the list', values), whole('address', address, ADDRESS))


def _answer(found, received, output):
    place = found.delivered_place
    return Answer(
        delivery=Number(found.delivery), repeat=Number(found.repeat), payload=None if found.delivery else received[place:place + found.delivered_length],
        repeated=None if found.repeat else ctypes.string_at(output[0], found.repeated_length),
        last_sender=found.last_sender if found.has_last_sender else None, taken=found.taken)


def hear(received, node, lists=Lists()):
    """What a node does with the PDU at the start of the received bytes. The answer has its two numbers; neither of them raises Refused.

    >>> answer = hear(originate(b'rain', source=1000, hop_limit=3), Node(own=2000, repeating=False))
    >>> answer.payload, answer.repeat.meaning
    (b'rain', 'not repeated: this node has repeating off')
    >>> hear(b'short', Node(own=2000)).delivery
    <Number.TOO_SHORT: 1>
    """
    received, output = given.content('received', received), given.room()
    found = library().mant_hear(given.node(node), *given.block(lists), received, len(received), *output)
    return _answer(found, received, output)


def walk(batch, node, lists=Lists()) -> Iterator[Step]:
    """A node's answer for each PDU of a batch, in order. The walk ends after the first with `taken` 0: a PDU that cannot be read, a fault of the lists, or an
    unknown edition. A batch of more than 16,384 bytes is refused with 54 before the first.

    >>> batch = originate(b'rain', source=1000, hop_limit=3) + originate(b'wind', source=1001, hop_limit=0) + b'noise'
    >>> for step in walk(batch, Node(own=2000)):
    ...     print(step.offset, step.answer.payload, int(step.answer.delivery), int(step.answer.repeat))
    0 b'rain' 0 0
    10 b'wind' 0 37
    20 None 1 1
    """
    return _steps(given.content('batch', batch), (given.node(node), *given.block(lists)))


def _steps(batch, settings):
    output, cursor = given.room(), mant_c.Cursor()
    while True:
        found = library().mant_step(*settings, batch, len(batch), cursor, *output)
        if found.kind == mant_c.REFUSED:
            raise Refused(found.answer.delivery)
        if found.kind == mant_c.ENDED:
            return
        yield Step(cursor.place, _answer(found.answer, batch[cursor.place:found.next.place], output))
        cursor = found.next


def _bound(found):
    given.checked(found.number)
    if found.too_large:
        raise OverflowError('the bound is above 18,446,744,073,709,551,615, and the library counts no further')
    return found.value


def most_transmissions(nodes, hop_limit):
    """The most transmissions that one report can cause, its first sending included. `nodes` counts the nodes that repeat, without the originator and the
    destination. It holds if the report has a path, echo is on at every node, no two have the same address, and none takes a transmission twice. A decoder
    that hands a frame over twice breaks that. `./plan` refuses more than 65,535 nodes, since there are no more addresses; this takes any number.

    >>> most_transmissions(8, 3)
    401
    """
    return _bound(library().mant_most_transmissions(whole('nodes', nodes, WORD_64), whole('hop_limit', hop_limit, WORD_64)))


def most_bytes(nodes, hop_limit, size):
    """The most bytes of those transmissions, if the fresh PDU has this size, header included. A fresh PDU with a path has 7 to 4,105 bytes, and `./plan`
    refuses other sizes; this takes any.

    >>> most_bytes(8, 3, 20)
    10276
    """
    return _bound(library().mant_most_bytes(whole('nodes', nodes, WORD_64), whole('hop_limit', hop_limit, WORD_64), whole('size', size, WORD_64)))


def most_for_command(tries, nodes, hop_limit, answer_nodes=None, answer_hop_limit=None):
    """The most transmissions of one command, sent again at most `tries` times, and of its acknowledgements: its destination acknowledges every copy that
    arrives. `answer_nodes` and `answer_hop_limit` are the acknowledgement's, by default the command's. Neither the originator nor the destination counts
    among the nodes. It holds if what `most_transmissions` asks holds for both.

    >>> most_for_command(0, 3, 3)
    272
    """
    answer_nodes = nodes if answer_nodes is None else answer_nodes
    answer_hop_limit = hop_limit if answer_hop_limit is None else answer_hop_limit
    return _bound(library().mant_most_for_command(
        whole('tries', tries, WORD_64), whole('nodes', nodes, WORD_64), whole('hop_limit', hop_limit, WORD_64),
        whole('answer_nodes', answer_nodes, WORD_64), whole('answer_hop_limit', answer_hop_limit, WORD_64)))


def elements(run) -> Iterator[Element]:
    """Each element of a run, in order, to find the exchange: a decoder sends other elements before it. An element that does not end within the bytes raises
    Refused with 57.

    >>> run = bytes.fromhex('750101') + write_exchange(bytes.fromhex('0000000203E8AABB'))
    >>> [read_exchange(run[element.place:element.end]).payload for element in elements(run) if element.type_number == EXCHANGE_TYPE]
    [b'\\xaa\\xbb']
    """
    run, place = given.content('run', run), 0
    while place < len(run):
        found = library().mant_element_at(run, len(run), place)
        given.checked(found.number)
        yield Element(found.type_number, run[found.value_place:found.value_place + found.value_length], place, found.end)
        place = found.end


def read_exchange(exchange):
    """Header and payload of an exchange, which is all of the bytes.

    >>> read_exchange(write_exchange(bytes.fromhex('0000000203E8AABB')))
    Exchange(header=b'\\x00\\x00\\x00\\x02\\x03\\xe8', payload=b'\\xaa\\xbb', header_place=5, payload_place=14)
    """
    exchange = given.content('exchange', exchange)
    found = library().mant_read_exchange(exchange, len(exchange))
    given.checked(found.number)
    header, payload = (exchange[place:place + length] for place, length in (
        (found.header_place, found.header_length), (found.payload_place, found.payload_length)))
    return Exchange(header, payload, found.header_place, found.payload_place)


def write_exchange(pdu):
    """The PDU at the start of the bytes as an exchange.

    >>> write_exchange(bytes.fromhex('0000000203E8AABB')).hex()
    '140e8400060000000203e8840102aabb'
    """
    output = given.room(EXCHANGE_LIMIT)
    return given.written(library().mant_write_exchange(*given.sliced('pdu', pdu), *output), output)


def seal(pdu, key, number):
    """The PDU at the start of the bytes with its payload encrypted under a key of 16 bytes. Under one key no source may use a number twice, so save the next
    number before the PDU goes out. docs/SEALING.md says what sealing does not protect.

    >>> sealed = seal(originate(b'open gate 3', source=1000, hop_limit=3), b'sixteen  letters', 1)
    >>> read(sealed).encrypted, len(read(sealed).payload)
    (True, 18)
    """
    output = given.room()
    return given.written(library().mant_seal(given.key(key), whole('number', number, WORD_64), *given.sliced('pdu', pdu), *output), output)


def message_number(pdu):
    """The message number of the sealed PDU at the start of the bytes. It is not checked: anyone can send any number.

    >>> message_number(seal(originate(b'open gate 3', source=1000, hop_limit=3), b'sixteen  letters', 850))
    850
    """
    numbered = library().mant_message_number(*given.sliced('pdu', pdu))
    given.checked(numbered.number)
    return numbered.message


def remove_source(record, source):
    """Removes a source from a record, and returns whether it was held. Its next number may be any, also a used one: remove a source only when its key changes.

    >>> record = Record((1, 1000, 850) + (0,) * 126)
    >>> remove_source(record, 1000), remove_source(record, 1000), record.words[0]
    (True, False, 0)
    """
    sources = given.a(Record, 'record', record)._sources
    return library().mant_remove_source(sources, whole('source', source, ADDRESS))


def open(pdu, key, record):
    """The plain payload of the sealed PDU at the start of the bytes. The record notes its number, so that it does not open again. Save the record before a
    command is carried out.

    >>> record = Record()
    >>> sealed = seal(originate(b'open gate 3', source=1000, hop_limit=3), b'sixteen  letters', 1)
    >>> open(sealed, b'sixteen  letters', record)
    b'open gate 3'
    >>> open(sealed, b'sixteen  letters', record)
    Traceback (most recent call last):
        ...
    mant.Refused: 82: its message number is not greater than the last accepted from its source
    """
    output, key, sources = given.room(), given.key(key), given.a(Record, 'record', record)._sources
    return given.written(library().mant_open(key, sources, *given.sliced('pdu', pdu), *output), output)

"""The library as C has it: its structs and functions in the order of include/mant.h, and where the file lies that is loaded. tests/run_python holds the
structs to the header."""
import ctypes
import functools
import os
import pathlib
import platform
from ctypes import c_bool, c_size_t, c_uint8, c_uint16, c_uint32, c_uint64, c_void_p

TOP = pathlib.Path(__file__).resolve().parent.parent
RELEASED = TOP / 'lib' / f'{platform.machine()}-linux' / 'libmant.so'  # in an unpacked release
LIBRARY = RELEASED if RELEASED.exists() else TOP / 'target/python/libmant.so'
COMMAND = 'tools/build shared mant'


class LibraryMissing(ImportError):
    """There is no library to load; the words say how to make it."""


def struct(name, **fields):
    return type(name, (ctypes.Structure,), {'_fields_': list(fields.items())})


Written = struct('MantWritten', number=c_uint8, length=c_size_t)
Header = struct(
    'MantHeader', number=c_uint8, protocol=c_uint8, time_stamp_request=c_bool, path_bit=c_bool, has_destination=c_bool, port=c_uint8, has_encrypted=c_bool,
    encrypted=c_bool, reserved=c_uint8, ack=c_bool, added_header=c_bool, hop_limit=c_uint8, payload_length=c_uint16, source=c_uint16, destination=c_uint16,
    pdu_id=c_uint8, path_count=c_uint8, has_last_sender=c_bool, last_sender=c_uint16, header_length=c_size_t, pdu_length=c_size_t)
Fresh = struct(
    'MantFresh', edition=c_uint64, source=c_uint16, has_destination=c_bool, destination=c_uint16, hop_limit=c_uint64, port=c_uint64,
    time_stamp_request=c_bool, with_path=c_bool, reliable=c_bool, pdu_id=c_uint8, encrypted=c_bool)
Node = struct(
    'MantNode', edition=c_uint64, own=c_uint16, echo=c_bool, repeating=c_bool, source_pass=c_uint8, source_reject=c_uint8, destination_pass=c_uint8,
    destination_reject=c_uint8)
ListFault = struct('MantListFault', number=c_uint8, list=c_uint8)
Answer = struct(
    'MantAnswer', delivery=c_uint8, repeat=c_uint8, has_last_sender=c_bool, last_sender=c_uint16, delivered_place=c_size_t, delivered_length=c_size_t,
    repeated_length=c_size_t, taken=c_size_t)
Cursor = struct('MantCursor', place=c_size_t, ended=c_bool)
Step = struct('MantStep', kind=c_uint8, answer=Answer, next=Cursor)
Element = struct('MantElement', number=c_uint8, type_number=c_uint16, value_place=c_size_t, value_length=c_size_t, end=c_size_t)
Stations = struct('MantStations', words=c_uint16 * 513)
Station = struct('MantStation', address=c_uint16, reads=c_uint16, echoes=c_uint16, has_path=c_bool, shortest_path=c_uint16)
Found = struct('MantFound', number=c_uint8, station=Station)
Heard = struct('MantHeard', source=c_uint16, echo=c_bool, path_bit=c_bool, path_count=c_uint8)
Queue = struct('MantQueue', bytes=c_uint8 * 2566)
Level = struct('MantLevel', pdus=c_size_t, bytes=c_size_t)
Batch = struct('MantBatch', number=c_uint8, pdus=c_size_t, bytes=c_size_t)
Exchange = struct(
    'MantExchange', number=c_uint8, header_place=c_size_t, header_length=c_size_t, payload_place=c_size_t, payload_length=c_size_t)
Sources = struct('MantSources', words=c_uint32 * 129)
Key = struct('MantKey', bytes=c_uint8 * 16)
Numbered = struct('MantNumbered', number=c_uint8, message=c_uint32)
Airtime = struct('MantAirtime', number=c_uint8, served=c_bool, enough=c_bool, value=c_uint64)
Bound = struct('MantBound', number=c_uint8, too_large=c_bool, value=c_uint64)
Limits = struct('MantLimits', fixed=c_size_t, payload=c_size_t, path=c_size_t, header=c_size_t, pdu=c_size_t, list=c_size_t, batch=c_size_t)

ANSWERED, ENDED, REFUSED = 0, 1, 2  # enum MantKind

SLICE = (c_void_p, c_size_t)
# of each function what it answers, and then what it takes
FUNCTIONS = {
    'mant_read': (Header, c_uint64, *SLICE),
    'mant_path_address': (c_uint16, *SLICE, c_size_t),
    'mant_originate': (Written, Fresh, *SLICE, *SLICE),
    'mant_list_holds': (c_bool, *SLICE, c_uint16),
    'mant_list_fault': (ListFault, *SLICE),
    'mant_lay_eight': (ListFault, c_void_p, *SLICE * 8),
    'mant_change_over': (Node, Node, c_uint64),
    'mant_hear': (Answer, Node, *SLICE, *SLICE, *SLICE),
    'mant_step': (Step, Node, *SLICE, *SLICE, Cursor, *SLICE),
    'mant_element_at': (Element, *SLICE, c_size_t),
    'mant_stations_held': (c_size_t, ctypes.POINTER(Stations)),
    'mant_station_at': (Found, ctypes.POINTER(Stations), c_size_t),
    'mant_station_of': (Found, ctypes.POINTER(Stations), c_uint16),
    'mant_remove_station': (c_uint8, ctypes.POINTER(Stations), c_uint16),
    'mant_count_heard': (c_uint8, ctypes.POINTER(Stations), Heard),
    'mant_count_answer': (c_uint8, ctypes.POINTER(Stations), *SLICE, Answer),
    'mant_queue_level': (Level, ctypes.POINTER(Queue)),
    'mant_queue_add': (c_uint8, ctypes.POINTER(Queue), *SLICE),
    'mant_queue_take': (Batch, ctypes.POINTER(Queue), *SLICE),
    'mant_queue_clear': (None, ctypes.POINTER(Queue)),
    'mant_read_exchange': (Exchange, *SLICE),
    'mant_write_exchange': (Written, *SLICE, *SLICE),
    'mant_seal': (Written, Key, c_uint64, *SLICE, *SLICE),
    'mant_open': (Written, Key, ctypes.POINTER(Sources), *SLICE, *SLICE),
    'mant_message_number': (Numbered, *SLICE),
    'mant_remove_source': (c_bool, ctypes.POINTER(Sources), c_uint16),
    'mant_chain_lengths': (c_bool, *SLICE, *SLICE, c_size_t, c_size_t, *SLICE),
    'mant_least_hop_limit': (c_uint8, *SLICE),
    'mant_network_transmissions': (Airtime, *SLICE, c_size_t, c_uint64, c_uint64, *SLICE * 3),
    'mant_network_bytes': (Airtime, *SLICE, c_size_t, c_uint64, c_uint64, c_uint64, *SLICE * 3),
    'mant_most_transmissions': (Bound, c_uint64, c_uint64),
    'mant_most_bytes': (Bound, c_uint64, c_uint64, c_uint64),
    'mant_most_for_command': (Bound, c_uint64, c_uint64, c_uint64, c_uint64, c_uint64),
    'mant_limits': (Limits,),
}


@functools.lru_cache(maxsize=None)
def library():
    """The library, loaded at the first call: the file that MANT_LIB names, or the one that is built here."""
    named = os.environ.get('MANT_LIB')
    if named and os.path.exists(named):
        named = os.path.abspath(named)  # a name without a folder would be sought in the system's
    try:
        loaded = ctypes.CDLL(named or str(LIBRARY))
    except OSError as error:
        if named:
            raise LibraryMissing(f'MANT_LIB names a library that cannot be loaded: {error}') from error
        raise LibraryMissing(f'the library {LIBRARY} cannot be loaded; make it with `{COMMAND}` in {TOP}, or name one in MANT_LIB: {error}') from error
    for name, (answered, *taken) in FUNCTIONS.items():
        function = getattr(loaded, name)
        function.restype, function.argtypes = answered, taken
    return loaded

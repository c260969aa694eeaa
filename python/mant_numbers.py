"""The numbers that are answered, with their names and words, and the version; made from docs/NUMBERS.md and include/mant.h by `tools/numbers --write`."""
import enum

VERSION = '1.0.0'


class Number(enum.IntEnum):
    """A number that is answered. It is a whole number, and `meaning` has its words.

    >>> Number(10)
    <Number.HOP_LIMIT_ABOVE_7: 10>
    >>> Number.HOP_LIMIT_ABOVE_7.meaning
    'the hop limit asked for is above 7'
    >>> str(Number(10)), f'{Number(10):>4}'
    ('10', '  10')
    """

    def __new__(cls, number, meaning):
        made = int.__new__(cls, number)
        made._value_, made.meaning = number, meaning
        return made

    # as in Python 3.11; those before it would give the name
    def __str__(self):
        return str(self._value_)

    def __format__(self, form):
        return format(self._value_, form)

    # the numbers
    DONE = 0, 'done'
    TOO_SHORT = 1, 'too short: every PDU has 6 bytes or more'
    WRONG_VERSION = 2, 'its version is not 0'
    UNKNOWN_PROTOCOL = 3, 'its protocol is neither 0 nor 1'
    NO_DESTINATION = 4, 'it is reliable and has no destination'
    HEADER_CUT = 5, 'the bytes end within its header'
    PAYLOAD_CUT = 6, 'the bytes end within its payload'
    HOP_LIMIT_ABOVE_7 = 10, 'the hop limit asked for is above 7'
    PORT_ABOVE_15 = 11, 'the port asked for is above 15'
    PAYLOAD_TOO_LONG = 12, 'the payload has more than 4,095 bytes'
    RELIABLE_WITHOUT_DESTINATION = 13, 'reliable service needs a destination'
    OUTPUT_TOO_SHORT = 14, 'the output has no room for the PDU, or for its exchange'
    NO_ENCRYPTED_FLAG = 16, 'encryption is asked for, and edition 1.1 has no encrypted flag'
    UNKNOWN_EDITION = 17, 'the edition is neither 11, which is 1.1, nor 12, which is 1.2'
    LOW_ABOVE_HIGH = 20, 'a list has a range whose low is above its high'
    LIST_ODD = 21, 'the last value of a list has no partner'
    LIST_TOO_LONG = 22, 'a list has more than 128 values'
    ECHO = 30, 'echo: this node is in the path'
    SOURCE_NOT_PASSED = 31, 'the source pass list does not hold the source'
    SOURCE_REJECTED = 32, 'the source reject list holds the source'
    DESTINATION_NOT_PASSED = 33, 'the destination pass list does not hold the destination'
    DESTINATION_REJECTED = 34, 'the destination reject list holds the destination'
    ADDED_HEADER = 35, 'not delivered: it has an added header'
    REPEATING_OFF = 36, 'not repeated: this node has repeating off'
    HOP_LIMIT_0 = 37, 'not repeated: its hop limit is 0'
    PATH_FULL = 38, 'not repeated: its path is full, with 255 addresses'
    FOR_ANOTHER = 39, 'not delivered: it is for another node'
    REPEAT_OUTPUT_TOO_SHORT = 40, 'the output has no room for the repeated PDU'
    FOR_THIS_NODE = 41, 'not repeated: it is for this node'
    OWN_REPORT = 42, 'echo: this node is the source'
    JOB_CUT = 50, 'the job ends too early'
    JOB_FLAGS = 51, "bit 6 or 7 of the job's flags is set"
    JOB_LIST_COUNT = 52, 'a list of the job has more than 64 ranges'
    JOB_LEFT_OVER = 53, 'the job goes on after its batch'
    BATCH_TOO_LONG = 54, 'the batch has more than 16,384 bytes'
    TABLE_FULL = 55, 'a new station, and the table holds 128'
    NOT_HELD = 56, 'no such station is held'
    ELEMENT_CUT = 57, 'an element does not end within the run that it stands in'
    ELEMENT_TOO_DEEP = 58, 'an element stands at level 5'
    NOT_AN_EXCHANGE = 59, 'not one element of type 20 that holds one header and one payload'
    QUEUE_FULL = 60, 'the queue holds 32 PDUs, or has no room for so many bytes more'
    NOT_ONE_PDU = 61, 'not one whole PDU with nothing after it'
    OLDEST_TOO_LONG = 62, 'the output has no room for the oldest PDU of the queue'
    NOT_SPLIT_AT_HEADER = 63, "bytes follow the PDU, or its two parts do not meet at the header's end"
    RECORDS_IN_USE = 70, 'all 16 records are in use'
    ALREADY_RETAINED = 71, 'a PDU of this source, destination and ID is already retained'
    ABOVE_256_BYTES = 72, 'the PDU to retain has more than 256 bytes'
    EARLIER_TIME = 73, 'the time is earlier than the last accepted one'
    NOT_16_RECORDS = 74, 'the lent memory is not 16 records'
    NOT_RETAINABLE = 75, 'not exactly one PDU of protocol 1 with ACK clear and no path address'
    SENDING_TOO_LONG = 77, 'the output has no room for what is to be sent'
    NOT_ENCRYPTED = 80, 'its encrypted bit is clear'
    TOO_SHORT_TO_OPEN = 81, 'its payload is too short for a message number and a hash'
    NUMBER_NOT_GREATER = 82, 'its message number is not greater than the last accepted from its source'
    HASH_DIFFERS = 83, 'its hash differs: another key, or it was changed on its way'
    RECORD_FULL = 84, 'a new source, and the record holds 64'
    SEALED_TOO_LONG = 85, 'the sealed payload would have more than 4,095 bytes'
    NUMBER_TOO_LARGE = 86, 'the message number is above 16,777,215'
    NO_ROOM_FOR_PAYLOAD = 87, 'the output has no room for the sealed PDU, or for the plain payload'
    ALREADY_ENCRYPTED = 88, 'its encrypted bit is already set'


class Refused(Exception):
    """What was asked is refused: `number` says why, and `meaning` the same in words."""

    def __init__(self, number):
        super().__init__(number)
        self.number = Number(number)
        self.meaning = self.number.meaning

    def __str__(self):
        return f'{self.number}: {self.meaning}'

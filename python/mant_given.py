"""What a caller gives, as the library takes it, and what the library wrote."""
import ctypes

import mant_c
from mant_numbers import Refused
from mant_types import ADDRESS, CHOICES, LIST_WORDS, WORD_64, Lists, Node, flag, in_c, values_of, whole


def kind_of(value):
    return f'of type {type(value).__name__}'


def a(kind, name, value):
    if not isinstance(value, kind):
        raise TypeError(f'{name} is {kind_of(value)}; give a mant.{kind.__name__}')
    return value


def content(name, value):
    """Anything like bytes as bytes."""
    try:
        return memoryview(value).tobytes()
    except TypeError:
        hint = '; for hex digits bytes.fromhex(..)' if isinstance(value, str) else ''
        raise TypeError(f'{name} is {kind_of(value)}; give bytes{hint}') from None


def sliced(name, value):
    """Bytes with their length."""
    value = content(name, value)
    return value, len(value)


def listed(name, values):
    """A list's values with their count."""
    return in_c(values_of(name, values))


def block(lists):
    """The block of a node's lists, with the count of its words."""
    return a(Lists, 'lists', lists)._laid, LIST_WORDS


def node(settings):
    a(Node, 'node', settings)
    choices = {name: getattr(settings, name) for name in CHOICES}
    return mant_c.Node(edition=whole('edition', settings.edition, WORD_64), own=whole('own', settings.own, ADDRESS), echo=flag('echo', settings.echo),
                       repeating=flag('repeating', settings.repeating), **choices)


def key(value):
    value = content('key', value)
    if len(value) != 16:
        raise ValueError(f'a key has 16 bytes, not {len(value)}')
    return mant_c.Key((ctypes.c_uint8 * 16)(*value))


def room(length=None):
    """An output with room for every PDU, or for so many bytes."""
    length = mant_c.library().mant_limits().pdu if length is None else length
    return ctypes.create_string_buffer(length), length


def checked(number):
    if number:
        raise Refused(number)


def written(answered, output):
    """The bytes that were written to an output."""
    checked(answered.number)
    return ctypes.string_at(output[0], answered.length)

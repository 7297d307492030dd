"""The calls of the library, and one way to fill a buffer.

The calls have no `argtypes`, since their conversion takes longer than most calls. So an argument is octets, a reference,
a struct's array, a length as `size_of` makes it, or a number of 32 bits as `u32(..)` makes it.
"""
from __future__ import annotations

import collections
import ctypes
import functools
import os
import struct
from typing import Any, Callable, Deque, Dict, Iterator, List, Optional, Tuple

from . import _interface as interface
from ._interface import BAD_ARGUMENT as BAD_ARGUMENT, END as END, MORE as MORE, BUFFER_TOO_SMALL as BUFFER_TOO_SMALL, OK as OK, REFUSED as REFUSED
from ._interface import AlternativeParts as AlternativeParts, CarrierParts as CarrierParts, Checked as Checked, Checker as Checker
from ._interface import ErrorParts as ErrorParts, Limits as Limits, Part as Part, PosterParts as PosterParts, Writing as Writing
from ._interface import RequestParts as RequestParts, SelectParts as SelectParts, TextParts as TextParts, Writer as Writer, u32 as u32
from ._hints import FoundHint, HintKind
from ._platform import asked_for, library_name
from .errors import DecodeError, EncodeError

STANDARD, OPAQUE, UTF16 = interface.STANDARD, interface.OPAQUE, interface.AS_UTF16
FIRST, LAST = interface.WRITE_FIRST, interface.WRITE_LAST
REQUEST, SELECT = interface.REQUEST, interface.SELECT
EMPTY, UNKNOWN = interface.TNF_EMPTY, interface.TNF_UNKNOWN
PAYLOAD_TOO_LARGE = interface.REASON_PAYLOAD_TOO_LARGE
BEGINS, END_OF_INPUT = (interface.REASON_BEGIN_MISSING, interface.REASON_BEGIN_AGAIN), interface.REASON_END_OF_INPUT
U32_END = 1 << 32

NO_FLAGS = u32(0)
byref, _size = ctypes.byref, ctypes.c_size_t


# Lengths and places as a call takes them, ready for its registers; the usual ones are made once. A tuple, since `[]` of a subclass of
# dict takes five times as long.
USUAL_SIZES = 4096
SIZES = tuple(map(_size.from_param, range(USUAL_SIZES)))


def size_of(value: int) -> Any:
    """A length or a place as a call takes it."""
    return SIZES[value] if value < USUAL_SIZES else _size.from_param(value)


RecordParts, FieldParts = interface.Record, interface.Field

# The fields of a RecordParts or a TextParts, or of the octets that it lies in, all of them at once. Octets are read faster than the struct
# itself.
record_fields = struct.Struct('@10N2I').unpack_from
text_fields = struct.Struct('@4NI').unpack_from

# A block is a Checked and after it the items of a message, of which a scratch has a few. The fields of the first item; and of a block the number
# of records, with the length of the first one's id and the parts of its value.
FEW_ITEMS = 8
_HEAD, _ITEM = ctypes.sizeof(Checked), ctypes.sizeof(interface.Item)
first_item = struct.Struct('@16x16I').unpack_from
lone_item = struct.Struct('@8xI4x24xI12x6I').unpack_from
_each_item = struct.Struct('@16I').iter_unpack


def new_block(count: int) -> bytearray:
    """A block for so many items."""
    return bytearray(_HEAD + _ITEM * count)


def items_in(block: bytearray) -> Any:
    """A reference to the items of a block."""
    return byref(ctypes.c_char.from_buffer(block, _HEAD))


def all_items(block: bytearray, count: int) -> Iterator[Tuple[int, ...]]:
    """The fields of each of so many items, which stay as they are where others are written to the block."""
    return _each_item(bytes(memoryview(block)[_HEAD:_HEAD + _ITEM * count]))


# A Checked and a reference to it, the block that it begins and a reference to the items there; then octets and a reference to them, in which
# a RecordParts or a TextParts lies.
Scratch = Tuple[Checked, Any, bytearray, Any, bytearray, Any]

# Scratches that nobody uses now. Who needs one takes it out, so that no two threads share one, and puts it back.
pool: Deque[Scratch] = collections.deque()
_MOST_POOLED = 16


def new_scratch() -> Scratch:
    """A new scratch."""
    block, octets = new_block(FEW_ITEMS), bytearray(ctypes.sizeof(RecordParts))
    checked = Checked.from_buffer(block)
    return checked, byref(checked), block, items_in(block), octets, byref(RecordParts.from_buffer(octets))


# These two take a scratch out, where there is one, and put it back. Python calls a bound method faster than it looks one up.
pop_scratch, push_scratch = pool.pop, pool.append


def take_scratch() -> Scratch:
    """A scratch, taken out or new."""
    try:
        return pop_scratch()
    except IndexError:
        return new_scratch()


def put_back(scratch: Scratch) -> None:
    """Puts back the scratch of a generator. A program may have begun many at once, and the pool keeps only some."""
    if len(pool) < _MOST_POOLED:
        push_scratch(scratch)


_path = os.path.join(os.path.dirname(os.path.abspath(__file__)), library_name())


def _loaded(load: Callable[[str], Any]) -> interface.Calls:
    """The calls of the library: of the file for this processor, or where the loader knows none, of that beside this one.
    ImportError where the module isn't made for its version."""
    try:
        found = interface.calls(load(asked_for(_path)))
    except OSError:
        found = interface.calls(load(_path))
    version, major = found.version(), interface.VERSION_MAJOR
    if version >> 16 != major:
        raise ImportError('simbegyor_ndef needs the library for C of version %d.0.0, or a later %d; that at %s is %d.%d.%d'
                          % (major, major, _path, version >> 16, version >> 8 & 255, version & 255))
    return found


try:
    # Other threads run while a call looks at a whole message; the other calls are too short for that. PyPy has no PyDLL.
    _long, _short = _loaded(ctypes.CDLL), _loaded(getattr(ctypes, 'PyDLL', ctypes.CDLL))
except OSError as missing:
    raise ImportError('simbegyor_ndef needs the library for C, for this machine, at %s' % _path) from missing


_default_limits = _short.default_limits
_reason_name = _short.reason_name
_reason_sentence = _short.reason_sentence
_field_name = _short.field_name
_fields = _long.fields
check = _long.check
begin = _short.begin
feed = _long.feed
record_at = _short.record_at
payload = _long.payload
write_record = _short.write_record
uri = _short.uri
_uri_prefix = _short.uri_prefix
write_uri = _short.write_uri
text = _short.text
text_in_utf8 = _short.text_in_utf8
write_text = _short.write_text
poster = _short.poster
carrier = _short.carrier
write_carrier = _short.write_carrier
alternative = _short.alternative
references = _short.references
request = _short.request
select = _short.select
write_alternative = _short.write_alternative
write_action = _short.write_action
write_size = _short.write_size
write_collision = _short.write_collision
error = _short.error
write_error = _short.write_error
write_error_number = _short.write_error_number
write_handover = _short.write_handover
items = _long.items
# For octets that are few: no other thread runs meanwhile.
items_short = _short.items
check_layout = _long.check_layout
writer_begin = _short.writer_begin
writer_next = _long.writer_next


@functools.lru_cache(typed=True)
def limits(payload_size: int, flags: int) -> Any:
    """A reference to the limits for usual tags, but with this limit of a payload, 1 to 4294967295, and these flags."""
    if not isinstance(payload_size, int) or isinstance(payload_size, bool) or not 1 <= payload_size < U32_END:
        raise ValueError('MAX_PAYLOAD_SIZE is 1 to %d, not %r' % (U32_END - 1, payload_size))
    out = Limits()
    _default_limits(byref(out))
    out.payload, out.flags = payload_size, flags
    return byref(out)


@functools.lru_cache(maxsize=None)
def writing(tnf: int, flags: int) -> Any:
    """A reference to how a record is written: its type name format and these flags."""
    return byref(Writing(tnf, flags, 0))


class _Buffer:
    """A buffer for what a call writes, and the number of octets that it wrote."""

    def __init__(self, size: int) -> None:
        self.octets: Any = (ctypes.c_char * size)()
        self.size, self.count = size_of(size), _size()
        self.count_ref = byref(self.count)


# Buffers that no call uses now. A call takes one out and puts it back, so that no two threads share one.
_USUAL = 1024
# What is written beside the octets that a call is given: the head of a record, or a language code.
_MORE = 128
_buffers: List[_Buffer] = []


def _buffer(size: int) -> _Buffer:
    if size > _USUAL:
        return _Buffer(size)
    try:
        return _buffers.pop()
    except IndexError:
        return _Buffer(_USUAL)


def put(call: Callable[..., int], *arguments: Any, given: int = 0, rest: Tuple[Any, ...] = ()) -> Tuple[int, bytes]:
    """The status of the call, and what it writes to its buffer. A buffer for the octets that the call is given is tried first."""
    size = given + _MORE
    while True:
        buffer = _buffer(size)
        status = call(*arguments, buffer.octets, buffer.size, buffer.count_ref, *rest)
        count = buffer.count.value
        octets: bytes = buffer.octets[:count] if status == OK else b''
        if size <= _USUAL:
            _buffers.append(buffer)
        if status != BUFFER_TOO_SMALL:
            return status, octets
        size = count


def written(what: str, call: Callable[..., int], *arguments: Any, given: int = 0, raised: type = ValueError) -> bytes:
    """What the call writes to its buffer; where it refuses, `raised` says what."""
    status, octets = put(call, *arguments, given=given)
    if status != OK:
        raise raised(what)
    return octets


def number(value: int, what: str) -> ctypes.c_uint32:
    """The number as a call takes it."""
    if not 0 <= value < U32_END:
        raise ValueError(what)
    return u32(value)


@functools.lru_cache(maxsize=None)
def uri_prefix(code: int) -> str:
    """The prefix for which a code of URIs stands."""
    return put(_uri_prefix, u32(code))[1].decode('ascii')


@functools.lru_cache(maxsize=None)
def reason_name(reason: int) -> str:
    """The name of a reason."""
    return put(_reason_name, u32(reason))[1].decode('ascii')


@functools.lru_cache(maxsize=None)
def reason_sentence(reason: int) -> str:
    """What a reason means, in a sentence."""
    return put(_reason_sentence, u32(reason))[1].decode('ascii')


@functools.lru_cache(maxsize=None)
def field_name(name: int) -> str:
    """The name of a field."""
    return put(_field_name, u32(name))[1].decode('ascii')


@functools.lru_cache(maxsize=None)
def field_numbers() -> Dict[str, int]:
    """The number of each field by its name."""
    return {field_name(number): number for number in range(interface.FIELD_HEADER, interface.FIELD_CARRIER_DATA + 1)}


def _sentence(call: Callable[..., int], *arguments: Any) -> Optional[str]:
    """The sentence that a call writes of these arguments; None where it writes none."""
    status, sentence = put(call, *arguments)
    return sentence.decode('ascii') if status == OK else None


def why(octets: bytes, within: Any) -> Optional[str]:
    """What was wanted where the octets are refused within these limits; None where they aren't, or payloads aren't validated."""
    return _sentence(_long.refusal_message, octets, size_of(len(octets)), within)


def hint(octets: bytes, within: Any) -> Optional[str]:
    """What may help there; None also where nothing is known to."""
    return _sentence(_long.hint, octets, size_of(len(octets)), within)


def find_hint(octets: bytes, within: Any) -> Optional[FoundHint]:
    """The same to a program."""
    found = interface.Found()
    status = _long.find_hint(octets, size_of(len(octets)), within, byref(found))
    return FoundHint(HintKind(found.hint), found.at, found.length) if status == OK else None


def field_warning(name: int, octets: bytes) -> Optional[str]:
    """What is strange in a field with this number of a name; None where nothing is known to be."""
    return _sentence(_long.field_warning, u32(name), octets, size_of(len(octets)))


def record_warning(octets: bytes, index: int) -> Optional[str]:
    """What is strange in the record with this index; None where nothing is known to be, and where there is none."""
    return _sentence(_long.record_warning, octets, size_of(len(octets)), size_of(index))


def fields(octets: bytes, within: Any) -> Tuple[Checked, List[Any]]:
    """What a check within these limits gives for the octets, and the fields of the message, or those before the refused octet."""
    checked, count, capacity = Checked(), _size(), 128
    while True:
        array = (FieldParts * capacity)()
        status = _fields(octets, size_of(len(octets)), within, array, size_of(capacity), byref(count), byref(checked))
        if status != BUFFER_TOO_SMALL:
            return checked, array[:count.value]
        capacity = count.value


def parts_of_references(payload: bytes, count: int) -> List[Any]:
    """Where the references of an alternative carrier lie; their number is given."""
    parts, total = (Part * count)(), _size()
    references(payload, size_of(len(payload)), parts, size_of(count), byref(total))
    return list(parts)


def first_of(octets: bytearray) -> Any:
    """A reference to the first of the octets, which may not be resized while it is there."""
    return byref(ctypes.c_char.from_buffer(octets)) if octets else b''


def copy(into: Checker, checker: Checker) -> None:
    """Copies the state of a check."""
    ctypes.memmove(byref(into), byref(checker), ctypes.sizeof(Checker))


def refused(checked: Checked, before: int = 0) -> DecodeError:
    """The error for a refusal of octets that lie after `before` others."""
    return DecodeError(reason_name(checked.reason), before + checked.place, checked.reason)


def refused_octets(checked: Checked, octets: bytes, within: Any) -> DecodeError:
    """The error for a refusal of these octets within these limits, which has them for its sentence and its hint."""
    error = refused(checked)
    error._refused = octets, within
    return error


def too_large(size: int, most: int) -> EncodeError:
    """The error for a payload of more octets than are allowed."""
    return EncodeError('a payload of %d octets is more than MAX_PAYLOAD_SIZE, %d' % (size, most), 0,
                       reason_name(PAYLOAD_TOO_LARGE), PAYLOAD_TOO_LARGE)

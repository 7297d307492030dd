"""Records: any type, and the way in which records of known types are made."""
from __future__ import annotations

import functools
import re
import struct
from typing import Any, Dict, Iterable, Iterator, Optional, Set, Tuple, Type, Union

from . import _library as library
from . import layout
from ._structs import packed, unpacked
from .errors import DecodeError, EncodeError, left_out

__all__ = ['DecodeError', 'EncodeError', 'GlobalRecord', 'LocalRecord', 'Record', 'StreamedRecord']

Octets = Union[bytes, bytearray]
Parts = Tuple[int, bytes]
Unread = Union[bytes, Tuple[int, bytes, bytes]]

_PREFIXES = {'urn:nfc:wkt:': 1, 'urn:nfc:ext:': 4}
_WORDS = {'': library.EMPTY, 'unknown': library.UNKNOWN}
_SPELLED = ('', 'urn:nfc:wkt:', '', '', 'urn:nfc:ext:', 'unknown', 'unchanged', 'reserved')
_NO_NAME = 'a record name has at most 255 octets'


def _checked_parts(spelled: str) -> Parts:
    """The type name format and the octets of a type that is spelled so; the library says whether a record has it."""
    if spelled in _WORDS:
        return _WORDS[spelled], b''
    if spelled == 'unchanged':
        raise left_out("records of the type 'unchanged', since the chunks of a record are joined")
    octets = spelled.encode('latin-1')
    prefix = next((prefix for prefix in _PREFIXES if spelled.startswith(prefix)), '')
    head, slash, _ = spelled.partition('/')
    if prefix:
        tnf, octets = _PREFIXES[prefix], octets[len(prefix):]
    elif slash and ':' not in head:
        tnf = 2
    elif ':' in spelled:
        tnf = 3
    else:
        raise ValueError('no record type is spelled %r' % spelled)
    _write(tnf, octets, b'', b'', 'a record type has 1 to 255 octets', ValueError)
    return tnf, octets


def _write(tnf: int, kind: bytes, name: bytes, data: bytes, what: str, raised: type, flags: int = 0) -> bytes:
    """The octets of a record."""
    lengths = len(kind), len(name), len(data)
    kind_size, name_size, size = map(library.size_of, lengths)
    return library.written(what, library.write_record, kind, kind_size, name, name_size, data, size, library.writing(tnf, flags),
                           given=sum(lengths), raised=raised)


parts_of = functools.lru_cache(_checked_parts)


@functools.lru_cache
def spelled_of(tnf: int, octets: bytes) -> str:
    """How a type is spelled."""
    return _SPELLED[tnf] + octets.decode('latin-1')


def text_of(value: Any, what: str) -> str:
    """The value, if it is a str of Unicode characters."""
    if not isinstance(value, str):
        raise TypeError('%s is a str, not %s' % (what, type(value).__name__))
    if not value.isascii():
        value.encode('utf-8')
    return value


def number_of(value: Any, what: str) -> int:
    """The value, if it is a whole number; the library refuses those that are too great."""
    if not isinstance(value, int):
        raise TypeError('%s is a number, not %s' % (what, type(value).__name__))
    return value


def octets_of(value: Any, what: str) -> bytearray:
    """A copy of the octets; no octets for None."""
    if isinstance(value, (int, str)):
        raise TypeError('%s is octets, not %s' % (what, type(value).__name__))
    return bytearray(value if value is not None else b'')


def shown(octets: bytes) -> str:
    """The number of the octets and the first ten of them, as ndeflib prints them."""
    text = '%d byte' % len(octets)
    if octets:
        text += " '%s'" % octets[:10].hex()
    if len(octets) > 10:
        text += ' ... %d more' % (len(octets) - 10)
    return text


class Record:
    """A record of any type.

    type: 'urn:nfc:wkt:T' (a type of the NFC Forum), 'text/plain' (a media type), 'urn:nfc:ext:example.com:x' (somebody
        else's), the URI itself (an absolute URI), 'unknown', or '' (an empty record). ValueError where no record has it.
    name: the id, a str of up to 255 characters of Latin-1.
    data: the payload, octets.
    refusal: None; of a record that `message_decoder` gave with errors='relax', the DecodeError for a payload that is none of its
        type, whose place counts from the first octet of the payload.

    MAX_PAYLOAD_SIZE, 1048576, is the greatest payload that is decoded and encoded. Assign 1 to 4294967295 to change it.
    """

    MAX_PAYLOAD_SIZE: int = 0x100000
    # The classes of payloads, by the parts of their type.
    _known_parts: Dict[Parts, Type['Record']] = {}
    _decode_min_payload_length: int = 0
    _decode_max_payload_length: int = 0xffffffff
    _layout: Optional[Tuple[layout.LayoutField, ...]] = None
    _name: bytes = b''
    # What of a checked payload wasn't made a value yet, of a class in `READ_LATE`: all of it, or what the library gave of a value: the code
    # of a URI, the language of a text, and the text or the rest of the URI.
    _unread: Optional[Unread] = None
    # Where and why the payload is none of the type, counted from its first octet: of a record that errors='relax' gave.
    refusal: Optional[DecodeError] = None
    # Whether the payload can be written more than once.
    _is_kept: bool = True
    _parts: Parts
    _data: Octets

    def __init__(self, type: Union[str, Octets, None] = '', name: Union[str, Octets, None] = '', data: Any = b'') -> None:
        if isinstance(type, (bytes, bytearray)):
            type = type.decode('latin-1')
        self._parts = parts_of(text_of('' if type is None else type, 'a record type'))
        self._data = octets_of(data, 'data')
        self._take_name(name)

    @classmethod
    def register_type(cls, record_class: Type['Record']) -> None:
        """Lets records of the class's `_type` be decoded by its `_decode_payload`. A poster's or a handover's class registers
        for the records within it, any other for all messages. A `_layout` that is none is refused with TypeError or ValueError."""
        if not (isinstance(record_class, type) and issubclass(record_class, Record)):
            raise TypeError('a record class is needed, not %r' % (record_class,))
        layout.look_at(record_class._layout)
        cls._known_parts[parts_of(getattr(record_class, '_type'))] = record_class

    @classmethod
    def _made(cls, parts: Parts, data: bytes) -> 'Record':
        made = cls.__new__(cls)
        made._parts, made._data = parts, data
        return made

    @classmethod
    def _from_payload(cls, octets: bytes) -> 'Record':
        """The record for a payload, by `_decode_payload`; DecodeError where it is none of the `_layout`."""
        refusal = layout.refusal_of(cls._layout, octets) if cls._layout is not None else None
        if refusal:
            raise refusal
        if not cls._decode_min_payload_length <= len(octets) <= cls._decode_max_payload_length:
            raise cls._decode_error('payload length is {} to {}, not {}', cls._decode_min_payload_length,
                                    cls._decode_max_payload_length, len(octets))
        try:
            made: Record = cls._decode_payload(octets, 'strict')
            if not isinstance(made, Record):
                raise TypeError('%s._decode_payload gives a %s, and no Record' % (cls.__name__, type(made).__name__))
            return made
        except struct.error as error:
            raise cls._decode_error('{}', error) from None

    @classmethod
    def _decode_payload(cls, octets: bytes, errors: str) -> Any:
        """The record for a payload. A class of one's own has this."""
        raise NotImplementedError('%s has no _decode_payload' % cls.__name__)

    @property
    def type(self) -> str:
        """The type, as it is spelled. Read only."""
        return spelled_of(*self._kind())

    def _kind(self) -> Parts:
        return self._parts

    @property
    def name(self) -> str:
        """The id: up to 255 characters of Latin-1; '' for none. ValueError for others."""
        return self._name.decode('latin-1')

    @name.setter
    def name(self, value: Union[str, Octets, None]) -> None:
        self._take_name(value)

    def _take_name(self, value: Union[str, Octets, None]) -> None:
        if isinstance(value, str):
            octets = value.encode('latin-1')
        elif value is None or isinstance(value, (bytes, bytearray)):
            octets = bytes(value or b'')
        else:
            raise self._type_error('name is a str, not {}', type(value).__name__)
        if octets:
            _write(library.UNKNOWN, b'', octets, b'', _NO_NAME, ValueError)
        self._name = octets

    @property
    def data(self) -> Octets:
        """The payload: a bytearray, which may be changed; of records of known types what is written of the attributes, as bytes."""
        if not isinstance(self._data, bytearray):
            self._data = bytearray(self._data)
        return self._data

    def _payload(self) -> bytes:
        """The payload that is written; EncodeError where there is none."""
        try:
            return bytes(self.data)
        except struct.error as error:
            raise self._encode_error('{}', error) from None

    def _payload_parts(self) -> Tuple[int, Iterator[bytes]]:
        """The number of octets of the payload that is written, and they in parts."""
        payload = self._payload()
        return len(payload), iter((payload,))

    def _written(self, flags: int, place: int) -> bytes:
        """The octets of the record, which begin at a place of the message. An empty record is written without id and payload."""
        tnf, kind = self._kind()
        try:
            name, data = (b'', b'') if tnf == library.EMPTY else (self._name, self._payload())
            if len(data) > self.MAX_PAYLOAD_SIZE:
                raise library.too_large(len(data), self.MAX_PAYLOAD_SIZE)
            return _write(tnf, kind, name, data, 'no record has these parts', EncodeError, flags)
        except EncodeError as error:
            raise EncodeError(error.what, place, error.reason, error.number) from None

    def __eq__(self, other: object) -> bool:
        """Whether type, name and payload are equal; of records of which one can't be written, whether all attributes are."""
        if not isinstance(other, Record):
            return NotImplemented
        try:
            return (self._kind(), self._name, self._payload()) == (other._kind(), other._name, other._payload())
        except (EncodeError, TypeError, ValueError):
            return type(self) is type(other) and vars(self) == vars(other)

    __hash__ = None  # type: ignore[assignment]

    def __format__(self, form: str) -> str:
        """'args': what stands in the brackets of repr(). 'data': what str() says of the payload. Others: str() so formatted."""
        if form == 'args':
            return '%r, %r, %r' % (self.type, self.name, self.data)
        if form == 'data':
            return 'PAYLOAD ' + shown(bytes(self.data))
        return format(str(self), form)

    def __repr__(self) -> str:
        return '%s.%s(%s)' % (type(self).__module__, type(self).__name__, format(self, 'args'))

    def __str__(self) -> str:
        return "NDEF Record TYPE '%s' ID '%s' %s" % (self.type, self.name, format(self, 'data'))

    @classmethod
    def _error_text(cls, form: str, *arguments: Any, **named: Any) -> str:
        return '%s.%s %s' % (cls.__module__, cls.__name__, form.format(*arguments, **named))

    @classmethod
    def _type_error(cls, form: str, *arguments: Any, **named: Any) -> TypeError:
        """A TypeError whose text is the class and the format, as of str.format, with its arguments."""
        return TypeError(cls._error_text(form, *arguments, **named))

    @classmethod
    def _value_error(cls, form: str, *arguments: Any, **named: Any) -> ValueError:
        """A ValueError with such a text."""
        return ValueError(cls._error_text(form, *arguments, **named))

    @classmethod
    def _decode_error(cls, form: str, *arguments: Any, **named: Any) -> DecodeError:
        """A DecodeError with such a text."""
        return DecodeError(cls._error_text(form, *arguments, **named))

    @classmethod
    def _encode_error(cls, form: str, *arguments: Any, **named: Any) -> EncodeError:
        """An EncodeError with such a text."""
        return EncodeError(cls._error_text(form, *arguments, **named))

    @classmethod
    def _decode_struct(cls, form: str, octets: Octets, offset: int = 0, always_tuple: bool = False) -> Any:
        """The values that stand at the offset by a format, as of the module struct; one value alone where `always_tuple` is False.
        '*' at the end stands for all octets left, 'B+' for a number and that many octets, 'B+(H)' for a number and that many
        values. Where octets are missing, the record is refused with DecodeError."""
        values = unpacked(form, bytes(octets), offset)
        return values[0] if len(values) == 1 and not always_tuple else values

    @classmethod
    def _encode_struct(cls, form: str, *values: Any) -> bytes:
        """The octets of the values by such a format. Where they don't fit, the record is refused with EncodeError."""
        return packed(form, *values)


class StreamedRecord(Record):
    """A record of any type whose payload comes in parts, so that it need not be in memory.

    type, name: as those of a `Record`.
    parts: the payload in parts, an iterable of octets, as a generator or a file.
    size: the number of octets that the parts have together.

    `message_encoder` with a `size` takes a part where it is needed, so a generator serves once. It raises ValueError where the parts
    have fewer octets than `size`, and in place of those after the `size` that they have too many. No decoder gives such a record.
    """

    _is_kept = False

    def __init__(self, type: Union[str, Octets, None], name: Union[str, Octets, None], parts: Iterable[Octets], size: int) -> None:
        super().__init__(type, name)
        library.number(number_of(size, 'a size'), 'a payload has 0 to %d octets, not %d' % (library.U32_END - 1, size))
        iter(parts)
        self._stream, self._size = parts, size

    @property
    def data(self) -> Octets:
        """What other records have: AttributeError."""
        raise AttributeError('the payload of a StreamedRecord comes in parts, and is not kept')

    def _payload(self) -> bytes:
        return b''.join(self._checked_parts())

    def _payload_parts(self) -> Tuple[int, Iterator[bytes]]:
        return self._size, self._checked_parts()

    def _checked_parts(self) -> Iterator[bytes]:
        """The parts, which have as many octets as was said."""
        left = self._size
        for part in self._stream:
            octets = bytes(octets_of(part, 'a part of a payload'))
            if len(octets) > left:
                raise self._value_error('parts have more than the {} octets of the payload', self._size)
            left -= len(octets)
            yield octets
        if left:
            raise self._value_error('parts have {} octets, and the payload {}', self._size - left, self._size)

    def __eq__(self, other: object) -> bool:
        """Whether it is the same record: the parts can't be compared before they are taken."""
        return self is other

    __hash__ = None  # type: ignore[assignment]

    def __format__(self, form: str) -> str:
        if form == 'args':
            return '%r, %r, %r, %d' % (self.type, self.name, self._stream, self._size)
        return 'PAYLOAD %d byte in parts' % self._size if form == 'data' else super().__format__(form)


# The classes whose `_read` looks at a payload where an attribute is first asked for.
READ_LATE: Set[Type[Record]] = set()


class _TypedRecord(Record):
    """A record of the type `_type`, with attributes of its own for `data`."""

    _type: str

    def __init__(self) -> None:
        pass

    def _read(self, given: Unread) -> None:
        """Sets the attributes by a payload, or by what the library gave of its value; of the classes that have this."""

    def _look(self) -> None:
        """Sets the attributes by the payload that wasn't looked at yet."""
        unread = self._unread
        if unread is not None:
            self._read(unread)
            self._unread = None

    def _kind(self) -> Parts:
        return parts_of(self._type)

    @property
    def data(self) -> bytes:
        """The payload that is written of the attributes. Read only."""
        return self._encode_payload()

    def _encode_payload(self) -> bytes:
        """The payload for the attributes. A class of one's own has this."""
        raise NotImplementedError('%s has no _encode_payload' % type(self).__name__)

    def __str__(self) -> str:
        words = re.sub('(?<=.)(?=[A-Z])', ' ', type(self).__name__)
        return ("NDEF %s ID '%s' %s" % (words, self.name, format(self, 'data'))).rstrip(' ')


class GlobalRecord(_TypedRecord):
    """A record of the type `_type` anywhere in a message.

    A class of one's own has `_type`; `_encode_payload()`, the payload for the attributes; `_decode_payload(octets, errors)` of
    the class, a record for a payload; and where it wants, `_layout`, `_decode_min_payload_length`, `_decode_max_payload_length`
    and `__format__`. `Record.register_type` has the decoder use it.

    `_layout` is a tuple of fields that the functions of `layout` give. A payload that is none of the layout is refused before
    `_decode_payload` is called: at the first octet after which no payload of the same length is one of the layout, or where
    none has its length at the last octet of the type. Of a record in several chunks the place is that of the payload of its
    first one.
    """


class LocalRecord(_TypedRecord):
    """A record of the type `_type` within a poster or a handover: the same, registered by the class of that."""

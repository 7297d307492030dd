"""Messages: their records in turn, and the octets of records in turn.

One call checks a message and gives all its records, and where the parts of texts and URIs lie; a value is made where an attribute is
first asked for. Most messages have one record, which `lone_record` reads by itself. Names that a loop needs are kept in locals and
tuples: Python takes a method of an imported name or an attribute of a class for the slow case."""
from __future__ import annotations

import errno
import io
from typing import Any, BinaryIO, Dict, Generator, Iterable, Iterator, Mapping, Optional, Tuple, Type, Union, overload

from . import _library as library
from . import layout
from ._library import FEW_ITEMS, OK, SIZES, U32_END, USUAL_SIZES, Scratch, first_item, items_short, lone_item, new_scratch, pop_scratch
from ._library import push_scratch, record_at, record_fields, size_of, take_scratch
from ._writing import Outgoing, in_parts
from .errors import DecodeError, left_out
from .record import READ_LATE, Parts, Record, number_of, parts_of

__all__ = ['message_decoder', 'message_encoder']

# How many octets ahead are looked at first; as many are worth a look at all chunks of a long record.
_LOOK = 64
_new = object.__new__
# A record that ends a message. Fed to a checker, it shows whether another record may begin there.
_ENDING = Record()._written(library.LAST, 0)
_FEW = SIZES[FEW_ITEMS]
# The bits of a header that say that a record is the first or the last, and the reasons for which only they are wrong.
_MB, _ME = 0x80, 0x40
_BEGINS, _END_OF_INPUT = library.BEGINS, library.END_OF_INPUT
# The types of the values whose parts an item has, by their forms: a text in UTF-16 has to be converted.
_NONE: Parts = (-1, b'')
_FORMS = _NONE, parts_of('urn:nfc:wkt:T'), _NONE, parts_of('urn:nfc:wkt:U')
Known = Mapping[Parts, Type[Record]]
Values = Optional[Dict[Type[Record], Any]]
# The limits of a message, the classes that are known, and what `records_of` is given as `values`.
Reading = Tuple[Any, Known, Values]
# The fields of a RecordParts, or of an item.
Fields = Tuple[int, ...]
# How messages are read where no types are given, by the limit of a payload.
_usual: Dict[int, Reading] = {}
_MOST_USUAL = 64


class _Relaxed:
    """A class of records as errors='relax' has it: a payload that it refuses is that of a plain record, which has the refusal."""

    def __init__(self, kind: Parts, record_class: Type[Record]) -> None:
        self.kind, self.record_class = kind, record_class

    def _from_payload(self, octets: bytes) -> Record:
        try:
            return self.record_class._from_payload(octets)
        except DecodeError as error:
            made = Record._made(self.kind, octets)
            made.refusal = DecodeError(error.reason, error.place, error.number)
            return made


def _known_class(spelled: Any, record_class: Any) -> Tuple[Parts, Type[Record]]:
    """A type and its class, as `known_types` has them."""
    if not isinstance(spelled, str) or not (isinstance(record_class, type) and issubclass(record_class, Record)):
        raise TypeError('known_types has record classes by the spelling of their types, not %r: %r' % (spelled, record_class))
    layout.look_at(record_class._layout)
    return parts_of(spelled), record_class


def known_of(known_types: Optional[Mapping[str, Type[Record]]], relaxed: bool = False) -> Reading:
    """How messages are read where these types are known."""
    most = Record.MAX_PAYLOAD_SIZE
    if known_types is not None and not isinstance(known_types, Mapping):
        raise TypeError('known_types has record classes by the spelling of their types, and is no %s' % type(known_types).__name__)
    if known_types is not None or relaxed:
        known: Known = Record._known_parts if known_types is None else dict(_known_class(*one) for one in known_types.items())
        if relaxed:
            relaxing: Any = {kind: _Relaxed(kind, record_class) for kind, record_class in known.items()}
            known = relaxing
        return library.limits(most, library.OPAQUE), known, None
    usual = _usual.get(most)
    if usual is None:
        usual = library.limits(most, 0), Record._known_parts, {}
        if len(_usual) < _MOST_USUAL:
            _usual[most] = usual
    return usual


def message_decoder(stream_or_bytes: Union[bytes, bytearray, memoryview, BinaryIO], errors: str = 'strict',
                    known_types: Optional[Mapping[str, Type[Record]]] = None, *,
                    whole: bool = False) -> Generator[Record, None, None]:
    """A generator of the records of the message with which the octets begin; of none where there are no octets.

    The octets are bytes, or a stream, of which only those of the records that were given are taken. A fault is raised as
    DecodeError where the next record would be given: a message is known to be right only after its last record. With
    `whole` no record is given before the message is known to be right.

    `known_types` are classes by the spelling of their type, in place of those that are registered; with {} every payload is
    data. With `errors='relax'` a payload that is none of its type doesn't end the message: it is given as a plain record of that
    type, whose `refusal` says where in the payload, and why. Of octets, not of a stream, MB and ME may be missing then, or MB
    be set again. All else is refused as with 'strict'.
    """
    if errors not in ('strict', 'relax'):
        raise left_out('errors=%r' % errors) if errors == 'ignore' else ValueError("errors is 'strict' or 'relax', not %r" % (errors,))
    limits, known, values = known_of(known_types, errors == 'relax')
    given: Any = stream_or_bytes
    octets = given if type(given) is bytes else _octets_of(given)
    if octets is not None:
        if errors == 'relax':
            octets = _mended(octets, limits)
        try:
            scratch = pop_scratch()
        except IndexError:
            scratch = new_scratch()
        record = lone_record(octets, scratch, limits, known, values)
        if record is not None:
            push_scratch(scratch)
            yield record
            return
        records = _from_octets(octets, scratch, limits, known, values)
    else:
        records = _from_stream(given, limits, known, values)
    yield from list(records) if whole else records


def _mended(octets: bytes, limits: Any) -> bytes:
    """The octets with MB and ME as the library wants them, if that makes them a message; else as they are."""
    changed, size, checked = bytearray(octets), library.size_of(len(octets)), library.Checked()
    while library.check(library.first_of(changed), size, limits, library.byref(checked)) == library.REFUSED:
        if checked.reason in _BEGINS:
            changed[checked.place] ^= _MB
            continue
        last = _last_of(bytes(changed), size)
        if checked.reason != _END_OF_INPUT or last is None:
            return octets
        changed[last] |= _ME
    return bytes(changed)


def _last_of(octets: bytes, size: Any) -> Optional[int]:
    """Where the record begins with which the octets end, if there is one."""
    parts, end = library.RecordParts(), 0
    while library.record_at(octets, size, size_of(end), library.byref(parts)) == OK:
        end = parts.end
    return parts.at if parts.end == len(octets) else None


def _octets_of(given: Any) -> Optional[bytes]:
    """The octets, where octets are given; None where a stream of octets is."""
    if isinstance(given, (bytes, bytearray, memoryview)):
        return bytes(given)
    if hasattr(given, 'read') and not isinstance(given, io.TextIOBase):
        return None
    raise TypeError('octets or a stream of octets is needed, not %s' % type(given).__name__)


def lone_record(octets: bytes, scratch: Scratch, limits: Any, known: Known, values: Values) -> Optional[Record]:
    """The record of a message of one record, as most are; None for others. The scratch has what a check gives for the octets, and
    where they are a message of few records, their items."""
    _, why, block, items, _, _ = scratch
    count = len(octets)
    if count < USUAL_SIZES:
        status = items_short(octets, SIZES[count], limits, why, items, _FEW)
    elif count < U32_END:
        status = library.items(octets, size_of(count), limits, why, items, _FEW)
    else:
        status = library.check(octets, size_of(count), limits, why) or library.BUFFER_TOO_SMALL
    if status != OK:
        return None
    records, id_length, form, number, language_at, language_length, text_at, text_length = lone_item(block)
    if records != 1:
        return None
    if form and not id_length:
        record_class = known.get(_FORMS[form])
        if record_class in READ_LATE:
            unread = _new(record_class)
            unread._unread = number, octets[language_at:language_at + language_length], octets[text_at:text_at + text_length]
            return unread
    return record_of(octets, _parts(first_item(block)), known, 0, True, values)


def _parts(item: Fields) -> Fields:
    """The fields of a RecordParts, of those of an item."""
    at, end, tnf, _, type_at, type_length, id_length, payload_at, length, chunks, _, _, _, _, _, _ = item
    return at, end, type_at, type_length, payload_at - id_length, id_length, payload_at, length, length, chunks, tnf, 0


def records_from(octets: bytes, scratch: Scratch, limits: Any, known: Known, values: Values) -> Iterator[Record]:
    """The records of a message of which the scratch has what `lone_record` leaves there, and is free then. The message is walked where its places
    don't fit items."""
    checked, why, block, _, _, _ = scratch
    count, size = checked.records, len(octets)
    if size >= U32_END:
        return records_of(octets, 0, checked.place, known, values)
    if count > FEW_ITEMS:
        block = library.new_block(count)
        library.items(octets, size_of(size), limits, why, library.items_in(block), size_of(count))
    return _of_items(octets, library.all_items(block, count), known, values)


def _of_items(octets: bytes, items: Iterable[Fields], known: Known, values: Values) -> Iterator[Record]:
    """The records with these items."""
    classes = [record_class if record_class in READ_LATE else None for record_class in map(known.get, _FORMS)]
    for item in items:
        _, _, _, _, _, _, id_length, payload_at, _, _, form, number, language_at, language_length, text_at, text_length = item
        record_class = classes[form]
        if record_class is None:
            yield record_of(octets, _parts(item), known, 0, not item[0], values)
            continue
        made = _new(record_class)
        made._unread = number, octets[language_at:language_at + language_length], octets[text_at:text_at + text_length]
        if id_length:
            made._name = octets[payload_at - id_length:payload_at]
        yield made


def _from_octets(octets: bytes, scratch: Scratch, limits: Any, known: Known, values: Values) -> Iterator[Record]:
    """The records of the message of several with which the octets begin, or of the one that is refused: the scratch has what
    `lone_record` leaves there."""
    checked = scratch[0]
    place, error = checked.place, library.refused_octets(checked, octets, limits) if checked.reason and octets else None
    records = iter(()) if checked.reason else records_from(octets, scratch, limits, known, values)
    # From here on another thread may use the scratch.
    push_scratch(scratch)
    return _refused(octets, place, error, known, values) if error else records


def _refused(octets: bytes, place: int, error: DecodeError, known: Known, values: Values) -> Iterator[Record]:
    """The records before the octet at a place that is refused. A message goes on with each octet before it; so each record that
    ends there is given."""
    yield from records_of(octets, 0, place, known, values)
    raise error


def _read(stream: BinaryIO, size: int) -> bytes:
    """At most this number of octets of the stream; none where it ends. BlockingIOError where it has none yet."""
    octets: Optional[bytes] = stream.read(size)
    if octets is None:
        raise BlockingIOError(errno.EAGAIN, 'the stream has no octets yet')
    if not isinstance(octets, (bytes, bytearray)):
        raise TypeError('a stream of octets is needed, not of %s' % type(octets).__name__)
    return bytes(octets)


def _ahead(stream: Any, size: int) -> bytes:
    """At most this number of octets that the stream gives next, which aren't taken; none where it can't show them."""
    if hasattr(stream, 'peek'):
        return bytes(stream.peek(size)[:size])
    if not (hasattr(stream, 'seekable') and stream.seekable()):
        return b''
    at = stream.tell()
    seen = _read(stream, size)
    stream.seek(at)
    return seen


class _Incoming:
    """The octets of a message that a stream gives, and what is known of those that were taken."""

    def __init__(self, stream: BinaryIO, limits: Any) -> None:
        self.stream, self.checker, self.checked = stream, library.Checker(), library.Checked()
        self.before, self.taken, self.parts = 0, bytearray(), library.RecordParts()
        self.trial, self.tried = library.Checker(), library.Checked()
        library.begin(limits, library.byref(self.checker))

    def _feed(self, checker: library.Checker, octets: bytes) -> int:
        """Feeds a checker, and returns whether the message ends, goes on or is refused."""
        return library.feed(library.byref(checker), octets, library.size_of(len(octets)), library.byref(self.checked))

    def _take(self, octets: bytes) -> int:
        """Takes octets that belong to the record."""
        self.taken += octets
        return self._feed(self.checker, octets)

    def _may_be_whole(self, status: int) -> bool:
        """Whether the octets at hand may be a whole record. Unlike `_is_whole` this takes as long for many chunks as for
        one. It says no only where another record may not begin after the octets. It says yes of a record that isn't whole
        only where as many octets are missing as `_ENDING` has."""
        if status != library.MORE:
            return True
        library.copy(self.trial, self.checker)
        fed = library.feed(library.byref(self.trial), _ENDING, library.size_of(len(_ENDING)), library.byref(self.tried))
        place: int = self.tried.place
        return fed == library.OK and place == self.before + len(self.taken) + len(_ENDING)

    def _is_whole(self) -> bool:
        """Whether a whole record is among the octets at hand, of those that are accepted."""
        accepted = self.checked.place - self.before
        return library.record_at(library.first_of(self.taken), library.size_of(accepted), library.size_of(0), library.byref(self.parts)) == library.OK

    def _look(self, seen: bytes) -> int:
        """Takes of the octets ahead those that belong to the record; none where they are refused. One octet does."""
        library.copy(self.trial, self.checker)
        count = len(self.taken)
        self.taken += seen
        status = self._feed(self.trial, seen)
        mine = self.parts.end - count if len(seen) > 1 and self._is_whole() else len(seen)
        if mine == len(seen) and status not in (library.OK, library.MORE):
            return status
        del self.taken[count:]
        return self._take(_read(self.stream, mine))

    def next_record(self) -> Tuple[bytes, int]:
        """Takes the octets of the next record, and says whether the message goes on after it. A stream that has no octet
        has no record. Octets ahead are looked at together where they are an eighth of those that were taken, or `_LOOK`
        of them: a look takes as long as the record has chunks. Fewer are taken one by one."""
        self.taken = bytearray()
        while True:
            seen = _ahead(self.stream, max(_LOOK, len(self.taken)))
            if len(seen) < min(len(self.taken) // 8, _LOOK):
                seen = seen[:1]
            octet = b'' if seen else _read(self.stream, 1)
            if not (seen or octet or self.before or self.taken):
                return b'', library.OK
            status = self._look(seen) if seen else self._take(octet)
            if (len(seen) > 1 or self._may_be_whole(status)) and self._is_whole():
                octets = bytes(self.taken[:self.parts.end])
                self.before += len(octets)
                return octets, status
            if status not in (library.OK, library.MORE) or not (seen or octet):
                raise library.refused(self.checked)


def _from_stream(stream: BinaryIO, limits: Any, known: Known, values: Values) -> Iterator[Record]:
    """The records of the message that the stream gives next. Each octet is taken with its record."""
    incoming, status = _Incoming(stream, limits), library.MORE
    while status == library.MORE:
        before = incoming.before
        octets, status = incoming.next_record()
        if octets:
            yield record_of(octets, library.record_fields(incoming.parts), known, before, not before, values)


def records_of(octets: bytes, start: int, end: int, known: Known, values: Values) -> Iterator[Record]:
    """The records of a message that has been checked and that lies between two places. `values` is None where payloads weren't
    validated; else it has, for classes of which the library gave the first record's value with the whole, what it gave."""
    scratch, size, at = take_scratch(), size_of(end), start
    _, _, _, _, buffer, out = scratch
    while at != end and record_at(octets, size, size_of(at), out) == OK:
        fields = record_fields(buffer)
        yield record_of(octets, fields, known, 0, at == start, values)
        at = fields[1]
    library.put_back(scratch)


def record_of(octets: bytes, fields: Fields, known: Known, before: int, is_first: bool, values: Values) -> Record:
    """The record with these parts, of octets that lie after this number of others in their message."""
    at, end, type_at, type_length, id_at, id_length, payload_at, part_length, length, chunks, tnf, _ = fields
    kind = tnf, octets[type_at:type_at + type_length]
    if chunks == 1:
        data = octets[payload_at:payload_at + part_length]
    else:
        _, data = library.put(library.payload, octets, size_of(end), size_of(at), given=length)
    record_class = known.get(kind)
    if record_class is None:
        made = Record._made(kind, data)
    elif record_class in READ_LATE and values is not None:
        made = _new(record_class)
        made._unread = data
    elif values and record_class in values:
        made = record_class._of(values.pop(record_class))  # type: ignore[attr-defined]
    else:
        try:
            made = record_class._from_payload(data)
        except DecodeError as error:
            place = type_at + type_length - 1 if error._is_of_length else payload_at + error.place
            if chunks > 1:
                place = at + _place_in_chunks(octets[at:end], is_first, error, payload_at - at)
            raise DecodeError(error.reason, before + place, error.number) from None
    if id_length:
        made._name = octets[id_at:id_at + id_length]
    return made


def _place_in_chunks(octets: bytes, is_first: bool, error: DecodeError, payload_at: int) -> int:
    """Where the octet lies for which a record in chunks is refused; the error has its place in the joined payload. The library
    finds it where it checks the record, which is the first of its message or stands after an empty one here."""
    checker, checked = library.Checker(), library.Checked()
    library.begin(library.limits(library.U32_END - 1, 0), library.byref(checker))
    before = b'' if is_first else Record()._written(library.FIRST, 0)
    status = library.REFUSED
    for part in (before, octets):
        status = library.feed(library.byref(checker), part, library.size_of(len(part)), library.byref(checked))
    if status == library.REFUSED and checked.reason == error.number:
        return int(checked.place) - len(before)
    return payload_at


@overload
def message_encoder(message: Iterable[Record], stream: None = None, *, unchecked: bool = False,
                    size: Optional[int] = None) -> Generator[bytes, None, None]: ...


@overload
def message_encoder(message: Iterable[Record], stream: BinaryIO, *, unchecked: bool = False,
                    size: Optional[int] = None) -> Generator[int, None, None]: ...


@overload
def message_encoder(message: None = None, stream: None = None, *,
                    unchecked: bool = False) -> Generator[Optional[bytes], Optional[Record], None]: ...


@overload
def message_encoder(message: None = None, *, stream: BinaryIO,
                    unchecked: bool = False) -> Generator[Optional[int], Optional[Record], None]: ...


def message_encoder(message: Optional[Iterable[Record]] = None, stream: Optional[BinaryIO] = None, *, unchecked: bool = False,
                    size: Optional[int] = None) -> Generator[Any, Any, None]:
    """A generator of the octets of each record of the message in turn, or, where a stream is given that they are written
    to, of their numbers. With no message, a generator to which the records are sent, and None after the last: each
    gives the octets of the record before it.

    With a `size` the octets are given as parts of this number, of which the last may have fewer: the records are written
    in steps, and no more than a part is in memory beside them. A `StreamedRecord` gives its payload as it is asked for.

    EncodeError is raised in place of the octets of a record with which `message_decoder` would refuse the message, or of
    the part with the octet that it would refuse. `unchecked` writes it, too."""
    if size is not None:
        if message is None:
            raise TypeError('with a size the message is given, and no record is sent')
        return _in_parts(message, stream, unchecked, number_of(size, 'a size'))
    if message is None:
        return _sent(stream, unchecked)
    return _encoded(message, stream, unchecked)


def _in_parts(message: Iterable[Record], stream: Optional[BinaryIO], unchecked: bool, size: int) -> Generator[Any, None, None]:
    if size < 1:
        raise ValueError('a part has at least 1 octet, not %d' % size)
    for octets in in_parts(_with_ends(message), size, Outgoing(unchecked)):
        yield octets if stream is None else stream.write(octets)


def _with_ends(message: Iterable[Record]) -> Iterator[Tuple[Record, int]]:
    """The records of a message, each with the flags that say whether it is the first and whether it is the last."""
    flags, before = library.FIRST, None
    for record in message:
        _record(record)
        if before is not None:
            yield before, flags
            flags = 0
        before = record
    if before is not None:
        yield before, flags | library.LAST


def _encoded(message: Iterable[Record], stream: Optional[BinaryIO], unchecked: bool) -> Generator[Any, None, None]:
    outgoing = Outgoing(unchecked)
    for record, flags in _with_ends(message):
        octets = outgoing.written(record, flags)
        yield octets if stream is None else stream.write(octets)


def _record(given: Any) -> Record:
    """What is given, if it is a record."""
    if not isinstance(given, Record):
        raise TypeError('a Record is needed, not %s' % type(given).__name__)
    return given


def _sent(stream: Optional[BinaryIO], unchecked: bool) -> Generator[Any, Optional[Record], None]:
    outgoing, flags, octets = Outgoing(unchecked), library.FIRST, None
    record: Any = yield
    while record is not None:
        _record(record)
        following = yield octets
        written = outgoing.written(record, flags | (library.LAST if following is None else 0))
        flags, octets = 0, written if stream is None else stream.write(written)
        record = following
    yield octets

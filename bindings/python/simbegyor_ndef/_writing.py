"""How messages are written: record by record, or in parts of a size, in memory for one part."""
from __future__ import annotations

import ctypes
import itertools
from typing import Any, Iterable, Iterator, Tuple

from . import _library as library
from .errors import EncodeError
from .record import Record


class Outgoing:
    """A message that is written record by record: how much of it there is, and whether a decoder would take it so far."""

    def __init__(self, unchecked: bool) -> None:
        self.place = self.count = 0
        self.limits = None if unchecked else library.limits(Record.MAX_PAYLOAD_SIZE, 0)
        self.checker, self.checked = library.Checker(), library.Checked()
        if self.limits is not None:
            library.begin(self.limits, library.byref(self.checker))

    def written(self, record: Record, flags: int) -> bytes:
        """The octets of the next record."""
        try:
            octets = record._written(flags, self.place)
        except EncodeError as error:
            raise self.of_record(error) from None
        self.check(record, octets)
        self.go_on(len(octets))
        return octets

    def of_record(self, error: EncodeError) -> EncodeError:
        """The error for a record that has no octets, as that of the next one of the message."""
        return EncodeError(error.what, self.place, error.reason, error.number, self.count, error.at)

    def check(self, record: Record, octets: bytes) -> None:
        """Checks the next octets of the record."""
        if self.limits is not None:
            size = library.size_of(len(octets))
            if library.feed(library.byref(self.checker), octets, size, library.byref(self.checked)) == library.REFUSED:
                raise self._refusal(record)

    def go_on(self, size: int) -> None:
        """Goes on to the record after one of this number of octets."""
        self.place, self.count = self.place + size, self.count + 1

    def _refusal(self, record: Record) -> EncodeError:
        """Why a decoder refuses the message with this record. The sentence is that of the record alone, where it is refused alone."""
        number, wanted = self.checked.reason, None
        if record._is_kept:
            single, checked = record._written(library.FIRST | library.LAST, 0), library.Checked()
            library.check(single, library.size_of(len(single)), self.limits, library.byref(checked))
            wanted = library.why(single, self.limits) if checked.reason == number else None
        return EncodeError(wanted or library.reason_sentence(number), self.place, library.reason_name(number), number, self.count,
                           self.checked.place - self.place)


class _Page:
    """Memory for the octets of a part, of which those at its front are written."""

    def __init__(self, size: int) -> None:
        self.octets, self.size, self.filled, self.count = bytearray(size), size, 0, ctypes.c_size_t()
        self.buffer = (ctypes.c_char * size).from_buffer(self.octets)

    def left(self) -> int:
        """How many octets more it takes."""
        return self.size - self.filled

    def put(self, writer: _Writer, part: bytes) -> bytes:
        """Writes the next octets of a record whose payload goes on with the part, as many as there are and fit, and gives them."""
        self.count.value = 0
        library.writer_next(writer.state, *writer.name, part, library.size_of(len(part)), library.byref(self.buffer, self.filled),
                            library.size_of(self.left()), library.byref(self.count))
        before, self.filled = self.filled, self.filled + self.count.value
        return bytes(self.octets[before:self.filled])

    def given(self) -> bytes:
        """What is written, of which nothing is kept."""
        given, self.filled = bytes(self.octets[:self.filled]), 0
        return given


class _Writer:
    """A record that is written in steps."""

    def __init__(self, record: Record, flags: int) -> None:
        tnf, kind = record._kind()
        name, self.size, self.parts = (b'', 0, iter(())) if tnf == library.EMPTY else (record._name, *record._payload_parts())
        if self.size > record.MAX_PAYLOAD_SIZE:
            raise library.too_large(self.size, record.MAX_PAYLOAD_SIZE)
        kind_size, name_size = map(library.size_of, (len(kind), len(name)))
        self.name: Tuple[bytes, Any, bytes, Any] = kind, kind_size, name, name_size
        self.written, self._state = 0, library.Writer()
        self.state = library.byref(self._state)
        if library.writer_begin(self.state, kind_size, name_size, library.size_of(self.size), library.writing(tnf, flags)) != library.OK:
            raise EncodeError('no record has these parts')

    def taken(self) -> int:
        """How many octets of the payload are written."""
        taken: int = self._state.taken
        return taken


def in_parts(records: Iterable[Tuple[Record, int]], size: int, outgoing: Outgoing) -> Iterator[bytes]:
    """The octets of the records, each of which comes with its flags: this number in each part but the last."""
    page = _Page(size)
    for record, flags in records:
        try:
            writer = _Writer(record, flags)
        except EncodeError as error:
            raise outgoing.of_record(error) from None
        for part in itertools.chain((b'',), writer.parts):
            begin = writer.taken()
            while True:
                at = writer.taken() - begin
                octets = page.put(writer, part[at:at + page.left()])
                writer.written += len(octets)
                outgoing.check(record, octets)
                if page.left():
                    break
                yield page.given()
        outgoing.go_on(writer.written)
    if page.filled:
        yield page.given()

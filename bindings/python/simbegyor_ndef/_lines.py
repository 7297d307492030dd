"""What the program prints of the messages of a file: lines for people, or objects for JSON."""
from __future__ import annotations

import io
from typing import Any, Callable, Dict, Iterator, List, Optional, Tuple, Union

from ._fields import Field, fields
from ._sentences import field_warning, record_warnings
from .errors import DecodeError
from .message import message_decoder
from .record import Record

# A line for people, or an object for JSON.
Line = Union[str, Dict[str, Any]]

_ATTRIBUTES = ('text', 'language', 'encoding', 'iri', 'titles', 'action', 'resource_size', 'resource_type', 'version_string',
               'collision_resolution_number', 'error', 'alternative_carriers', 'carrier_type', 'carrier_data')
_IN_A_LINE = 8


def _messages(octets: bytes) -> Iterator[Tuple[int, int, List[Record]]]:
    """The messages of the octets, one after another: where each begins, where it ends, and its records. The place of a
    DecodeError counts from the first of all octets."""
    stream, at = io.BytesIO(octets), 0
    while at < len(octets):
        try:
            records = list(message_decoder(stream))
        except DecodeError as error:
            raise _moved(error, at) from None
        end = stream.tell()
        yield at, end, records
        at = end


def _moved(error: DecodeError, at: int) -> DecodeError:
    """The error for octets that lie after `at` others."""
    return DecodeError(error.reason, at + error.place, error.number)


def _plain(value: Any) -> Any:
    """The value as JSON has it: octets in hexadecimal digits, named tuples as objects."""
    if isinstance(value, (bytes, bytearray)):
        return value.hex()
    if hasattr(value, '_asdict'):
        return {name: _plain(part) for name, part in value._asdict().items()}
    if isinstance(value, list):
        return [_plain(part) for part in value]
    return value


def _object(record: Record) -> Dict[str, Any]:
    """The record as JSON has it."""
    known = {name: _plain(getattr(record, name)) for name in _ATTRIBUTES if hasattr(record, name)}
    resource = getattr(record, 'resource', None)
    if resource is not None:
        known['iri'] = resource.iri
    return {'type': record.type, 'name': record.name, 'data': record.data.hex(), **known}


def _one_line(text: str) -> str:
    """The text with each character that isn't printed as an escape."""
    return ''.join(char if char.isprintable() else char.encode('unicode_escape', 'surrogatepass').decode('ascii') for char in text)


def shown(octets: bytes, as_json: bool) -> Iterator[Line]:
    """A line for each record."""
    for count, (at, _, records) in enumerate(_messages(octets), 1):
        for record in records:
            yield {'message': count, 'at': at, **_object(record)} if as_json else _one_line(str(record))


def checked(octets: bytes, as_json: bool) -> Iterator[Line]:
    """A line for each message."""
    for count, (at, end, records) in enumerate(_messages(octets), 1):
        if as_json:
            yield {'message': count, 'at': at, 'records': len(records), 'bytes': end - at}
        else:
            yield 'message %d at %d: records %d, bytes %d' % (count, at, len(records), end - at)


def _remark(field: Field, accepted: bool) -> Optional[str]:
    """What is strange in a field of a message that is accepted, if something is known to be."""
    return field_warning(field.name, field.octets) if accepted else None


def _field_lines(at: int, found: List[Field], accepted: bool) -> Iterator[str]:
    """The lines of the fields of the message that begins at a place; with warnings where it is accepted."""
    for field in found:
        digits = [' '.join('%02x' % octet for octet in field.octets[start:start + _IN_A_LINE])
                  for start in range(0, field.length, _IN_A_LINE)]
        indent = 2 * field.depth * ' '
        yield '%08x  %s%-23s  %s' % (at + field.at, indent, digits[0], field.name)
        yield from ('          ' + indent + further for further in digits[1:])
        remark = _remark(field, accepted)
        if remark:
            yield 'remark: ' + remark


def _field_object(at: int, field: Field, accepted: bool) -> Dict[str, Any]:
    """A field as JSON has it."""
    remark = _remark(field, accepted)
    return {'at': at + field.at, 'length': field.length, 'depth': field.depth, 'name': field.name, 'octets': field.octets.hex(),
            **({'remark': remark} if remark else {})}


def _accepted_lines(count: int, at: int, octets: bytes, records: int) -> Iterator[str]:
    """The lines of a message that is accepted: its number, its place, its octets, and how many records it has."""
    yield 'message %d at %d: bytes %d' % (count, at, len(octets))
    yield from _field_lines(at, fields(octets), True)
    yield from ('remark: record %d: %s' % remark for remark in record_warnings(octets, records))


def _accepted_object(count: int, at: int, octets: bytes, records: int) -> Dict[str, Any]:
    """The same as JSON has it."""
    remarks = [{'record': number, 'sentence': sentence} for number, sentence in record_warnings(octets, records)]
    return {'message': count, 'at': at, 'length': len(octets), 'fields': [_field_object(at, field, True) for field in fields(octets)],
            **({'remarks': remarks} if remarks else {})}


def explained(octets: bytes, as_json: bool) -> Iterator[Line]:
    """A line for each field, with its octets, and for what is strange; of a message that is refused, for the fields before the
    refused octet."""
    count = end = 0
    try:
        for count, (at, end, records) in enumerate(_messages(octets), 1):
            accepted = (count, at, octets[at:end], len(records))
            if as_json:
                yield _accepted_object(*accepted)
            else:
                yield from _accepted_lines(*accepted)
    except DecodeError as error:
        _look_again(error, octets, end)
        if as_json:
            yield {'message': count + 1, 'at': end, 'fields': [_field_object(end, field, False) for field in error.fields]}
        else:
            yield from _field_lines(end, error.fields, False)
            yield from ('%08x  %02x  ^' % (error.place, octet) for octet in octets[error.place:error.place + 1])
        raise


def _look_again(error: DecodeError, octets: bytes, at: int) -> None:
    """Gives the error the fields before the refused octet of the message that begins at a place, its sentence and its hint.
    A place in a hint counts from there, and is given only where the first octet is refused: so there is none after a message."""
    try:
        error.fields = fields(octets[at:])
    except DecodeError as found:
        error.fields, error.sentence = found.fields, found.sentence
        error.hint = None if at and not found.place else found.hint


# What is printed, by the first word of the program.
COMMANDS: Dict[str, Callable[[bytes, bool], Iterator[Line]]] = {'show': shown, 'check': checked, 'explain': explained}

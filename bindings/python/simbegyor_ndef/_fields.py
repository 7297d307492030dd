"""To which field each octet of a message belongs."""
from __future__ import annotations

from typing import Any, List, NamedTuple, Tuple, Union

from . import _library as library
from .record import Record


class Field(NamedTuple):
    """Octets of a message that belong to one field.

    at: the offset of the first of them, counted from 0.
    length: how many they are, at least 1.
    depth: 0 in the message itself, 1 in a message within a payload.
    name: the name of the field, as ndef.h gives it ('TYPE_LENGTH').
    octets: the octets themselves.
    """

    at: int
    length: int
    depth: int
    name: str
    octets: bytes


Octets = Union[bytes, bytearray, memoryview]
_FLAGS = {'strict': 0, 'standard': library.STANDARD}


def bytes_of(octets: Octets) -> bytes:
    """The octets, which are given in one of three ways."""
    if not isinstance(octets, (bytes, bytearray, memoryview)):
        raise TypeError('octets are needed, not %s' % type(octets).__name__)
    return bytes(octets)


def given_of(octets: Octets, profile: str) -> Tuple[bytes, Any]:
    """The octets, and the limits within which they are read by a profile."""
    given = bytes_of(octets)
    if profile not in _FLAGS:
        raise ValueError("profile is 'strict' or 'standard', not %r" % (profile,))
    return given, library.limits(Record.MAX_PAYLOAD_SIZE, _FLAGS[profile])


def fields(octets: Octets, profile: str = 'strict') -> List[Field]:
    """The fields of the message with which the octets begin, in order; none where there are no octets.

    They follow one another without a gap from the first octet of the message to its last. `profile` says what becomes of
    the reserved type name format 7 and of reserved identifier codes of URIs: 'strict', they are refused; 'standard', they
    are read as the standards say. Where the octets are refused, DecodeError is raised; its `fields` are those before the
    refused octet.
    """
    given, within = given_of(octets, profile)
    if not given:
        return []
    checked, parts = library.fields(given, within)
    listed = [Field(part.at, part.length, part.depth, library.field_name(part.name), given[part.at:part.at + part.length])
              for part in parts]
    if checked.reason:
        error = library.refused_octets(checked, given, within)
        error.fields = listed
        raise error
    return listed

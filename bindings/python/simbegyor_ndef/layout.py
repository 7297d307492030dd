"""Layouts of payloads, for record classes of one's own: the fields of a payload follow one another up to its end.

    class Temperature(GlobalRecord):
        _type = 'urn:nfc:ext:example.com:temp'
        _layout = (layout.octets(2),)
"""
from __future__ import annotations

import functools
import operator
from typing import Any, NamedTuple, Optional, Tuple

from . import _interface as interface
from . import _library as library
from .errors import DecodeError

__all__ = ['LayoutField', 'counted', 'octets', 'rest', 'utf8', 'within']


class LayoutField(NamedTuple):
    """A field of a layout, as the functions here give it."""

    form: int
    least: int = 0
    most: int = 0


def _number(value: int) -> int:
    """The value, if it is a whole number that the library takes."""
    number = operator.index(value)
    if not 0 <= number < library.U32_END:
        raise ValueError('a number in a layout is 0 to %d, not %d' % (library.U32_END - 1, number))
    return number


def octets(count: int) -> LayoutField:
    """This number of octets."""
    return LayoutField(interface.LAYOUT_OCTETS, _number(count))


def within(least: int, most: int) -> LayoutField:
    """One octet, from the least to the greatest, 0 to 255."""
    return LayoutField(interface.LAYOUT_WITHIN, _number(least), _number(most))


def counted() -> LayoutField:
    """Octets after their number, which is one octet."""
    return LayoutField(interface.LAYOUT_COUNTED)


def utf8() -> LayoutField:
    """A text in UTF-8, up to the end of the payload. No field follows it."""
    return LayoutField(interface.LAYOUT_UTF8)


def rest() -> LayoutField:
    """Any octets, up to the end of the payload. No field follows it."""
    return LayoutField(interface.LAYOUT_REST)


def _check(payload: bytes, fields: Any, out: interface.LaidOut) -> int:
    """The status of a check of a payload."""
    return int(library.check_layout(payload, library.size_of(len(payload)), fields, library.size_of(len(fields)), library.byref(out)))


@functools.lru_cache
def _array(fields: Tuple[LayoutField, ...]) -> Any:
    """The fields as the library takes them. It says whether they are a layout."""
    array = (interface.LayoutField * len(fields))(*(interface.LayoutField(*field) for field in fields))
    if _check(b'', array, interface.LaidOut()) == library.BAD_ARGUMENT:
        raise ValueError('no layout has these fields: %r' % (fields,))
    return array


def look_at(given: Any) -> None:
    """Looks whether the `_layout` of a class is one, or None."""
    if given is None:
        return
    if not isinstance(given, tuple) or not all(isinstance(one, LayoutField) for one in given):
        raise TypeError('a _layout is a tuple of fields that the functions of layout give, not %r' % (given,))
    _array(given)


def refusal_of(fields: Tuple[LayoutField, ...], payload: bytes) -> Optional[DecodeError]:
    """The error for a payload that is none of the layout; its place counts from the first octet of the payload."""
    out = interface.LaidOut()
    if _check(payload, _array(fields), out) == library.OK:
        return None
    error = DecodeError(library.reason_name(out.reason), out.place, out.reason)
    error._is_of_length = not out.length_fits
    return error

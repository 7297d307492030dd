"""The octets of record classes that a caller defines, by formats as of the module struct with two additions.

`*` at the end stands for all octets that are left. `+` after a number, as in 'B+' or '>H+', stands for that many octets
after it; with a format in brackets, as in 'B+(BH)', for that many groups of values, each of that format.
"""
from __future__ import annotations

import re
import struct
from typing import Any, List, Tuple

_PART = re.compile(r'\*$|[BHILQ]\+\(([^()*+]*)\)|[BHILQ]\+|[0-9]*[xcbB?hHiIlLqQnNefdsp]|\s+')


def _parts(form: str) -> Tuple[str, List[Tuple[str, str]]]:
    """The byte order of a format, and its parts: each with the format in its brackets."""
    order, rest = (form[0], form[1:]) if form[:1] in tuple('@=<>!') else ('@', form)
    parts, at = [], 0
    while at < len(rest):
        found = _PART.match(rest, at)
        if not found:
            raise struct.error('bad char in struct format')
        if found[0].strip():
            parts.append((found[0], found[1] or ''))
        at = found.end()
    return ('=' if order == '@' else order), parts


def unpacked(form: str, octets: bytes, offset: int = 0) -> Tuple[Any, ...]:
    """The values that stand at the offset; what lies after them doesn't matter. struct.error where octets are missing."""
    order, parts = _parts(form)
    values: List[Any] = []
    for part, group in parts:
        if part == '*':
            values.append(bytes(octets[offset:]))
            offset = len(octets)
            continue
        head = order + part[:1] if '+' in part else order + part
        found = struct.unpack_from(head, octets, offset)
        offset += struct.calcsize(head)
        if '+' not in part:
            values.extend(found)
            continue
        inner = order + (group or '%ds' % found[0])
        rows = []
        for _ in range(found[0] if group else 1):
            rows.append(struct.unpack_from(inner, octets, offset))
            offset += struct.calcsize(inner)
        values.append(rows[0][0] if not group else [row[0] if len(row) == 1 else row for row in rows])
    return tuple(values)


def packed(form: str, *values: Any) -> bytes:
    """The octets of the values. struct.error where they don't fit the format."""
    order, parts = _parts(form)
    octets, left = b'', list(values)
    for part, group in parts:
        if part == '*' or '+' in part:
            if not left:
                raise struct.error('a value is missing for %r' % part)
            value = left.pop(0)
            if '+' in part:
                octets += struct.pack(order + part[:1], len(value))
            rows = [row if isinstance(row, (tuple, list)) else (row,) for row in value] if group else []
            octets += b''.join(struct.pack(order + group, *row) for row in rows) if group else bytes(value)
        else:
            taken = _values_of(part)
            octets += struct.pack(order + part, *left[:taken])
            del left[:taken]
    if left:
        raise struct.error('%d values too many' % len(left))
    return octets


def _values_of(part: str) -> int:
    """How many values a part stands for."""
    return 0 if part[-1] == 'x' else 1 if part[-1] in 'sp' else int(part[:-1] or 1)

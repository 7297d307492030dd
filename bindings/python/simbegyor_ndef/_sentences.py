"""Sentences about octets: what was wanted where they are refused, and what may help; what is strange where they are accepted."""
from __future__ import annotations

import operator
from typing import Any, Callable, List, Optional, Tuple

from . import _library as library
from ._fields import Octets, bytes_of, given_of
from ._hints import FoundHint

# A message of more records has no warnings on them, as ndef.h says of ndef_record_warning.
_MOST_RECORDS = 64


def why(octets: Octets, profile: str = 'strict') -> Optional[str]:
    """What was wanted where the octets are refused, in a sentence of English, or what the reason means where nothing more is
    known; None where a message begins with the octets, and where there are none. `profile` is as for `fields`."""
    return _said(library.why, octets, profile)


def hint(octets: Octets, profile: str = 'strict') -> Optional[str]:
    """A sentence that may help where the octets are refused: they are of a tag, which has these for a message, or a text that spells
    octets, the identifier code of a URI may be missing, or the profile 'standard' reads them. It names commands; `find_hint` says
    the same to a program. None where nothing is known to help. The rest is as for `why`; it may take 17 times as long."""
    return _said(library.hint, octets, profile)


def find_hint(octets: Octets, profile: str = 'strict') -> Optional[FoundHint]:
    """What may help where the octets are refused, by its kind and the offset of a message. None where `hint` has no sentence. The
    rest is as for `hint`."""
    given, within = given_of(octets, profile)
    return library.find_hint(given, within) if given else None


def _said(call: Callable[[bytes, Any], Optional[str]], octets: Octets, profile: str) -> Optional[str]:
    """What a call says of the octets."""
    given, within = given_of(octets, profile)
    return call(given, within) if given else None


def field_warning(name: str, octets: Octets) -> Optional[str]:
    """What is strange in a field of a message, in a sentence of English, by the name and the octets that `fields` gives of it; None
    where nothing is known to be strange.

    ValueError where no field has the name.
    """
    number = library.field_numbers().get(name)
    if number is None:
        raise ValueError('no field has the name %r' % (name,))
    return library.field_warning(number, bytes_of(octets))


def record_warning(octets: Octets, index: int) -> Optional[str]:
    """What is strange in the record with this index, counted from 0, of the message with which the octets begin, beside its other
    records: a title again in the same language, a request without an alternative carrier, a reference to no record, an id again. None
    where nothing is known to be strange, where there is no such record or no message, and where the message has more than 64 records.

    ValueError where the index is below 0.
    """
    given, at = bytes_of(octets), operator.index(index)
    if at < 0:
        raise ValueError('an index is 0 or more, not %d' % at)
    return library.record_warning(given, min(at, _MOST_RECORDS))


# Their names in release 0.3.0.
field_remark, record_remark = field_warning, record_warning


def record_warnings(octets: bytes, count: int) -> List[Tuple[int, str]]:
    """The warnings on the records of a message of `count` records: the number of each, from 1, and the sentence."""
    if count > _MOST_RECORDS:
        return []
    found = ((number, library.record_warning(octets, number - 1)) for number in range(1, count + 1))
    return [(number, sentence) for number, sentence in found if sentence is not None]

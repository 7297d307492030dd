"""Many messages at a time: what each of them holds, or why it is refused."""
from __future__ import annotations

from typing import Any, Iterable, Iterator, List, Mapping, Optional, Type, Union

from . import _library as library
from ._library import take_scratch
from .errors import DecodeError
from .message import Known, Values, known_of, lone_record, records_from
from .record import Record

Octets = Union[bytes, bytearray, memoryview]
Answer = Union[List[Record], DecodeError]


def decode_many(messages: Iterable[Octets], known_types: Optional[Mapping[str, Type[Record]]] = None) -> Iterator[Answer]:
    """What each of the messages holds, in their order, one answer for each as it is asked for: a list of its records, which
    is empty where there are no octets, or the DecodeError that `message_decoder` would raise, whose `place` counts from the
    first octet of that message. No record of a refused message is given.

    Each message is the one with which its octets begin, as for `message_decoder`, which it answers as, in less time.
    `known_types` are as there. TypeError where one of the messages isn't octets.
    """
    limits, known, values = known_of(known_types)
    return _answers(messages, limits, known, values)


def _answers(messages: Iterable[Octets], limits: Any, known: Known, values: Values) -> Iterator[Answer]:
    """The answers. What the calls write to is made once."""
    scratch = take_scratch()
    checked = scratch[0]
    for octets in messages:
        if type(octets) is not bytes:
            octets = _bytes_of(octets)
        try:
            record = lone_record(octets, scratch, limits, known, values)
            if record is not None:
                answer: Answer = [record]
            elif checked.reason:
                answer = library.refused_octets(checked, octets, limits) if octets else []
            else:
                answer = list(records_from(octets, scratch, limits, known, values))
        except DecodeError as error:
            # Of a class of one's own. Without what the one that was raised holds: its frames.
            answer = DecodeError(error.reason, error.place, error.number)
        yield answer
    library.put_back(scratch)


def _bytes_of(octets: Octets) -> bytes:
    """The octets of a message."""
    if not isinstance(octets, (bytes, bytearray, memoryview)):
        raise TypeError('octets are needed, not %s' % type(octets).__name__)
    return bytes(octets)

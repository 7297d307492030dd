"""A check of octets that arrive in parts."""
from __future__ import annotations

from typing import NamedTuple, Optional

from . import _library as library
from ._fields import Octets, given_of


class Checked(NamedTuple):
    """A message that was found.

    length: the number of its octets.
    records: the number of its records.
    """

    length: int
    records: int


class Checker:
    """Checks a message that arrives in parts, as from a stream of asyncio, and holds none of its octets.

    `profile` is as for `fields`.
    """

    def __init__(self, profile: str = 'strict') -> None:
        self._state, self._found = library.Checker(), library.Checked()
        library.begin(given_of(b'', profile)[1], library.byref(self._state))

    @property
    def place(self) -> int:
        """The length of the whole message, the offset of the refused octet, or else the number of octets that were fed."""
        return int(self._found.place)

    def feed(self, octets: Octets) -> Optional[Checked]:
        """Checks the next octets, of which there may be none. None: the message goes on. Else the octets that were fed begin with a
        message, of which this says the length and the records; others may follow it. DecodeError where they are refused, with the
        offset counted from the first octet that was fed. After either, each later call answers the same."""
        given = given_of(octets, 'strict')[0]
        status = library.feed(library.byref(self._state), given, library.size_of(len(given)), library.byref(self._found))
        if status == library.REFUSED:
            raise library.refused(self._found)
        return Checked(self.place, self._found.records) if status == library.OK else None

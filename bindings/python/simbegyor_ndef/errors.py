"""What is raised where octets are no message, and where a value can't be written."""
from __future__ import annotations

import functools
from typing import Any, List, Optional, Tuple

from ._hints import FoundHint


class DecodeError(Exception):
    """Octets are refused.

    reason: the name of the reason, as ndef.h gives it ('EndOfInput'), or the text of a record class of one's own.
    place: the offset of the first octet with which no message goes on, counted from 0.
    number: the number of the reason in ndef.h, 1 to 25; 0 where a record class of one's own refuses.
    sentence: what was wanted there, in a sentence of English, or what the reason means; the reason itself where its number is 0.
    hint: a sentence that may help, which names commands; None where nothing is known to.
    found_hint: the same to a program, as `find_hint` gives it; None where nothing is known to help.
    fields: where `fields` raised it, the fields before that octet; else none.

    The sentence and both hints are made of the octets of the message when they are first asked for. Where a stream gave the
    octets, or `known_types` were given, the sentence says what the reason means, and there is no hint.
    """

    def __init__(self, reason: str = '', place: int = 0, number: int = 0) -> None:
        super().__init__(reason, place, number)
        self.reason, self.place, self.number = reason, place, number
        self.fields: List[Any] = []
        # The octets and the limits within which they are refused, where they are at hand.
        self._refused: Optional[Tuple[bytes, Any]] = None
        # Whether no payload of a layout has the length of this one.
        self._is_of_length = False

    @functools.cached_property
    def sentence(self) -> str:
        """What was wanted there, in a sentence of English, or what the reason means; the reason itself where its number is 0."""
        from . import _library
        wanted = _library.why(*self._refused) if self._refused else None
        return wanted or (_library.reason_sentence(self.number) if self.number else _one_line(self.reason))

    @functools.cached_property
    def hint(self) -> Optional[str]:
        """A sentence that may help; None where nothing is known to."""
        from . import _library
        return _library.hint(*self._refused) if self._refused else None

    @functools.cached_property
    def found_hint(self) -> Optional[FoundHint]:
        """What may help, to a program; None where nothing is known to."""
        from . import _library
        return _library.find_hint(*self._refused) if self._refused else None

    def __reduce__(self) -> Tuple[Any, ...]:
        """A copy has what is said of the octets, and not the octets."""
        said = {'_refused': None, 'sentence': self.sentence, 'hint': self.hint, 'found_hint': self.found_hint}
        return type(self), self.args, {**vars(self), **said}

    def __str__(self) -> str:
        return _line(self.place, self.reason, self.number)


class EncodeError(Exception):
    """A record can't be written, or no decoder would take it.

    what: what is wrong with it; of a record that a decoder refuses what is wanted at `at`, in a sentence of English.
    place: the offset in the message at which its octets would begin, counted from 0.
    reason: the name of the reason for which a decoder refuses it, as 'PayloadTooLarge'; 'BadArgument' where it has no octets.
    number: the number of that reason in ndef.h; 0 for 'BadArgument'.
    record: its index in the message, counted from 0; None where it was no part of one.
    at: the offset of the first octet of it that a decoder refuses, counted from its first; None where it has no octets.
    """

    def __init__(self, what: str = '', place: int = 0, reason: str = 'BadArgument', number: int = 0, record: Optional[int] = None,
                 at: Optional[int] = None) -> None:
        super().__init__(what, place, reason, number, record, at)
        self.what, self.place, self.reason, self.number, self.record, self.at = what, place, reason, number, record, at

    def __str__(self) -> str:
        record = '' if self.record is None else 'record %d: ' % self.record
        return record + ('%s: %s' % (self.reason, _one_line(self.what)) if self.at is None else _line(self.at, self.reason, self.number))


def _line(place: int, reason: str, number: int) -> str:
    """A refusal in one line, as each language prints it: what its reason means stands last."""
    from . import _library
    return 'refused at %d: %s' % (place, '%s: %s' % (reason, _library.reason_sentence(number)) if number else _one_line(reason))


def _one_line(text: object) -> str:
    """The text with its line breaks as spaces."""
    return ' '.join(str(text).splitlines())


def left_out(what: str) -> NotImplementedError:
    """The error for what ndeflib has and this module hasn't."""
    return NotImplementedError('simbegyor_ndef leaves this out: ' + what)

"""What may help where octets are refused, to a program: which hint it is, where a message may begin, and what to call."""
from __future__ import annotations

import enum
from typing import Dict, NamedTuple

from . import _interface as interface


class HintKind(enum.IntEnum):
    """What a hint is about, by the numbers of ndef.h.

    TLV: an NDEF message TLV of a tag has octets for a message, or none.
    ATTRIBUTES: a message comes after the attribute block of a Type 3 Tag.
    FILE: a message comes after its length, as in a file of a Type 4 Tag.
    MESSAGE: a message begins after other octets.
    TERMINATOR: the terminator of a tag's TLV blocks is in place of a message.
    DIGITS: the octets are digits.
    XXD: they are a dump by xxd.
    HEXDUMP: they are a dump by `hexdump -C`.
    WORDS: they are a dump by od or hexdump of numbers of more than one byte.
    FLIPPER: they are an NFC file of a Flipper.
    PROXMARK: they are what the client of a Proxmark prints.
    BASE64: they may be base64.
    CODE: the identifier code of a URI may be missing.
    STANDARD: a reader of the standard profile accepts the octets.
    INTERRUPTED: reserved areas of a tag may lie before the end of an NDEF message TLV.
    UNFINISHED: a Type 3 Tag is being written: its message is not whole yet.
    OD: the octets are a dump by `od -tx1`.
    """

    TLV = interface.HINT_TLV
    ATTRIBUTES = interface.HINT_ATTRIBUTES
    FILE = interface.HINT_FILE
    MESSAGE = interface.HINT_MESSAGE
    TERMINATOR = interface.HINT_TERMINATOR
    DIGITS = interface.HINT_DIGITS
    XXD = interface.HINT_XXD
    HEXDUMP = interface.HINT_HEXDUMP
    WORDS = interface.HINT_WORDS
    FLIPPER = interface.HINT_FLIPPER
    PROXMARK = interface.HINT_PROXMARK
    BASE64 = interface.HINT_BASE64
    CODE = interface.HINT_CODE
    STANDARD = interface.HINT_STANDARD
    INTERRUPTED = interface.HINT_INTERRUPTED
    UNFINISHED = interface.HINT_UNFINISHED
    OD = interface.HINT_OD


# What surrounds the octets that a tag has for a message.
_AROUND = {
    HintKind.TLV: 'in an NDEF TLV of a tag',
    HintKind.ATTRIBUTES: 'after the attribute block of a Type 3 Tag',
    HintKind.FILE: 'after its length, as in a file of a Type 4 Tag',
}
_IN_TAG = 'A message of length {length} may begin at byte {place}, {around}: read `octets[{place}:{end}]`.'
_EMPTY = 'This tag is empty: it has no bytes for a message.'
# The other sentences.
_TEXTS: Dict[int, str] = {
    HintKind.MESSAGE: 'The bytes may begin with what surrounds a message on a tag; a message begins at byte {place}: read `octets[{place}:]`.',
    HintKind.TERMINATOR: 'FE (hexadecimal) ends the TLV blocks of a tag.',
    HintKind.DIGITS: 'These are hexadecimal digits, not the bytes that they spell: decode them first, as `bytes.fromhex` does.',
    HintKind.XXD: 'This is a dump by xxd, not the bytes that it spells: decode its digits first.',
    HintKind.HEXDUMP: 'This is a dump by hexdump, not the bytes that it spells: decode its digits first.',
    HintKind.OD: 'This is a dump by od, not the bytes that it spells: decode its digits first.',
    HintKind.WORDS: 'This dump by od or hexdump may show numbers of two bytes, not bytes: decode a dump of single bytes.',
    HintKind.FLIPPER: 'This is a file of a Flipper, not the bytes: decode the digits of its pages first.',
    HintKind.PROXMARK: 'This is what a Proxmark prints, not the bytes: decode the digits of its blocks first.',
    HintKind.BASE64: 'This may be base64, not the bytes that it spells: decode it first, as `base64.b64decode` does.',
    HintKind.CODE: '68 (hexadecimal) is the letter h: was the identifier code left out?',
    HintKind.STANDARD: "The standard profile reads this: call `fields(octets, profile='standard')`.",
    HintKind.INTERRUPTED: 'A message may begin at byte {place}, in an NDEF TLV of a tag, but reserved areas may lie before its end: use a reader that skips them.',
    HintKind.UNFINISHED: 'This Type 3 Tag is being written: its attribute block says that the message is not whole yet.',
}


class FoundHint(NamedTuple):
    """What may help where octets are refused.

    kind: what the hint is about.
    place: the offset at which a message may begin, counted from 0; 0 where the hint names none.
    length: the number of octets that a tag has for that message; 0 where the hint names none.
    """

    kind: HintKind
    place: int
    length: int

    @property
    def text(self) -> str:
        """The same in a sentence of English, which says what a program in Python calls; `hint` names commands instead."""
        around = _AROUND.get(self.kind)
        text = _TEXTS[self.kind] if around is None else _IN_TAG if self.length else _EMPTY
        return text.format(place=self.place, length=self.length, end=self.place + self.length, around=around)

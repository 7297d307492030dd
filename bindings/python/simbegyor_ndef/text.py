"""Texts (Text Record Type Definition 1.0)."""
from __future__ import annotations

import functools
from typing import Any, Optional

from . import _library as library
from ._library import OK, push_scratch, size_of, take_scratch, text_fields
from .errors import EncodeError
from .record import READ_LATE, GlobalRecord, Record, Unread, text_of

__all__ = ['TextRecord']

_ENCODINGS = ('UTF-8', 'UTF-16')


def _write(language: bytes, text: bytes, flags: int, raised: type) -> bytes:
    """The payload of a text."""
    return library.written('no text has these parts', library.write_text, language, library.size_of(len(language)), text,
                           library.size_of(len(text)), flags, given=2 * len(text), raised=raised)


@functools.lru_cache
def _language_of(value: str) -> str:
    """The language code, if a text has it."""
    try:
        _write(value.encode('utf-8'), b'', 0, ValueError)
    except ValueError:
        raise ValueError('a language is at most 63 characters of ASCII, not %r' % value) from None
    return value


class TextRecord(GlobalRecord):
    """A text with its language.

    text: a str of Unicode characters. None stands for ''.
    language: a language code such as 'en' or 'de-AT', up to 63 characters of ASCII. None stands for 'en'.
    encoding: 'UTF-8' or 'UTF-16', in which the text is written. None stands for 'UTF-8'.
    """

    _type = 'urn:nfc:wkt:T'
    _text: str
    _language: str
    _encoding: str

    def __init__(self, text: Optional[str] = None, language: Optional[str] = None, encoding: Optional[str] = None) -> None:
        self.text = '' if text is None else text
        self.language = 'en' if language is None else language
        self.encoding = 'UTF-8' if encoding is None else encoding

    @property
    def text(self) -> str:
        """The text, a str of Unicode characters."""
        unread = self._unread
        if unread is not None:
            self._read(unread)
            self._unread = None
        return self._text

    @text.setter
    def text(self, value: str) -> None:
        value = text_of(value, 'a text')
        self._look()
        self._text = value

    @property
    def language(self) -> str:
        """The language code, up to 63 characters of ASCII. ValueError for others."""
        self._look()
        return self._language

    @language.setter
    def language(self, value: str) -> None:
        value = _language_of(text_of(value, 'a language'))
        self._look()
        self._language = value

    @property
    def encoding(self) -> str:
        """'UTF-8' or 'UTF-16'. ValueError for others."""
        self._look()
        return self._encoding

    @encoding.setter
    def encoding(self, value: str) -> None:
        if value not in _ENCODINGS:
            raise ValueError('the encoding is UTF-8 or UTF-16, not %r' % (value,))
        self._look()
        self._encoding = value

    def _encode_payload(self) -> bytes:
        flags = library.UTF16 if self.encoding == 'UTF-16' else 0
        return _write(self._language.encode('ascii'), self._text.encode('utf-8'), flags, EncodeError)

    @classmethod
    def _decode_payload(cls, octets: bytes, errors: str) -> TextRecord:
        made = cls.__new__(cls)
        made._read(octets)
        return made

    def _read(self, given: Unread) -> None:
        if type(given) is tuple:
            _, language, text = given
            self._language, self._encoding, self._text = language.decode(), 'UTF-8', text.decode()
            return
        checked, why, _, _, buffer, out = scratch = take_scratch()
        octets: Any = given
        count = len(octets)
        size = size_of(count)
        if library.text(octets, size, out, why) != OK:
            raise library.refused(checked)
        language_at, language_length, at, length, is_utf16 = text_fields(buffer)
        text = octets[at:at + length]
        if is_utf16:
            _, text = library.put(library.text_in_utf8, octets, size, given=2 * count, rest=(why,))
        push_scratch(scratch)
        self._language, self._encoding = octets[language_at:language_at + language_length].decode(), _ENCODINGS[is_utf16]
        self._text = text.decode()

    def __format__(self, form: str) -> str:
        if form == 'args':
            return '%r, %r, %r' % (self.text, self.language, self.encoding)
        if form == 'data':
            return "Text '%s' Language '%s' Encoding '%s'" % (self.text, self.language, self.encoding)
        return super().__format__(form)


Record.register_type(TextRecord)
READ_LATE.add(TextRecord)

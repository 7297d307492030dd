"""URIs (URI Record Type Definition 1.0)."""
from __future__ import annotations

import re
from typing import Any, Optional
from urllib.parse import quote

from . import _library as library
from .errors import EncodeError
from .record import READ_LATE, GlobalRecord, Record, Unread, text_of

__all__ = ['UriRecord']

_KEPT = "!#$%&'()*+,/:;=?@[]~"
# The scheme, the user before the host, the host, and the port and what follows (RFC 3986).
_PARTS = re.compile(r'(?s)((?:[^:/?#]+:)?//)([^/?#]*@)?([^/?#]*?)((?::[0-9]*)?(?:[/?#].*)?)\Z')


def _host_in_ascii(host: str) -> str:
    """The host name by IDNA where it isn't ASCII, and percent-encoded where IDNA has none."""
    if host.isascii():
        return host
    try:
        return host.encode('idna').decode('ascii')
    except UnicodeError:
        return quote(host, _KEPT)


class UriRecord(GlobalRecord):
    """A URI.

    iri: the URI, a str of Unicode characters. None stands for ''. It is written by the longest of the prefixes.
    """

    _type = 'urn:nfc:wkt:U'
    _iri: str

    def __init__(self, iri: Optional[str] = None) -> None:
        self.iri = '' if iri is None else iri

    @property
    def iri(self) -> str:
        """The URI as the payload spells it, its prefix written out: a str of Unicode characters."""
        unread = self._unread
        if unread is not None:
            self._read(unread)
            self._unread = None
        return self._iri

    @iri.setter
    def iri(self, value: str) -> None:
        value = text_of(value, 'a URI')
        self._look()
        self._iri = value

    @property
    def uri(self) -> str:
        """The same in ASCII: a host name by IDNA, other characters percent-encoded. What is assigned is the `iri`."""
        found = _PARTS.match(self.iri)
        if not found:
            return quote(self.iri, _KEPT)
        scheme, user, host, rest = found.groups('')
        return quote(scheme + user, _KEPT) + quote(_host_in_ascii(host), _KEPT) + quote(rest, _KEPT)

    @uri.setter
    def uri(self, value: str) -> None:
        self.iri = value

    def _encode_payload(self) -> bytes:
        octets = self.iri.encode('utf-8')
        return library.written('no URI is spelled so', library.write_uri, octets, library.size_of(len(octets)),
                               given=len(octets), raised=EncodeError)

    @classmethod
    def _decode_payload(cls, octets: bytes, errors: str) -> UriRecord:
        made = cls.__new__(cls)
        made._read(octets)
        return made

    def _read(self, given: Unread) -> None:
        if type(given) is tuple:
            code, _, rest = given
            self._iri = library.uri_prefix(code) + rest.decode()
            return
        octets: Any = given
        scratch, count = library.take_scratch(), len(octets)
        status, spelled = library.put(library.uri, octets, library.size_of(count), 0, given=count, rest=(scratch[1],))
        if status != library.OK:
            raise library.refused(scratch[0])
        library.push_scratch(scratch)
        self._iri = spelled.decode()

    def __format__(self, form: str) -> str:
        if form == 'args':
            return repr(self.iri)
        if form == 'data':
            return "Resource '%s'" % self.iri
        return super().__format__(form)


Record.register_type(UriRecord)
READ_LATE.add(UriRecord)

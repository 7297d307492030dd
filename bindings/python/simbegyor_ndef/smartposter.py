"""Smart posters (Smart Poster Record Type Definition 1.0)."""
from __future__ import annotations

from typing import Any, Dict, Iterable, List, Mapping, Optional, Tuple, Type, TypeVar, Union

from . import _library as library
from .errors import DecodeError
from .message import message_encoder, records_of
from .record import GlobalRecord, LocalRecord, Octets, Parts, Record, number_of, parts_of, text_of
from .text import TextRecord
from .uri import UriRecord

__all__ = ['ActionRecord', 'SizeRecord', 'SmartposterRecord', 'TypeRecord']

_ACTIONS = ('exec', 'save', 'edit')
_Kind = TypeVar('_Kind', bound=Record)


def _parts_of(octets: bytes) -> library.PosterParts:
    """What the library gives for the payload of a poster."""
    parts, why = library.PosterParts(), library.Checked()
    if library.poster(octets, library.size_of(len(octets)), library.NO_FLAGS, library.byref(parts), library.byref(why)) != library.OK:
        raise library.refused(why)
    return parts


def _parts_within(spelled: str, octets: bytes) -> library.PosterParts:
    """What the library gives for a poster of a URI and a record with this payload. A refusal has its place in the payload."""
    message = list(message_encoder([UriRecord(), Record(spelled, '', octets)], unchecked=True))
    try:
        return _parts_of(b''.join(message))
    except DecodeError as error:
        before = sum(map(len, message)) - len(octets)
        raise DecodeError(error.reason, max(error.place - before, 0), error.number) from None


def _by_name(given: Any, one: Any, usual: str, what: str) -> Iterable[Tuple[str, Any]]:
    """What is given by names, or one by the usual name."""
    named = {usual: given} if isinstance(given, one) else given or {}
    if not isinstance(named, Mapping):
        raise TypeError('%s, or a dict of them, not %s' % (what, type(given).__name__))
    return named.items()


class ActionRecord(LocalRecord):
    """What is recommended to do with the resource of a poster.

    action: 'exec' (do it), 'save', 'edit' (open it), or another number of 0 to 255.
    """

    _type = 'urn:nfc:wkt:act'
    _number: int

    def __init__(self, action: Union[str, int, None] = None) -> None:
        self.action = 'exec' if action is None else action

    @property
    def action(self) -> Union[str, int]:
        """'exec', 'save', 'edit', or another number of 0 to 255. ValueError for others."""
        return _ACTIONS[self._number] if self._number < len(_ACTIONS) else self._number

    @action.setter
    def action(self, value: Union[str, int]) -> None:
        if isinstance(value, str):
            if value not in _ACTIONS:
                raise ValueError("an action is 'exec', 'save', 'edit' or a number, not %r" % value)
            value = _ACTIONS.index(value)
        what = 'an action is a number of 0 to 255, not %r' % value
        library.written(what, library.write_action, library.number(number_of(value, 'an action'), what))
        self._number = int(value)

    def _encode_payload(self) -> bytes:
        return library.written('no action has this number', library.write_action, self._number)

    @classmethod
    def _decode_payload(cls, octets: bytes, errors: str) -> ActionRecord:
        return cls._of(_parts_within(cls._type, octets))

    @classmethod
    def _of(cls, parts: library.PosterParts) -> ActionRecord:
        made = cls.__new__(cls)
        made._number = parts.action
        return made

    def __format__(self, form: str) -> str:
        if form == 'args':
            return repr(self.action)
        if form == 'data':
            return "Action '%s'" % self.action
        return super().__format__(form)


class SizeRecord(LocalRecord):
    """The size of the resource of a poster.

    resource_size: octets, 0 to 4294967295.
    """

    _type = 'urn:nfc:wkt:s'
    _size: int

    def __init__(self, resource_size: Optional[int] = None) -> None:
        self.resource_size = 0 if resource_size is None else resource_size

    @property
    def resource_size(self) -> int:
        """Octets, 0 to 4294967295. ValueError for others."""
        return self._size

    @resource_size.setter
    def resource_size(self, value: int) -> None:
        library.number(number_of(value, 'the size of a resource'), 'the size of a resource is 0 to 4294967295, not %r' % value)
        self._size = int(value)

    def _encode_payload(self) -> bytes:
        return library.written('no resource has this size', library.write_size, library.u32(self._size))

    @classmethod
    def _decode_payload(cls, octets: bytes, errors: str) -> SizeRecord:
        return cls._of(_parts_within(cls._type, octets))

    @classmethod
    def _of(cls, parts: library.PosterParts) -> SizeRecord:
        made = cls.__new__(cls)
        made._size = parts.size
        return made

    def __format__(self, form: str) -> str:
        if form == 'args':
            return repr(self.resource_size)
        if form == 'data':
            return "Resource Size '%d byte'" % self.resource_size
        return super().__format__(form)


class TypeRecord(LocalRecord):
    """The media type of the resource of a poster.

    resource_type: a str such as 'text/html'. An octet that isn't UTF-8 is a character of U+DC80 to U+DCFF, as in os.fsdecode.
    """

    _type = 'urn:nfc:wkt:t'
    _media: bytes

    def __init__(self, resource_type: Optional[str] = None) -> None:
        self.resource_type = '' if resource_type is None else resource_type

    @property
    def resource_type(self) -> str:
        """A str such as 'text/html'. ValueError where it isn't Unicode."""
        return self._media.decode('utf-8', 'surrogateescape')

    @resource_type.setter
    def resource_type(self, value: str) -> None:
        if not isinstance(value, str):
            raise TypeError('a media type is a str, not %s' % type(value).__name__)
        self._media = value.encode('utf-8', 'surrogateescape')

    def _encode_payload(self) -> bytes:
        return self._media

    @classmethod
    def _decode_payload(cls, octets: bytes, errors: str) -> TypeRecord:
        made = cls.__new__(cls)
        made._media = octets
        return made

    def __format__(self, form: str) -> str:
        if form == 'args':
            return repr(self.resource_type)
        if form == 'data':
            return "Resource Type '%s'" % self.resource_type
        return super().__format__(form)


class SmartposterRecord(GlobalRecord):
    """A smart poster: a URI, and what is said of it.

    resource: the URI, as a UriRecord; a str may be assigned.
    title: a text for the language 'en', or a dict of texts by language.
    action: 'exec' (do it), 'save', 'edit' (open it), another number of 0 to 255, or None.
    icon: octets of the type 'image/png', or a dict of octets by media type, 'image/..' or 'video/..'.
    resource_size: the octets of what the URI leads to, 0 to 4294967295, or None.
    resource_type: the media type of what the URI leads to, or None.

    Records of other types within a poster are kept. `SmartposterRecord.register_type` registers a class for them.
    """

    _type = 'urn:nfc:wkt:Sp'
    _known_parts: Dict[Parts, Type[Record]] = {}
    _records: List[Record]

    def __init__(self, resource: str, title: Union[str, Mapping[str, str], None] = None, action: Union[str, int, None] = None,
                 icon: Union[Octets, Mapping[str, Octets], None] = None, resource_size: Optional[int] = None,
                 resource_type: Optional[str] = None) -> None:
        self._records = [UriRecord(resource)]
        for language, text in _by_name(title, str, 'en', 'a title is a str'):
            self.set_title(text, language)
        for kind, octets in _by_name(icon, (bytes, bytearray), 'image/png', 'an icon is octets'):
            self.add_icon(kind, octets)
        self.action, self.resource_size, self.resource_type = action, resource_size, resource_type

    @property
    def records(self) -> List[Record]:
        """The records within the poster, in their order, in a list of their own."""
        return list(self._records)

    def _first(self, kind: Type[_Kind]) -> Optional[_Kind]:
        """The first record of a class."""
        return next((record for record in self._records if isinstance(record, kind)), None)

    def _set(self, kind: Type[Any], attribute: str, value: Any) -> None:
        """Sets the attribute of the first record of a class, or adds one; None takes all of them away."""
        if value is None:
            self._records = [record for record in self._records if not isinstance(record, kind)]
            return
        record = self._first(kind)
        if record is None:
            self._records.append(kind(value))
        else:
            setattr(record, attribute, value)

    @property
    def resource(self) -> UriRecord:
        """The URI, as a UriRecord. A str may be assigned."""
        return next(record for record in self._records if record._kind() == parts_of(UriRecord._type))  # type: ignore[return-value]

    @resource.setter
    def resource(self, value: str) -> None:
        self.resource.iri = value

    @property
    def title_records(self) -> List[TextRecord]:
        """The titles, as TextRecords, in their order."""
        return [record for record in self._records if isinstance(record, TextRecord)]

    @property
    def titles(self) -> Dict[str, str]:
        """The titles by their languages."""
        return {record.language: record.text for record in self.title_records}

    @property
    def title(self) -> Optional[str]:
        """The title in English, else the first one, or None. A str that is assigned is the title in English."""
        titles = self.titles
        return titles.get('en', next(iter(titles.values()), None))

    @title.setter
    def title(self, value: str) -> None:
        self.set_title(value)

    def set_title(self, title: str, language: str = 'en', encoding: str = 'UTF-8') -> None:
        """Sets the title of a language."""
        fitting = TextRecord(title, language, encoding)
        for record in self.title_records:
            if record.language == language:
                record.text, record.encoding = fitting.text, fitting.encoding
                return
        self._records.append(fitting)

    def _icon_records(self) -> List[Record]:
        return [record for record in self._records if record.type.startswith(('image/', 'video/'))]

    @property
    def icons(self) -> Dict[str, Octets]:
        """The octets of the icons by their media types."""
        return {record.type: record.data for record in self._icon_records()}

    @property
    def icon(self) -> Optional[Octets]:
        """The octets of the icon of the type 'image/png', else of the first one, or None."""
        icons = self.icons
        return icons.get('image/png', next(iter(icons.values()), None))

    def add_icon(self, icon_type: str, icon_data: Octets) -> None:
        """Adds an icon of a media type, 'image/..' or 'video/..'."""
        if not text_of(icon_type, 'the type of an icon').startswith(('image/', 'video/')):
            raise ValueError('an icon is of a type image/.. or video/.., not %r' % icon_type)
        self._records.append(Record(icon_type, '', icon_data))

    @property
    def action(self) -> Union[str, int, None]:
        """'exec', 'save', 'edit', another number of 0 to 255, or None. Of several the first."""
        record = self._first(ActionRecord)
        return None if record is None else record.action

    @action.setter
    def action(self, value: Union[str, int, None]) -> None:
        self._set(ActionRecord, 'action', value)

    @property
    def resource_size(self) -> Optional[int]:
        """The octets of what the URI leads to, 0 to 4294967295, or None. Of several the first."""
        record = self._first(SizeRecord)
        return None if record is None else record.resource_size

    @resource_size.setter
    def resource_size(self, value: Optional[int]) -> None:
        self._set(SizeRecord, 'resource_size', value)

    @property
    def resource_type(self) -> Optional[str]:
        """The media type of what the URI leads to, such as 'text/html', or None. Of several the first."""
        record = self._first(TypeRecord)
        return None if record is None else record.resource_type

    @resource_type.setter
    def resource_type(self, value: Optional[str]) -> None:
        self._set(TypeRecord, 'resource_type', value)

    def _encode_payload(self) -> bytes:
        return b''.join(message_encoder(self._records, unchecked=True))

    @classmethod
    def _decode_payload(cls, octets: bytes, errors: str) -> SmartposterRecord:
        parts = _parts_of(octets)
        made = cls.__new__(cls)
        values: Dict[Type[Record], Any] = {ActionRecord: parts, SizeRecord: parts}
        made._records = list(records_of(octets, 0, len(octets), cls._known_parts, values))
        return made

    def __format__(self, form: str) -> str:
        if form == 'args':
            return '%r, %r, %r, %r, %r, %r' % (self.resource.iri, self.titles, self.action, self.icons, self.resource_size,
                                               self.resource_type)
        if form == 'data':
            size = None if self.resource_size is None else '%d byte' % self.resource_size
            fields = [('Resource', self.resource.iri), ('Title', self.title), ('Action', self.action),
                    ('Icon', ', '.join(self.icons) or None), ('Size', size), ('Type', self.resource_type)]
            return ' '.join("%s '%s'" % (word, value) for word, value in fields if value is not None)
        return super().__format__(form)


for _known in (UriRecord, TextRecord, ActionRecord, SizeRecord, TypeRecord):
    SmartposterRecord.register_type(_known)
Record.register_type(SmartposterRecord)

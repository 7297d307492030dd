"""Handovers (Connection Handover 1.2)."""
from __future__ import annotations

from typing import Any, ClassVar, Dict, Iterable, List, NamedTuple, Optional, Tuple, Type, Union

from . import _library as library
from .errors import EncodeError
from .message import message_encoder, records_of
from .record import GlobalRecord, LocalRecord, Octets, Parts, Record, number_of, octets_of, parts_of, shown, spelled_of, text_of

__all__ = ['AlternativeCarrier', 'AlternativeCarrierRecord', 'CollisionResolutionRecord', 'ErrorRecord', 'HandoverCarrierRecord',
           'HandoverError', 'HandoverRequestRecord', 'HandoverSelectRecord', 'Version']

_POWERS = ('inactive', 'active', 'activating', 'unknown')
_NO_CARRIER = 'an alternative carrier has references of at most 255 octets, and at most 255 auxiliary ones'
# The message of the payload stands after a version byte (ndef.h).
_BEFORE = 1


class AlternativeCarrier(NamedTuple):
    """An alternative carrier: its power state, the name of the record that it refers to, and those of others."""

    carrier_power_state: str
    carrier_data_reference: str
    auxiliary_data_reference: List[str]


class HandoverError(NamedTuple):
    """Why a handover fails: a reason, and its data, a number for the reasons 1 to 3 and octets for others."""

    error_reason: int
    error_data: Union[int, bytes]


class Version(NamedTuple):
    """The version of a handover."""

    major: int
    minor: int


class AlternativeCarrierRecord(LocalRecord):
    """An alternative carrier of a handover.

    carrier_power_state: 'inactive', 'active', 'activating' or 'unknown'.
    carrier_data_reference: the name of the record that it refers to, up to 255 characters of Latin-1.
    auxiliary_data_reference: the names of at most 255 others, in a list.
    """

    _type = 'urn:nfc:wkt:ac'
    _power: int
    _reference: str

    def __init__(self, cps: str = 'active', cdr: str = '', adr: Iterable[str] = ()) -> None:
        self.carrier_power_state = cps
        self.auxiliary_data_reference: List[str] = list(adr)
        self.carrier_data_reference = cdr

    @property
    def carrier_power_state(self) -> str:
        """'inactive', 'active', 'activating' or 'unknown'. ValueError for others."""
        return _POWERS[self._power]

    @carrier_power_state.setter
    def carrier_power_state(self, value: str) -> None:
        if value not in _POWERS:
            raise ValueError('a power state is %s, %s, %s or %s, not %r' % (*_POWERS, value))
        self._power = _POWERS.index(value)

    @property
    def carrier_data_reference(self) -> str:
        """The name of the record that the carrier refers to, up to 255 characters of Latin-1. ValueError for others."""
        return self._reference

    @carrier_data_reference.setter
    def carrier_data_reference(self, value: str) -> None:
        self._write(value, ValueError)
        self._reference = value

    def _write(self, reference: str, raised: type) -> bytes:
        """The payload with this reference."""
        names = [text_of(name, 'a reference').encode('latin-1') for name in (reference, *self.auxiliary_data_reference)]
        octets, at, parts = b''.join(names), 0, (library.Part * len(names))()
        for part, name in zip(parts, names):
            part.at, part.length = at, len(name)
            at += len(name)
        return library.written(_NO_CARRIER, library.write_alternative, self._power, octets, library.size_of(len(octets)), parts,
                               library.size_of(len(parts)), given=len(octets) + len(parts), raised=raised)

    def _encode_payload(self) -> bytes:
        try:
            return self._write(self._reference, EncodeError)
        except (TypeError, ValueError) as error:
            raise EncodeError(str(error)) from None

    @classmethod
    def _decode_payload(cls, octets: bytes, errors: str) -> AlternativeCarrierRecord:
        parts, why, size = library.AlternativeParts(), library.Checked(), library.size_of(len(octets))
        if library.alternative(octets, size, library.byref(parts), library.byref(why)) != library.OK:
            raise library.refused(why)
        made = cls.__new__(cls)
        names = [octets[part.at:part.at + part.length].decode('latin-1')
                 for part in library.parts_of_references(octets, parts.references)]
        made._power, made._reference, made.auxiliary_data_reference = parts.power, names[0], names[1:]
        return made

    def _as_tuple(self) -> AlternativeCarrier:
        """The same as a named tuple."""
        return AlternativeCarrier(self.carrier_power_state, self._reference, list(self.auxiliary_data_reference))

    def __format__(self, form: str) -> str:
        if form == 'args':
            return '%r, %r, %r' % self._as_tuple()
        if form == 'data':
            auxiliary = ''.join(" Auxiliary '%s'" % name for name in self.auxiliary_data_reference)
            return "Power '%s' Reference '%s'%s" % (self.carrier_power_state, self._reference, auxiliary)
        return super().__format__(form)


class CollisionResolutionRecord(LocalRecord):
    """The number of a handover request by which a collision of two requests is resolved.

    random_number: 0 to 65535.
    """

    _type = 'urn:nfc:wkt:cr'
    _random_number: int

    def __init__(self, random_number: int = 0) -> None:
        self.random_number = random_number

    @property
    def random_number(self) -> int:
        """0 to 65535. ValueError for others."""
        return self._random_number

    @random_number.setter
    def random_number(self, value: int) -> None:
        what = 'a number that resolves a collision is 0 to 65535, not %r' % (value,)
        number = library.number(number_of(value, 'a number that resolves a collision'), what)
        library.written(what, library.write_collision, number)
        self._random_number = int(value)

    def _encode_payload(self) -> bytes:
        return library.written('no collision is resolved by this number', library.write_collision, self._random_number)

    @classmethod
    def _decode_payload(cls, octets: bytes, errors: str) -> CollisionResolutionRecord:
        # The library gives the number only for a request.
        record = Record(cls._type, '', octets)._written(library.FIRST | library.LAST, 0)
        status, request = library.put(library.write_handover, library.REQUEST, 1, 2, record, library.size_of(len(record)), given=len(record))
        parts, why = library.RequestParts(), library.Checked()
        if status != library.OK or library.request(request, library.size_of(len(request)), library.NO_FLAGS, library.byref(parts),
                                                   library.byref(why)) != library.OK:
            raise cls._decode_error('no such payload has {} octets', len(octets))
        made = cls.__new__(cls)
        made._random_number = parts.collision
        return made

    def __format__(self, form: str) -> str:
        if form == 'args':
            return repr(self.random_number)
        if form == 'data':
            return "Random Number '%d'" % self.random_number
        return super().__format__(form)


class ErrorRecord(LocalRecord):
    """Why a handover fails.

    error_reason: 0 to 255; 1 to 3 are defined: temporary and permanent memory limits, and those of the carrier. Read only.
    error_data: a number for the reasons 1 to 3, of at most 255, for 2 of at most 4294967295; octets for others. Read only.
    """

    _type = 'urn:nfc:wkt:err'
    _error: HandoverError
    _octets: bytes

    def __init__(self, error_reason: int = 1, error_data: Union[int, Octets] = 0) -> None:
        what = 'no error has the reason %r and the data %r' % (error_reason, error_data)
        reason = library.number(number_of(error_reason, 'the reason of an error'), what)
        if isinstance(error_data, int):
            octets = library.written(what, library.write_error_number, reason, library.number(error_data, what))
        else:
            data = bytes(octets_of(error_data, 'the data of an error'))
            octets = library.written(what, library.write_error, reason, data, library.size_of(len(data)), given=len(data))
        self._take(octets)

    def _take(self, octets: bytes) -> None:
        """Takes what the library gives for a payload."""
        parts, why = library.ErrorParts(), library.Checked()
        if library.error(octets, library.size_of(len(octets)), library.byref(parts), library.byref(why)) != library.OK:
            raise library.refused(why)
        data = octets[parts.data_at:parts.data_at + parts.data_length]
        self._error, self._octets = HandoverError(parts.reason, parts.number if parts.has_number else data), octets

    @property
    def error(self) -> HandoverError:
        """Reason and data as a named tuple."""
        return self._error

    @property
    def error_reason(self) -> int:
        """0 to 255. Read only: HandoverSelectRecord.set_error sets it with the data."""
        return self._error.error_reason

    @property
    def error_data(self) -> Union[int, bytes]:
        """A number for the reasons 1 to 3, octets for others. Read only."""
        return self._error.error_data

    def _encode_payload(self) -> bytes:
        return self._octets

    @classmethod
    def _decode_payload(cls, octets: bytes, errors: str) -> ErrorRecord:
        made = cls.__new__(cls)
        made._take(octets)
        return made

    def __format__(self, form: str) -> str:
        if form == 'args':
            return '%r, %r' % self._error
        if form == 'data':
            return "Error Reason '%d' Data %r" % self._error
        return super().__format__(form)


def _version_of(value: Union[str, int]) -> Version:
    """The version that a str such as '1.3' spells, or a number with the major version in its high four bits."""
    what = 'the version of a handover is 1.0 to 1.15, not %r' % (value,)
    if isinstance(value, int):
        version = Version(*divmod(value, 16))
    else:
        major, _, minor = text_of(value, 'a version').partition('.')
        if not (major.isdecimal() and minor.isdecimal()):
            raise ValueError(what)
        version = Version(int(major), int(minor))
    # A select may have no message; so the library refuses no more than the version.
    library.written(what, library.write_handover, library.SELECT, library.number(version.major, what),
                    library.number(version.minor, what), b'', library.size_of(0))
    return version


class _Handover(GlobalRecord):
    """A handover: its version, and the records within it. Those of other types are kept."""

    _number: ClassVar[int]
    _parts_type: ClassVar[Any]
    _tell: ClassVar[Any]
    _known_parts: Dict[Parts, Type[Record]] = {}
    _version: Version
    _records: List[Record]

    def __init__(self, version: Union[str, int], alternative_carriers: Tuple[Tuple[str, ...], ...]) -> None:
        self._version = _version_of(version)
        self._records = []
        for carrier in alternative_carriers:
            self.add_alternative_carrier(*carrier)

    @property
    def version_info(self) -> Version:
        """The version, as a named tuple of `major` and `minor`. Read only."""
        return self._version

    @property
    def version_string(self) -> str:
        """The version as a str such as '1.3'. Read only."""
        return '%d.%d' % self._version

    @property
    def hexversion(self) -> int:
        """The version as a number, the major version in its high four bits. Read only."""
        return 16 * self._version.major + self._version.minor

    @property
    def records(self) -> List[Record]:
        """The records within the handover, in their order, in a list of their own."""
        return list(self._records)

    @property
    def alternative_carriers(self) -> List[AlternativeCarrier]:
        """The alternative carriers, each with its power state and the names of the records that it refers to."""
        return [record._as_tuple() for record in self._records if isinstance(record, AlternativeCarrierRecord)]

    def _place_of_error(self) -> int:
        """Where the first error record stands among the records, or the place after them."""
        return next((at for at, record in enumerate(self._records) if isinstance(record, ErrorRecord)), len(self._records))

    def add_alternative_carrier(self, cps: str, cdr: str, *adr: str) -> None:
        """Adds a carrier: its power state, the name of the record that it refers to, and those of others."""
        self._records.insert(self._place_of_error(), AlternativeCarrierRecord(cps, cdr, adr))

    def _encode_payload(self) -> bytes:
        message = b''.join(message_encoder(self._records, unchecked=True))
        return library.written(self._fault(), library.write_handover, self._number, *self._version, message,
                               library.size_of(len(message)), given=len(message), raised=EncodeError)

    def _fault(self) -> str:
        """What is wrong where no handover has these parts."""
        return 'records: no handover has these'

    @classmethod
    def _decode_payload(cls, octets: bytes, errors: str) -> Any:
        parts, why = cls._parts_type(), library.Checked()
        if cls._tell(octets, library.size_of(len(octets)), 0, library.byref(parts), library.byref(why)) != library.OK:
            raise library.refused(why)
        made = cls.__new__(cls)
        made._version = Version(parts.major, parts.minor)
        made._records = list(records_of(octets, _BEFORE, len(octets), cls._known_parts, None))
        return made

    def _carriers_shown(self) -> str:
        return ''.join(', %r' % ((power, reference, *auxiliary),) for power, reference, auxiliary in self.alternative_carriers)

    def _carriers_text(self) -> str:
        return ''.join(' Alternative Carrier ' + format(record, 'data') for record in self._records
                       if isinstance(record, AlternativeCarrierRecord))


class HandoverRequestRecord(_Handover):
    """A handover request.

    version: '1.0' to '1.15', or a number with the major version in its high four bits.
    crn: the number that resolves a collision, 0 to 65535. A request without one is refused when it is encoded.
    alternative_carrier: tuples of a power state, the name of the record that it refers to, and those of others.
    """

    _type, _number = 'urn:nfc:wkt:Hr', library.REQUEST
    _parts_type, _tell = library.RequestParts, staticmethod(library.request)
    _known_parts: Dict[Parts, Type[Record]] = {}

    def __init__(self, version: Union[str, int] = '1.3', crn: Optional[int] = None, *alternative_carrier: Tuple[str, ...]) -> None:
        super().__init__(version, alternative_carrier)
        self.collision_resolution_number = crn

    def _fault(self) -> str:
        return 'collision_resolution_number: it is None' if self._collision() is None else super()._fault()

    def _collision(self) -> Optional[CollisionResolutionRecord]:
        return next((record for record in self._records if isinstance(record, CollisionResolutionRecord)), None)

    @property
    def collision_resolution_number(self) -> Optional[int]:
        """The number that resolves a collision, 0 to 65535, or None. ValueError for others."""
        record = self._collision()
        return None if record is None else record.random_number

    @collision_resolution_number.setter
    def collision_resolution_number(self, value: Optional[int]) -> None:
        record = self._collision()
        if value is not None and record is not None:
            record.random_number = value
        elif value is not None:
            self._records.insert(0, CollisionResolutionRecord(value))
        elif record is not None:
            self._records = [kept for kept in self._records if kept is not record]

    def __format__(self, form: str) -> str:
        if form == 'args':
            return '%r, %r%s' % (self.version_string, self.collision_resolution_number, self._carriers_shown())
        if form == 'data':
            return "Version '%s' Collision Resolution Number '%s'%s" % (
                self.version_string, self.collision_resolution_number, self._carriers_text())
        return super().__format__(form)


class HandoverSelectRecord(_Handover):
    """A handover select.

    version: '1.0' to '1.15', or a number with the major version in its high four bits.
    error: a tuple of a reason, 0 to 255, and its data: a number for the reasons 1 to 3, octets for others; or None.
    alternative_carrier: tuples of a power state, the name of the record that it refers to, and those of others.
    """

    _type, _number = 'urn:nfc:wkt:Hs', library.SELECT
    _parts_type, _tell = library.SelectParts, staticmethod(library.select)
    _known_parts: Dict[Parts, Type[Record]] = {}

    def __init__(self, version: Union[str, int] = '1.3', error: Optional[Tuple[int, Union[int, Octets]]] = None,
                 *alternative_carrier: Tuple[str, ...]) -> None:
        super().__init__(version, alternative_carrier)
        if error is not None:
            self.set_error(*error)

    @property
    def error(self) -> Optional[HandoverError]:
        """The error, as a named tuple of `error_reason` and `error_data`; of several the first; or None."""
        return next((record.error for record in self._records if isinstance(record, ErrorRecord)), None)

    def set_error(self, error_reason: int, error_data: Union[int, Octets]) -> None:
        """Sets the error: a reason, 0 to 255, and its data, a number for the reasons 1 to 3 and octets for others."""
        at = self._place_of_error()
        self._records[at:at + 1] = [ErrorRecord(error_reason, error_data)]

    def __format__(self, form: str) -> str:
        if form == 'args':
            return '%r, %r%s' % (self.version_string, self.error and tuple(self.error), self._carriers_shown())
        if form == 'data':
            error = " Error Reason '%d' Data %r" % self.error if self.error else ''
            return "Version '%s'%s%s" % (self.version_string, error, self._carriers_text())
        return super().__format__(form)


class HandoverCarrierRecord(GlobalRecord):
    """A handover carrier.

    carrier_type: the type of the carrier, spelled as a record's. Read only.
    carrier_data: its data, octets.
    reference: the name of the record, by which it is referred to.
    """

    _type = 'urn:nfc:wkt:Hc'
    _carrier: Parts

    def __init__(self, carrier_type: str, carrier_data: Optional[Octets] = None, reference: Union[str, Octets, None] = None) -> None:
        self._carrier = parts_of(text_of(carrier_type, 'a carrier type'))
        self._carrier_data = octets_of(carrier_data, 'carrier data')
        self._take_name(reference)

    @property
    def carrier_type(self) -> str:
        """The type of the carrier, spelled as a record's. Read only."""
        return spelled_of(*self._carrier)

    @property
    def carrier_data(self) -> bytearray:
        """The data of the carrier, a bytearray, which may be changed."""
        return self._carrier_data

    @carrier_data.setter
    def carrier_data(self, value: Optional[Octets]) -> None:
        self._carrier_data = octets_of(value, 'carrier data')

    def _encode_payload(self) -> bytes:
        form, kind = self._carrier
        data = bytes(self.carrier_data)
        return library.written('no carrier has these parts', library.write_carrier, form, kind, library.size_of(len(kind)), data,
                               library.size_of(len(data)), given=len(kind) + len(data), raised=EncodeError)

    @classmethod
    def _decode_payload(cls, octets: bytes, errors: str) -> HandoverCarrierRecord:
        parts, why = library.CarrierParts(), library.Checked()
        if library.carrier(octets, library.size_of(len(octets)), library.byref(parts), library.byref(why)) != library.OK:
            raise library.refused(why)
        made = cls.__new__(cls)
        at = parts.type_at
        made._carrier = parts.format, octets[at:at + parts.type_length]
        at = parts.data_at
        made._carrier_data = bytearray(octets[at:at + parts.data_length])
        return made

    def __format__(self, form: str) -> str:
        if form == 'args':
            return '%r, %r, %r' % (self.carrier_type, bytes(self.carrier_data), self.name)
        if form == 'data':
            return "Carrier Type '%s' Carrier Data %s" % (self.carrier_type, shown(bytes(self.carrier_data)))
        return super().__format__(form)


HandoverRequestRecord.register_type(CollisionResolutionRecord)
HandoverSelectRecord.register_type(ErrorRecord)
HandoverRequestRecord.register_type(AlternativeCarrierRecord)
HandoverSelectRecord.register_type(AlternativeCarrierRecord)
for _known in (HandoverRequestRecord, HandoverSelectRecord, HandoverCarrierRecord):
    Record.register_type(_known)

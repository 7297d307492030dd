"""Messages of the NFC Data Exchange Format, with the names of ndeflib, over the library of the project Simbegyor.

    records = list(message_decoder(octets))
    octets = b''.join(message_encoder(records))
"""
from . import handover, layout, message, record, smartposter, text, uri
from ._checker import Checked, Checker
from ._fields import Field, fields
from ._hints import FoundHint, HintKind
from ._many import decode_many
from ._ndeflib import install_as_ndef
from ._sentences import field_remark as field_remark, field_warning, find_hint, hint, record_remark as record_remark, record_warning, why
from .errors import DecodeError, EncodeError
from .handover import HandoverCarrierRecord, HandoverRequestRecord, HandoverSelectRecord
from .message import message_decoder, message_encoder
from .record import GlobalRecord, LocalRecord, Record, StreamedRecord
from .smartposter import SmartposterRecord
from .text import TextRecord
from .uri import UriRecord

__version__ = '@VERSION@'
if __version__.startswith('@'):  # The folder of the repository, as `pip install -e` uses it.
    from importlib.metadata import version
    __version__ = version('simbegyor-ndef')

__all__ = ['Checked', 'Checker', 'DecodeError', 'EncodeError', 'Field', 'FoundHint', 'GlobalRecord', 'HandoverCarrierRecord',
           'HandoverRequestRecord', 'HandoverSelectRecord', 'HintKind', 'LocalRecord', 'Record', 'SmartposterRecord', 'StreamedRecord',
           'TextRecord', 'UriRecord', 'decode_many', 'field_warning', 'fields', 'find_hint', 'hint', 'install_as_ndef', 'message_decoder',
           'message_encoder', 'record_warning', 'why']

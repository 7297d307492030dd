"""What mypy --strict says of programs that use the module: each `type: ignore` hides an error that has to be there."""
import io
from typing import Iterator, List, Optional, Tuple, Union

import simbegyor_ndef as ndef

records: List[ndef.Record] = list(ndef.message_decoder(b'', known_types={}, whole=True))
octets: bytes = b''.join(ndef.message_encoder(records))
sizes: List[int] = list(ndef.message_encoder(records, io.BytesIO()))
encoder = ndef.message_encoder()
encoder.send(None)
sent: Optional[bytes] = encoder.send(ndef.TextRecord('Hello'))
streamed: List[ndef.Record] = [ndef.StreamedRecord('image/png', None, io.BytesIO(b'ab'), 2), ndef.StreamedRecord('unknown', '', [b'a'], 1)]
parts: List[bytes] = list(ndef.message_encoder(streamed, size=4))
part_sizes: List[int] = list(ndef.message_encoder(records, io.BytesIO(), size=4))
fields: List[ndef.Field] = ndef.fields(octets, profile='standard')
answers: List[Union[List[ndef.Record], ndef.DecodeError]] = list(ndef.decode_many([octets, bytearray(octets)], known_types={}))
meant: List[str] = [answer.sentence for answer in answers if isinstance(answer, ndef.DecodeError)]
helps: List[Optional[str]] = [answer.hint for answer in answers if isinstance(answer, ndef.DecodeError)]
said: List[Optional[str]] = [ndef.why(octets), ndef.hint(memoryview(octets), profile='standard')]
found: List[Optional[ndef.FoundHint]] = [ndef.find_hint(octets, 'standard'), *(answer.found_hint for answer in answers if isinstance(answer, ndef.DecodeError))]
kinds: List[Tuple[ndef.HintKind, int, int, str]] = [(hint.kind, hint.place, hint.length, hint.text) for hint in found if hint]
strange: List[Optional[str]] = [*(ndef.field_warning(field.name, field.octets) for field in fields), ndef.record_warning(bytearray(octets), 0)]
names: Iterator[str] = (field.name for field in fields)
ndef.Record('text/plain', b'name', bytearray(3)).name = 'a'
ndef.HandoverCarrierRecord('a/b', b'x', 'a').carrier_data.extend(b'y')
own_layout: Tuple[ndef.layout.LayoutField, ...] = (ndef.layout.octets(2), ndef.layout.within(0, 9), ndef.layout.rest())

wrong_sizes: List[int] = list(ndef.message_encoder(records))  # type: ignore[arg-type]
wrong_octets: List[bytes] = list(ndef.message_encoder(records, io.BytesIO()))  # type: ignore[arg-type]
ndef.message_encoder(size=4)  # type: ignore[call-overload]
ndef.StreamedRecord('unknown', '', b'ab', 2)  # type: ignore[arg-type]
wrong_records: List[bytes] = list(ndef.message_decoder(b''))  # type: ignore[arg-type]
wrong_answers: List[List[ndef.Record]] = list(ndef.decode_many([octets]))  # type: ignore[arg-type]
wrong_messages = ndef.decode_many(['text'])  # type: ignore[list-item]
wrong_sent: bytes = encoder.send(ndef.TextRecord('Hello'))  # type: ignore[assignment]
encoder.send('text')  # type: ignore[arg-type]
wrong_said: str = ndef.why(octets)  # type: ignore[assignment]
ndef.hint('text')  # type: ignore[arg-type]
wrong_found: ndef.FoundHint = ndef.find_hint(octets)  # type: ignore[assignment]
ndef.field_warning(3, b'')  # type: ignore[arg-type]
wrong_remark: str = ndef.record_warning(octets, 0)  # type: ignore[assignment]
ndef.layout.octets('2')  # type: ignore[arg-type]

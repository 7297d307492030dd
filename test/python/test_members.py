"""What the module has of its own: properties set, read, unset and written, what the caller changes afterwards, streams and threads."""
import io
import itertools
import sys
import threading
import unittest
from unittest import mock

import counted
import simbegyor_ndef as ndef
from simbegyor_ndef import _library as library, message
from simbegyor_ndef.handover import AlternativeCarrierRecord, CollisionResolutionRecord, ErrorRecord
from simbegyor_ndef.smartposter import ActionRecord, SizeRecord, TypeRecord
from cases import sentences

HELLO = bytes.fromhex('d101085402656e48656c6c6f')


def octets(*records):
    return b''.join(ndef.message_encoder(records))


def decoded(given, **words):
    return list(ndef.message_decoder(given, **words))


def back(record):
    """The record as it is read from what is written of it."""
    (read,) = decoded(octets(record))
    return read


def with_two(kind, first, second):
    """A poster whose payload has two records of a type."""
    inner = octets(ndef.UriRecord('tel:1'), ndef.Record(kind, '', first), ndef.Record(kind, '', second))
    (poster,) = decoded(octets(ndef.Record('urn:nfc:wkt:Sp', '', inner)))
    return poster


class Posters(unittest.TestCase):
    def test_titles(self):
        poster = ndef.SmartposterRecord('tel:1')
        for title in ('One', 'Two'):
            poster.title = title
            self.assertEqual((poster.titles, poster.title, back(poster).titles), ({'en': title}, title, {'en': title}))
        poster.set_title('Drei', 'de')
        self.assertEqual(back(poster).titles, {'en': 'Two', 'de': 'Drei'})
        for encoding in ('UTF-16', 'UTF-8'):
            poster.set_title('Vier', 'de', encoding)
            self.assertEqual([(title.text, title.language, title.encoding) for title in back(poster).title_records],
                             [('Two', 'en', 'UTF-8'), ('Vier', 'de', encoding)])

    def test_icons(self):
        poster = ndef.SmartposterRecord('tel:1', icon={'video/mp4': b'v', 'image/png': b'p'})
        poster.add_icon('image/gif', bytearray(b'g'))
        for shown in (poster, back(poster)):
            self.assertEqual(shown.icons, {'video/mp4': b'v', 'image/png': b'p', 'image/gif': b'g'})
            self.assertEqual(shown.icon, b'p')
        self.assertEqual(ndef.SmartposterRecord('tel:1', icon={'video/mp4': b'v'}).icon, b'v')
        for kind in ('text/plain', 'image', 'urn:nfc:wkt:T', 'audio/ogg'):
            self.assertRaises(ValueError, poster.add_icon, kind, b'x')
        self.assertEqual(len(poster.records), 4)

    def test_what_is_taken_away(self):
        for kind, name, first, second, value in (('urn:nfc:wkt:act', 'action', b'\0', b'\1', 'edit'), ('urn:nfc:wkt:t', 'resource_type', b'a/b', b'c/d', 'e/f'),
                                                 ('urn:nfc:wkt:s', 'resource_size', b'\0\0\0\1', b'\0\0\0\2', 3)):
            poster = with_two(kind, first, second)
            self.assertEqual(len(poster.records), 3)
            setattr(poster, name, value)
            self.assertEqual((getattr(back(poster), name), len(back(poster).records)), (value, 3))
            setattr(poster, name, None)
            self.assertEqual((getattr(poster, name), len(poster.records), len(back(poster).records)), (None, 1, 1))
            setattr(poster, name, None)
            setattr(poster, name, value)
            self.assertEqual((getattr(back(poster), name), len(poster.records)), (value, 2))

    def test_a_media_type_that_is_no_unicode(self):
        inner = octets(ndef.Record('urn:nfc:wkt:t', '', b'a/\xff'))
        (record,) = decoded(inner, known_types={TypeRecord._type: TypeRecord})
        self.assertEqual((record.resource_type, record.data, TypeRecord('a/\udcff').data), ('a/\udcff', b'a/\xff', b'a/\xff'))



class Handovers(unittest.TestCase):
    def test_numbers_of_collisions(self):
        request = ndef.HandoverRequestRecord('1.3', 1, ('active', '0'))
        request.collision_resolution_number = 2
        self.assertEqual(back(request).collision_resolution_number, 2)
        request.collision_resolution_number = None
        self.assertEqual((request.collision_resolution_number, len(request.records)), (None, 1))
        self.assertRaises(ndef.EncodeError, octets, request)
        request.collision_resolution_number = 3
        self.assertEqual((back(request).collision_resolution_number, back(request).records), (3, request.records))

    def test_an_error_among_others(self):
        """Of several the first is set, and what comes after it stays."""
        inner = octets(AlternativeCarrierRecord('active', '0'), ErrorRecord(1, 1), ndef.Record('a/b', '', b'x'), ErrorRecord(9, b'y'))
        (select,) = decoded(octets(ndef.Record('urn:nfc:wkt:Hs', '', b'\x12' + inner)))
        select.set_error(2, 5)
        self.assertEqual([(part.type, getattr(part, 'error', None)) for part in back(select).records],
                         [('urn:nfc:wkt:ac', None), ('urn:nfc:wkt:err', (2, 5)), ('a/b', None), ('urn:nfc:wkt:err', (9, b'y'))])

    def test_what_is_changed_within(self):
        request = ndef.HandoverRequestRecord('1.3', 1, ('active', '0'))
        listed = request.records
        listed[1].carrier_data_reference, listed[1].auxiliary_data_reference = 'n', ['m']
        listed[0].random_number = 65535
        listed.clear()
        self.assertEqual(back(request).alternative_carriers, [('active', 'n', ['m'])])
        self.assertEqual((back(request).collision_resolution_number, len(request.records)), (65535, 2))
        request.alternative_carriers[0].auxiliary_data_reference.append('x')
        self.assertEqual(request.alternative_carriers, [('active', 'n', ['m'])])
        carrier = AlternativeCarrierRecord('active', '0', adr := ['a'])
        adr.append('b')
        self.assertEqual(carrier.auxiliary_data_reference, ['a'])
        carrier.auxiliary_data_reference = [256 * 'x']
        self.assertRaises(ndef.EncodeError, carrier._encode_payload)

    def test_parts_by_themselves(self):
        """Records within payloads, which are read as if they stood alone."""
        for record in (CollisionResolutionRecord(65535), ErrorRecord(2, 1000), ErrorRecord(9, b'x'), ActionRecord('edit'), ActionRecord(3),
                       SizeRecord(2 ** 32 - 1), TypeRecord('a/b'), AlternativeCarrierRecord('unknown', 'a', ['b', 'c'])):
            (read,) = decoded(octets(record), known_types={record.type: type(record)})
            self.assertEqual((type(read), read, str(read)), (type(record), record, str(record)))
        for kind, size in ((CollisionResolutionRecord, 1), (CollisionResolutionRecord, 3), (SizeRecord, 3), (SizeRecord, 5), (ErrorRecord, 0),
                           (AlternativeCarrierRecord, 0), (ActionRecord, 0)):
            self.assertRaises(ndef.DecodeError, decoded, octets(ndef.Record(kind._type, '', bytes(size))), known_types={kind._type: kind})

    def test_carriers(self):
        for kind in ('a/b', 'urn:nfc:wkt:x', 'urn:nfc:ext:a:b', 'http://www.example.com'):
            carrier = back(ndef.HandoverCarrierRecord(kind, b'data', 'n'))
            self.assertEqual((carrier.carrier_type, carrier.carrier_data, carrier.name), (kind, b'data', 'n'))


class Records(unittest.TestCase):
    def test_what_the_caller_changes_afterwards(self):
        data, name = bytearray(b'data'), bytearray(b'name')
        record, carrier = ndef.Record('a/b', name, data), ndef.HandoverCarrierRecord('a/b', data, name)
        poster = ndef.SmartposterRecord('tel:1', icon=data)
        carrier_too = ndef.HandoverCarrierRecord('a/b')
        carrier_too.carrier_data = data
        error = ndef.HandoverSelectRecord('1.2', (9, data))
        data[:] = name[:] = b'else'
        self.assertEqual((record.name, record.data, carrier.name, carrier.carrier_data), ('name', b'data', 'name', b'data'))
        self.assertEqual((poster.icon, carrier_too.carrier_data, error.error.error_data), (b'data', b'data', b'data'))
        given = bytearray(HELLO)
        (text,), (plain,) = decoded(given), decoded(given, known_types={})
        given[:] = bytes(len(given))
        self.assertEqual((text.text, plain.data), ('Hello', b'\2enHello'))
        plain.data[3:] = b'Hi'
        self.assertEqual(octets(plain), bytes.fromhex('d101055402656e4869'))

    def test_types(self):
        self.assertEqual(ndef.Record(b'urn:nfc:ext:a:\xe9').type, 'urn:nfc:ext:a:\xe9')
        self.assertEqual(ndef.Record(b'urn:nfc:ext:a:\xe9'), ndef.Record('urn:nfc:ext:a:\xe9'))
        for spelled in ('UNKNOWN', 'Unknown', 'empty', 'plain', 'Unchanged'):
            self.assertRaises(ValueError, ndef.Record, spelled)

    def test_places_in_pieces_for_other_classes(self):
        """Where a class refuses what the library takes, or refuses for another reason, the place is that of the payload."""
        known = {'urn:nfc:wkt:T': ndef.UriRecord}
        for text in (b'\x24' + 36 * b'a' + b'x', b'\x24' + 35 * b'a' + b'\xff' + b'x', b'\x24' + 36 * b'a' + b'\xff'):
            given = b'\xb1\1\x10T' + text[:16] + b'\x56\0' + bytes([len(text) - 16]) + text[16:]
            for before in (b'', b'\x90\0\0'):
                octets_of = before + (bytes([given[0] & 0x7f]) if before else given[:1]) + given[1:]
                with self.assertRaises(ndef.DecodeError) as caught:
                    decoded(octets_of, known_types=known)
                self.assertEqual((caught.exception.reason, caught.exception.place), ('UriCode', len(before) + 4))

    def test_places_in_pieces_after_other_records(self):
        """A class that is given refuses a text in chunks where the library does, in the first record and in a later one."""
        for before in (b'', b'\x90\0\0', b'\x91\1\1xa\x10\0\0'):
            chunks = bytes([0x31 if before else 0xb1]) + b'\1\3T\2en' + b'\x56\0\2a\xff'
            for words in ({}, {'known_types': {'urn:nfc:wkt:T': ndef.TextRecord}}):
                with self.assertRaises(ndef.DecodeError) as caught:
                    decoded(before + chunks, **words)
                self.assertEqual((caught.exception.place, caught.exception.reason), (len(before) + 11, 'Utf8'))

    def test_every_octet_of_names_and_types(self):
        """Latin-1 has a character for each octet."""
        high = bytes(range(128, 256))
        letters = ''.join(map(chr, high))
        for spelled in (letters, high):
            self.assertEqual(octets(ndef.Record('unknown', spelled)), b'\xdd\0\0\x80' + high)
        self.assertEqual(decoded(b'\xdd\0\0\x80' + high)[0].name, letters)
        for spelled in ('urn:nfc:ext:a:' + letters, b'urn:nfc:ext:a:' + high):
            self.assertEqual(octets(ndef.Record(spelled)), b'\xd4\x82\0a:' + high)
        self.assertEqual(decoded(b'\xd4\x82\0a:' + high)[0].type, 'urn:nfc:ext:a:' + letters)
        carrier = AlternativeCarrierRecord('active', letters, [letters])
        self.assertEqual(carrier.data, b'\1\x80' + high + b'\1\x80' + high)
        select = ndef.HandoverSelectRecord('1.2', None, ('active', letters, letters))
        self.assertEqual(back(select).alternative_carriers, [('active', letters, [letters])])

    def test_names(self):
        for record in (ndef.Record('a/b', 'n'), ndef.TextRecord('a'), ndef.SmartposterRecord('a'), ndef.HandoverCarrierRecord('a/b', b'', 'n')):
            for name, read in (('a', 'a'), (b'b\xe9', 'b\xe9'), (bytearray(b'c'), 'c'), (255 * 'x', 255 * 'x'), ('', ''), (None, '')):
                record.name = name
                self.assertEqual((record.name, back(record).name), (read, read))
        self.assertEqual((ndef.Record('a/b', None).name, ndef.Record('a/b', '', None).data, ndef.Record(None).type), ('', b'', ''))

    def test_values_that_are_not_given(self):
        """As the documentation of the classes has them."""
        self.assertEqual(ErrorRecord().error, (1, 0))
        self.assertEqual(AlternativeCarrierRecord()._as_tuple(), ('active', '', []))
        self.assertEqual((CollisionResolutionRecord().random_number, SizeRecord().resource_size, TypeRecord().resource_type), (0, 0, ''))
        self.assertEqual((ActionRecord().action, ndef.UriRecord().iri, ndef.HandoverCarrierRecord('a/b').carrier_data), ('exec', '', b''))
        for text in (ndef.TextRecord(), ndef.TextRecord(None, None, None)):
            self.assertEqual((text.text, text.language, text.encoding), ('', 'en', 'UTF-8'))
        poster = ndef.SmartposterRecord('a')
        self.assertEqual((poster.titles, poster.title, poster.action, poster.icons, poster.icon, poster.resource_size, poster.resource_type),
                         ({}, None, None, {}, None, None, None))
        for handover in (ndef.HandoverRequestRecord(), ndef.HandoverSelectRecord()):
            self.assertEqual((handover.version_string, handover.alternative_carriers, handover.records), ('1.3', [], []))
        self.assertEqual((ndef.HandoverRequestRecord().collision_resolution_number, ndef.HandoverSelectRecord().error), (None, None))

    def test_what_is_set_first_of_a_record_that_was_read(self):
        """No attribute that is set is read again of the octets afterwards."""
        given = octets(ndef.TextRecord('a', 'de', 'UTF-16'), ndef.UriRecord('tel:1'))
        for name, value, others in (('text', 'b', {'language': 'de', 'encoding': 'UTF-16'}), ('language', 'en', {'text': 'a', 'encoding': 'UTF-16'}),
                                    ('encoding', 'UTF-8', {'text': 'a', 'language': 'de'})):
            text, _ = decoded(given)
            setattr(text, name, value)
            self.assertEqual({part: getattr(text, part) for part in (name, *others)}, {name: value, **others})
            self.assertEqual(back(text), ndef.TextRecord(**{name: value, **others}))
        for name in ('iri', 'uri'):
            _, uri = decoded(given)
            setattr(uri, name, 'tel:2')
            self.assertEqual((uri.iri, back(uri).iri), ('tel:2', 'tel:2'))

    def test_a_class_derived_from_any_record(self):
        class Counted(ndef.Record):
            _type = 'urn:nfc:ext:example.com:counted'

            @classmethod
            def _decode_payload(cls, given, errors):
                return cls(cls._type, '', bytes([len(given)]) if errors == 'strict' else b'')

        known = dict(ndef.Record._known_parts)
        try:
            ndef.Record.register_type(Counted)
            self.assertEqual([bytes(record.data) for record in decoded(octets(*(2 * [ndef.Record(Counted._type, '', b'abc')])))], 2 * [b'\3'])
        finally:
            ndef.Record._known_parts.clear()
            ndef.Record._known_parts.update(known)

    def test_no_record_is_hashed(self):
        for record in (ndef.Record(), ndef.TextRecord('a'), ndef.SmartposterRecord('a')):
            self.assertRaises(TypeError, hash, record)

    def test_what_is_registered(self):
        for given in (int, str, object, 'urn:nfc:wkt:T', None, ndef.TextRecord('a')):
            self.assertRaises(TypeError, ndef.Record.register_type, given)

    def test_places_of_records_that_cannot_be_written(self):
        good, bad = ndef.TextRecord('Hello'), ndef.HandoverRequestRecord()
        for count in range(5):
            with self.assertRaises(ndef.EncodeError) as caught:
                octets(*(count * [good]), bad)
            self.assertEqual(caught.exception.place, count * len(HELLO))


class Texts(unittest.TestCase):
    """Each refusal of a value names what it may be, as bindings/python/README.md and the documentation of the classes have it, and the value."""

    def test_of_errors(self):
        long, select, poster = 256 * 'x', ndef.HandoverSelectRecord, ndef.SmartposterRecord('a')
        for text, make in ((r"no record type is spelled 'plain'", lambda: ndef.Record('plain')),
                           ('a record type has 1 to 255 octets', lambda: ndef.Record('urn:nfc:wkt:')),
                           ('a record name has at most 255 octets', lambda: ndef.Record('a/b', long)),
                           ("a language is at most 63 characters of ASCII, not 'x{64}'", lambda: ndef.TextRecord('', 64 * 'x')),
                           ("the encoding is UTF-8 or UTF-16, not 'UTF-32'", lambda: ndef.TextRecord('', 'en', 'UTF-32')),
                           ("a power state is inactive, active, activating or unknown, not 'off'", lambda: select('1.3', None, ('off', 'a'))),
                           ('references of at most 255 octets, and at most 255 auxiliary ones', lambda: select('1.3', None, ('active', long))),
                           ('is 0 to 65535, not 65536', lambda: ndef.HandoverRequestRecord('1.3', 65536)),
                           ('is 0 to 65535, not -1', lambda: ndef.HandoverRequestRecord('1.3', -1)),
                           ("no error has the reason 256 and the data b'x'", lambda: select('1.3', (256, b'x'))),
                           ('no error has the reason 1 and the data 256', lambda: select('1.3', (1, 256))),
                           ("handover is 1.0 to 1.15, not '2.0'", lambda: select('2.0')), ("handover is 1.0 to 1.15, not 'a.b'", lambda: select('a.b')),
                           ("handover is 1.0 to 1.15, not '1'", lambda: select('1')), ('handover is 1.0 to 1.15, not 32', lambda: select(32)),
                           ('an action is a number of 0 to 255, not 256', lambda: setattr(poster, 'action', 256)),
                           ("an action is 'exec', 'save', 'edit' or a number, not 'run'", lambda: setattr(poster, 'action', 'run')),
                           ('a resource is 0 to 4294967295, not -1', lambda: setattr(poster, 'resource_size', -1)),
                           ('a type image/.. or video/.., not text/plain', lambda: poster.add_icon('text/plain', b'')),
                           ("profile is 'strict' or 'standard', not 'lax'", lambda: ndef.fields(b'a', 'lax')),
                           ("errors is 'strict' or 'relax', not 'lenient'", lambda: decoded(b'a', errors='lenient'))):
            with self.subTest(text):
                self.assertRaisesRegex(ValueError, text.replace('..', r'\.\.').replace('text/plain', "'text/plain'"), make)

    def test_what_reasons_mean(self):
        all_sentences = sentences()
        self.assertEqual(len(all_sentences), 25)
        self.assertEqual({number: ndef.DecodeError('', 0, number).sentence for number in all_sentences}, all_sentences)
        self.assertEqual(ndef.DecodeError('a class of mine\nrefuses', 5).sentence, 'a class of mine refuses')

    def test_of_types(self):
        poster, select = ndef.SmartposterRecord('a'), ndef.HandoverSelectRecord
        for text, make in (('a record type is a str, not int', lambda: ndef.Record(5)), ('a text is a str, not bytes', lambda: ndef.TextRecord(b'a')),
                           ('a URI is a str, not int', lambda: ndef.UriRecord(5)), ('data is octets, not int', lambda: ndef.Record('a/b', '', 5)),
                           ('data is octets, not str', lambda: ndef.Record('a/b', '', 'x')), ('name is a str, not float', lambda: ndef.Record('a/b', 1.5)),
                           ('carrier data is octets, not str', lambda: ndef.HandoverCarrierRecord('a/b', 'x')),
                           ('an action is a number, not float', lambda: setattr(poster, 'action', 1.5)),
                           ('the size of a resource is a number, not str', lambda: setattr(poster, 'resource_size', '1')),
                           ('a media type is a str, not bytes', lambda: setattr(poster, 'resource_type', b'a/b')),
                           ('the type of an icon is a str, not int', lambda: poster.add_icon(5, b'')),
                           ('a version is a str, not NoneType', lambda: select(None)),
                           ('the reason of an error is a number, not str', lambda: select('1.3', ('1', 1))),
                           ('the data of an error is octets, not str', lambda: select('1.3', (1, '1'))),
                           ('a reference is a str, not int', lambda: select('1.3', None, ('active', 0))),
                           ('octets are needed, not str', lambda: ndef.fields('a')), ('a Record is needed, not str', lambda: octets('a')),
                           ('octets or a stream of octets is needed, not str', lambda: decoded('a')),
                           ('a title is a str, or a dict of them, not int', lambda: ndef.SmartposterRecord('a', 5)),
                           ('an icon is octets, or a dict of them, not str', lambda: ndef.SmartposterRecord('a', icon='x')),
                           ('a record class is needed, not 5', lambda: ndef.Record.register_type(5))):
            with self.subTest(text):
                self.assertRaisesRegex(TypeError, text, make)

    def test_of_records_that_cannot_be_written(self):
        for text, record in (('record 1: PayloadTooLarge: a payload of 1048577 octets is more than MAX_PAYLOAD_SIZE, 1048576$',
                              ndef.Record('a/b', '', bytes(1048577))), ('record 1: BadArgument: collision_resolution_number: it is None$', ndef.HandoverRequestRecord())):
            self.assertRaisesRegex(ndef.EncodeError, text, octets, ndef.TextRecord('Hello'), record)
        for error in (ndef.EncodeError('a\nb'), ndef.DecodeError()):
            self.assertEqual((error.place, error.number), (0, 0))
        self.assertEqual(str(ndef.EncodeError('a\nb')), 'BadArgument: a b')
        library.limits(1, 0)
        for most in (0, 2 ** 32, True):
            self.assertRaisesRegex(ValueError, 'MAX_PAYLOAD_SIZE is 1 to 4294967295, not %r' % most, library.limits, most, 0)

    def test_of_each_limit(self):
        """A payload is read within the limit of the moment, also where a program has had many of them."""
        given = octets(ndef.TextRecord('Hello'))
        for most in (*range(8, 108), 8, 7):
            with mock.patch.object(ndef.Record, 'MAX_PAYLOAD_SIZE', most):
                if most < 8:
                    self.assertRaisesRegex(ndef.DecodeError, 'PayloadTooLarge', decoded, given)
                else:
                    self.assertEqual(decoded(given)[0].text, 'Hello')


class Large(unittest.TestCase):
    """Payloads of a megabyte, which is the most that is taken."""

    def test_there_and_back(self):
        size = 1048576
        letters = 'ab\xe9\u4e00\U0001f600' * (size // 30)
        for record in (ndef.Record('a/b', 'n', bytes(range(256)) * (size // 256)), ndef.TextRecord((size - 3) * 'a'), ndef.TextRecord(letters),
                       ndef.TextRecord(letters, encoding='UTF-16'), ndef.UriRecord('http://www.' + (size - 1) * 'a'),
                       ndef.HandoverCarrierRecord('a/b', bytes(size - 5)), ndef.SmartposterRecord('tel:1', letters, icon=bytes(size // 2))):
            written = octets(record, ndef.TextRecord('Hello'))
            for given in (written, io.BytesIO(written), io.BufferedReader(io.BytesIO(written))):
                read = decoded(given)
                self.assertEqual(read, [record, ndef.TextRecord('Hello')])
                self.assertEqual(vars(read[0]).get('_text'), vars(record).get('_text'))
            found = ndef.fields(written)
            self.assertEqual((found[-1].at + found[-1].length, found[-1].octets), (len(written), b'Hello'))

    def test_one_octet_more(self):
        for record in (ndef.TextRecord(1048574 * 'a'), ndef.Record('a/b', '', bytes(1048577)), ndef.UriRecord(1048576 * 'a')):
            self.assertRaisesRegex(ndef.EncodeError, 'PayloadTooLarge', octets, record)
        head = b'\xc2\3\0\x10\0\1a/b'
        with self.assertRaises(ndef.DecodeError) as caught:
            decoded(head + bytes(1048577))
        self.assertEqual((caught.exception.reason, caught.exception.place), ('PayloadTooLarge', 5))


class Buffers(unittest.TestCase):
    """Time alone: no call is made twice for want of buffer, and the usual buffers are used again."""

    def calls_of(self, name, work):
        """How often a call of the library is made."""
        made, call = [], getattr(library, name)
        with mock.patch.object(library, name, lambda *words: made.append(name) or call(*words)):
            work()
        return len(made)

    def test_one_call_for_each_payload(self):
        size, long = 9000, 9000 * 'a'
        carrier, select = AlternativeCarrierRecord('active', 255 * 'x', 255 * [255 * 'y']), ndef.HandoverSelectRecord('1.2', (9, bytes(size)))
        record, chunks = ndef.Record('unknown', '', bytes(size)), b'\xa5\0\0\0\x10\0' + bytes(4096) + b'\x46\0\0\0\x10\0\0' + bytes(4096)
        text, wide = ndef.TextRecord(long), ndef.TextRecord(long, encoding='UTF-16')
        for name, work in (('write_text', lambda: text.data), ('write_text', lambda: wide.data),
                           ('write_uri', lambda: ndef.UriRecord(long).data), ('uri', lambda: ndef.UriRecord._decode_payload(b'\0' + long.encode(), 'strict')),
                           ('text_in_utf8', lambda: decoded(octets(ndef.TextRecord(size * '\u4e00', encoding='UTF-16')))[0].text),
                           ('write_carrier', lambda: ndef.HandoverCarrierRecord('a/b', bytes(size)).data), ('write_alternative', lambda: carrier.data),
                           ('write_error', lambda: ErrorRecord(9, bytes(size))), ('write_handover', lambda: select.data),
                           ('write_record', lambda: octets(record)), ('payload', lambda: decoded(chunks))):
            with self.subTest(name):
                self.assertEqual(self.calls_of(name, work), 1)

    def test_no_call_for_a_record_or_a_value(self):
        """A message with its texts and URIs takes one call, and two where it has more records than a scratch; only UTF-16 is converted."""
        for count in (1, 2, 8, 9, 300):
            message = octets(*(ndef.TextRecord('x%d' % at) if at % 2 else ndef.UriRecord('http://%d' % at) for at in range(count)))

            def read(message=message):
                return [getattr(record, 'text', None) or record.iri for record in ndef.message_decoder(message)]

            wanted = ['x%d' % at if at % 2 else 'http://%d' % at for at in range(count)]
            self.assertEqual(read(), wanted)
            for name in ('record_at', 'text', 'uri', 'check'):
                self.assertEqual(self.calls_of(name, read), 0)
            self.assertEqual(self.calls_of('items', read), 1 if count > 8 else 0)

    def test_messages_that_are_walked(self):
        """As those are whose places don't fit the items."""
        message = octets(ndef.TextRecord('a'), ndef.UriRecord('tel:1'), ndef.Record('a/b', 'c', b'd'))
        wanted = [repr(record) for record in ndef.message_decoder(message)]
        with mock.patch.object(ndef.message, 'U32_END', 4):
            self.assertEqual([repr(record) for record in ndef.message_decoder(message)], wanted)
            self.assertEqual([list(map(repr, records)) for records in ndef.decode_many([message, message])], [wanted, wanted])

    def test_few_limits_are_kept(self):
        """A program that sets a limit of its own for each message keeps no more of them than before."""
        before = ndef.Record.MAX_PAYLOAD_SIZE
        try:
            for most in range(100, 1100):
                ndef.Record.MAX_PAYLOAD_SIZE = most
                self.assertEqual(decoded(b'\xd0\0\0'), [ndef.Record()])
        finally:
            ndef.Record.MAX_PAYLOAD_SIZE = before
        self.assertLessEqual(len(message._usual), 64)

    def test_buffers_are_used_again(self):
        text = ndef.TextRecord('a')
        self.assertEqual(text.data, b'\2ena')
        with mock.patch.object(library, '_Buffer', side_effect=AssertionError):
            self.assertEqual([text.data for _ in range(100)], 100 * [b'\2ena'])


class Walks(unittest.TestCase):
    """Each way to walk over records gives the same ones."""

    def messages(self):
        yield []
        yield [ndef.Record()]
        yield [ndef.TextRecord('Hello'), ndef.UriRecord('tel:1')]
        yield [ndef.Record('a/b', str(number), bytes(number)) for number in range(300)]

    def test_encoders(self):
        for message in self.messages():
            parts, stream = list(ndef.message_encoder(message)), io.BytesIO()
            self.assertEqual(list(ndef.message_encoder(iter(message))), parts)
            self.assertEqual(list(ndef.message_encoder(message, stream)), [len(part) for part in parts])
            self.assertEqual((stream.getvalue(), len(parts)), (b''.join(parts), len(message)))
            for stream in (None, io.BytesIO()):
                encoder = ndef.message_encoder(stream=stream)
                encoder.send(None)
                sent = [encoder.send(record) for record in (*message, None)] if message else []
                self.assertEqual(sent[1:], parts if stream is None else [len(part) for part in parts])
                self.assertEqual(sent[:1], [None] if message else [])

    def test_decoders(self):
        for message in self.messages():
            given = octets(*message)
            for form in (bytes, bytearray, memoryview, lambda part: memoryview(2 * part).cast('H'), io.BytesIO, lambda part: io.BufferedReader(io.BytesIO(part))):
                for words in ({}, {'whole': True}, {'errors': 'strict'}):
                    decoder = ndef.message_decoder(form(given), **words)
                    read = [next(decoder) for _ in message]
                    self.assertEqual((read, list(decoder)), (message, []))
            two = io.BytesIO(2 * given)
            self.assertEqual((decoded(two), decoded(two), decoded(two)), (message, message, []))

    def test_an_encoder_that_is_wrong_ends(self):
        encoder = ndef.message_encoder()
        encoder.send(None)
        self.assertRaises(TypeError, encoder.send, b'octets')
        self.assertRaises(StopIteration, encoder.send, ndef.Record())


class Fields(unittest.TestCase):
    def test_the_greatest_payload(self):
        before = ndef.Record.MAX_PAYLOAD_SIZE
        try:
            for most, refused in ((7, True), (8, False)):
                ndef.Record.MAX_PAYLOAD_SIZE = most
                if refused:
                    self.assertRaisesRegex(ndef.DecodeError, 'PayloadTooLarge', ndef.fields, HELLO)
                else:
                    self.assertEqual(len(ndef.fields(HELLO)), 7)
        finally:
            ndef.Record.MAX_PAYLOAD_SIZE = before


class Short:
    """A stream that gives fewer octets than it is asked for, each time as many as these sizes say in turn; whether it can seek."""

    def __init__(self, given, sizes=(3,), can_seek=True):
        stream, sizes = io.BytesIO(given), itertools.cycle(sizes)
        self.seek, self.tell, self.seekable = stream.seek, stream.tell, lambda: can_seek
        self.read = lambda size: stream.read(min(size, next(sizes)))


class Peeking:
    """A stream that shows more than it is asked for, or less, and counts the octets that are taken."""

    def __init__(self, given, most):
        self.stream, self.most = io.BytesIO(given), most

    def peek(self, size):
        at = self.stream.tell()
        return self.stream.getvalue()[at:at + self.most]

    def read(self, size):
        return self.stream.read(size)


class Streams(unittest.TestCase):
    def test_short_reads(self):
        message = [ndef.Record('a/b', 'n', bytes(300)), ndef.TextRecord('Hello'), ndef.UriRecord('tel:1')]
        for sizes, can_seek in itertools.product(((3,), (1,), (64, 5, 1), (1000, 1), (1, 1000), (7, 100, 2, 50)), (True, False)):
            stream = Short(octets(*message) + b'rest', sizes, can_seek)
            self.assertEqual((decoded(stream), stream.seek(-4, 2), stream.tell()), (message, len(octets(*message)), len(octets(*message))))

    def test_peeks(self):
        message = [ndef.Record('a/b', 'n', bytes(300)), ndef.TextRecord('Hello'), ndef.UriRecord('tel:1')]
        for most in (1, 2, 63, 64, 65, 1000):
            stream = Peeking(octets(*message) + b'rest', most)
            self.assertEqual((decoded(stream), stream.stream.read()), (message, b'rest'))

    def test_what_is_shown_is_not_looked_at_again(self):
        """Of a long buffer no more is looked at for each record than the record's own octets and a few more."""
        given, looked = octets(*(500 * [ndef.TextRecord('Hello')])), []
        feed = library.feed

        def counted(checker, part, size, checked):
            looked.append(len(part))
            return feed(checker, part, size, checked)

        for stream in (io.BufferedReader(io.BytesIO(given), 1 << 20), io.BytesIO(given), Peeking(given, len(given))):
            with mock.patch.object(library, 'feed', counted):
                self.assertEqual(len(decoded(stream)), 500)
            self.assertLess(sum(looked), 100 * 500)
            looked.clear()

    def test_where_a_refused_message_leaves_a_stream(self):
        """At most at the refused octet, and not in front of the last record that was given."""
        given = octets(ndef.TextRecord('Hello'), ndef.TextRecord(300 * 'a'))
        for place in (12, 13, 40, 200, 310):
            broken = given[:place] + b'\xff' + given[place + 1:]
            for stream in (io.BytesIO(broken), io.BufferedReader(io.BytesIO(broken))):
                with self.assertRaises(ndef.DecodeError) as caught:
                    decoded(stream)
                self.assertTrue(12 <= stream.tell() <= caught.exception.place)

    def test_a_stream_that_has_nothing_yet(self):
        """Where a stream that doesn't wait gives None, more may come: that is no end, neither before a message nor within one."""
        for count in (0, 1, 5):
            stream = mock.Mock(spec=['read'])
            stream.read.side_effect = lambda size, source=io.BytesIO(HELLO[:count]): source.read(size) or None
            self.assertRaises(BlockingIOError, decoded, stream)

    def test_streams_of_text(self):
        class Text:
            def __init__(self):
                self.read = io.StringIO('text').read

        self.assertRaisesRegex(TypeError, 'a stream of octets is needed, not of str', decoded, Text())

    def in_threads(self, work):
        """Runs work(number, wrong) in eight threads, which take turns as often as may be; each adds to the list what is wrong."""
        before, wrong = sys.getswitchinterval(), []
        try:
            sys.setswitchinterval(1e-6)
            threads = [threading.Thread(target=work, args=(number, wrong)) for number in range(8)]
            for thread in threads:
                thread.start()
            for thread in threads:
                thread.join()
        finally:
            sys.setswitchinterval(before)
        self.assertEqual(wrong, [])

    def test_threads_share_no_scratch(self):
        """What calls write is read before another thread's call writes there."""
        messages = [b''.join(ndef.message_encoder([ndef.TextRecord('x' * (10 * count + at)) for at in range(count)])) for count in range(1, 9)]
        texts = [[record.text for record in ndef.message_decoder(octets)] for octets in messages]

        def work(number, wrong):
            for turn in range(1500):
                octets, wanted = messages[(turn + number) % 8], texts[(turn + number) % 8]
                if [record.text for record in ndef.message_decoder(octets)] != wanted:
                    wrong.append('message_decoder')
                if [[record.text for record in records] for records in ndef.decode_many([octets])] != [wanted]:
                    wrong.append('decode_many')
                try:
                    list(ndef.message_decoder(octets[:-1]))
                except ndef.DecodeError as error:
                    if error.place != len(octets) - 1:
                        wrong.append(error)

        self.in_threads(work)

    def test_many_decoders_at_once(self):
        """Decoders that a program goes through in turn share no scratch, and the pool keeps only some."""
        wanted = [['%d.%d' % (number, at) for at in range(3)] for number in range(40)]
        decoders = [ndef.message_decoder(b''.join(ndef.message_encoder([ndef.TextRecord(text) for text in texts]))) for texts in wanted]
        turns = [[next(decoder).text for decoder in decoders] for _ in range(3)]
        self.assertEqual([list(texts) for texts in zip(*turns)], wanted)
        self.assertEqual([list(decoder) for decoder in decoders], [[]] * 40)
        self.assertLessEqual(len(library.pool), 16)

    def test_threads_share_no_buffer(self):
        """Payloads in chunks are joined in buffers that threads take in turn."""
        def work(number, wrong):
            letter = b'%d' % number
            given = b'\xb5\0\1' + letter + b'\x36\0\1' + letter + b'\x56\0' + bytes([200]) + 200 * letter
            text = ndef.TextRecord(chr(0x4e00 + number) * 100, encoding='UTF-16')
            for _ in range(1000):
                (record,) = decoded(given)
                if record.data != 202 * letter or back(text).text != text.text:
                    wrong.append(number)

        self.in_threads(work)


if __name__ == '__main__':
    counted.main()

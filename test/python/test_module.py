"""Tests of the Python module."""
import doctest
import io
import os
import threading
import unittest

import counted
import simbegyor_ndef as ndef
from cases import TOP, cases

HELLO = bytes.fromhex('d101085402656e48656c6c6f')


def octets(*records, unchecked=False):
    return b''.join(ndef.message_encoder(records, unchecked=unchecked))


class Records(unittest.TestCase):
    def test_spellings_of_types(self):
        for spelled, given in (('urn:nfc:wkt:T', 'd1010054'), ('text/plain', 'd20a00746578742f706c61696e'), ('a:b', 'd30300613a62'),
                               ('urn:nfc:ext:x', 'd4010078'), ('unknown', 'd50000'), ('', 'd00000')):
            self.assertEqual(octets(ndef.Record(spelled), unchecked=True).hex(), given)
            (record,) = ndef.message_decoder(bytes.fromhex(given), known_types={})
            self.assertEqual((record.type, record.name, record.data), (spelled, '', b''))
        self.assertRaises(ValueError, ndef.Record, 'plain')
        self.assertRaises(TypeError, ndef.Record, 5)
        self.assertRaises(TypeError, ndef.Record, 'a/b', '', 5)

    def test_a_type_of_another_format_is_no_text(self):
        given = bytes.fromhex('d30d0075726e3a6e66633a776b743a54')
        (record,) = ndef.message_decoder(given)
        self.assertEqual((record.type, type(record)), ('urn:nfc:wkt:T', ndef.Record))
        self.assertEqual(octets(record), given)
        self.assertNotEqual(record, ndef.Record('urn:nfc:wkt:T'))

    def test_attributes_can_be_set(self):
        record = ndef.Record('text/plain', 'a', b'x')
        record.data.extend(b'yz')
        record.name = 'b'
        self.assertEqual(repr(record), "simbegyor_ndef.record.Record('text/plain', 'b', bytearray(b'xyz'))")
        text = ndef.TextRecord('a')
        text.text, text.language, text.name = 'b', 'de', 'n'
        self.assertEqual(octets(text).hex(), 'd9010401546e02646562')
        uri = ndef.UriRecord('http://www.hääyö.com/é')
        self.assertEqual(uri.uri, 'http://www.xn--hy-viaa5g.com/%C3%A9')

    def test_handovers_that_are_made(self):
        request = ndef.HandoverRequestRecord('1.3', 0x1234, ('active', '0'), ('unknown', 'a', 'b', ''))
        self.assertEqual(repr(request), "simbegyor_ndef.handover.HandoverRequestRecord('1.3', 4660, ('active', '0'), ('unknown', 'a', 'b', ''))")
        self.assertEqual((request.version_string, request.version_info.minor, request.hexversion), ('1.3', 3, 0x13))
        request.collision_resolution_number = 1
        request.add_alternative_carrier('inactive', 'n')
        self.assertEqual(octets(request).hex(), 'd102264872' '13' '91020263720001' '110204616301013000' '110207616303016102016200' '510204616300016e00')
        (back,) = ndef.message_decoder(octets(request))
        self.assertEqual((back, back.collision_resolution_number, back.version_string), (request, 1, '1.3'))
        self.assertEqual(back.alternative_carriers, request.alternative_carriers)
        self.assertEqual(back.alternative_carriers, [('active', '0', []), ('unknown', 'a', ['b', '']), ('inactive', 'n', [])])
        select = ndef.HandoverSelectRecord('1.2', (2, 1000), ('activating', 'é'))
        self.assertEqual(octets(select).hex(), 'd102154873' '12' '9102046163' '0201e900' '510305657272' '02000003e8')
        (back,) = ndef.message_decoder(octets(select))
        self.assertEqual((back, back.alternative_carriers, back.error), (select, [('activating', 'é', [])], select.error))
        back.set_error(1, 5)
        back.add_alternative_carrier('active', 'b')
        self.assertEqual(octets(back).hex(), 'd1021b4873' '12' '9102046163' '0201e900' '1102046163' '01016200' '510302657272' '0105')
        self.assertEqual((back.hexversion, back.error, back.version_info), (0x12, (1, 5), (1, 2)))
        select.set_error(7, b'any')
        self.assertEqual((select.error.error_reason, select.error.error_data), (7, b'any'))
        self.assertEqual(octets(ndef.HandoverSelectRecord()).hex(), 'd10201487313')
        self.assertIsNone(ndef.HandoverSelectRecord().error)

    def test_a_class_of_ones_own(self):
        class Own(ndef.GlobalRecord):
            _type = 'urn:nfc:ext:example.com:own'

            def __init__(self, value):
                self.value = value

            def _encode_payload(self):
                return self.value.encode('ascii')

            @classmethod
            def _decode_payload(cls, payload, errors):
                return cls(payload.decode('ascii'))

        (own,) = ndef.message_decoder(octets(Own('x')), known_types={Own._type: Own})
        self.assertEqual((own.value, own.type), ('x', Own._type))


class Streams(unittest.TestCase):
    def decoded(self, given, buffering):
        """Two messages, of a pipe that gives these octets."""
        reading, writing = os.pipe()
        with os.fdopen(writing, 'wb') as pipe:
            pipe.write(given)
        with os.fdopen(reading, 'rb', buffering) as stream:
            return list(ndef.message_decoder(stream)), list(ndef.message_decoder(stream)), stream.read()

    def test_messages_after_one_another(self):
        long = ndef.Record('a/b', '', bytes(20000))
        for message in ([ndef.TextRecord('a')], [long], [ndef.TextRecord('a'), long, ndef.UriRecord('tel:1')]):
            given = octets(*message) + HELLO + b'rest'
            hello = [ndef.TextRecord('Hello')]
            stream = io.BytesIO(given)
            self.assertEqual((list(ndef.message_decoder(stream)), list(ndef.message_decoder(stream)), stream.read()), (message, hello, b'rest'))
            for buffering in (-1, 0):
                self.assertEqual(self.decoded(given, buffering), (message, hello, b'rest'))

    def test_a_stream_that_ends_in_a_record(self):
        for count in range(1, len(HELLO)):
            for stream in (io.BytesIO(HELLO[:count]), io.BufferedReader(io.BytesIO(HELLO[:count]))):
                with self.assertRaises(ndef.DecodeError) as caught:
                    list(ndef.message_decoder(stream))
                self.assertEqual((caught.exception.place, caught.exception.reason), (count, 'EndOfInput'))

    def test_an_empty_stream(self):
        self.assertEqual(list(ndef.message_decoder(io.BytesIO())), [])

    def test_streams_written_to(self):
        stream = io.BytesIO()
        self.assertEqual(list(ndef.message_encoder([ndef.TextRecord('Hello')], stream)), [12])
        self.assertEqual(stream.getvalue(), HELLO)

    def test_records_sent(self):
        encoder = ndef.message_encoder()
        sent = [encoder.send(record) for record in (None, ndef.Record(), ndef.TextRecord('a'), None)]
        self.assertEqual(sent, [None, None, b'\x90\0\0', b'\x51\x01\x04T\x02ena'])
        self.assertEqual(list(ndef.message_encoder([])), [])

    def test_threads(self):
        wrong = []

        def work(number):
            message = [ndef.TextRecord(str(number) * number), ndef.Record('a/b', str(number))]
            given = octets(*message)
            wrong.extend(1 for _ in range(500) if list(ndef.message_decoder(given)) != message)

        threads = [threading.Thread(target=work, args=(number,)) for number in range(1, 5)]
        for thread in threads:
            thread.start()
        for thread in threads:
            thread.join()
        self.assertEqual(wrong, [])


class Structs(unittest.TestCase):
    def test_numbers_have_the_sizes_of_each_machine(self):
        decode, encode = ndef.Record._decode_struct, ndef.Record._encode_struct
        for letter, size in zip('bBhHiIlLqQ', (1, 1, 2, 2, 4, 4, 4, 4, 8, 8)):
            for order in ('', '@', '=', '<', '>', '!'):
                written = encode(order + letter, 1)
                self.assertEqual((len(written), decode(order + letter, written + b'more')), (size, 1))


class Refusals(unittest.TestCase):
    def test_values_that_no_handover_has(self):
        request, select, active = ndef.HandoverRequestRecord, ndef.HandoverSelectRecord, 'active'
        self.assertRaises(ndef.EncodeError, octets, request())
        for version, *number in (('1.3', 65536), ('1.3', -1), ('1.3', 2 ** 32), ('2.0', 1), ('0.3', 1), ('1.16', 1), (0x100000013, 1),
                                 ('1.-1', 1), (-1, 1), ('2.0',), *((near, 1) for near in ('1.3.5', '1.', '.3', '1.3 ', '+1.3', '1.3a', '1,3'))):
            self.assertRaises(ValueError, request, version, *number)
        for error in ((1, 256), (4, 1), (2, 2 ** 32), (2, b'abc'), (256, b''), (257, 1)):
            self.assertRaises(ValueError, select, '1.3', error)
        for carrier in ((active, 256 * 'x'), (active, 'a', 256 * 'x'), [active, 'a'] + 256 * ['b']):
            self.assertRaises(ValueError, select, '1.3', None, carrier)
        (back,) = ndef.message_decoder(octets(select('1.3', None, [active, 255 * 'x'] + 255 * [255 * 'y'])))
        self.assertEqual(len(back.alternative_carriers[0].auxiliary_data_reference), 255)
        for call in (lambda: request('1'), lambda: request('a.b'), lambda: select('1.3', None, ('off', 'a'))):
            self.assertRaises(ValueError, call)
        for call in (lambda: request(None), lambda: request('1.3', 'a'), lambda: select('1.3', None, (active, 0)), lambda: select('1.3', ('1', 1))):
            self.assertRaises(TypeError, call)

    def test_values_that_no_poster_has(self):
        poster = ndef.SmartposterRecord('a')
        for name, value in (('action', 256), ('action', -1), ('action', 2 ** 32), ('resource_size', -1), ('resource_size', 2 ** 32)):
            self.assertRaises(ValueError, setattr, poster, name, value)
        for name in ('action', 'resource_size'):
            self.assertRaises(TypeError, setattr, poster, name, 1.5)
        self.assertRaises(ValueError, setattr, poster, 'action', 'run')
        self.assertEqual((poster.action, poster.resource_size, len(poster._records)), (None, None, 1))

    def test_values_that_no_record_has(self):
        first = ndef.TextRecord('Hello')
        with self.assertRaises(ndef.EncodeError) as caught:
            octets(first, ndef.HandoverRequestRecord())
        self.assertEqual((caught.exception.place, caught.exception.reason, caught.exception.number), (12, 'BadArgument', 0))
        for call in (lambda: ndef.Record('urn:nfc:wkt:' + 256 * 'x'), lambda: ndef.Record('urn:nfc:wkt:'), lambda: ndef.TextRecord('\ud800'),
                     lambda: ndef.UriRecord('\udfff'), lambda: ndef.Record('a/b', 'Ā')):
            self.assertRaises(ValueError, call)

    def test_what_is_left_out(self):
        for call in (lambda: next(ndef.message_decoder(HELLO, 'ignore')),
                     lambda: ndef.Record('unchanged')):
            self.assertRaises(NotImplementedError, call)

    def test_other_arguments(self):
        for value in ('text', 5, None, io.StringIO('text')):
            self.assertRaisesRegex(TypeError, 'octets', next, ndef.message_decoder(value))
        self.assertRaises(ValueError, next, ndef.message_decoder(HELLO, 'lenient'))
        self.assertRaises(TypeError, list, ndef.message_encoder(['text']))
        self.assertRaises(ValueError, ndef.TextRecord, 'a', 'en', 'UTF-32')


class Readme(unittest.TestCase):
    def test_examples(self):
        page = (TOP / 'bindings/python/README.md').read_text()
        failed, tried = doctest.DocTestRunner().run(doctest.DocTestParser().get_doctest(page, {}, 'README.md', 'bindings/python/README.md', 0))
        self.assertEqual(failed, 0)
        self.assertGreater(tried, 10)


if __name__ == '__main__':
    counted.main()

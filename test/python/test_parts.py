"""Tests of messages that are written in parts of a size, and of records whose payload comes in parts. NDEF_RANDOM random messages, 100000 where
it isn't set, have the octets that the encoder gives record by record."""
import io
import os
import pickle
import random
import tracemalloc
import unittest
from unittest import mock

import counted
import simbegyor_ndef as ndef
from simbegyor_ndef import _library as library
from wild import KINDS, Wild

TEXT, IMAGE = ndef.TextRecord('Hello'), ndef.Record('image/png', 'i', bytes(300))
REFUSED = ndef.Record('urn:nfc:wkt:T', '', b'\x42en')


def octets(*records, **how):
    return b''.join(ndef.message_encoder(records, **how))


def streamed(*parts, size=None, kind='image/png', name='i'):
    """A record whose parts come of a generator."""
    return ndef.StreamedRecord(kind, name, (part for part in parts), sum(map(len, parts)) if size is None else size)


def given(*records, **how):
    """The octets that the encoder gives before it fails, and the text of the ValueError with which it does."""
    before = []
    try:
        before.extend(ndef.message_encoder(records, size=how.pop('size', 1), **how))
    except ValueError as error:
        return b''.join(before), str(error)
    return b''.join(before), None


class Parts(unittest.TestCase):
    def test_sizes(self):
        whole = octets(TEXT, IMAGE, TEXT)
        for size in (1, 2, 3, 4, 16, 255, len(whole) - 1, len(whole), len(whole) + 1, 1 << 20):
            with self.subTest(size=size):
                self.assertEqual(list(ndef.message_encoder([TEXT, IMAGE, TEXT], size=size)), [whole[at:at + size] for at in range(0, len(whole), size)])
        self.assertEqual(list(ndef.message_encoder([], size=4)), [])
        self.assertEqual(list(ndef.message_encoder([ndef.Record()], size=2)), [b'\xd0\0', b'\0'])

    def test_stream(self):
        stream = io.BytesIO()
        self.assertEqual(list(ndef.message_encoder([TEXT], stream, size=5)), [5, 5, 2])
        self.assertEqual(stream.getvalue(), octets(TEXT))

    def test_parts_are_taken_when_they_are_needed(self):
        taken = []

        def parts():
            for part in (b'ab', b'', bytearray(b'cd'), memoryview(b'ef')):
                taken.append(bytes(part))
                yield part

        encoder = ndef.message_encoder([ndef.StreamedRecord('unknown', '', parts(), 6)], size=3)
        self.assertEqual((next(encoder), taken), (b'\xd5\0\6', []))
        self.assertEqual((next(encoder), taken), (b'abc', [b'ab', b'', b'cd']))
        self.assertEqual((next(encoder), taken), (b'def', [b'ab', b'', b'cd', b'ef']))
        self.assertRaises(StopIteration, next, encoder)

    def test_records_in_parts_are_those_in_one(self):
        whole = octets(TEXT, IMAGE, TEXT)
        for record in (ndef.StreamedRecord('image/png', 'i', io.BytesIO(bytes(300)), 300), streamed(bytes(300)), streamed(*300 * [b'\0'])):
            self.assertEqual(octets(TEXT, record, TEXT, size=7), whole)
        self.assertEqual(octets(TEXT, streamed(bytes(100), bytes(200)), TEXT), whole)
        lasting = ndef.StreamedRecord(b'image/png', b'i', [bytes(299), b'\0'], 300)
        self.assertEqual([octets(TEXT, lasting, TEXT, size=size) for size in (1, 9)], 2 * [whole])
        self.assertEqual(octets(streamed(b'', kind='', name='')), b'\xd0\0\0')

    def test_memory(self):
        size = 1 << 24
        record = ndef.StreamedRecord('unknown', '', (bytes(1 << 16) for _ in range(1 << 8)), size)
        tracemalloc.start()
        with mock.patch.object(ndef.Record, 'MAX_PAYLOAD_SIZE', size):
            count = sum(map(len, ndef.message_encoder([record], size=4096)))
        most = tracemalloc.get_traced_memory()[1]
        tracemalloc.stop()
        self.assertEqual(count, size + 6)
        self.assertLess(most, 1 << 20)


class Errors(unittest.TestCase):
    HEAD = b'\xda\t\5\1image/pngi'

    def test_too_few(self):
        self.assertEqual(given(streamed(b'ab', b'cd', size=5)), (self.HEAD + b'abcd', 'simbegyor_ndef.record.StreamedRecord parts have 4 octets, and the payload 5'))
        self.assertEqual(given(streamed(size=5), TEXT)[0], b'\x9a' + self.HEAD[1:])
        used = streamed(b'abcde')
        self.assertEqual(given(used), (self.HEAD + b'abcde', None))
        self.assertEqual(given(used)[0], self.HEAD)

    def test_too_many(self):
        text = 'simbegyor_ndef.record.StreamedRecord parts have more than the 5 octets of the payload'
        self.assertEqual(given(streamed(b'abcd', b'ef', size=5)), (self.HEAD + b'abcd', text))
        self.assertEqual(given(streamed(b'abcde', b'f', size=5)), (self.HEAD + b'abcde', text))
        self.assertEqual(given(streamed(b'abcde', b'f', size=5), TEXT), (b'\x9a' + self.HEAD[1:] + b'abcde', text))
        self.assertEqual(given(streamed(b'abcdef', size=5), size=100), (b'', text))
        self.assertRaises(ValueError, octets, streamed(b'abcdef', size=5))
        self.assertRaises(ValueError, octets, streamed(b'abcd', size=5))

    def test_what_is_refused(self):
        with self.assertRaises(ndef.EncodeError) as caught:
            octets(TEXT, REFUSED, size=4)
        error = caught.exception
        self.assertEqual((error.record, error.place, error.at, error.reason), (1, 12, 4, 'TextBit'))
        self.assertEqual(error.what, 'Bit 6 of the status octet of a text is reserved: it has to be 0.')
        with self.assertRaises(ndef.EncodeError) as caught:
            octets(TEXT, streamed(b'\x42en', kind='urn:nfc:wkt:T', name=''), size=4)
        error = caught.exception
        self.assertEqual((error.record, error.place, error.at, error.reason, error.what), (1, 12, 4, 'TextBit', library.reason_sentence(error.number)))
        self.assertEqual(octets(TEXT, REFUSED, size=4, unchecked=True), octets(TEXT, REFUSED, unchecked=True))
        encoder = ndef.message_encoder([TEXT, REFUSED], size=4)
        self.assertEqual([next(encoder) for _ in range(4)], [octets(TEXT, REFUSED, unchecked=True)[at:at + 4] for at in (0, 4, 8, 12)])
        self.assertRaises(ndef.EncodeError, next, encoder)

    def test_limits(self):
        with mock.patch.object(ndef.Record, 'MAX_PAYLOAD_SIZE', 4):
            for record in (streamed(b'abcde'), ndef.Record('a/b', '', b'abcde')):
                with self.assertRaises(ndef.EncodeError) as caught:
                    octets(ndef.Record(), record, size=9, unchecked=True)
                error = caught.exception
                self.assertEqual((error.record, error.place, error.at, error.reason), (1, 3, None, 'PayloadTooLarge'))
                self.assertEqual(error.what, 'a payload of 5 octets is more than MAX_PAYLOAD_SIZE, 4')
        with self.assertRaises(ndef.EncodeError) as caught:
            octets(ndef.Record(), ndef.HandoverRequestRecord('1.3'), size=9)
        self.assertEqual((caught.exception.record, caught.exception.reason), (1, 'BadArgument'))
        named = ndef.TextRecord('Hello')
        named._name = bytes(256)
        with self.assertRaises(ndef.EncodeError) as caught:
            octets(TEXT, named, size=9)
        self.assertEqual((caught.exception.record, caught.exception.place, caught.exception.reason), (1, 12, 'BadArgument'))

    def test_arguments(self):
        for size in (0, -1):
            self.assertRaisesRegex(ValueError, 'at least 1 octet', list, ndef.message_encoder([TEXT], size=size))
        self.assertRaises(TypeError, ndef.message_encoder, [TEXT], size='4')
        self.assertRaisesRegex(TypeError, 'the message is given', ndef.message_encoder, size=4)
        self.assertRaisesRegex(TypeError, 'a Record is needed, not', list, ndef.message_encoder([TEXT, 3], size=4))
        for size in (-1, 1 << 32):
            self.assertRaisesRegex(ValueError, 'a payload has 0 to 4294967295 octets', streamed, size=size)
        self.assertRaises(TypeError, streamed, size='4')
        self.assertRaises(TypeError, ndef.StreamedRecord, 'a/b', '', 4, 4)
        for part in (3, 'text'):
            self.assertRaisesRegex(TypeError, 'a part of a payload is octets, not', given, ndef.StreamedRecord('a/b', '', [part], 4))

    def test_what_a_record_in_parts_is(self):
        parts = [b'ab']
        record = ndef.StreamedRecord('a/b', 'n', parts, 2)
        self.assertEqual((record.type, record.name, hasattr(record, 'data')), ('a/b', 'n', False))
        self.assertEqual(repr(record), "simbegyor_ndef.record.StreamedRecord('a/b', 'n', %r, 2)" % parts)
        self.assertEqual(str(record), "NDEF Record TYPE 'a/b' ID 'n' PAYLOAD 2 byte in parts")
        self.assertTrue(record == record)
        self.assertFalse(record == ndef.Record('a/b', 'n', b'ab') or ndef.Record('a/b', 'n', b'ab') == record)
        self.assertEqual(octets(pickle.loads(pickle.dumps(record)), size=9), octets(record))


if __name__ == '__main__':
    counted.main()

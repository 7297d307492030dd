"""What errors and functions say of octets that are refused: what was wanted, and what may help; and of those that are accepted: what
is strange. The sentences are those of docs/EXPLAIN.md and test/explain/rows.txt. test/table/run compares those of many messages."""
import copy
import io
import pickle
import unittest

import counted
import simbegyor_ndef as ndef
from cases import sentences

# A text whose language code doesn't fit (RTD Text 1.0), a message, and one after an octet that may be of a tag (Type 2 Tag, TLV blocks).
LATE = bytes.fromhex('d10106543f6162636465')
HELLO = bytes.fromhex('d101085402656e48656c6c6f')
AFTER = b'\x01' + HELLO
WANTED = {
    LATE: 'The language code has 63 octets; 5 are left in the payload.',
    bytes.fromhex('d1020c5370 91010255 0361 51010273 0102'): 'A size (`s`) has 4 octets; 2 were given.',
    bytes.fromhex('d1020e487212 9102026163'): 'This request must begin with a collision record (`cr`); its first record is another.',
    bytes.fromhex('d10104548061 6263'): 'The text in UTF-16 has an odd number of octets.',
    bytes.fromhex('c10100000003 55 0461'): '1 octet of the payload is missing.',
    b'\xd7\0\0': 'The type name format 7 is reserved.',
}
HINTS = {
    AFTER: 'The bytes may begin with what surrounds a message on a tag; a message begins at byte 1.',
    bytes.fromhex('d1010955687474703a2f2f6162'): '68 (hexadecimal) is the letter h: was the identifier code left out?',
    bytes.fromhex('d7000161'): 'The standard profile reads this (`--profile standard`, in C NDEF_STANDARD).',
}


def refusal(make):
    """The error that is raised."""
    try:
        make()
    except ndef.DecodeError as error:
        return error
    raise AssertionError('nothing is refused')


class Sentences(unittest.TestCase):
    def test_what_was_wanted(self):
        for octets, sentence in WANTED.items():
            with self.subTest(octets.hex()):
                for given in (octets, bytearray(octets), memoryview(octets)):
                    self.assertEqual(ndef.why(given), sentence)
                self.assertEqual(refusal(lambda: list(ndef.message_decoder(octets))).sentence, sentence)
                self.assertEqual(refusal(lambda: list(ndef.message_decoder(octets, whole=True))).sentence, sentence)
                self.assertEqual(refusal(lambda: ndef.fields(octets)).sentence, sentence)
                (error,) = ndef.decode_many([octets])
                self.assertEqual(error.sentence, sentence)

    def test_bad_arguments(self):
        for call in (ndef.why, ndef.hint):
            self.assertRaisesRegex(TypeError, 'octets are needed, not str', call, 'd10000')
            self.assertRaisesRegex(ValueError, "profile is 'strict' or 'standard', not 'lax'", call, LATE, 'lax')

    def test_limits(self):
        """They are those within which the octets were refused, whatever becomes of MAX_PAYLOAD_SIZE afterwards."""
        usual = ndef.Record.MAX_PAYLOAD_SIZE
        try:
            ndef.Record.MAX_PAYLOAD_SIZE = 7
            error = refusal(lambda: list(ndef.message_decoder(HELLO)))
            self.assertEqual(ndef.why(HELLO), error.sentence)
        finally:
            ndef.Record.MAX_PAYLOAD_SIZE = usual
        self.assertEqual((error.reason, error.sentence), ('PayloadTooLarge', pickle.loads(pickle.dumps(error)).sentence))
        self.assertIsNone(ndef.why(HELLO))

    def test_copies(self):
        """They say the same, and hold none of the octets."""
        for octets in (*WANTED, *HINTS):
            for again in (lambda error: pickle.loads(pickle.dumps(error)), copy.copy, copy.deepcopy):
                error = refusal(lambda: ndef.fields(octets))
                back = again(error)
                self.assertEqual((back.sentence, back.hint, back.fields, back.place), (error.sentence, error.hint, error.fields, error.place))
                self.assertNotIn(octets, pickle.dumps(error))


class WithoutOctets(unittest.TestCase):
    """Where the octets aren't at hand, the sentence says what the reason means, and there is no hint."""

    def test_streams_and_other_classes(self):
        for octets in (*WANTED, *HINTS):
            for error in (refusal(lambda: list(ndef.message_decoder(io.BytesIO(octets)))), ndef.DecodeError('a reason', 0, refusal(lambda: ndef.fields(octets)).number)):
                self.assertEqual((error.sentence, error.hint), (sentences()[error.number], None))
        error = refusal(lambda: list(ndef.message_decoder(LATE, known_types={'urn:nfc:wkt:T': ndef.TextRecord})))
        self.assertEqual((error.place, error.sentence, error.hint), (4, sentences()[error.number], None))


# What is strange in a field, by its name and octets (docs/EXPLAIN.md, Remarks); None where nothing is.
FIELDS = {
    ('URI', b'a\n'): 'The URI has a control character.',
    ('URI', b'a.b'): None,
    ('text', b'a\n'): None,
    ('identifier code', b'\x24'): 'The identifier code 36 is reserved, and read as 0: was the identifier code left out?',
    ('identifier code', b'\x23'): None,
    ('action', b'\3'): 'The action 3 is reserved.',
    ('error reason', b'\0'): 'The error reason 0 is reserved.',
    ('carrier type format', b'\x0d'): 'The carrier type format 5 is reserved.',
    ('carrier power state', b'\5'): 'The octet 5 of the carrier power state has reserved bits set.',
    ('PAYLOAD_LENGTH', b'\0\0\0\3'): 'The payload length 3 fits one octet (SR): the message could be 3 bytes shorter.',
    ('PAYLOAD_LENGTH', b'\0\0\1\0'): None,
    ('ID_LENGTH', b'\0'): 'The id is empty: without ID_LENGTH (IL) the message could be 1 byte shorter.',
    ('header', b''): None,
}
# Three records with the ids a, b and a; a poster with the titles A in en and B in EN; a request with a collision record alone; a text
# in UTF-16 without a mark.
AGAIN, CARRIER = 'Another record has the same id.', 'The request has no alternative carrier (`ac`).'
RECORDS = {
    bytes.fromhex('9d000001 61 1d000001 62 5d000001 61'): [AGAIN, None, AGAIN],
    bytes.fromhex('d1021653 70 91010255 0161 11010454 02656e41 51010454 02454e42'): ['Two titles of the smart poster have the same language.'],
    bytes.fromhex('d1020848 72 12 d1020263 72 1234'): [CARRIER],
    bytes.fromhex('d1010754 82656e 41004200'): ['Every second octet of the text is 0: it may be little-endian, without a byte order mark.'],
}


class Remarks(unittest.TestCase):
    def test_fields(self):
        for (name, octets), sentence in FIELDS.items():
            with self.subTest(name, octets=octets):
                for given in (octets, bytearray(octets), memoryview(octets)):
                    self.assertEqual(ndef.field_warning(name, given), sentence)

    def test_records(self):
        for octets, sentences_of_records in RECORDS.items():
            with self.subTest(octets.hex()):
                for given in (octets, bytearray(octets + b'more'), memoryview(octets)):
                    self.assertEqual([ndef.record_warning(given, index) for index in range(len(sentences_of_records))], sentences_of_records)
                for index in (len(sentences_of_records), 64, 1 << 32, 1 << 64, 1 << 99):
                    self.assertIsNone(ndef.record_warning(octets, index))
                self.assertIsNone(ndef.record_warning(octets[:-1], 0))
        self.assertIsNone(ndef.record_warning(b'', 0))

    def test_many_records(self):
        """A message of more than 64 records isn't looked through."""
        for count, sentence in ((64, AGAIN), (65, None)):
            octets = b'\x9d\0\0\1a' + (count - 2) * b'\x1d\0\0\1a' + b'\x5d\0\0\1a'
            self.assertEqual([ndef.record_warning(octets, 0), ndef.record_warning(octets, count - 1)], [sentence, sentence])

    def test_bad_arguments(self):
        self.assertRaisesRegex(ValueError, "no field has the name 'uri'", ndef.field_warning, 'uri', b'')
        self.assertRaisesRegex(ValueError, 'no field has the name None', ndef.field_warning, None, b'')
        self.assertRaisesRegex(TypeError, 'octets are needed, not str', ndef.field_warning, 'URI', 'a')
        self.assertRaisesRegex(TypeError, 'octets are needed, not str', ndef.record_warning, 'd0', 0)
        self.assertRaisesRegex(ValueError, 'an index is 0 or more, not -1', ndef.record_warning, HELLO, -1)
        self.assertRaises(TypeError, ndef.record_warning, HELLO, 0.5)

    def test_the_names_of_release_0_3_0(self):
        self.assertEqual((ndef.field_remark, ndef.record_remark), (ndef.field_warning, ndef.record_warning))


if __name__ == '__main__':
    counted.main()

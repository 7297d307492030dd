"""Tests of `decode_many`: it answers what `message_decoder` does, for each of many messages."""
import unittest

import counted
import simbegyor_ndef as ndef
from cases import cases
from wild import Wild, corpus

HELLO = bytes.fromhex('d101085402656e48656c6c6f')
BROKEN = bytes.fromhex('d1010154ff')


def by_itself(octets, known_types=None):
    """What `message_decoder` answers of one message: its records, or the error."""
    try:
        return list(ndef.message_decoder(octets, known_types=known_types))
    except ndef.DecodeError as error:
        return error


class Odd(ndef.record.GlobalRecord):
    """Octets that are odd in number."""

    _type = 'text/odd'

    @classmethod
    def _decode_payload(cls, octets, errors):
        if len(octets) % 2 == 0:
            raise cls._decode_error('has {} octets', len(octets))
        return cls()

    def _encode_payload(self):
        return b'x'


class Many(unittest.TestCase):
    def same(self, messages, known_types=None):
        answers = list(ndef.decode_many(messages, known_types))
        self.assertEqual(len(answers), len(messages))
        for octets, answer in zip(messages, answers):
            wanted = by_itself(octets, known_types)
            with self.subTest(octets.hex()):
                self.assertIs(type(answer), type(wanted))
                if isinstance(wanted, list):
                    self.assertEqual([(type(record), record) for record in answer], [(type(record), record) for record in wanted])
                else:
                    self.assertEqual((answer.place, answer.reason, answer.number), (wanted.place, wanted.reason, wanted.number))

    def test_the_suite_the_fuzzer_and_random_messages(self):
        for typed in (True, False):
            self.same([given for _, is_typed, given, _, _ in cases() if is_typed == typed], None if typed else {})
        self.same([*corpus(), *Wild(5).messages(2000)])

    def test_records_and_errors_side_by_side(self):
        """A refusal hides no answer of another message, and its place counts from the front of its own."""
        first, second, third, fourth, fifth = ndef.decode_many([HELLO, BROKEN, b'', bytearray(HELLO + b'more'), memoryview(HELLO)[:11]])
        self.assertEqual((first, third, fourth), ([ndef.TextRecord('Hello')], [], first))
        self.assertEqual([(error.place, error.number, error.reason) for error in (second, fifth)], [(4, 15, 'TextBit'), (11, 24, 'EndOfInput')])
        self.assertIsNone(second.__traceback__)

    def test_each_answer_has_records_of_its_own(self):
        (first,), (second,) = ndef.decode_many([HELLO, HELLO])
        first.text = 'other'
        self.assertEqual((first.text, second.text), ('other', 'Hello'))

    def test_messages_are_taken_one_by_one(self):
        """The messages may come without an end."""
        taken = []

        def endless():
            while True:
                taken.append(1)
                yield HELLO

        answers = ndef.decode_many(endless())
        self.assertEqual((next(answers), next(answers), len(taken)), ([ndef.TextRecord('Hello')], [ndef.TextRecord('Hello')], 2))

    def test_large_and_small(self):
        large = b''.join(ndef.message_encoder([ndef.Record('a/b', '', bytes(5000)), ndef.TextRecord('a')]))
        self.same([large, HELLO, large[:-1], large[:4095], large[:4096], large])

    def test_classes_of_ones_own(self):
        """Where such a class refuses a record, the error is the answer."""
        messages = [b''.join(ndef.message_encoder([ndef.Record('a/b'), ndef.Record('text/odd', '', data)])) for data in (b'x', b'xy', b'xyz')]
        self.same(messages, {Odd._type: Odd})
        _, error, _ = ndef.decode_many(messages, {Odd._type: Odd})
        self.assertEqual((error.place, error.number, error.__traceback__, error.__context__), (17, 0, None, None))
        self.assertIn('has 2 octets', error.reason)

    def test_what_is_no_message_is_no_refusal(self):
        for wrong in ('text', 5, None, [HELLO]):
            answers = ndef.decode_many([HELLO, wrong])
            self.assertEqual(next(answers), [ndef.TextRecord('Hello')])
            self.assertRaisesRegex(TypeError, 'octets are needed, not ' + type(wrong).__name__, next, answers)
        self.assertRaises(TypeError, list, ndef.decode_many(5))
        self.assertRaises(ValueError, ndef.decode_many, [], {'no type': Odd})


if __name__ == '__main__':
    counted.main()

"""How many steps a record takes from a stream: reads of the stream, calls of the library, and octets that a call looks at. No step
is counted in seconds."""
import io
import os
import unittest
from unittest import mock

import counted
import simbegyor_ndef as ndef
from simbegyor_ndef import _library as library
from cases import cases


def octets(*records):
    return b''.join(ndef.message_encoder(records))


def chunks(count):
    """A record in this number of chunks of two octets, and an empty record after it (NDEF 1.0, CF)."""
    return b'\xb2\x03\x02a/bxx' + (count - 2) * b'\x36\x00\x02xx' + b'\x16\x00\x02xx' + b'\x50\0\0'


class Dripping:
    """A stream that can neither seek nor show what comes."""

    def __init__(self, given):
        self.given, self.reads = io.BytesIO(given), 0

    def read(self, size):
        self.reads += 1
        return self.given.read(size)


class Showing(Dripping):
    """A stream that shows at most `most` octets of what comes."""

    def __init__(self, given, most=1):
        super().__init__(given)
        self.most = most

    def peek(self, size):
        at = self.given.tell()
        seen = self.given.read(min(size, self.most))
        self.given.seek(at)
        return seen


class Steps(unittest.TestCase):
    def counted(self, given, stream):
        """The records of a stream; the calls that look at all chunks, the octets there at each, and the octets that are fed."""
        looks, fed = [], [0]

        def record_at(first, size, *others, call=library.record_at):
            looks.append(size)
            return call(first, size, *others)

        def feed(checker, part, *others, call=library.feed):
            fed[0] += len(part)
            return call(checker, part, *others)

        with mock.patch.object(library, 'record_at', record_at), mock.patch.object(library, 'feed', feed):
            records = list(ndef.message_decoder(stream))
        self.assertEqual(records, list(ndef.message_decoder(given)))
        return len(looks), fed[0]

    def test_steps_grow_with_the_octets(self):
        """Ten times the chunks are ten times the octets: reads and fed octets grow as these, looks don't grow with them."""
        for stream_of in (Dripping, Showing):
            for count in (40, 400, 4000):
                given = chunks(count)
                stream = stream_of(given)
                looks, fed = self.counted(given, stream)
                self.assertLessEqual(stream.reads, 2 * len(given) + 2)
                self.assertLessEqual(fed, 6 * len(given))
                self.assertLessEqual(looks, 40)

    def test_looks_ahead_grow_slowly(self):
        """Where much can be shown, each look is at an eighth more octets at least, or at 64 more of them. One takes two calls."""
        for most in (2, 20, 63, 64, 512, 4096, 10 ** 6):
            given = chunks(4000)
            looks, fed = self.counted(given, Showing(given, most))
            self.assertLessEqual(looks, 2 * (40 + len(given) // max(64, min(most, 512))))
            self.assertLessEqual(fed, 6 * len(given))

    def test_every_case_octet_by_octet(self):
        """What a stream's records are doesn't depend on what it can show, and no octet after the message is taken. Where few
        random messages are asked for, each tenth case is tried."""
        few = 10 if 'NDEF_RANDOM' in os.environ else 1
        for line, typed, given, _, _ in list(cases())[::few]:
            known = None if typed else {}
            wanted, whole = self.answer(io.BytesIO(given), known)
            for stream in (Dripping(given), Showing(given), Showing(given, 7)):
                with self.subTest(line, stream=stream):
                    self.assertEqual(self.answer(stream, known), (wanted, whole if whole is None else stream.given.tell()))

    def answer(self, stream, known):
        """The records up to a fault, and the fault; and how many octets were taken, unless there was one."""
        records, source = [], getattr(stream, 'given', stream)
        try:
            for record in ndef.message_decoder(stream, known_types=known):
                records.append(record)
        except ndef.DecodeError as error:
            return (records, (error.place, error.number)), None
        return (records, None), source.tell()

    def test_a_record_is_given_with_its_last_octet(self):
        """No octet of the next record is taken before, of as many records as a message may have."""
        message = [ndef.TextRecord('a'), ndef.Record(), ndef.Record('a/b', 'n', bytes(3))] * 341 + [ndef.UriRecord('tel:1')]
        ends, at = [], 0
        for part in ndef.message_encoder(message):
            at += len(part)
            ends.append(at)
        for stream in (Dripping(octets(*message) + b'more'), Showing(octets(*message) + b'more', 2)):
            self.assertEqual([stream.given.tell() for _ in ndef.message_decoder(stream)], ends)


if __name__ == '__main__':
    counted.main()

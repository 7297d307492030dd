"""How the time of each walk grows with the records, references or chunks of a stranger: ten times as many take some ten times
as long. With GROWTH set the microseconds are printed."""
import io
import os
import time
import unittest

import counted
import simbegyor_ndef as ndef


def octets(*records):
    return b''.join(ndef.message_encoder(records))


class Dripping:
    """A stream that can neither seek nor show what comes."""

    def __init__(self, given):
        self.read = io.BytesIO(given).read


def time_of(walk):
    """The seconds of processor time of a walk: of five the fewest."""
    fewest = float('inf')
    for _ in range(5):
        before = time.process_time()
        walk()
        taken = time.process_time() - before
        fewest = min(fewest, taken)
        if taken > 1:
            break
    return fewest


def texts(count):
    return octets(*(ndef.TextRecord('Hello') for _ in range(count)))


def chunks(count):
    """A record in this number of chunks of two octets."""
    return b'\xb2\x03\x02a/bxx' + (count - 2) * b'\x36\x00\x02xx' + b'\x56\x00\x02xx'


def poster(count):
    made = ndef.SmartposterRecord('http://www.example.com')
    for number in range(count):
        made.set_title('Hello', 'x-%d' % number)
    return octets(made)


def select(count):
    """A select with this number of carriers, and the records to which they refer."""
    carriers = (('active', str(number)) for number in range(count))
    return octets(ndef.HandoverSelectRecord('1.2', None, *carriers), *(ndef.Record('a/b', str(number)) for number in range(count)))


def carrier(count):
    """A select whose one carrier has this number of references."""
    return octets(ndef.HandoverSelectRecord('1.2', None, ('active', *(count * ['']))))


class Growth(unittest.TestCase):
    def row(self, name, counts, walk_of):
        """Tests that the time grows with the count at most."""
        measured = []
        for count in counts:
            measured.append(time_of(walk_of(count)))
            if len(measured) > 1:
                times = counts[len(measured) - 1] / counts[len(measured) - 2]
                self.assertLess(measured[-1], 3.5 * times * measured[-2] + 0.002, '%s: %s seconds' % (name, measured))
        if os.environ.get('GROWTH'):
            print('Python', name, ', '.join(map(str, counts)), *('%.0f' % (1e6 * seconds) for seconds in measured), sep=' | ')

    def decoded(self, made, stream=None, looked=lambda record: None):
        """A walk over the records of what is made for a count."""
        def walk_of(count):
            given = made(count)
            return lambda: [looked(record) for record in ndef.message_decoder(stream(given) if stream else given)]
        return walk_of

    def test_records(self):
        most = (10, 100, 1000)
        self.row('records', most, self.decoded(texts, looked=lambda record: record.text))
        self.row('records of a stream', most, self.decoded(texts, io.BytesIO))
        self.row('records of a stream, octet by octet', most, self.decoded(texts, Dripping))

    def test_pieces(self):
        most = (40, 400, 4000)
        self.row('chunks of a record', most, self.decoded(chunks))
        self.row('chunks of a record of a stream', most, self.decoded(chunks, io.BytesIO))
        self.row('chunks of a record of a stream, octet by octet', most, self.decoded(chunks, Dripping))

    def test_payloads(self):
        most = (10, 100, 1000)
        self.row('titles of a poster', most, self.decoded(poster, looked=lambda record: record.titles))
        self.row('carriers of a handover', (5, 50, 500),
                 self.decoded(select, looked=lambda record: getattr(record, 'alternative_carriers', None)))
        self.row('references of a carrier', (25, 250), self.decoded(carrier, looked=lambda record: record.alternative_carriers))

    def test_fields(self):
        self.row('fields', (10, 100, 1000), lambda count: (lambda given: lambda: ndef.fields(given))(texts(count)))


if __name__ == '__main__':
    counted.main()

"""face.py FOLDER MILLISECONDS: times the module for Python: a message, the same with the value of each record, and decode_many for each of many
messages; and the parser of hand.py. With ndeflib installed as `ndef` it times that too."""
import pathlib
import sys
import time

import hand
import simbegyor_ndef

try:
    import ndef as ndeflib
except ImportError:
    ndeflib = None

VALUES = {'hello': lambda record: record.text, 'uri': lambda record: record.iri, 'poster': lambda record: record.title,
          'ascii-1M': lambda record: record.text, 'wide-1M': lambda record: record.text, 'records-1000': lambda record: record.text}


def least(call, milliseconds):
    """The least nanoseconds of one repetition, where call(n) repeats something n times, in batches of about five milliseconds."""
    begun, best, batch = time.process_time_ns(), float('inf'), 1
    while time.process_time_ns() - begun < milliseconds * 1e6:
        before = time.process_time_ns()
        call(batch)
        took = time.process_time_ns() - before
        best = min(best, took / batch)
        if took < 5e6:
            batch *= 2
    return best


def decoding(decoder, octets, value=None):
    """Decodes a message again and again, and reads the value of each record."""
    def call(times):
        for _ in range(times):
            records = list(decoder(octets))
            if value:
                for record in records:
                    value(record)
    return call


def decoding_many(octets):
    def call(times):
        for _ in simbegyor_ndef.decode_many([octets] * times):
            pass
    return call


def main():
    folder, milliseconds = pathlib.Path(sys.argv[1]), float(sys.argv[2])
    for name in ('hello', 'uri', 'poster', 'records-1000', 'ascii-1M', 'wide-1M'):
        octets = (folder / name).read_bytes()
        calls = [('read', decoding(simbegyor_ndef.message_decoder, octets)), ('hand-read', decoding(hand.parse, octets)),
                 ('many', decoding_many(octets))]
        if name in VALUES:
            calls.append(('value', decoding(simbegyor_ndef.message_decoder, octets, VALUES[name])))
        if name in VALUES and name != 'poster':
            calls.append(('hand-value', decoding(hand.parse, octets, VALUES[name])))
        if ndeflib:
            calls.append(('ndeflib', decoding(ndeflib.message_decoder, octets)))
        for operation, call in calls:
            print(operation, name, '%.1f' % least(call, milliseconds), flush=True)


main()

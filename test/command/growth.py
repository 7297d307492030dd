"""How the time of `ndef show` grows with the alternative carriers of a handover and the records to which they refer: ten times as many of
both take some ten times as long. Runs the program whose path is given, and prints the milliseconds. The last line is 'N passed, M failed'."""
import pathlib
import resource
import subprocess
import sys

sys.path.insert(0, str(pathlib.Path(__file__).resolve().parents[1]))
import harness  # noqa: E402

NDEF = sys.argv[1]
COUNTS = (500, 5000, 50000)


def record(flags, tnf, kind, name, payload):
    """A record in one chunk: the message's flags are the upper two bits of its first octet."""
    short, named = len(payload) < 256, bool(name)
    head = bytes([flags << 6 | short << 4 | named << 3 | tnf, len(kind)]) + len(payload).to_bytes(1 if short else 4, 'big')
    return head + (bytes([len(name)]) if named else b'') + kind + name + payload


def handover(count):
    """A select of this number of alternative carriers, and a record for each."""
    names = [b'%d' % number for number in range(count)]
    inner = b''.join(record((at == 0) << 1 | (at == count - 1), 1, b'ac', b'', b'\x01%c%s\x00' % (len(name), name))
                     for at, name in enumerate(names))
    records = [record(at == count - 1, 2, b'a/b', name, b'') for at, name in enumerate(names)]
    return record(2, 1, b'Hs', b'', b'\x12' + inner) + b''.join(records)


def time_of(given):
    """The seconds of processor time of a run: of three the fewest."""
    fewest = float('inf')
    for _ in range(3):
        before = resource.getrusage(resource.RUSAGE_CHILDREN)
        run = subprocess.run([NDEF, 'show', '--records', '65535'], input=given, capture_output=True)
        after = resource.getrusage(resource.RUSAGE_CHILDREN)
        if run.returncode != 0:
            return float('inf')
        fewest = min(fewest, after.ru_utime - before.ru_utime)
        if fewest > 1:
            break
    return fewest


times = [time_of(handover(count)) for count in COUNTS]
print('carriers of a handover', *COUNTS, *('%.1f ms' % (1e3 * seconds) for seconds in times), sep=' | ')
harness.count('ten times as many carriers take ten times as long', all(now < 35 * before + 0.02 for before, now in zip(times, times[1:])), str(times))
harness.finish()

"""python.py steps SECONDS: reads all of each message on standard input, which test/fuzz/messages.c writes, by the module, for so many
seconds. Looks whether the library says the same, whether a stream gives the same records, whether what is encoded again is the message, and
how many steps each message took: lines of the module that Python ran, and basic blocks of the library, where NDEF_STEPS names the
shared object with the counter.

python.py life COUNT: decodes COUNT messages, one after the other and again from the first, and looks whether memory grows."""
import ctypes
import io
import os
import pathlib
import sys
import time

import simbegyor_ndef as ndef
from simbegyor_ndef import _library as library

# The most lines of Python, and the most blocks of the library, for each byte of a message and 64 more. All that is done here with a record of
# three bytes takes some 370 lines, whatever the number of records.
MOST_LINES, MOST_BLOCKS = 150, 600
# The least messages a second; one in twenty at least is taken, and one in twenty refused.
LEAST = 10
MODULE = str(pathlib.Path(ndef.__file__).parent)
lines = [0]


def count_lines(frame, event, argument):
    """Counts the lines of the module that run."""
    if not frame.f_code.co_filename.startswith(MODULE):
        return None
    lines[0] += event == 'line'
    return count_lines


def messages():
    """The messages on standard input."""
    source = sys.stdin.buffer
    while len(head := source.read(4)) == 4:
        yield source.read(int.from_bytes(head, 'little'))


def decoded(octets):
    """The records of a message, and the error that ends them, as numbers."""
    records = []
    try:
        for record in ndef.message_decoder(octets):
            records.append(record)
    except ndef.DecodeError as error:
        return records, (error.number, error.place)
    return records, None


def look_into(record):
    """Reads each member that the class of a record has."""
    for name in dir(type(record)):
        if not name.startswith('_') and isinstance(getattr(type(record), name), property):
            value = getattr(record, name)
            if name in ('titles', 'alternative_carriers', 'icons'):
                list(value)
    str(record), repr(record), hash(record) if type(record).__hash__ else None


def hold(fact, what, octets):
    if not fact:
        sys.exit('FAILED: %s: %d bytes, %s' % (what, len(octets), octets.hex()[:1000]))


def look_at(octets):
    """Reads a message, and compares it with what the library says. Whether it is taken."""
    checked = library.Checked()
    limits = library.limits(ndef.Record.MAX_PAYLOAD_SIZE, 0)
    status = library.check(octets, library.size_of(len(octets)), limits, library.byref(checked)) if octets else library.OK
    records, error = decoded(octets)
    hold((error is None) == (status == library.OK), 'a message is taken where the library takes it', octets)
    hold(error is None or error == (checked.reason, checked.place), 'the refusal is the library\'s', octets)
    hold(error is not None or len(records) == checked.records, 'the records are as many as the library says', octets)
    streamed, stream_error = decoded(io.BytesIO(octets))
    hold(error is not None or streamed == records, 'a stream gives the same records', octets)
    hold(stream_error == error, 'a stream gives the same error', octets)
    for record in records:
        look_into(record)
    if error is None:
        again = b''.join(ndef.message_encoder(records))
        hold(decoded(again) == (records, None), 'what is encoded is the message', octets)
    return error is None


def steps_of_library():
    """The counter of the library, or one that stays 0."""
    name = os.environ.get('NDEF_STEPS')
    return ctypes.c_uint64.in_dll(ctypes.CDLL(name), 'fuzz_steps') if name else ctypes.c_uint64()


def fuzz(seconds):
    blocks, end, seen, taken, most_lines, most_blocks = steps_of_library(), time.time() + seconds, 0, 0, 0, 0
    for octets in messages():
        blocks.value = lines[0] = 0
        sys.settrace(count_lines)
        taken += look_at(octets)
        sys.settrace(None)
        length = len(octets) + 64
        most_lines, most_blocks = max(most_lines, lines[0] // length), max(most_blocks, blocks.value // length)
        hold(lines[0] <= MOST_LINES * length, 'the lines are a multiple of the length: %d' % lines[0], octets)
        hold(blocks.value <= MOST_BLOCKS * length, 'the steps of the library are a multiple of the length: %d' % blocks.value, octets)
        seen += 1
        if time.time() >= end:
            break
    print('%d messages, %d of them taken, at most %d lines and %d steps of the library a byte' % (seen, taken, most_lines, most_blocks))
    return seen >= LEAST * seconds and seen // 20 < taken < seen - seen // 20 and most_lines > 0 and (most_blocks > 0 or 'NDEF_STEPS' not in os.environ)


def resident():
    """The memory that the process has, in kB."""
    return int(pathlib.Path('/proc/self/statm').read_text().split()[1]) * 4


def live(count):
    all_messages, before = list(messages()), 0
    first = [None] * len(all_messages)
    for done in range(count):
        which = done % len(all_messages)
        records, error = decoded(all_messages[which])
        outcome = len(records), error
        if done < len(all_messages):
            first[which] = outcome
        hold(outcome == first[which], 'a message is answered as the first time', all_messages[which])
        if done == count // 10:
            before = resident()
    print('%d decodes, memory %d kB after a tenth, %d kB at the end' % (count, before, resident()))
    return resident() <= before + 1024


if len(sys.argv) != 3:
    sys.exit(__doc__)
sys.exit(0 if {'steps': fuzz, 'life': live}[sys.argv[1]](int(sys.argv[2])) else 1)

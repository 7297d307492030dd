#!/usr/bin/env python3
"""Rows of ndef-explain by size: runs it on inputs, names, lists of files and hexadecimal texts of many lengths, about powers of two
among them, and compares what it prints with what NDEF 1.0 says of these bytes. Memory is used up for it too. The last line is
'N passed, M failed'."""
import os
import pathlib
import re
import resource
import subprocess
import sys
import tempfile

EXPLAIN = str(pathlib.Path(__file__).resolve().parents[2] / 'out/bin/ndef-explain')
EMPTY = b'\xd0\0\0'
ABOUT = sorted({1, 10, 11, 100, 101, 200, 1000} | {2 ** power + more for power in range(1, 11) for more in (-1, 0, 1)})
counts = {True: 0, False: 0}


def explained(words, given=b'', folder=None, **more):
    return subprocess.run([EXPLAIN, *words], input=given, capture_output=True, cwd=folder, **more)


def count(name, passed, run):
    counts[passed] += 1
    if not passed:
        print('FAILED: %s: status %d, printed %r' % (name, run.returncode, run.stdout[:300]))


def octets_of(text):
    """The octets of the fields in the lines of one message, the later lines of a field among them."""
    return bytes.fromhex(''.join(''.join(re.findall(r'^(?:[0-9a-f]{8}| {8})  ?(?:  )?((?: [0-9a-f]{2})+)', line)) for line in text.splitlines()))


def unknown(payload):
    """A message of one record of type name format 5 (NDEF 1.0, TNF)."""
    short = len(payload) < 256
    return bytes([0xd5 if short else 0xc5, 0]) + len(payload).to_bytes(1 if short else 4, 'big') + payload


def inputs():
    sizes = ABOUT + sorted({2 ** power + more for power in range(12, 20) for more in (-1, 0, 1)}) + [60001, 1048576]
    for size in sizes:
        message = unknown(bytes(place * 7 % 256 for place in range(size)))
        for words, given in (([], message), (['--hex'], message.hex().encode()), (['--color', 'always'], message)):
            run = explained(words, given)
            text = re.sub(r'\x1b\[[0-9]*m', '', run.stdout.decode())
            count('an input of %d %s' % (size, words), run.returncode == 0 and octets_of(text) == message, run)
        run = explained(['--json'], message)
        count('the object of %d' % size, run.returncode == 0 and message[-size:].hex() in run.stdout.decode(), run)
    # Texts of these numbers of digits and blanks.
    for size in (length for length in sizes if length > 6):
        run = explained(['--hex'], b'd00000' + b' ' * (size - 6))
        count('a text of %d' % size, (run.returncode, run.stdout.count(b'\n')) == (0, 4), run)
    for count_ in ABOUT + [10000]:
        run = explained([], EMPTY * count_)
        count('%d messages' % count_, run.returncode == 0 and run.stdout.count(b'message ') == count_, run)
    # Records with payloads in two pieces, and how often a joined payload is told.
    for count_ in ABOUT + [2000]:
        records = b''.join(bytes([0x35 | (at == 0) << 7, 0, 1, 97, 0x16 | (at == count_ - 1) << 6, 0, 1, 98]) for at in range(count_))
        if count_ <= 1024:
            run = explained([], records)
        else:
            run = explained(['--records', str(count_)], records)
        count('%d payloads in pieces' % count_, run.returncode == 0 and run.stdout.count(b'payload of record ') == count_, run)
    # Texts with the reserved bit 6 of the status octet set, and a URI after them.
    for count_ in ABOUT + [20000]:
        records = b''.join(bytes([0x11 | (at == 0) << 7, 1, 1, 84, 0x40]) for at in range(count_)) + b'\x51\1\2U\1a'
        run = explained([], records)
        last = b'\nrecord %d goes on to byte %d\n' % (count_, 5 * count_)
        good = last in run.stdout and run.stdout.endswith(b'\nrecords sound: 1 of %d\n' % (count_ + 1))
        count('%d refused payloads' % count_, run.returncode == 1 and good, run)


def most():
    """The greatest input, and one byte more."""
    message = unknown(bytes(16777216 - 6))
    run = explained(['--payload', '16777216', '--json'], message)
    count('16777216 bytes', run.returncode == 0 and b'"length":16777216,"message":1' in run.stdout, run)
    run = explained(['--payload', '16777216'], message + b'\0')
    count('one byte more', (run.returncode, run.stdout) == (3, b'fault: input too long\n'), run)
    for size in (65535, 65536, 65537, 131072, 1048576, 8388608):
        run = explained(['--payload', '16777216', '--json'], unknown(bytes(size - 6)))
        count('%d bytes' % size, run.returncode == 0 and b'"length":%d,"message":1' % size in run.stdout, run)


def names(folder):
    for length in (length for length in ABOUT + [254, 255, 4000] if length < 256 or length == 4000):
        name = 'a' * length if length < 256 else './' * 1999 + 'aa'
        pathlib.Path(folder, name).write_bytes(EMPTY)
        run = explained([name], folder=folder)
        count('a name of %d' % length, run.returncode == 0 and run.stdout.startswith(b'file "%s"\nmessage 1 ' % name.encode()), run)
        run = explained(['--json', name], folder=folder)
        count('its object', run.returncode == 0 and b'"file":"%s"' % name.encode() in run.stdout, run)
        run = explained(['--json', name + 'none'], folder=folder)
        count('no such file', (run.returncode, run.stdout) == (3, b'{"fault":"reading","file":"%snone"}\n' % name.encode()), run)
    run = explained([''], folder=folder)
    count('the empty name', (run.returncode, run.stdout) == (3, b'file ""\nfault: reading\n'), run)
    run = explained(['--json', ''], folder=folder)
    count('the object of the empty name', (run.returncode, run.stdout) == (3, b'{"fault":"reading","file":""}\n'), run)
    for number in ABOUT:
        run = explained(['a'] * number, folder=folder)
        count('%d files' % number, run.returncode == 0 and run.stdout.count(b'file "a"\nmessage 1 ') == number, run)
        run = explained(['a'] * number + ['--hex', '--hex'], folder=folder)
        count('an option twice after %d files' % number, run.returncode == 2 and run.stdout.startswith(b'usage: '), run)


def memory():
    """With more and more address space an input is told, or want of memory is, or nothing is; the status is 3 then."""
    given, said = unknown(bytes(1048576)), set()
    for words in ([], ['--json']):
        for limit in range(2500, 120000, 500):
            run = explained(words, given, preexec_fn=lambda: resource.setrlimit(resource.RLIMIT_AS, (limit * 1024, limit * 1024)))
            if run.returncode == 0:
                break
            if run.returncode == 3:
                said.add(run.stdout)
        count('memory is wanting %s' % words, run.returncode == 0, run)
    count('want of memory is told', {b'fault: memory\n', b'{"fault":"memory"}\n'} <= said <= {b'', b'fault: memory\n',
          b'{"fault":"memory"}\n'}, run)


def main():
    if os.environ.get('PYTHONUTF8') is None:
        sys.stdout.reconfigure(encoding='utf-8')
    inputs()
    most()
    with tempfile.TemporaryDirectory() as folder:
        names(folder)
    if not os.environ.get('NDEF_EMULATED'):  # (an emulator takes memory of its own)
        memory()
    print('%d passed, %d failed' % (counts[True], counts[False]))
    sys.exit(counts[False] > 0)


main()

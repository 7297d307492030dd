"""Tests of examples/python/read_folder.py: some hundred dumps of tags, read by a pool of processes, and by Dask where NDEF_DASK is set
(test/python/run sets it for a Python that has Dask)."""
import os
import pathlib
import subprocess
import sys
import tempfile
import unittest

import counted
from cases import TOP

PROGRAM = str(TOP / 'examples/python/read_folder.py')
COUNT = 350


def dump(number):
    """A dump and what is printed of it: a text and a URI (NDEF 1.0, RTD Text 1.0, RTD URI 1.0); every tenth one is cut, every 50th has
    no octet."""
    text, uri = 'Hello %03d' % number, 'a%03d' % number
    octets = b'\x91\x01\x0cT\x02en' + text.encode() + b'\x51\x01\x05U\x01' + uri.encode()
    printed = "NDEF Text Record ID '' Text '%s' Language 'en' Encoding 'UTF-8'; NDEF Uri Record ID '' Resource 'http://www.%s'" % (text, uri)
    if number % 50 == 0:
        return b'', ''
    return (octets, printed) if number % 10 else (octets[:-1], 'refused at %d: EndOfInput: The input ends within a message.' % (len(octets) - 1))


@unittest.skipUnless(counted.has_semaphores(), 'no semaphores')
class Folder(unittest.TestCase):
    def run_on(self, files, *words):
        """The status, the lines and the progress of a run over a folder with these files."""
        with tempfile.TemporaryDirectory() as folder:
            for name, octets in files:
                pathlib.Path(folder, name).write_bytes(octets)
            pathlib.Path(folder, 'a folder within').mkdir()
            done = subprocess.run([sys.executable, PROGRAM, folder, *words], stdout=subprocess.PIPE, stderr=subprocess.PIPE)
        return done.returncode, done.stdout.decode().splitlines(), done.stderr.decode().splitlines()

    def look(self, *words):
        dumps = [('%03d.bin' % number, *dump(number)) for number in range(COUNT)]
        status, lines, progress = self.run_on([part[:2] for part in dumps], *words)
        self.assertEqual((status, lines), (1, ['%s: %s' % (name, printed) for name, _, printed in dumps]))
        self.assertEqual(progress, ['%d of 350 files' % count for count in (100, 200, 300, 350)] + ['322 of 350 files hold a message'])

    def test_a_pool(self):
        self.look('--workers', '3')

    def test_names_and_texts_of_strangers(self):
        hostile = b'\xd1\x01\x05T\x02en\x1b\n'
        printed = "NDEF Text Record ID '' Text '\\x1b\\n' Language 'en' Encoding 'UTF-8'"
        self.assertEqual(self.run_on([('a\n\xe9.bin', hostile)], '--workers', '1')[:2], (0, ['a\\n\\xe9.bin: ' + printed]))
        self.assertEqual(self.run_on([])[:2], (0, []))

    if 'NDEF_DASK' in os.environ:
        def test_dask(self):
            self.look('--dask', '--workers', '2')


if __name__ == '__main__':
    counted.main()

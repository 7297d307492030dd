"""What may help where octets are refused, to a program: test/faces/hints.txt, and the sentences."""
import pathlib
import pickle
import re
import unittest

import counted
import simbegyor_ndef as ndef

TABLE = pathlib.Path(__file__).parents[1] / 'faces/hints.txt'
EMPTY = bytes.fromhex('e11012000300fe')


def release_of(text):
    """The first two numbers of the release that a text names."""
    return tuple(map(int, re.search(r'(\d+)\.(\d+)', text).groups()))


def rows():
    """The hint of each row of this release, None where there is none, and its octets."""
    since = ()
    for line in TABLE.read_text().splitlines():
        if line.startswith('# since '):
            since = release_of(line)
        elif not line.startswith('#'):
            *numbers, digits = line.split()
            kind, place, length = map(int, numbers)
            if since <= release_of(ndef.__version__):
                yield (kind, place, length) if kind else None, bytes.fromhex(digits.strip('-'))
            since = ()


class Hints(unittest.TestCase):
    def test_rows(self):
        """Each row has its hint."""
        for wanted, octets in rows():
            with self.subTest(octets.hex()):
                self.assertEqual(ndef.find_hint(octets), wanted)

    def test_texts(self):
        """Each kind has a sentence, whatever the library knows of it."""
        for kind in ndef.HintKind:
            with self.subTest(kind.name):
                self.assertRegex(ndef.FoundHint(kind, 9, 0).text, r'[.?]$')

    def test_errors(self):
        """An error has it where it has the octets, and so has its copy."""
        for wanted, octets in rows():
            if octets and wanted:
                with self.subTest(octets.hex()), self.assertRaises(ndef.DecodeError) as raised:
                    ndef.fields(octets)
                self.assertEqual(raised.exception.found_hint, wanted)
                self.assertEqual(pickle.loads(pickle.dumps(raised.exception)).found_hint, wanted)
        self.assertIsNone(ndef.DecodeError('a reason').found_hint)

    def test_what_is_no_octets(self):
        with self.assertRaises(TypeError):
            ndef.find_hint('d00000')
        with self.assertRaises(ValueError):
            ndef.find_hint(EMPTY, 'loose')


if __name__ == '__main__':
    counted.main()

"""Tests of what the module writes: nothing that its decoder refuses, unless that is asked for. And of what reads beside the
strict decoder: checks of octets in parts, and errors='relax'; of arguments that are wrong; and of `pip install -e`."""
import asyncio
import email
import io
import itertools
import os
import pathlib
import pickle
import re
import runpy
import subprocess
import sys
import tempfile
import unittest
from unittest import mock

import counted
import simbegyor_ndef as ndef
from cases import TOP, cases, reasons
from test_package import MAKER

REASONS = reasons()
FIRST = ndef.Record('a/b', 'i', b'')
# Records that have octets and that the decoder refuses after FIRST: the place in the record and the reason, by the standards.
REFUSED = (
    (ndef.Record('urn:nfc:wkt:T'), 3, 'DoesNotFit', 'A text (`T`) has at least 1 octet; 0 were given.'),
    (ndef.Record('urn:nfc:wkt:U', '', b'\x24'), 4, 'UriCode', 'The URI identifier codes from 24 to FF (hexadecimal) are reserved.'),
    (ndef.Record('urn:nfc:wkt:T', '', b'\x42en'), 4, 'TextBit', 'Bit 6 of the status octet of a text is reserved: it has to be 0.'),
    (ndef.Record('urn:nfc:wkt:T', '', b'\x3fabcde'), 4, 'DoesNotFit', 'The language code has 63 octets; 5 are left in the payload.'))


def octets(*records, **how):
    return b''.join(ndef.message_encoder(records, **how))


class Writing(unittest.TestCase):
    def test_a_record_without_octets(self):
        with self.assertRaises(ndef.EncodeError) as caught:
            octets(FIRST, ndef.HandoverRequestRecord('1.3'))
        self.assertEqual((caught.exception.record, caught.exception.at, caught.exception.reason), (1, None, 'BadArgument'))

    def test_streams_and_generators(self):
        stream = io.BytesIO()
        with self.assertRaises(ndef.EncodeError):
            list(ndef.message_encoder([FIRST, REFUSED[0][0]], stream))
        self.assertEqual(stream.getvalue(), octets(FIRST, FIRST)[:8])
        encoder = ndef.message_encoder()
        encoder.send(None)
        encoder.send(FIRST)
        encoder.send(REFUSED[1][0])
        self.assertRaises(ndef.EncodeError, encoder.send, None)
        loose = ndef.message_encoder(unchecked=True)
        self.assertEqual([loose.send(given) for given in (None, REFUSED[1][0], None)][2], bytes.fromhex('d101015524'))

    def test_no_record(self):
        for given in (None, 'text', 3):
            self.assertRaisesRegex(TypeError, 'a Record is needed, not', list, ndef.message_encoder([given]))
            self.assertRaisesRegex(TypeError, 'a Record is needed, not', list, ndef.message_encoder([FIRST, given]))


class Reading(unittest.TestCase):
    def test_a_checker_answers_as_the_decoder(self):
        for line, typed, given, answer, _ in cases():
            if not typed or not given:
                continue
            for step in (1, 7, len(given)):
                checker, found = ndef.Checker(), None
                with self.subTest(line, step=step):
                    try:
                        for at in range(0, len(given), step):
                            found = checker.feed(memoryview(given)[at:at + step])
                    except ndef.DecodeError as error:
                        self.assertEqual((error.place, error.reason), (int(answer[1]), REASONS[int(answer[2])]))
                        self.assertRaises(ndef.DecodeError, checker.feed, b'')
                    else:
                        self.assertEqual(found is not None, answer[0] == 'accepted')
                        self.assertTrue(found or answer[0] == 'more' or answer[2] == '24')
                        self.assertEqual(checker.place, int(answer[1]) if found else len(given))
                        self.assertEqual(found, checker.feed(b'\0'[:bool(found)]))

    def test_a_checker_of_a_stream_of_asyncio(self):
        async def first_message(reader):
            checker, taken = ndef.Checker(), b''
            while True:
                part = await reader.read(5)
                taken += part
                found = checker.feed(part)
                if found or not part:
                    return found, taken

        async def run():
            reader = asyncio.StreamReader()
            reader.feed_data(octets(FIRST, ndef.TextRecord('Hello')) + b'more')
            reader.feed_eof()
            return await first_message(reader)
        found, taken = asyncio.run(run())
        self.assertEqual((found, found.length, found.records, taken[:1]), (ndef.Checked(20, 2), 20, 2, b'\x9a'))

    def test_arguments_of_a_checker(self):
        self.assertRaises(ValueError, ndef.Checker, 'lenient')
        self.assertRaises(TypeError, ndef.Checker().feed, 'text')
        self.assertEqual(ndef.Checker('standard').feed(bytes.fromhex('d101015524')), (5, 1))

    def test_relaxed(self):
        given = octets(FIRST, *[record for record, *_ in REFUSED], ndef.TextRecord('Hello'), unchecked=True)
        for source in (given, io.BytesIO(given)):
            first, *bad, last = ndef.message_decoder(source, errors='relax')
            self.assertEqual((first, first.refusal, last.text, last.refusal), (FIRST, None, 'Hello', None))
            self.assertEqual([(type(record), record) for record in bad], [(ndef.Record, record) for record, *_ in REFUSED])
            self.assertEqual([record.refusal.reason for record in bad], [reason for _, _, reason, _ in REFUSED])
            self.assertEqual([record.refusal.place for record in bad], [0, 0, 0, 0])
            self.assertRaises(ndef.EncodeError, octets, first, *bad, last)
            self.assertEqual(octets(first, *bad, last, unchecked=True), given)
            self.assertEqual([vars(record.refusal)['place'] for record in pickle.loads(pickle.dumps(bad))], [0, 0, 0, 0])
        with self.assertRaises(ndef.DecodeError):
            list(ndef.message_decoder(given))

    def test_relaxed_is_strict_of_messages(self):
        for line, typed, given, answer, _ in cases():
            if typed or not given:
                continue
            wanted = '' if answer[0] == 'accepted' else 'EndOfInput' if answer[0] == 'more' else REASONS[int(answer[2])]
            with self.subTest(line):
                try:
                    self.assertTrue(list(ndef.message_decoder(given, errors='relax')))
                    self.assertIn(wanted, ('', 'BeginMissing', 'BeginAgain', 'EndOfInput'))
                except ndef.DecodeError as error:
                    self.assertEqual((error.place, error.reason), (int(answer[1]), wanted))

    def test_relaxed_of_begins_and_ends(self):
        """As in ndeflib: MB (0x80) may be missing from the first header and be set in others, and ME (0x40) be missing from the last."""
        records = [FIRST, ndef.TextRecord('Hello'), ndef.UriRecord('tel:1')]
        for count in (1, 2, 3):
            whole = octets(*records[:count])
            heads = [field.at for field in ndef.fields(whole) if field.name == 'header']
            for *begins, end in itertools.product((0, 1), repeat=count + 1):
                given = bytearray(whole)
                for head, is_other in zip(heads, begins):
                    given[head] ^= 0x80 * is_other
                given[heads[-1]] ^= 0x40 * end
                self.assertEqual(list(ndef.message_decoder(given, errors='relax')), records[:count])
                for cut in range(1, len(given)) if end else ():
                    self.assertEqual(cut not in heads, self.is_refused(given[:cut], errors='relax'))
                for strict, words in ((given, {}), (io.BytesIO(given), {'errors': 'relax'})):
                    self.assertEqual(self.is_refused(strict, **words), any((*begins, end)))

    def is_refused(self, given, **words):
        try:
            list(ndef.message_decoder(given, **words))
        except ndef.DecodeError:
            return True
        return False

    def test_records_that_differ_in_one_thing(self):
        one = ndef.Record('text/plain', 'a', b'x')
        for other in (ndef.Record('text/plain', 'b', b'x'), ndef.Record('text/plain', '', b'x'), ndef.Record('text/plain', 'a', b'y'),
                      ndef.Record('text/html', 'a', b'x')):
            self.assertFalse(one == other)
            self.assertTrue(one != other)
        self.assertEqual(one, ndef.Record('text/plain', 'a', b'x'))

    def test_known_types_that_are_wrong(self):
        class NoRecord(ndef.record.GlobalRecord):
            _type = 'urn:nfc:ext:example.com:x'

            @classmethod
            def _decode_payload(cls, octets, errors):
                return octets
        given = octets(ndef.Record('urn:nfc:ext:example.com:x', 'i', b'abc'))
        for known in ([ndef.TextRecord], 'text', {3: ndef.TextRecord}, {'urn:nfc:wkt:T': 3}, {'urn:nfc:wkt:T': int},
                      {b'urn:nfc:wkt:T': ndef.TextRecord}):
            self.assertRaisesRegex(TypeError, 'known_types has', next, ndef.message_decoder(given, known_types=known))
            self.assertRaisesRegex(TypeError, 'known_types has', ndef.decode_many, [given], known)
        self.assertRaises(ValueError, next, ndef.message_decoder(given, known_types={'no type': ndef.TextRecord}))
        self.assertRaisesRegex(TypeError, 'NoRecord._decode_payload', next,
                               ndef.message_decoder(given, known_types={NoRecord._type: NoRecord}))


class Package(unittest.TestCase):
    def metadata(self, home):
        with mock.patch.dict(os.environ, {'NDEF_HOME': home}):
            return runpy.run_path(str(TOP / 'bindings/python/backend.py'))['metadata']().decode()

    def test_links_of_the_package(self):
        """None leads to a file that the package lacks."""
        links = re.compile(r'\[[^\]]*\]\(([^)\s]+)\)')
        self.assertEqual([link for link in links.findall(self.metadata('')) if not re.match('#|https:', link)], [])
        data = self.metadata('https://example.com/simbegyor/')
        self.assertEqual([link for link in links.findall(data) if not re.match('#|https:', link)], [])
        self.assertIn('(https://example.com/simbegyor/docs/EXPLAIN.md)', data)
        self.assertEqual(email.message_from_string(data).get_all('Project-URL'),
                         ['Homepage, https://example.com/simbegyor', 'Changelog, https://example.com/simbegyor/CHANGELOG.md',
                          'Documentation, https://example.com/simbegyor/bindings/python/README.md'])

    @unittest.skipUnless(MAKER, 'no Python here has pip')
    def test_editable(self):
        """The module is used where it lies, and changes of it are seen."""
        with tempfile.TemporaryDirectory() as folder:
            copied = pathlib.Path(folder, 'copy')
            copied.mkdir()
            names = ('pyproject.toml', 'bindings/python', 'VERSION', 'LICENSE-MIT', 'LICENSE-APACHE', 'dist/SOURCE')
            packed = subprocess.run(['tar', '-C', str(TOP), '-cf', '-', *names], stdout=subprocess.PIPE, check=True)
            subprocess.run(['tar', '-C', str(copied), '-xf', '-'], input=packed.stdout, check=True)
            environment = {**os.environ, 'NDEF_LIB_DIR': str(TOP / 'out/lib'), 'PYTHONPATH': ''}
            subprocess.run([MAKER, '-m', 'venv', '--system-site-packages', folder + '/here'], check=True)
            python = folder + '/here/bin/python'
            done = subprocess.run([python, '-m', 'pip', 'install', '--no-index', '--no-deps', '-e', str(copied)], env=environment,
                                  stdout=subprocess.PIPE, stderr=subprocess.STDOUT)
            self.assertEqual(done.returncode, 0, done.stdout.decode())
            with open(copied / 'bindings/python/simbegyor_ndef/text.py', 'a') as file:
                file.write('\nCHANGED = 7\n')
            said = subprocess.run([python, '-c', 'import simbegyor_ndef as ndef\nprint(ndef.text.CHANGED, ndef.__version__, '
                                   'next(ndef.message_decoder(bytes.fromhex("d101085402656e48656c6c6f"))).text)'], env=environment,
                                  cwd=folder, stdout=subprocess.PIPE, check=True)
            self.assertRegex(said.stdout.decode(), r'^7 \d+\.\d+\.\d+(\.dev0)? Hello\n$')

    @unittest.skipUnless(any(os.access(os.path.join(place, 'mypy'), os.X_OK) for place in os.get_exec_path()), 'there is no mypy')
    def test_programs_of_the_page_are_typed(self):
        with tempfile.TemporaryDirectory() as folder:
            page = (TOP / 'bindings/python/README.md').read_text()
            for block in re.findall(r'^```python\n(.*?)^```$', page, re.M | re.S):
                pathlib.Path(folder, re.match(r'# (\w+\.py)\n', block)[1]).write_text(block)
            done = subprocess.run(['mypy', '--strict', '--python-version', '3.9', '--cache-dir', folder + '/cache', '.'], cwd=folder,
                                  env={**os.environ, 'MYPYPATH': str(TOP / 'bindings/python'), 'PYTHONPATH': ''}, stdout=subprocess.PIPE)
            self.assertEqual(done.returncode, 0, done.stdout.decode())


if __name__ == '__main__':
    counted.main()

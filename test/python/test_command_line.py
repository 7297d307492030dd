"""The module as a program, `python3 -m simbegyor_ndef`: its files, what it prints, its status and what goes to standard error."""
import json
import os
import pathlib
import subprocess
import sys
import tempfile
import unittest

import counted
import simbegyor_ndef as ndef

HELLO = bytes.fromhex('d101085402656e48656c6c6f')


def octets(*records):
    return b''.join(ndef.message_encoder(records))


class CommandLine(unittest.TestCase):
    def run_in(self, folder, words, encoding='utf-8', **more):
        environment = {**os.environ, 'PYTHONPATH': os.path.dirname(ndef.__path__[0]), 'PYTHONIOENCODING': encoding}
        return subprocess.run([sys.executable, '-m', 'simbegyor_ndef', *words], stderr=subprocess.PIPE, env=environment, cwd=folder,
                              **{'stdout': subprocess.PIPE, **more})

    def run_with(self, *words, files=(), given=b''):
        """The status and the lines of a run with these files, whose names are 0.bin, 1.bin and so on."""
        with tempfile.TemporaryDirectory() as folder:
            for number, content in enumerate(files):
                pathlib.Path(folder, '%d.bin' % number).write_bytes(content)
            done = self.run_in(folder, [*words, *('%d.bin' % number for number in range(len(files)))], input=given)
            self.assertEqual(done.stderr, b'')
            return done.returncode, done.stdout.decode().splitlines()

    def test_several_files(self):
        hello = "NDEF Text Record ID '' Text 'Hello' Language 'en' Encoding 'UTF-8'"
        self.assertEqual(self.run_with(files=[HELLO]), (0, [hello]))
        self.assertEqual(self.run_with(files=[HELLO + HELLO, HELLO]), (0, ['0.bin: ' + hello, '0.bin: ' + hello, '1.bin: ' + hello]))
        status, lines = self.run_with(files=[HELLO + b'\xff', HELLO])
        self.assertEqual((status, lines), (1, ['0.bin: ' + hello, '0.bin: refused at 12: 1 ReservedTnf', '1.bin: ' + hello]))

    def test_check(self):
        """The lines are those of `ndef check` (docs/COMMAND.md)."""
        self.assertEqual(self.run_with('check', files=[HELLO + HELLO]), (0, ['message 1 at 0: records 1, bytes 12', 'message 2 at 12: records 1, bytes 12']))
        self.assertEqual(self.run_with('check', files=[HELLO + HELLO[:11], b'', octets(ndef.Record(), ndef.Record())]),
                         (1, ['0.bin: message 1 at 0: records 1, bytes 12', '0.bin: refused at 23: 24 EndOfInput',
                              '2.bin: message 1 at 0: records 2, bytes 6']))
        status, lines = self.run_with('check', '--json', files=[HELLO + b'\xff'])
        self.assertEqual((status, [json.loads(line) for line in lines]), (1, [{'message': 1, 'at': 0, 'records': 1, 'bytes': 12},
                         {'refused': {'place': 12, 'number': 1, 'reason': 'ReservedTnf'}}]))

    def test_json_is_ascii(self):
        """JSON has texts of any terminal by its own escapes."""
        for words, value in (([], 'é€😀'), (['explain'], 'é')):
            given = octets(ndef.TextRecord(value), ndef.Record('text/plain', 'é', b'x'))
            _, lines = self.run_with(*words, '--json', files=[given])
            self.assertTrue(lines and all(line.isascii() for line in lines), lines)
        self.assertIn(value, str([json.loads(line) for line in self.run_with('--json', files=[given])[1]]))

    def test_explain(self):
        """The lines are those of `ndef-explain` without meanings (docs/EXPLAIN.md)."""
        poster = octets(ndef.SmartposterRecord('http://www.example.com/')) + bytes.fromhex('d101035442656e')
        head = ['message 1 at 0: bytes 22', '00000000  d1                       header', '00000001  02                       TYPE_LENGTH',
                '00000002  11                       PAYLOAD_LENGTH', '00000003  53 70                    TYPE',
                '00000005    d1                       header', '00000006    01                       TYPE_LENGTH',
                '00000007    0d                       PAYLOAD_LENGTH', '00000008    55                       TYPE',
                '00000009    01                       identifier code', '0000000a    65 78 61 6d 70 6c 65 2e  URI', '            63 6f 6d 2f']
        last = ['00000016  d1                       header', '00000017  01                       TYPE_LENGTH',
                '00000018  03                       PAYLOAD_LENGTH', '00000019  54                       TYPE']
        wrong = ['0000001a  42  ^', 'refused at 26 (0x0000001a): 15 TextBit', 'Bit 6 of the status octet of a text is reserved: it has to be 0.']
        self.assertEqual(self.run_with('explain', files=[poster]), (1, head + last + wrong))
        self.assertEqual(self.run_with('explain', files=[poster[:22]]), (0, head))
        status, lines = self.run_with('explain', files=[poster[:24]])
        self.assertEqual((status, lines[:-1]), (1, [*head, *last[:2], 'refused at 24 (0x00000018): 24 EndOfInput']))
        self.assertEqual(self.run_with('explain', given=b''), (0, []))

    def test_sentences_of_explain(self):
        """The last lines, as docs/EXPLAIN.md and test/explain/rows.txt have them."""
        late, code, block = bytes.fromhex('d10106543f6162636465'), bytes.fromhex('d1010955687474703a2f2f6162'), b'\x01' + HELLO
        wanted = 'The language code has 63 octets; 5 are left in the payload.'
        left_out = '68 (hexadecimal) is the letter h: was the identifier code left out?'
        near = 'The bytes may begin with what surrounds a message on a tag; a message begins at byte 1.'
        cases = ((late, 4, 23, 'DoesNotFit', wanted, None), (HELLO + late, 16, 23, 'DoesNotFit', wanted, None),
                 (HELLO[:2], 2, 24, 'EndOfInput', '1 octet of PAYLOAD_LENGTH is missing.', None),
                 (code, 4, 19, 'UriCode', None, left_out), (HELLO + code, 16, 19, 'UriCode', None, left_out),
                 (block, 0, 2, 'BeginMissing', None, near), (HELLO + block, 12, 2, 'BeginMissing', None, None))
        _, lines = self.run_with('explain', files=[case[0] for case in cases])
        _, objects = self.run_with('explain', '--json', files=[case[0] for case in cases])
        objects = [one['refused'] for one in map(json.loads, objects) if 'refused' in one]
        for file, (given, at, number, reason, sentence, hint) in enumerate(cases):
            with self.subTest(given.hex()):
                before, meant = '%d.bin: ' % file, sentence or ndef.DecodeError('', 0, number).sentence
                last = ['refused at %d (0x%08x): %d %s' % (at, at, number, reason), meant] + ['hint: %s' % hint] * (hint is not None)
                self.assertEqual([line for line in lines if line.startswith(before)][-len(last):], [before + line for line in last])
                self.assertEqual(objects[file], {'place': at, 'number': number, 'reason': reason, 'sentence': meant, **({'hint': hint} if hint else {})})

    # An action that is reserved, and a control character in a URI of the long form (test/explain/rows.txt); two records with one id.
    ACTION = bytes.fromhex('d1020d53 70 91010255 0161 51030161 637403')
    LONG = bytes.fromhex('c1010000 000355 04610a')
    IDS = bytes.fromhex('9d00000161 5d00000161')

    def test_remarks_of_explain(self):
        """They stand where docs/EXPLAIN.md says: after the field, and after all fields of the message."""
        size = 'The payload length 3 fits one octet (SR): the message could be 3 bytes shorter.'
        _, lines = self.run_with('explain', given=self.LONG)
        self.assertEqual([line for line in lines if line[10:12] != '55'], [
            'message 1 at 0: bytes 10', '00000000  c1                       header', '00000001  01                       TYPE_LENGTH',
            '00000002  00 00 00 03              PAYLOAD_LENGTH', 'remark: ' + size, '00000007  04                       identifier code',
            '00000008  61 0a                    URI', 'remark: The URI has a control character.'])
        _, lines = self.run_with('explain', given=self.ACTION + self.IDS)
        again = 'Another record has the same id.'
        self.assertEqual([(at, line) for at, line in enumerate(lines) if line.startswith('remark: ')],
                         [(16, 'remark: The action 3 is reserved.'), (28, 'remark: record 1: ' + again), (29, 'remark: record 2: ' + again)])
        _, lines = self.run_with('explain', '--json', given=self.LONG + self.IDS)
        first, second = map(json.loads, lines)
        self.assertEqual([part.get('remark') for part in first['fields']], [None, None, size, None, None, 'The URI has a control character.'])
        self.assertEqual(('remarks' in first, second['remarks']), (False, [{'record': number, 'sentence': again} for number in (1, 2)]))

    def test_remarks_of_many_records(self):
        """Records are compared in messages of at most 64."""
        for count, count_of_remarks in ((64, 64), (65, 0)):
            given = b'\x9d\0\0\1a' + (count - 2) * b'\x1d\0\0\1a' + b'\x5d\0\0\1a'
            _, lines = self.run_with('explain', given=given)
            self.assertEqual(sum(line.startswith('remark: record ') for line in lines), count_of_remarks)

    def test_nothing_is_strange(self):
        """Remarks are on what is accepted alone."""
        for given in (HELLO, self.LONG[:9]):
            for words in (['explain'], ['explain', '--json']):
                self.assertNotIn('remark', '\n'.join(self.run_with(*words, given=given)[1]))

    def test_explain_in_json(self):
        status, lines = self.run_with('explain', '--json', files=[HELLO + HELLO[:3]])
        first, second, third = map(json.loads, lines)
        names = ['header', 'TYPE_LENGTH', 'PAYLOAD_LENGTH', 'TYPE', 'status', 'language code', 'text']
        self.assertEqual((status, first['message'], first['at'], first['length'], [part['name'] for part in first['fields']]), (1, 1, 0, 12, names))
        self.assertEqual(first['fields'][6], {'at': 7, 'length': 5, 'depth': 0, 'name': 'text', 'octets': '48656c6c6f'})
        self.assertEqual((second['message'], second['at'], [(part['at'], part['name']) for part in second['fields']]),
                         (2, 12, list(zip((12, 13, 14), names))))
        self.assertEqual(third, {'refused': {'place': 15, 'number': 24, 'reason': 'EndOfInput', 'sentence': '1 octet of TYPE is missing.'}})

    def test_the_first_word(self):
        """Only the first word may be one of the three; `show` is meant without it."""
        hello = "NDEF Text Record ID '' Text 'Hello' Language 'en' Encoding 'UTF-8'"
        self.assertEqual(self.run_with('show', files=[HELLO]), (0, [hello]))
        with tempfile.TemporaryDirectory() as folder:
            pathlib.Path(folder, 'check').write_bytes(HELLO)
            for words in (['./check'], ['show', 'check'], ['--', 'check']):
                done = self.run_in(folder, words)
                self.assertEqual((done.returncode, done.stdout.decode()), (0, hello + '\n'))

    def test_json(self):
        poster = octets(ndef.SmartposterRecord('http://www.example.com', 'Title', 'save'))
        status, lines = self.run_with('--json', files=[HELLO + poster + b'\xff'])
        objects = [json.loads(line) for line in lines]
        self.assertEqual((status, len(objects)), (1, 3))
        self.assertEqual((objects[0]['message'], objects[0]['at'], objects[0]['text']), (1, 0, 'Hello'))
        self.assertEqual((objects[1]['message'], objects[1]['at'], objects[1]['iri'], objects[1]['titles'], objects[1]['action']),
                         (2, 12, 'http://www.example.com', {'en': 'Title'}, 'save'))
        self.assertEqual(objects[2], {'refused': {'place': 12 + len(poster), 'number': 1, 'reason': 'ReservedTnf'}})

    def test_json_of_each_attribute(self):
        """What an object has is what the record has: octets in digits, named tuples as objects."""
        poster = ndef.SmartposterRecord('tel:1', {'en': 'a', 'de': 'b'}, 7, None, 5, 'a/b')
        request = ndef.HandoverRequestRecord('1.3', 9, ('active', 'a', 'b'), ('inactive', 'c'))
        select, carrier = ndef.HandoverSelectRecord('1.2', (9, b'x')), ndef.HandoverCarrierRecord('a/b', b'xy', 'n')
        status, lines = self.run_with('--json', files=[octets(poster, request, select, carrier, ndef.Record('a/b', 'm', b'\xff'))])
        wanted = [{'type': 'urn:nfc:wkt:Sp', 'name': '', 'iri': 'tel:1', 'titles': {'en': 'a', 'de': 'b'}, 'action': 7, 'resource_size': 5,
                   'resource_type': 'a/b', 'data': poster.data.hex()},
                  {'type': 'urn:nfc:wkt:Hr', 'name': '', 'version_string': '1.3', 'collision_resolution_number': 9, 'data': request.data.hex(),
                   'alternative_carriers': [
                       {'carrier_power_state': 'active', 'carrier_data_reference': 'a', 'auxiliary_data_reference': ['b']},
                       {'carrier_power_state': 'inactive', 'carrier_data_reference': 'c', 'auxiliary_data_reference': []}]},
                  {'type': 'urn:nfc:wkt:Hs', 'name': '', 'version_string': '1.2', 'error': {'error_reason': 9, 'error_data': '78'},
                   'alternative_carriers': [], 'data': select.data.hex()},
                  {'type': 'urn:nfc:wkt:Hc', 'name': 'n', 'carrier_type': 'a/b', 'carrier_data': '7879', 'data': carrier.data.hex()},
                  {'type': 'a/b', 'name': 'm', 'data': 'ff'}]
        self.assertEqual((status, [json.loads(line) for line in lines]), (0, [{'message': 1, 'at': 0, **part} for part in wanted]))

    def test_json_of_several_files(self):
        """Each file's messages are counted from 1, and places from its front."""
        status, lines = self.run_with('--json', files=[HELLO + HELLO, b'\xff', HELLO + HELLO[:5], b'', HELLO])
        objects = [json.loads(line) for line in lines]
        self.assertEqual([part.get('refused') or (part['message'], part['at']) for part in objects],
                         [(1, 0), (2, 12), {'place': 0, 'number': 1, 'reason': 'ReservedTnf'}, (1, 0),
                          {'place': 17, 'number': 24, 'reason': 'EndOfInput'}, (1, 0)])
        self.assertEqual(status, 1)
        self.assertEqual(self.run_with('--json', '--hex', files=[b'0']), (1, ['{"refused": {"reason": "hex: odd number of digits"}}']))

    def test_hexadecimal_digits(self):
        digits = HELLO.hex().encode()
        hello = "NDEF Text Record ID '' Text 'Hello' Language 'en' Encoding 'UTF-8'"
        for given, answer in ((digits.upper(), (0, [hello])), (b' ' + digits[:3] + b'\t\r\n ' + digits[3:], (0, [hello])),
                              (digits[:-1], (1, ['hex: odd number of digits'])), (digits + b'\f', (1, ['hex: bad digit at 24'])),
                              (b'd0 x', (1, ['hex: bad digit at 3'])), (b'\n\xff', (1, ['hex: bad digit at 1'])), (b' \n', (0, []))):
            self.assertEqual(self.run_with('--hex', given=given), answer)
            self.assertEqual(self.run_with('--hex', '-', given=given), answer)
        self.assertEqual(self.run_with('--hex', files=[b'zz', digits]), (1, ['0.bin: hex: bad digit at 0', '1.bin: ' + hello]))

    def test_characters_that_are_not_printed(self):
        status, lines = self.run_with(files=[octets(ndef.TextRecord('a\n\x1b[1m\u202e\U000e0001z'))])
        self.assertEqual((status, lines), (0, [r"NDEF Text Record ID '' Text 'a\n\x1b[1m\u202e\U000e0001z' Language 'en' Encoding 'UTF-8'"]))

    def test_characters_that_the_output_has_not(self):
        given = octets(ndef.TextRecord('\xe9\u4e00'))
        for encoding, printed in (('ascii', br'\xe9\u4e00'), ('latin-1', b'\xe9\\u4e00'), ('utf-8', '\xe9\u4e00'.encode())):
            done = self.run_in(None, [], encoding, input=given)
            self.assertEqual((done.returncode, done.stdout), (0, b"NDEF Text Record ID '' Text '%s' Language 'en' Encoding 'UTF-8'\n" % printed))

    def test_words(self):
        """The exit status that is said is that of docs/COMMAND.md."""
        done = self.run_in(None, ['--help'])
        said = ' '.join(done.stdout.decode().split())
        self.assertIn('Exit status: 0 all are messages, 1 one is refused, 2 bad arguments, 3 reading or writing failed.', said)
        self.assertIn('a file, or - for standard input, which is the default', said)
        self.assertEqual(done.returncode, 0)
        self.assertEqual((self.run_in(None, ['--version']).stdout.decode().strip(), self.run_in(None, ['--none']).returncode),
                         (ndef.__version__, 2))

    def test_faults(self):
        """What goes to standard error is one line, and the status is 3."""
        with tempfile.TemporaryDirectory() as folder:
            pathlib.Path(folder, 'hello').write_bytes(HELLO)
            pathlib.Path(folder, 'long').write_bytes(5000 * HELLO)
            hello = b"hello: NDEF Text Record ID '' Text 'Hello' Language 'en' Encoding 'UTF-8'\n"
            for words, printed in ((['nowhere'], b''), (['hello', 'nowhere'], hello), (['nowhere', 'hello'], b'')):
                done = self.run_in(folder, words)
                self.assertEqual((done.returncode, done.stdout, done.stderr), (3, printed, b"fault: [Errno 2] No such file or directory: 'nowhere'\n"))
            for name in ('hello', 'long'):
                with open('/dev/full', 'wb') as full:
                    done = self.run_in(folder, [name], stdout=full)
                self.assertEqual((done.returncode, done.stderr), (3, b'fault: [Errno 28] No space left on device\n'))
                reading, writing = os.pipe()
                os.close(reading)
                done = self.run_in(folder, [name], stdout=writing)
                os.close(writing)
                self.assertEqual((done.returncode, done.stderr), (3, b'fault: [Errno 32] Broken pipe\n'))


if __name__ == '__main__':
    counted.main()

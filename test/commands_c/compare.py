#!/usr/bin/env python3
"""test/commands_c/compare.py FOLDER OTHER COUNT SEED [RUNNER]: runs the commands of two folders on random bytes and words, and compares status, standard
output and standard error. RUNNER, such as qemu-arm or wine, runs those of the second folder. The bytes are lines of test/fuzz/seeds with random
changes; the words are those of the helps, with values of each kind, some too long and some wrong. The last line is 'N passed, M failed'."""
import os
import pathlib
import random
import re
import subprocess
import sys
import tempfile

sys.path.insert(0, str(pathlib.Path(__file__).resolve().parents[1]))
from harness import TOP, count, finish  # noqa: E402

COMMANDS = ('ndef', 'ndef', 'ndef-make', 'ndef-make', 'ndef-explain')
# Words of a record that ndef-make makes.
RECORDS = [['text', 'Hé☃'], ['text', 'x', '--language', 'de'], ['text', 'y' * 300, '--utf16'], ['uri', 'https://example.com/'], ['uri', ''],
           ['poster', 'http://a'], ['poster', 'http://a', '--title', 'en=Hi', '--action', 'save'], ['record', '--tnf', '5'], ['external', 'a:b'],
           ['media', 'text/plain'], ['app', 'a.b'], ['handover', 'select', '--carrier', 'active=0'], ['handover', 'request', '--collision', '7'],
           ['carrier', '--format', '1', '--type', 'a'], ['media', 'a/b', '--id', '0', '--file', 'file'], ['postr', 'http://a'], []]
EDITS = [[], ['--size'], ['--tag', 'ntag213'], ['--from', 'file'], ['--from', 'file', '--drop', '1', '--and'], ['--from', 'file', '--replace', '1']]
# Values of options; any of them may come after any option.
VALUES = ['0', '1', '3', '7', '100', '255', '256', '65536', '1048576', '4294967296', '18446744073709551616', '-1', '1.5', 'x', '', '-', 'é', 'strict', 'standard',
          'stric', 'short', 'long', 'always', 'never', 'alwas', 'de', 'e n', 'en=Hi', 'save', 'image/png', '1.2', '2.0', 'active=0', 'power=active,ref=0,aux=1',
          '1:00ff', '256:0', 'T', 'a:b', 'type2', 'ntag213', 'x' * 64, 'x' * 256, 'x' * 257, 'x' * 4000]
FILES = ['file', 'none', 'folder', '.']


class Runs:
    """Random runs of the commands, which a seed gives again."""

    def __init__(self, folder, seed):
        self.random = random.Random(seed)
        lines = subprocess.run([TOP / 'test/fuzz/seeds'], capture_output=True, text=True, check=True).stdout.split()
        self.seeds = [bytes.fromhex(line) for line in lines if len(line) < 1000]
        self.options = {name: self.options_of(folder / name) for name in set(COMMANDS)}

    @staticmethod
    def options_of(command):
        words = [[], ['show'], ['check'], ['encode'], ['text'], ['uri'], ['poster'], ['record'], ['carrier'], ['handover', 'request']]
        helps = [subprocess.run([command, *some, '--help'], capture_output=True, text=True, check=False).stdout for some in words]
        return sorted(set(re.findall(r'--[a-z][a-z0-9-]+', ''.join(helps))) - {'--help', '--version'})

    def chance(self, part):
        return self.random.random() < part

    def bytes(self):
        data = bytearray(self.random.choice(self.seeds))
        for _ in range(self.random.choice([0, 0, 0, 1, 2])):
            at = self.random.randrange(len(data) + 1)
            data[at:at + self.random.randrange(2)] = self.random.randbytes(self.random.randrange(3))
        return bytes(data) * self.random.choice([1] * 9 + [30])

    def words(self, name):
        pick = self.random.choice
        words = {'ndef': [pick(['show', 'check', 'encode', 'shwo'])], 'ndef-make': [*pick(EDITS * self.chance(.3) or [[]]), *pick(RECORDS)], 'ndef-explain': []}[name]
        for _ in range(pick([0, 0, 1, 1, 2])):
            words.append(pick(self.options[name])[:pick([40] * 12 + [-1])])
            words += [pick(VALUES)] * self.chance(.6)
        if name == 'ndef-make' and self.chance(.3):
            words += ['--and', *pick(RECORDS)]
        if name != 'ndef-make' and self.chance(.15):
            words.append(pick(FILES))
        return words + [pick(['--help', '--version'])] * self.chance(.02)

    def next(self):
        name = self.random.choice(COMMANDS)
        words, data = self.words(name), self.bytes()
        if self.chance(.5) and name != 'ndef-make':
            return name, [*words, '--hex'], data.hex(' ' if self.chance(.2) else '|').replace('|', '').encode()
        return name, words, data


def given(command, words, data, folder):
    (folder / 'file').write_bytes(data)
    environment = dict(os.environ, LC_ALL='C.UTF-8', WINEDEBUG='-all')
    run = subprocess.run([*command, *words], input=data, capture_output=True, cwd=folder, env=environment, timeout=100, check=False)
    return run.returncode, run.stdout, run.stderr


def main(words):
    one, other = (pathlib.Path(word).resolve() for word in words[:2])
    runner, ending = words[4:5], '.exe' if (other / 'ndef.exe').exists() else ''
    runs, statuses = Runs(one, int(words[3])), set()
    with tempfile.TemporaryDirectory() as made:
        folder = pathlib.Path(made)
        (folder / 'folder').mkdir()
        for _ in range(int(words[2])):
            name, args, data = runs.next()
            wanted, got = given([one / name], args, data, folder), given([*runner, other / (name + ending)], args, data, folder)
            statuses.add(wanted[0])
            count(f'{name} {args} {data.hex()[:200]}', wanted == got, wanted, got, quiet=True)
    count(f'the runs end with the status 0, 1 or 2: {statuses}', {0, 1, 2} <= statuses or int(words[2]) < 100, quiet=True)
    finish()


if __name__ == '__main__':
    main(sys.argv[1:])

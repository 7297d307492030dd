#!/usr/bin/env python3
"""test/table/commands.py FOLDER: tests that the commands in the folder name the byte and the reason of each case of refusals.tsv as the languages do. The
form of their lines is another since release 1.0: `ndef check` prints the number of the reason instead of its sentence, and ndef-explain both. The last
line is 'N passed, M failed'."""
import json
import pathlib
import re
import subprocess
import sys

HERE = pathlib.Path(__file__).resolve().parent
sys.path.insert(0, str(HERE.parent))
import harness  # noqa: E402

DESCRIBED = json.loads((harness.TOP / 'packaging/share/interface.json').read_text())
NUMBERS = {one['printed']: one['number'] for group in DESCRIBED['enums'] if group['name'] == 'ndef_reason' for one in group['constants']}


def printed(*words, octets):
    run = subprocess.run(words, input=octets, stdout=subprocess.PIPE, stderr=subprocess.DEVNULL)
    return run.returncode, run.stdout.decode().splitlines()


def cases():
    """The octets of each case of the suite that refusals.tsv has, and the place and the name in its line."""
    octets = {}
    for name in 'cases', 'paths':
        rows = (harness.TOP / f'conformance/{name}.jsonl').read_text().splitlines()[1:]
        octets.update((case['id'], case['bytes']) for case in map(json.loads, rows))
    for line in (HERE / 'refusals.tsv').read_text().splitlines():
        found = re.fullmatch(r'([\w-]+)\trefused at (\d+): (\w+): .*\.', line)
        if found:
            yield found[1], bytes.fromhex(octets[found[1]]), int(found[2]), found[3]


def main():
    folder, count = pathlib.Path(sys.argv[1]), 0
    wrong = {'ndef check': [], 'ndef-explain': []}
    for name, octets, place, reason in cases():
        count += 1
        status, lines = printed(folder / 'ndef', 'check', octets=octets)
        if (status, lines[-1:]) != (1, [f'refused at {place}: {NUMBERS[reason]} {reason}']):
            wrong['ndef check'].append(f'{name}: status {status}, {lines[-1:]}')
        status, lines = printed(folder / 'ndef-explain', octets=octets)
        line = f'refused at {place} (0x{place:08x}): {NUMBERS[reason]} {reason}'
        sentence = lines[lines.index(line) + 1:][:1] if line in lines else []
        if status != 1 or not re.fullmatch(r'[A-Z0-9].*[.?]', ''.join(sentence)):
            wrong['ndef-explain'].append(f'{name}: status {status}, {lines[-4:]}')
    for command, lines in wrong.items():
        harness.count(f'{command} names byte and reason of {count} refusals', not lines and count >= 40, *lines[:5])
    harness.finish()


main()

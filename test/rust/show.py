#!/usr/bin/env python3
"""Runs examples/show.rs, whose program is given, and the command `ndef show` (or that in $NDEF) on the accepted cases of the
suite: those with the same options one behind another, and the same without the last byte. Both have to print the same and
end with the same status."""
import collections
import os
import pathlib
import subprocess
import sys

TOP = pathlib.Path(__file__).resolve().parents[2]


def inputs():
    """The bytes of accepted cases by the options that they need. Several messages may stand one behind another."""
    found = collections.defaultdict(list)
    for line in (TOP / 'conformance/cases.txt').read_text().splitlines():
        parts = [part.strip() for part in line.split('|')]
        if line.startswith('#') or len(parts) < 9 or 'typed' not in parts[4].split() or not parts[8].startswith('accepted '):
            continue
        limits = parts[6].replace('usual', '').split()
        options = ['--' + word if at % 2 == 0 else word for at, word in enumerate(limits)]
        for profile in ('strict', 'standard') if parts[5] == 'both' else (parts[5],):
            found[*options, '--profile', profile].append(bytes.fromhex(parts[7])[:int(parts[8].split()[1])])
    return found


def printed(program, options, given):
    """What a program prints, and its status."""
    done = subprocess.run([*program, *options], input=given, stdout=subprocess.PIPE)
    return done.stdout, done.returncode


command = [*os.environ.get('NDEF', str(TOP / 'out/bin/ndef')).split(), 'show']
count = 0
for options, messages in inputs().items():
    whole = b''.join(messages)
    for given in (whole, whole[:-1]):
        ours, wanted = printed([sys.argv[1]], options, given), printed(command, options, given)
        if ours != wanted:
            print(*options, given.hex(), ours, wanted, sep='\n')
            sys.exit(1)
    count += len(messages)
print(f'accepted cases {count}')
sys.exit(count < 200)

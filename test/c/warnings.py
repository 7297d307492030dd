#!/usr/bin/env python3
"""test/c/warnings.py COMPILER..: tests by calls of packaging/share/interface.json what compilers warn of by include/ndef.h: NULL for a pointer that comes
with no length, and an answer that nobody looks at, but not NULL with a length of 0. The last line is 'N passed, M failed'."""
import json
import pathlib
import re
import subprocess
import sys
import tempfile

sys.path.insert(0, str(pathlib.Path(__file__).resolve().parents[1]))
import harness  # noqa: E402

CALLS = json.loads((harness.TOP / 'packaging/share/interface.json').read_text())['calls']
# Each ndef_feed answers what ndef_begin did, and ndef_version takes nothing.
NOT_LOOKED_AT = ('ndef_begin', 'ndef_version')


def written(call, null=''):
    """A call in C, with NULL for each pointer that has a length, and for the parameter of this name."""
    given = []
    for one in call['parameters']:
        pointed = one['type'].replace('const ', '').replace(' *', '')
        given.append('0' if one['role'] in ('value', 'length') else 'NULL' if one['role'] in ('array', 'buffer') or one['name'] == null else f'&static_{pointed}')
    return f'{call["name"]}({", ".join(given)})'


def warned(compiler, lines):
    """The lines of a program, each a function, of which a compiler warns; all that it says where that is something else."""
    with tempfile.TemporaryDirectory() as folder:
        file = pathlib.Path(folder, 'a.c')
        kinds = {name for line in lines for name in re.findall(r'static_(\w+)', line)}
        file.write_text(''.join(f'static {kind} static_{kind};' for kind in sorted(kinds)) + 'uint32_t answer;\n' + '\n'.join(f'void f{at}(void) {{ {line}; }}' for at, line in enumerate(lines)))
        said = subprocess.run([compiler, '-std=c99', '-Wall', '-Wextra', f'-I{harness.TOP}/include', '-include', 'ndef.h', '-c', file, '-o', '/dev/null'],
                              capture_output=True, text=True).stderr
    found = re.findall(r'a\.c:(\d+):\d+: (?:warning|error): .*\[-W(?:nonnull|unused-result)\]', said)
    return {lines[int(at) - 2] for at in found} if found or not said else {said}


def rows():
    """What is tested: a name, lines of C, and those of which a compiler has to warn."""
    looked_at = {call['name'] for call in CALLS if call['result'] != 'void'} - set(NOT_LOOKED_AT)
    used = {call['name']: '' if call['result'] == 'void' else 'answer = ' for call in CALLS}
    yield 'NULL with a length of 0', [used[call['name']] + written(call) for call in CALLS], set()
    nulls = [used[call['name']] + written(call, one['name']) for call in CALLS for one in call['parameters'] if one['role'] in ('in', 'out', 'change')]
    yield 'NULL for a pointer without a length', nulls, set(nulls)
    unused = {call['name']: written(call) for call in CALLS}
    yield 'an answer that nobody looks at', list(unused.values()), {unused[name] for name in looked_at}


for compiler in sys.argv[1:]:
    for name, lines, wanted in rows():
        differ = sorted(warned(compiler, lines) ^ wanted)
        harness.count(f'{compiler}: {name}', not differ and lines, *differ[:5])
harness.finish()

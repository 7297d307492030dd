#!/usr/bin/env python3
"""Compares bindings/rust/README.md with the examples that it shows: each block of Rust after the name of an example is its code, and the
block after that is what its program prints. The word is the folder of the programs. The last line says how many there are."""
import pathlib
import re
import subprocess
import sys

CRATE = pathlib.Path(__file__).resolve().parents[2] / 'bindings/rust'
SHOWN = re.compile(r'`examples/(\w+)\.rs`.*?\n```rust\n(.*?)```\n.*?\n```text\n(.*?)```\n', re.DOTALL)

sections = (CRATE / 'README.md').read_text(encoding='utf-8').split('\n### ')[1:]
shown = [found.groups() for found in map(SHOWN.search, sections) if found]
for name, code, wanted in shown:
    lines = (CRATE / f'examples/{name}.rs').read_text(encoding='utf-8').splitlines(keepends=True)
    if code != ''.join(line for line in lines if not line.startswith('//!')):
        sys.exit(f'README.md has other code than examples/{name}.rs')
    printed = subprocess.run([pathlib.Path(sys.argv[1], name)], stdout=subprocess.PIPE, text=True, check=True).stdout
    if printed != wanted:
        sys.exit(f'examples/{name}.rs prints\n{printed}and README.md says\n{wanted}')
print(f'examples {len(shown)}')
sys.exit(len(shown) < 3)

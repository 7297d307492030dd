#!/usr/bin/env python3
"""Puts faults into the eraser and into the shim, one at a time, in a copy, and looks whether the tests tell each. One in the eraser has to be told
by the second lexer: the list of differences is another, or the eraser stops. One in the shim has to be told by the tests
of the crate. Needs cargo and rustfmt. The last line is 'N passed, M failed'."""
import os
import pathlib
import shutil
import subprocess
import sys
import tempfile

sys.path.insert(0, str(pathlib.Path(__file__).resolve().parents[1]))
import harness  # noqa: E402
from harness import TOP  # noqa: E402

# The file of ports/erase_parts, what stands there, and the fault.
ERASER = (
    ('laws.py', 'if txt(ts, b) == "{" and "mut"', 'if "mut"'),
    ('laws.py', '"mut" not in params and ', ''),
    ('rules.py', 'if "Model" in words and words[words.index("Model") + 1] == "for":', 'if "Hash" in words or "Model" in words:'),
    ('rules.py', 'core::str::from_utf8(', 'core::str::from_utf8_lossy('),
    ('rules.py', '"*checker = begun(limits)"', '""'),
    ('lexer.py', 'CLAUSE = re.compile(r"(?:requires|ensures)', 'CLAUSE = re.compile(r"(?:ensures)'),
    ('uses.py', '"pub" and txt(ts, nxt(ts, i)) == "use"', '"mod" and txt(ts, nxt(ts, i)) == "use"'),
    ('errors.py', 'return path, message', 'return path, message.replace("a", "o")'),
)
SHIM = (
    ('value.to_be_bytes()', 'value.to_le_bytes()'),
    ("b'0' + (rest % 10) as u8", "b'0' + (rest % 9) as u8"),
    ('self.count += items.len();', ''),
)


def changed(path, before, after):
    text = path.read_text()
    if before not in text:
        sys.exit(f'plant.py: {path.name} has no {before!r}')
    path.write_text(text.replace(before, after))
    return text


def in_eraser(copy, name, before, after):
    """Whether ports/erase fails on the fault, other than by what it wrote last."""
    path = copy / 'ports/erase_parts' / name
    text = changed(path, before, after)
    try:
        return subprocess.run([copy / 'ports/erase', copy / 'made'], capture_output=True, timeout=100).returncode != 0
    except subprocess.TimeoutExpired:
        return True
    finally:
        path.write_text(text)


def tests(copy):
    words = ['cargo', 'test', '--offline', '--release', '--quiet']
    done = subprocess.run(words, cwd=copy / 'bindings/rust', capture_output=True, text=True, env={**os.environ, 'CARGO_PROFILE_RELEASE_OPT_LEVEL': '1'})
    return done.returncode


def main():
    if not harness.has('cargo') or not harness.has('cargo-fmt'):
        harness.finish()
    with tempfile.TemporaryDirectory() as folder:
        copy = pathlib.Path(folder)
        for name in ('crates', 'ports', 'bindings/rust', 'conformance', 'test'):
            shutil.copytree(TOP / name, copy / name, ignore=shutil.ignore_patterns('__pycache__', 'target', 'out'))
        harness.count('without a fault the eraser passes', subprocess.run([copy / 'ports/erase', copy / 'made']).returncode == 0)
        for name, before, after in ERASER:
            harness.count(f'told: {name}: {after or "nothing"} for {before}'.replace('\n', ' '), in_eraser(copy, name, before, after))
        harness.count('without a fault the tests pass', tests(copy) == 0)
        shim = copy / 'bindings/rust/src/shim.rs'
        for before, after in SHIM:
            text = changed(shim, before, after)
            harness.count(f'told: shim.rs: {after or "nothing"} for {before}', tests(copy) != 0)
            shim.write_text(text)
    harness.finish()


main()

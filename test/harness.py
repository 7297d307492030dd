"""What the test programs in Python share: they count their tests here, and end with `finish`, as those of test/harness.sh do."""
import os
import pathlib
import re
import shutil
import subprocess
import sys

TOP = pathlib.Path(__file__).resolve().parents[1]
counts = {True: 0, False: 0}


def count(name, passed, *lines, quiet=False):
    """Counts a test. Where it failed, the lines are printed; with `quiet` a test that passes prints none."""
    counts[bool(passed)] += 1
    if not passed:
        print(f'FAILED: {name}', *lines, sep='\n  ')
    elif not quiet:
        print(f'ok: {name}')


def is_outdated():
    """Whether out/ is made of a release, and the crates have changed since: in make check only, as over_dist of test/sources.sh has it."""
    if not {'NDEF_QUICK', 'NDEF_LONG'} & set(os.environ) or (TOP / 'out/from').read_text().strip() == 'crates':
        return False
    of_crates = subprocess.run([TOP / 'packaging/tree_hash'], stdout=subprocess.PIPE, text=True, check=True).stdout.strip()
    return f'\ncrates {of_crates}\n' not in (TOP / 'dist/SOURCE').read_text()


def over_dist(name, passed, *lines, quiet=False):
    """Counts a test that may ask for what the release in dist/ hasn't: if it fails and the crates have changed since, it is left out."""
    if passed or not is_outdated():
        return count(name, passed, *lines, quiet=quiet)
    left_out(f'{name}: the crates have changed since the release in dist/')


def left_out(why, package=None):
    """Says that tests are left out."""
    print(f'left out: {why}' + (f' (Debian package {package})' if package not in (None, '-') else ''))


def has(name):
    """Whether this machine has a program, by the table test/needs.txt. Otherwise a line says what is left out, and which package brings it."""
    rows = [row.split(None, 2) for row in (TOP / 'test/needs.txt').read_text().splitlines() if row and not row.startswith('#')]
    package, check = next(((*row[1:], None)[:2] for row in rows if row[0] == name), (None, None))
    found = subprocess.run(check, shell=True, capture_output=True).returncode == 0 if check else shutil.which(name)
    if not found:
        left_out(f'no {name}', package)
    return bool(found)


def make(*targets):
    """Makes targets of the Makefile, as a test."""
    run = subprocess.run(['make', '-C', TOP, *targets], stdout=subprocess.PIPE, stderr=subprocess.STDOUT, text=True)
    count(f'make {" ".join(targets)}', run.returncode == 0, run.stdout, quiet=True)


def release_of(text):
    """The first two numbers of the release that a text names."""
    return tuple(map(int, re.search(r'(\d+)\.(\d+)', text).groups()))


def finish():
    """Prints the counts and ends the program. Its status is 1 where a test failed, and 77 where none was run."""
    print(f'{counts[True]} passed, {counts[False]} failed', flush=True)
    sys.exit(1 if counts[False] else 0 if counts[True] else 77)

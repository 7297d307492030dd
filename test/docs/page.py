#!/usr/bin/env python3
"""page.py PAGE LANGUAGE FOLDER: runs the programs of a page as they are printed.

Each block in the language begins with a comment that names its file. The files are written to the folder, where `include` and `out`
are those of the repository, and the commands of the page's `console` blocks, lines `$ COMMAND`, run there one after another. Prints
what is wrong: a command that prints another thing than the page shows or that ends with another status than 0, and a program that no
command names. The status is 1 where something is.

A program whose first line says `since version X.Y` is left out, with the commands that name it, where the header ndef.h in `include` is of an
older version."""
import os
import pathlib
import re
import subprocess
import sys

TOP = pathlib.Path(__file__).resolve().parents[2]


def blocks(text, language):
    return re.findall(rf'^```{language}\n(.*?)^```$', text, re.M | re.S)


def is_newer(block, folder):
    """Whether a program asks for a later version than the header's."""
    since = re.match(r'.* since version (\d+)\.(\d+)\b', block)
    if not since:
        return False
    version = re.findall(r'^#define NDEF_VERSION_M\w+ (\d+)', (folder / 'include/ndef.h').read_text(), re.M)
    return [*map(int, version)] < [*map(int, since.groups())]


def written(text, language, folder):
    """The names of the programs, which are written to the folder, and whether each is left out."""
    for block in blocks(text, language):
        found = re.match(r'(?://|/\*|#) (\w+\.\w+)\b', block)
        if not found:
            raise SystemExit(f'a program has no name: {block.splitlines()[0]}')
        (folder / found[1]).write_text(block)
        yield found[1], is_newer(block, folder)


def wrong(text, language, folder):
    """What is wrong of the page."""
    programs = list(written(text, language, folder))
    left_out = [name.partition('.')[0] for name, is_left_out in programs if is_left_out]
    names = [name for name, is_left_out in programs if not is_left_out]
    shown = [command for command in re.split(r'^\$ ', ''.join(blocks(text, 'console')), flags=re.M)[1:]
             if not any(stem in command.partition('\n')[0] for stem in left_out)]
    if not names or not shown:
        yield 'the page has no program, or no command'
    for name in names:
        if not any(name in command.partition('\n')[0] for command in shown):
            yield f'no command names {name}'
    for command, _, wanted in (part.partition('\n') for part in shown):
        run = subprocess.run(['bash', '-c', command], cwd=folder, stdout=subprocess.PIPE, stderr=subprocess.STDOUT, text=True)
        if run.returncode != 0 or run.stdout.strip('\n') != wanted.strip('\n'):
            yield f'{command}: status {run.returncode}, prints {run.stdout!r}'


def main(page, language, folder):
    place = pathlib.Path(folder)
    place.mkdir(parents=True, exist_ok=True)
    for name in ('include', 'out'):
        if not os.path.lexists(place / name):
            os.symlink(TOP / name, place / name)
    lines = list(wrong((TOP / page).read_text(), language, place))
    print(*lines, sep='\n', end='\n' if lines else '')
    return 1 if lines else 0


if __name__ == '__main__':
    sys.exit(main(*sys.argv[1:]))

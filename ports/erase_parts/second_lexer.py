"""A second lexer, which knows nothing of the first: compares the code tokens of the proved files with those that were written, before
rustfmt, and lists of each file the kinds of difference with their counts: `- gone`, `+ come`. The list is read, kept, and compared.

Of the source it leaves out `ghost ..;`, `requires {..}`, `ensures {..}`; nothing else."""
from __future__ import annotations

import collections
import difflib
import os
import re

from .uses import is_left_out

TOKEN = re.compile(r'//[^\n]*|b?"(?:\\.|[^"\\])*"|b?\'(?:\\x..|\\.|[^\'\\])\'|\'?\w+|::|->|=>|&&|\|\||\.\.=?|\S', re.S)


def tokens(text, is_source):
    out = []
    at = 0
    while m := TOKEN.search(text, at):
        word, at = m.group(), m.end()
        if word.startswith('//'):
            continue
        ghost = is_source and re.match(r'(ghost\s+\w|(requires|ensures)\*?\s*\w*\s*\{)', text[m.start():])
        if ghost and word in ('ghost', 'requires', 'ensures') and (not out or out[-1] not in ('.', 'fn', 'let')):
            if re.match(r'ghost\s+use\b', text[m.start():]):
                at = text.index(';', at) + 1
                continue
            while True:
                at = text.index('{', at)
                depth = 0
                while True:
                    if text.startswith('//', at):
                        at = text.index('\n', at)
                    depth += (text[at] == '{') - (text[at] == '}')
                    at += 1
                    if not depth:
                        break
                if not (by := re.match(r'\s*by\s*(?=\{)', text[at:])):
                    break
                at += by.end()
            if word == 'ghost' and text[at:at + 1] in ',;':
                at += 1
            continue
        out.append(word)
    return out


def read(*path):
    with open(os.path.join(*path), encoding='utf-8') as file:
        return file.read()


def compared(crates, made, crate, name, kinds):
    """The tokens of the source, and how many of them are in their places; the differences are counted in `kinds`."""
    source = tokens(read(crates, crate, 'src', name), True)
    path = os.path.join(made, crate, 'mod.rs' if name == 'lib.rt' else name[:-3] + '.rs')
    if not os.path.exists(path):
        # A file that is gone has only what is erased: its text is shown whole.
        kinds['- ' + ' '.join(source)[:3000]] += 1
        return len(source), 0
    same, written = 0, tokens(read(path), False)
    for what, a, b, c, d in difflib.SequenceMatcher(None, source, written, autojunk=False).get_opcodes():
        if what == 'equal':
            same += b - a
        else:
            kinds[f"- {' '.join(source[a:b])}  + {' '.join(written[c:d])}"] += 1
    return len(source), same


def differences(crates, made):
    """The list: of each file the kinds of difference with their counts, the most frequent first."""
    lines, counts = [], []
    for crate in sorted(name for name in os.listdir(made) if os.path.isdir(os.path.join(made, name))):
        names = os.listdir(os.path.join(crates, crate, 'src'))
        for name in sorted(name for name in names if not is_left_out(crate, name[:-3])):
            kinds = collections.Counter()
            counts.append((*compared(crates, made, crate, name, kinds), kinds.total()))
            lines += [f'{crate}/{name}', *(f'{count:5} {kind}' for kind, count in sorted(kinds.items(), key=lambda it: (-it[1], it[0])))]
    lines.append('{} tokens of code in the source, {} of them in their places; {} differences'.format(*map(sum, zip(*counts))))
    return '\n'.join(lines) + '\n'

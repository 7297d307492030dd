"""Makes comments of C of the doc comments of Rattle, in the style of the header."""
from __future__ import annotations

import re
import textwrap
from typing import List, Mapping, Tuple

from .model import Unknown

WIDTH = 118
LINK = re.compile(r'\[([^\]]+)\]\([^)]*\)|\[(`[^`]+`)\]')
QUOTED = re.compile(r'`([^`]+)`')
ANSWER = re.compile(r'NDEF_[A-Z0-9_]+\b[:.,]')


def unlinked(text: str) -> str:
    """Text with the words of its links alone."""
    return LINK.sub(lambda found: found[1] or found[2], text)


def in_c(text: str, words: Mapping[str, str], owner: str) -> str:
    """Text with the names that C has. Backticks stay around all but the names of calls, types and constants, as in the header."""
    def spelled(found: 're.Match[str]') -> str:
        name = words.get(f'{owner}.{found[1]}') or words.get(found[1]) or str(found[1])
        return name if re.match(r'ndef_|NDEF_|uint\d', name) else f'`{name}`'
    made = QUOTED.sub(spelled, unlinked(text))
    if '*/' in made or not made.isascii():
        raise Unknown(f'{owner}: the comment has `*/` or a sign that is not ASCII, and is to be one of C: {text!r}')
    return made


def parts(doc: str) -> List[Tuple[bool, str]]:
    """The paragraphs of a doc comment and the items of its lists, each with whether it is an item."""
    made: List[Tuple[bool, str]] = []
    for line in (line.strip().removeprefix('///').strip() for line in doc.splitlines()):
        is_item = line.startswith('- ')
        if is_item or not line or not made:
            made.append((is_item, line.removeprefix('- ')))
        else:
            made[-1] = (made[-1][0], f'{made[-1][1]} {line}'.strip())
    return [part for part in made if part[1]]


def lines(doc: str, words: Mapping[str, str], owner: str) -> List[str]:
    """The lines of a comment. An answer begins with a status, and stands right after what is before it; any other item has a sign, and
    any other paragraph an empty line before it."""
    made: List[str] = []
    for is_item, text in parts(doc):
        said = in_c(text, words, owner)
        is_answer = bool(ANSWER.match(said))
        first, later = ('', '  ') if is_answer else ('  - ', '    ') if is_item else ('', '')
        if made and not is_item and not is_answer:
            made.append('')
        made += textwrap.wrap(said, WIDTH - 3, initial_indent=first, subsequent_indent=later, break_long_words=False, break_on_hyphens=False)
    return made


def whole(doc: str, words: Mapping[str, str], owner: str) -> str:
    """The comment of a declaration: all that the doc comment says."""
    made = lines(doc, words, owner)
    if not made:
        raise Unknown(f'{owner} has no doc comment, of which the header could make its comment')
    return '/* ' + '\n'.join(' * ' + line if line else ' *' for line in made).removeprefix(' * ') + ' */'


def aside(text: str, words: Mapping[str, str], owner: str) -> str:
    """What stands beside a member or a constant: a sentence, without its capital and its full stop."""
    said = in_c(text, words, owner).removesuffix('.')
    return said[:1].lower() + said[1:] if said[1:2].islower() or said[1:2] == ' ' else said

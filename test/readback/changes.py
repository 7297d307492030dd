#!/usr/bin/python3
"""changes.py MODULE.ll NDEF.c COUNT SEED: changes a place of a function of the C file at random, COUNT times, and counts the changes that readback.py
finds. One that it lets pass does the same in another way, or is a fault of readback.py: they are printed, to be read, and may be one in fifty.
Prints 'N passed, M failed'."""
import pathlib
import random
import re
import sys

from pycparser import c_parser

from files import File, Module
from readback import wrong_function

sys.path.insert(0, str(pathlib.Path(__file__).resolve().parents[1]))
from harness import count, finish  # noqa: E402

DECLARATION = r'^    (?:u?int\d+_t|unsigned char \*|ND_ROOM|struct) ?[^=\n]*;\n'
OPERATORS = (' + ', ' - ', ' & ', ' | ', ' ^ ', ' << ', ' >> ', ' < ', ' > ', ' == ', ' != ', ' <= ', ' >= ')
KINDS = {'number': r'(?<!\w)\d+(?=U|\b)', 'operator': r' (?:\+|-|&|\||\^|<<|>>|<|>|==|!=|<=|>=) ', 'variable': r'\bv\d+\b', 'goto': r'goto L\d+',
         'dropped': r'^    (?:v\d+ = .*|nd_\w+\(.*\));$', 'order': r'^    (v\d+) = [^\n]*;\n    [^\n]*\b\1\b[^\n]*;$',
         'width': r'nd_(?:load|store)_(?:8|16|32|64)', 'negated': r'if \((?=\w)', 'sign': r'\(int(?:8|16|32|64)_t\)'}


def changed(kind, old, body):
    if kind == 'number':
        return str(max(0, int(old) + random.choice([-1, 1, 2])))
    if kind == 'operator':
        return random.choice([other for other in OPERATORS if other != old])
    if kind == 'variable':
        return random.choice(sorted(set(re.findall(r'\bv\d+\b', body))))
    if kind == 'goto':
        return 'goto ' + random.choice(sorted(set(re.findall(r'^(L\d+):', body, re.M))) or ['L1'])
    if kind == 'order':
        return '\n'.join(reversed(old.split('\n')))
    if kind == 'width':
        return re.sub(r'\d+', random.choice(['8', '16', '32', '64']), old)
    return {'dropped': '    ;', 'negated': 'if (!', 'sign': '(u' + old[1:]}[kind]


def planted(body):
    """The body with a change, and what was changed; or nothing."""
    first = max([match.end() for match in re.finditer(DECLARATION, body, re.M)] or [body.index('\n') + 1])
    kind = random.choice(list(KINDS))
    places = [match for match in re.finditer(KINDS[kind], body, re.M) if match.start() >= first]
    if not places:
        return None
    match = random.choice(places)
    new = changed(kind, match[0], body)
    line = body[body.rfind('\n', 0, match.start()) + 1:body.find('\n', match.end())].strip()
    return new != match[0] and (body[:match.start()] + new + body[match.end():], f'{kind}: {match[0].strip()!r} -> {new.strip()!r} in {line[:200]!r}')


def main(words):
    with open(words[0], encoding='utf-8') as module, open(words[1], encoding='utf-8') as file:
        file = File(file.read())
        module = Module(module.read(), file)
    random.seed(int(words[3]))
    parser, found, equal = c_parser.CParser(), 0, []
    names = [name for name in module.functions if 8 < file.bodies[module.c_name(name)].count('\n') < 500]
    while found + len(equal) < int(words[2]):
        name = random.choice(names)
        made = planted(file.bodies[module.c_name(name)])
        if made and wrong_function(module, file, name, parser, made[0]):
            found += 1
        elif made:
            equal.append(f'{name}: {made[1]}')
    print(*[f'equal: {what}' for what in equal], sep='\n')
    count(f'{found} of {words[2]} changes of {words[1]} are found', 50 * len(equal) <= int(words[2]))
    finish()


if __name__ == '__main__':
    main(sys.argv[1:])

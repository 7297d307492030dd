#!/usr/bin/env python3
"""Tests packaging/frozen with made-up descriptions of a release and of what comes after it: what is new is allowed, and what went or
changed is named. The last line is 'N passed, M failed'."""
import copy
import json
import pathlib
import subprocess
import sys
import tempfile

HERE = pathlib.Path(__file__).resolve().parent
sys.path.insert(0, str(HERE.parent))
import harness  # noqa: E402
from harness import count  # noqa: E402

MEMBERS = [{'name': 'at', 'type': 'uint64_t', 'offset': 0, 'text': 'Where.'}, {'name': 'words', 'type': 'uint32_t', 'offset': 8, 'count': 2, 'text': 'What.'}]
RELEASE = {
    'about': 'made up', 'header': 'ndef.h', 'version': [1, 2, 0],
    'enums': [{'name': 'ndef_status', 'text': 'What.', 'constants': [{'name': 'NDEF_OK', 'number': 0, 'text': 'Done.', 'printed': 'Ok'},
                                                                     {'name': 'NDEF_END', 'number': 4, 'text': 'End.', 'printed': 'End'}]}],
    'structs': [{'name': 'ndef_part', 'text': 'A part.', 'size': {'64': 16, '32': 16, 'i386': 16}, 'alignment': {'64': 8, '32': 8, 'i386': 4}, 'fields': MEMBERS}],
    'calls': [{'name': 'ndef_check', 'text': 'Checks.', 'result': 'uint32_t', 'answers': ['NDEF_OK', 'NDEF_END'], 'parameters': [
        {'name': 'bytes', 'type': 'const uint8_t *', 'role': 'array', 'length': 'length'}, {'name': 'length', 'type': 'ndef_size', 'role': 'length'}]},
              {'name': 'ndef_other', 'text': 'Else.', 'result': 'void', 'answers': [], 'parameters': []}],
}
NAMES = ['command ndef show --hex', 'python why(octets)', 'shape id | name']


def write(folder, described, names):
    folder.mkdir(exist_ok=True)
    (folder / 'interface.json').write_text(json.dumps(described))
    (folder / 'public_names.txt').write_text(''.join(name + '\n' for name in names))


def frozen(top, edit, version='1.3.0.dev', number=(1, 2, 0)):
    """What packaging/frozen says after an edit of a description and of the names."""
    now, names = copy.deepcopy(RELEASE), list(NAMES)
    edit(now, names)
    write(top / 'release', {**RELEASE, 'version': list(number)}, NAMES)
    write(top / 'now', now, names)
    return subprocess.run([HERE.parents[1] / 'packaging/frozen', top / 'release', top / 'now', version], stdout=subprocess.PIPE, stderr=subprocess.STDOUT, text=True)


def sets(*path):
    """The edit that sets what a path leads to."""
    def edit(now, _):
        for key in path[:-2]:
            now = now[key]
        now[path[-2]] = path[-1]
    return edit


def added(now, names):
    now['calls'].insert(0, {**now['calls'][0], 'name': 'ndef_new'})
    now['structs'].insert(0, {**now['structs'][0], 'name': 'ndef_new_parts'})
    now['enums'].insert(0, {'name': '', 'text': 'New.', 'constants': [{'name': 'NDEF_NEW', 'number': 4, 'text': 'New.'}]})
    now['enums'][1]['constants'].insert(1, {'name': 'NDEF_MORE', 'number': 5, 'text': 'More.', 'printed': 'More'})
    names += ['command ndef show --new', 'python hint(octets)']


def member(now, _):
    now['structs'][0]['fields'].append({'name': 'more', 'type': 'uint32_t', 'offset': 12, 'text': 'More.'})


def turned(now, _):
    now['structs'][0]['fields'].reverse()


CALL, STRUCT, STATUS = ('calls', 0), ('structs', 0), ('enums', 0, 'constants', 1)
ALLOWED = {
    'the same': lambda now, names: None,
    'a call, a struct, constants, an option and a name that are new': added,
    'another sentence': sets(*CALL, 'text', 'Looks.'),
    'another name of a parameter': sets(*CALL, 'parameters', 1, 'name', 'count'),
    'calls in another order': lambda now, names: now['calls'].reverse(),
}
REFUSED = {
    'a call that went': (lambda now, names: now['calls'].pop(), 'c call ndef_other: void of nothing'),
    'a call with another result': (sets(*CALL, 'result', 'void'), 'c call ndef_check: uint32_t of'),
    'a parameter of another type': (sets(*CALL, 'parameters', 1, 'type', 'uint32_t'), 'c call ndef_check: uint32_t of'),
    'a parameter with another role': (sets(*CALL, 'parameters', 0, 'role', 'buffer'), 'c call ndef_check: uint32_t of'),
    'one parameter more': (lambda now, names: now['calls'][1]['parameters'].append(now['calls'][0]['parameters'][1]), 'c call ndef_other: void of nothing'),
    'parameters in another order': (lambda now, names: now['calls'][0]['parameters'].reverse(), 'c call ndef_check: uint32_t of'),
    'one more status of a call': (sets(*CALL, 'answers', ['NDEF_OK', 'NDEF_END', 'NDEF_BAD_ARGUMENT']), 'c call ndef_check returns NDEF_END, NDEF_OK'),
    'a struct that went': (lambda now, names: now['structs'].pop(), 'c struct ndef_part has 2 members'),
    'one member more in space that was free': (member, 'c struct ndef_part has 2 members'),
    'a struct of another size': (sets(*STRUCT, 'size', {'64': 24, '32': 24, 'i386': 24}), 'c struct ndef_part has 2 members'),
    'a struct of another size on one machine': (sets(*STRUCT, 'size', 'i386', 12), 'c struct ndef_part has 2 members'),
    'another alignment': (sets(*STRUCT, 'alignment', '32', 4), 'c struct ndef_part has 2 members'),
    'members in another order': (turned, 'c struct ndef_part member 1: uint64_t at, 1 at 0'),
    'a member by another name': (sets(*STRUCT, 'fields', 0, 'name', 'place'), 'c struct ndef_part member 1: uint64_t at'),
    'a member of another type': (sets(*STRUCT, 'fields', 0, 'type', 'ndef_size'), 'c struct ndef_part member 1: uint64_t at'),
    'a member at another offset': (sets(*STRUCT, 'fields', 1, 'offset', 12), 'c struct ndef_part member 2: uint32_t words, 2 at 8'),
    'a member of another length': (sets(*STRUCT, 'fields', 1, 'count', 1), 'c struct ndef_part member 2: uint32_t words, 2 at 8'),
    'a constant that went': (lambda now, names: now['enums'][0]['constants'].pop(), 'c constant NDEF_END = 4'),
    'a constant with another number': (sets(*STATUS, 'number', 5), 'c constant NDEF_END = 4'),
    'a constant by another name': (sets(*STATUS, 'name', 'NDEF_LAST'), 'c constant NDEF_END = 4'),
    'a status that is printed in another way': (sets(*STATUS, 'printed', 'Last'), 'c constant NDEF_END = 4, printed End'),
    'an option that went': (lambda now, names: names.pop(0), 'command ndef show --hex'),
    'a parameter of Python by another name': (lambda now, names: names.__setitem__(1, 'python why(bytes)'), 'python why(octets)'),
    'another format of the cases': (lambda now, names: names.__setitem__(2, 'shape id | name | more'), 'shape id | name'),
}


def main():
    with tempfile.TemporaryDirectory() as folder:
        top = pathlib.Path(folder)
        for name, edit in ALLOWED.items():
            run = frozen(top, edit)
            count(f'allowed: {name}', run.returncode == 0 and not run.stdout, run.stdout)
        for name, (edit, said) in REFUSED.items():
            run = frozen(top, edit)
            count(f'refused: {name}', run.returncode == 1 and f'went or changed: {said}' in run.stdout, run.stdout)
        for name, version, number in (('before release 1.0.0', '0.5.0.dev', (0, 4, 0)), ('of release 1.0.0 after 0.4.0', '1.0.0', (0, 4, 0)),
                                      ('of release 2.0.0 after 1.2.0', '2.0.0.dev', (1, 2, 0))):
            run = frozen(top, lambda now, names: (now['calls'].clear(), names.clear()), version, number)
            count(f'nothing is frozen {name}', run.returncode == 0 and run.stdout.startswith('nothing is frozen: '), run.stdout)
        write(top / 'release', RELEASE, NAMES)
        (top / 'release/public_names.txt').unlink()
        run = subprocess.run([HERE.parents[1] / 'packaging/frozen', top / 'release', top / 'now', '1.3.0'], stdout=subprocess.PIPE, text=True)
        count('a release without its list of names is named', run.returncode == 1 and 'public_names.txt is missing' in run.stdout, run.stdout)
    harness.finish()


if __name__ == '__main__':
    main()

#!/usr/bin/env python3
"""test/install/options.py BIN COMPLETIONS: whether packaging/share/options.json describes the commands in BIN: whether their help names the options
that it has, with their values, and no others; whether a man page says the numbers that the help says of an option; whether bash completes
the words and options of each subcommand with what is in COMPLETIONS; and which numbers an option takes."""
import json
import pathlib
import re
import subprocess
import sys

TOP = pathlib.Path(__file__).resolve().parents[2]
NAMED = {'Three': '3', 'five': '5'}


def said(*words):
    run = subprocess.run(words, capture_output=True, text=True, stdin=subprocess.DEVNULL)
    return run.stdout + run.stderr


def explained(page, head):
    """What a page says of each option: the lines after each head, up to the next."""
    heads = [*re.finditer(head, page, re.M)]
    for this, after in zip(heads, [*heads[1:], None]):
        text = page[this.start():after.start() if after else len(page)]
        yield this[1], re.split(r'\n\n|\n\.El', text)[0]


def numbers(text):
    return set(re.findall(r'\b\d[\d.]*\d\b|\b\d\b', ' '.join(NAMED.get(word, word) for word in text.split())))


def of_word(command, word):
    return {one: option for words, group in command['of'].items() if word in words.split(' ') for one, option in group.items()}


def of_help(page, options):
    """How a page of help differs from options."""
    named = {}
    for one, text in explained(page, r'^ *--([a-z0-9-]+)[ ,].*'):
        named[one] = named.get(one, '') + text
    yield from (f'help names --{one}' for one in named.keys() - options.keys())
    yield from (f'help lacks --{one}' for one in options.keys() - named.keys())
    for one in named.keys() & options.keys():
        takes = options[one].get('takes')
        values = takes if isinstance(takes, list) and isinstance(takes[0], str) else []
        yield from (f'help of --{one} lacks {value}' for value in values if value.rstrip('=') not in named[one])


def of_page(name, page, helped):
    """The numbers that help says of an option, and its man page doesn't."""
    texts = {}
    for one, text in explained(page, r'^\.It Fl -(\S+)'):
        texts[one] = texts.get(one, '') + text
    for one, text in explained(helped, r'^ *--([a-z0-9-]+)[ ,].*'):
        lacking = numbers(text) - numbers(texts.get(one, page))
        if lacking:
            yield f'{name}.1 says of --{one} nothing of {" ".join(sorted(lacking))}'


def completed(completions, name, *words):
    script = '. "$0"; COMP_WORDS=("$@"); COMP_CWORD=$(($# - 1)); "_${1/-/_}"; printf "%s\\n" "${COMPREPLY[@]}"'
    return set(said('bash', '-c', script, completions / name, name, *words).split())


def longs(options):
    return {'--' + one for one in options}


def of_command(folder, completions, name, command):
    helped, words = said(folder / name, '--help'), command.get('words', {})
    options = {one: option for group in (command['begins'], command.get('edits', {}), *command['of'].values()) for one, option in group.items()}
    yield from of_help(helped, {one: option for one, option in options.items() if one != 'and'})
    page = (TOP / f'packaging/man/{name}.1').read_text()
    yield from of_page(name, page, helped)
    yield from (f'help lacks {word}' for word in words if not re.search(rf'^  {word} ', helped, re.M))
    first = completed(completions, name, '--') | (completed(completions, name, '') if words else longs(of_word(command, '')))
    if first != set(words) | longs(command['begins']) | (set() if words else longs(of_word(command, ''))):
        yield 'bash completes other first words'
    for word in words:
        own = of_word(command, word)
        if completed(completions, name, word, '--') != longs(own):
            yield f'bash completes other options of {word}'
        if 'edits' in command:
            one_page = said(folder / name, word, '--help')
            yield from (f'{word}: {what}' for what in of_help(one_page, {one: option for one, option in own.items() if one not in ('and', 'help')}))
            yield from (f'{word}: {what}' for what in of_page(name, page, one_page))


def of_numbers(make, kinds):
    """Numbers that an option takes and shouldn't, or the other way round."""
    found = [(kind, one, option['takes']) for kind in ('record', 'carrier') for one, option in kinds[kind].items() if isinstance(option['takes'], list)]
    for kind, one, (least, most) in found:
        for number in range(least - 1, most + 2):
            given = {'record': {'tnf': 1, 'type': 'a'}, 'carrier': {'format': 1, 'type': 'a'}}[kind] | {one: number, 'payload': '00'}
            words = [f'--{name}={value}' for name, value in given.items()]
            status = subprocess.run([make, kind, *words, '--unchecked'], capture_output=True).returncode
            if (status != 2) != (least <= number <= most):
                yield f'{kind} --{one}={number}: status {status}'
    if len(found) != 2:
        yield 'two options take numbers of a range'


def main(folder, completions):
    described = json.loads((TOP / 'packaging/share/options.json').read_text())
    wrong = [f'{name}: {what}' for name, command in described.items() if name != 'about' for what in of_command(folder, completions, name, command)]
    wrong += of_numbers(folder / 'ndef-make', described['ndef-make']['of'])
    print(*wrong, sep='\n', end='\n' * bool(wrong))
    sys.exit(bool(wrong))


main(*map(pathlib.Path, sys.argv[1:]))

"""The messages in files: simbegyor-ndef [show|check|explain] [--hex] [--json] [FILE..]

`show`, the default where the first argument is none of the three, prints a line for each record; `check` one for each
message; `explain` one for each field, with its octets. `python3 -m simbegyor_ndef` is the same program.

Exit status: 0, the files hold messages to their end; 1, one doesn't, and a line says where and why; 2, the arguments
are invalid; 3, reading or writing failed.
"""
from __future__ import annotations

import argparse
import io
import json
import os
import sys
from typing import Any, Dict, List, Optional

from . import __version__
from ._lines import COMMANDS
from .errors import DecodeError

_COMMANDS = """what is printed:
  show     a line for each record; the default where the first argument is none of these
  check    a line for each message: where it begins, its records and its bytes
  explain  a line for each field, with its octets, up to the octet that is refused

Exit status: 0 all are messages, 1 one is refused, 2 bad arguments, 3 reading or writing failed."""


class _BadHexadecimal(Exception):
    """The text of a file isn't octets in hexadecimal digits."""


def _octets(name: str, is_hex: bool) -> bytes:
    """The octets of a file, '-' for standard input."""
    if name == '-':
        octets = sys.stdin.buffer.read()
    else:
        with open(name, 'rb') as file:
            octets = file.read()
    if not is_hex:
        return octets
    digits = octets.translate(None, b' \t\r\n')
    bad = next((at for at, digit in enumerate(octets) if digit not in b'0123456789abcdefABCDEF \t\r\n'), None)
    if bad is not None:
        raise _BadHexadecimal('hex: bad digit at %d' % bad)
    if len(digits) % 2:
        raise _BadHexadecimal('hex: odd number of digits')
    return bytes.fromhex(digits.decode('ascii'))


def _status_of(name: str, words: argparse.Namespace, before: str) -> int:
    """Prints what is asked of a file; the status."""
    try:
        for line in COMMANDS[words.command](_octets(name, words.hex), words.json):
            print(json.dumps(line) if words.json else before + str(line))
        return 0
    except _BadHexadecimal as error:
        lines: List[str] = [str(error)]
        refusal: Dict[str, Any] = {'reason': str(error)}
    except DecodeError as error:
        explains = words.command == 'explain'
        place = '%d (0x%08x)' % (error.place, error.place) if explains else '%d' % error.place
        lines = ['refused at %s: %d %s' % (place, error.number, error.reason)]
        refusal = {'place': error.place, 'number': error.number, 'reason': error.reason}
        if explains:
            lines.append(error.sentence)
            refusal['sentence'] = error.sentence
            if error.hint:
                lines.append('hint: ' + error.hint)
                refusal['hint'] = error.hint
    print(json.dumps({'refused': refusal}) if words.json else '\n'.join(before + line for line in lines))
    return 1


def _parsed(arguments: List[str]) -> argparse.Namespace:
    """What the words say."""
    command = arguments[0] if arguments[:1] and arguments[0] in COMMANDS else None
    name = os.path.basename(sys.argv[0])
    name = 'python3 -m simbegyor_ndef' if name == '__main__.py' else name
    parser = argparse.ArgumentParser(prog=name, usage=name + ' [show|check|explain] [--hex] [--json] [FILE ...]',
                                     description='Prints what the NDEF messages in files hold, or why they are refused.',
                                     epilog=_COMMANDS, formatter_class=argparse.RawDescriptionHelpFormatter)
    parser.add_argument('--hex', action='store_true', help='the files are hexadecimal text')
    parser.add_argument('--json', action='store_true', help='print an object of JSON for each line')
    parser.add_argument('--version', action='version', version=__version__)
    parser.add_argument('files', metavar='FILE', nargs='*', default=['-'], help='a file, or - for standard input, which is the default')
    words = parser.parse_args(arguments[1:] if command else arguments)
    words.command = command or 'show'
    return words


def main(arguments: Optional[List[str]] = None) -> int:
    """Runs the program with these words, or those of the command line; the exit status."""
    words = _parsed(sys.argv[1:] if arguments is None else arguments)
    if isinstance(sys.stdout, io.TextIOWrapper):
        sys.stdout.reconfigure(errors='backslashreplace')
    try:
        many = len(words.files) > 1
        status = max(_status_of(name, words, name + ': ' if many else '') for name in words.files)
        sys.stdout.flush()
        return status
    except (OSError, MemoryError) as error:
        print('fault: %s' % error, file=sys.stderr)
        try:
            sys.stdout.flush()
        except OSError:
            # Python flushes once more at its end, and would complain of that.
            os.dup2(os.open(os.devnull, os.O_WRONLY), sys.stdout.fileno())
        return 3


if __name__ == '__main__':
    sys.exit(main())

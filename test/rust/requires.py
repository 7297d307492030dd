#!/usr/bin/env python3
"""Nothing checks in Rust what a proved function demands of its caller. Each such demand on a function that the Rust crate calls is listed here, with
what the crate has done before that call. The last line is 'N passed, M failed'."""
import pathlib
import re
import sys

sys.path.insert(0, str(pathlib.Path(__file__).resolve().parents[1]))
sys.path.insert(0, str(pathlib.Path(__file__).resolve().parents[2] / 'ports'))
import harness  # noqa: E402
from erase_parts import lexer  # noqa: E402
from erase_parts.uses import CRATES  # noqa: E402
from harness import TOP  # noqa: E402

# A payload is known to be of its kind where `check_payload` has accepted it, where the message was validated, or where a call wrote it.
KNOWN = {
    'AlternativeParts::new': ['requires { IsAlternative payload.now }'],
    'CarrierParts::new': ['requires { IsCarrier payload.now }'],
    'ErrorParts::new': ['requires { IsError payload.now }'],
    'TextParts::new': ['requires { IsText payload.now }'],
    'UriParts::new': ['requires { (profile : Reader) × IsUri profile payload.now }'],
    # `view` has accepted or refused the bytes before.
    'fields_before': ['requires { IsMessageFront bytes.now }'],
    # The number of bytes of a chunk is a NonZeroU32.
    'RecordEncoder::new': ['requires { ForSome plan.size (λ n. 1 ≤ n) }'],
}


def demands(text):
    """The clauses of each function of a file that demand something, by the type of its impl and its name."""
    found, owner, name = {}, '', None
    tokens = [token for token in lexer.lex(text) if token.kind not in ('space', 'comment')]
    for at, token in enumerate(tokens):
        after = [it.text for it in tokens[at + 1:at + 40]]
        if token.text == 'impl':
            head = after[:after.index('{')] if '{' in after else after
            named = [word for word in head if word[0].isupper()]
            owner = named[-1] if 'for' in head else named[0]
        elif token.text == 'fn' and tokens[at + 1].kind == 'word':
            before = [it.text for it in tokens[max(at - 2, 0):at]]
            is_method = 'self' in after[2:6]
            name = after[0] if not is_within(tokens, at) else f'{owner}.{after[0]}' if is_method else f'{owner}::{after[0]}'
            # One of the crate's own is not called from outside.
            name = name if 'pub' in before and ')' not in before else None
            found.setdefault(name, [])
        elif token.kind == 'ghost' and token.text.startswith('requires') and name:
            found[name].append(' '.join(token.text.split()))
    return found


def is_within(tokens, at):
    """Whether a token stands within braces."""
    return sum((token.text == '{') - (token.text == '}') for token in tokens[:at]) > 0


def imported(text):
    """The names of the proved text that a file of the crate imports."""
    uses = re.findall(r'use crate::proved::[\w:]*?(?:::\{([^}]*)\}|::(\w+));', text)
    return {name.strip() for many, one in uses for name in (many or one).split(',')}


def called(text):
    """The functions of the proved text that a file of the crate calls: `name` or `Type::name`; `Type.name` of a type that it imports."""
    names, code = imported(text), re.sub(r'//[^\n]*', '', text)
    methods = set(re.findall(r'\.(\w+)\(', code))
    return {f'{name}.{method}' for name in names for method in methods} | names | set(re.findall(r'\b(?:[A-Z]\w*::[a-z]|ndef_)\w*', code))


def main():
    demanded = {}
    for crate in CRATES:
        for path in sorted((TOP / 'crates' / crate / 'src').glob('*.rt')):
            demanded.update({name: clauses for name, clauses in demands(path.read_text()).items() if clauses})
    harness.count('a demand is seen', demands('impl<\'a> A<\'a> { pub fn b(c: u8) requires { c < 3 } { d } pub fn h(&self) {} } pub fn e() requires { f } { g }')
                  == {'A::b': ['requires { c < 3 }'], 'A.h': [], 'e': ['requires { f }']})
    calls = set().union(*(called(path.read_text()) for path in (TOP / 'bindings/rust/src').glob('*.rs')))
    asked = {name: clauses for name, clauses in demanded.items() if name in calls}
    harness.count('what the functions that are called demand is listed here', asked == KNOWN, *sorted(set(map(str, asked.items())) ^ set(map(str, KNOWN.items()))))
    harness.finish()


main()

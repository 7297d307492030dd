#!/usr/bin/env python3
"""c_interface.py FOLDER: writes the file FOLDER/ndef.rs, a library for C of the proved text, as `ports/erase --whole` writes it, only for tests. Its calls
are those of include/ndef.h, so the programs of test/c run over it: two compilers on one proved text, each a test of the other. With
`--cfg bare` it needs no operating system."""
import pathlib
import re
import subprocess
import sys

TOP = pathlib.Path(__file__).resolve().parents[2]
FOLDER = pathlib.Path(sys.argv[1]).resolve()
PROVED = FOLDER / 'whole/proved'
CALL = re.compile(r'^pub fn (ndef_\w+)(?:<[^>]*>)?\((.*?)\)\s*(->\s*\w+)?\s*\{', re.S | re.M)
HEAD = f'''#![cfg_attr(bare, no_std)]
#![allow(unsafe_code, dead_code, improper_ctypes_definitions, clippy::missing_safety_doc)]
#[path = "{PROVED}/mod.rs"]
mod proved;
use proved::ndef_c::*;

#[cfg(bare)]
#[panic_handler]
fn stops(_: &core::panic::PanicInfo<'_>) -> ! {{
    loop {{}}
}}

const _: () = assert!(size_of::<NdefChecker>() <= 488 && align_of::<NdefChecker>() <= 8);

unsafe fn some<'a, T>(at: *const T, count: usize) -> &'a [T] {{
    if count == 0 {{ &[] }} else {{ core::slice::from_raw_parts(at, count) }}
}}

unsafe fn some_mut<'a, T>(at: *mut T, count: usize) -> &'a mut [T] {{
    if count == 0 {{ &mut [] }} else {{ core::slice::from_raw_parts_mut(at, count) }}
}}
'''


def argument(text):
    """The parameters in C of a parameter, and what the call is given of them."""
    name, kind = (word.strip() for word in text.split(':'))
    kind = re.sub(r"'\w+ ", '', kind)
    pointer = '*mut' if kind.startswith('&mut') else '*const'
    if found := re.fullmatch(r'&(?:mut )?\[(\w+)\]', kind):
        made = 'some_mut' if pointer == '*mut' else 'some'
        return [f'{name}: {pointer} {found[1]}', f'{name}_count: usize'], f'{made}({name}, {name}_count)'
    if found := re.fullmatch(r'&(?:mut )?(\w+)', kind):
        return [f'{name}: {pointer} {found[1]}'], f'&{"mut " if pointer == "*mut" else ""}*{name}'
    if kind in ('u32', 'u64', 'usize'):
        return [text], name
    sys.exit(f'c_interface.py: a parameter of another kind: {text}')


def call(name, parameters, answer):
    if name == 'ndef_begin':
        # What the memory of the checker holds before isn't one.
        return ('#[no_mangle] pub unsafe extern "C" fn ndef_begin(limits: *const NdefLimits, checker: *mut NdefChecker) -> u32 {\n'
                '    checker.write(begun(&*limits));\n    ndef_begin(&*limits, &mut *checker)\n}\n')
    given = [argument(' '.join(text.split())) for text in parameters.split(',') if text.strip()]
    words = ', '.join(word for words, _ in given for word in words)
    body = ', '.join(word for _, word in given)
    return (f'#[no_mangle] pub unsafe extern "C" fn {name}({words}) {answer or ""} {{\n'
            f'    proved::ndef_c::{name}({body})\n}}\n')


def main():
    subprocess.run([TOP / 'ports/erase', '--whole', PROVED], check=True)
    (PROVED.parent / 'shim.rs').write_text((TOP / 'bindings/rust/src/shim.rs').read_text())
    text = '\n'.join(path.read_text() for path in sorted((PROVED / 'ndef_c').glob('*.rs')))
    calls = CALL.findall(text)
    made = HEAD + '\n'.join(call(*found) for found in calls)
    # The name of a call is taken twice: by the proved function, and by the one for C.
    made = made.replace('ndef_begin(&*limits, &mut', 'proved::ndef_c::ndef_begin(&*limits, &mut')
    made = made.replace('use proved::ndef_c::*;', 'use proved::ndef_c::{begun, ' + ', '.join(sorted(set(re.findall(r'\bNdef\w+', made)))) + '};')
    (FOLDER / 'ndef.rs').write_text(made)


main()

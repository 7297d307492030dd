"""All rules, one after another, over all files."""
from __future__ import annotations

import os

from . import memory, words
from .errors import rewrite_errors
from .laws import drop_laws
from .lexer import is_code, lex, nxt, cut, report, txt
from .rules import (check_unsafe, derive_clone, derive_more, drop_attributes, drop_drop, drop_ghosts, drop_impls_of_model,
                    nest_let_chains, rewrite_fmt, rewrite_listed)
from .uses import CRATES, HOME, drop_unused_uses, drop_uses, find_traits, is_left_out, rewrite_paths, write_lib

ROOT = '''// Written by ports/erase: do not edit.
//! The proved text, its contracts taken out. Each file names the one of `crates/` that it comes of, where the contract of each function
//! stands. `shim.rs` is written by hand: it is what Rattle's std has and Rust's has not.
// Not all of it is used by the rest of this crate, some parameters are read by contracts alone, and its layout is that of its source.
#![allow(dead_code, unused_imports, unused_labels, unused_variables, missing_docs, clippy::all)]
#![warn(clippy::incompatible_msrv)]

'''


def read(source, crate, base):
    """A file without what only the prover reads."""
    with open(os.path.join(source, crate, "src", base + ".rt"), encoding="utf-8") as file:
        ts = lex(file.read())
    drop_ghosts(ts)
    rewrite_listed(ts)
    drop_attributes(ts)
    drop_impls_of_model(ts)
    drop_uses(ts)
    derive_clone(ts)
    drop_drop(ts)
    derive_more(ts)
    rewrite_fmt(ts)
    rewrite_errors(ts)
    check_unsafe(ts)
    nest_let_chains(ts)
    find_traits(ts)
    if base == "lib":
        write_lib(ts, crate)
    return ts


def drop_empty(files):
    """Files with nothing left, and the `mod` items that name them."""
    for crate, base in [key for key, ts in files.items() if key[1] != "lib" and not any(is_code(t) for t in ts)]:
        report.where = f"{crate}/{base}"
        lib = files[crate, "lib"]
        at = next(i for i in range(len(lib)) if lib[i].text == "mod" and txt(lib, nxt(lib, i)) == base)
        cut(lib, at, nxt(lib, nxt(lib, at)), "file of laws alone", comments=False)
        del files[crate, base]


def erased(source):
    """The tokens of each file that is left."""
    files = {}
    for crate in CRATES:
        for name in sorted(os.listdir(os.path.join(source, crate, "src"))):
            base, ending = os.path.splitext(name)
            if ending == ".rt" and not is_left_out(crate, base):
                report.where = f"{crate}/{base}"
                files[crate, base] = read(source, crate, base)
    drop_laws(files)
    for (crate, base), ts in files.items():
        report.where = f"{crate}/{base}"
        drop_unused_uses(ts)
    drop_empty(files)
    memory.drop_allocating(files)
    for (crate, base), ts in files.items():
        report.where = f"{crate}/{base}"
        drop_unused_uses(ts)
        words.rewrite(source, files, crate, ts)
        rewrite_paths(ts, crate)
    return files


def erase(source, out):
    """Writes the module `proved` to the folder."""
    os.makedirs(out)
    for (crate, base), ts in erased(source).items():
        os.makedirs(os.path.join(out, crate), exist_ok=True)
        head = f"// Written by ports/erase of crates/{crate}/src/{base}.rt, which has the contracts: do not edit.\n"
        with open(os.path.join(out, crate, ("mod" if base == "lib" else base) + ".rs"), "w", encoding="utf-8") as file:
            file.write(head + "".join(t.text for t in ts).strip() + "\n")
    with open(os.path.join(out, "mod.rs"), "w", encoding="utf-8") as file:
        file.write(ROOT + "".join(f"pub(crate) mod {name};\n" for name in sorted(CRATES)) + '#[path = "../shim.rs"]\npub(crate) mod shim;\n')

"""What comments say of files and items: where the files are in the crate that is written, or else in the repository."""
from __future__ import annotations

import glob
import os
import re

from .lexer import Tok, note, report
from .uses import CRATES

FILE = re.compile(r"((?:[a-z_]+/)*)([A-Za-z_/]*?)(\w+)\.(rt|antt)\b")


def rank(path):
    """The lowest crate first: a comment that names no crate means one of those below."""
    return next((at for at, crate in enumerate(CRATES) if f"/{crate}/" in path), len(CRATES)), path


def place(source, files, crate, found):
    """The file that is meant: `name.rs` of the same module, or its path in the repository."""
    name = found.group(0)
    base = found.group(3)
    if name.endswith(".rt") and not found.group(1) and (crate, base) in files:
        return ("mod" if base == "lib" else base) + ".rs"
    for path in (name, f"{crate}/{name}", f"{crate}/src/{name}", f"{crate}/specs/{name}"):
        if os.path.isfile(os.path.join(source, path)):
            return f"crates/{path}"
    for pattern in (f"{source}/*/{name}", f"{source}/{crate}/**/{base}.antt", f"{source}/**/{base}.antt"):
        where = sorted((path for path in glob.glob(pattern, recursive=True) if "/out/" not in path), key=rank)
        if where:
            return f"crates/{os.path.relpath(where[0], source)}"
    raise SystemExit(f"{report.where}: no file {name}")


# A link to an item of the crate, which is a module here, or gone where it is a law.
LINK = re.compile(r"\[(`[^`]+`)\]\(crate::[\w:]+\)|\[(`ndef_\w+::[\w:]+`)\]")


def rewrite(source, files, crate, ts):
    for i, t in enumerate(ts):
        if t.kind == "comment" and LINK.search(t.text):
            note("link", t.text)
            ts[i] = t = Tok("comment", LINK.sub(lambda found: found[1] or found[2], t.text))
        if t.kind == "comment" and FILE.search(t.text):
            text = FILE.sub(lambda found: place(source, files, crate, found), t.text)
            note("name of a file", t.text)
            ts[i] = Tok("comment", text)

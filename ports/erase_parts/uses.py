"""Names of modules: paths, `use` items, and the files that are left out."""
from __future__ import annotations

from .lexer import Tok, close, cut, is_code, lex, note, nxt, prv, report, txt

CRATES = ["ndef_format", "ndef_value", "ndef_piece", "ndef_lang", "ndef_nest", "ndef_message", "ndef_types",
          "ndef_fields", "ndef_diagnostics", "ndef_c"]
# The module of the Rust crate that holds what is written.
HOME = "proved"
# Files over std's readers and writers, which need Rattle's own std::io.
NEEDS_STD = {("ndef_message", "std_source"), ("ndef_message", "std_sink")}
# Files that the Rust crate doesn't need.
LEFT_OUT = {
    "ndef_message": {"encoder", "encoding", "endless_source", "failing_sink", "failing_source", "input", "message_reading", "sending", "sink",
                     "slice_source", "writing"},
    "ndef_types": {"build_error", "builder", "ids", "link", "nested"},
}
# Of the calls for C those that write payloads without memory, and what they need.
ONLY = {"ndef_c": {"lib", "alternative", "alternative_writing", "buffer", "carrier", "checking", "content", "error_writing", "handover_writing",
                   "limits", "numbers", "out", "part", "references", "refusal", "status", "text", "uri", "utf16"}}


class Wanted:
    """Whether all files are wanted, or only those that the Rust crate needs."""

    whole = False


def is_left_out(crate, base):
    if Wanted.whole:
        return (crate, base) in NEEDS_STD
    return (crate, base) in NEEDS_STD or base in LEFT_OUT.get(crate, ()) or base not in ONLY.get(crate, {base})



def drop_unused_uses(ts):
    """Files with `use` items alone, and private `use`s of names that no code has any more."""
    i = 0
    while i < len(ts):
        if not (ts[i].kind == "word" and ts[i].text == "use" and txt(ts, prv(ts, i)) in ("", ";", "}", "]")):
            i += 1
            continue
        e = split_use(ts, i)
        words = [t.text for t in ts[i:e] if is_code(t)]
        names = [w for w in words[(words.index("{") + 1 if "{" in words else -1):] if w not in (",", "}")]
        others = {t.text for k, t in enumerate(ts) if t.kind == "word" and not i <= k <= e}
        # A trait stays where a name of its methods stands: its calls don't name it.
        gone = [n for n in names if n not in others and not others & TRAITS.get(n, set())]
        if gone:
            note("use of what is gone", " ".join(gone))
            kept = [n for n in names if n not in gone]
            if not kept:
                i = cut(ts, i, e, "use of what is gone", comments=False)
                continue
            path = "".join(words[1:words.index("{")])
            new = f"use {path}{{{', '.join(kept)}}};" if len(kept) > 1 else f"use {path}{kept[0]};"
            ts[i:e + 1] = lex(new)
        i += 1


# The traits, and the names of their functions.
TRAITS = {"ByteOrder": {"write_u32"}, "Hash": {"hash"}}


def find_traits(ts):
    """The names of the functions of each trait."""
    for i, t in enumerate(ts):
        if t.kind == "word" and t.text == "trait":
            b = i
            while txt(ts, b) != "{":
                b = nxt(ts, b)
            TRAITS[txt(ts, nxt(ts, i))] = {fn for _, fn, _, _, _ in functions(ts[b:close(ts, b)])}


SHIMMED = {"alloc", "string", "collections"}          # modules of Rattle's std that the shim stands for
KIT = {"smallvec", "simdutf8", "byteorder", "arrayvec", "itoa"}
CORE = {"fmt", "hash", "error", "slice", "iter", "cmp", "mem", "marker", "convert", "ops", "str", "option", "result"}


def split_use(ts, i):
    """The end of the `use` item at a place."""
    e = i
    while txt(ts, e) != ";":
        e = nxt(ts, e)
    return e


def moved(ts, i, crate):
    """What stands for the first word of a path, and the rule that says so; None where it stays."""
    word, module = ts[i].text, txt(ts, nxt(ts, nxt(ts, i)))
    if word == "crate":
        return f"crate::{HOME}::{crate}", "path crate::"
    if word in CRATES:
        return f"crate::{HOME}::{word}", "path of a crate"
    if word in KIT:
        return f"crate::{HOME}::shim::{word}", "path of the kit"
    if word != "std":
        return None
    if module not in SHIMMED | CORE:
        raise SystemExit(f"{report.where}: std::{module}")
    return (f"crate::{HOME}::shim::std" if module in SHIMMED else "core"), "path of std"


def rewrite_paths(ts, crate):
    """Paths begin with the module in the Rust crate, or with core."""
    for i, t in enumerate(ts):
        if t.kind == "word" and txt(ts, nxt(ts, i)) == "::" and txt(ts, prv(ts, i)) not in ("::", "."):
            if found := moved(ts, i, crate):
                note(found[1], t.text)
                ts[i] = Tok("word", found[0])


def drop_uses(ts):
    """`use` of Model and of thiserror."""
    i = 0
    while i < len(ts):
        if ts[i].kind == "word" and ts[i].text == "use":
            e = split_use(ts, i)
            words = "".join(t.text for t in ts[i + 1:e] if is_code(t))
            if words in ("std::marker::Model", "thiserror::Error"):
                i = cut(ts, i, e, "use of what is gone", comments=False)
                continue
        i += 1


def write_lib(ts, crate):
    """Drops the `mod` and `pub use` of the files that are left out."""
    i = 0
    while i < len(ts):
        if ts[i].text == "mod" and is_left_out(crate, txt(ts, nxt(ts, i))):
            i = cut(ts, i, nxt(ts, nxt(ts, i)), "file left out", comments=False)
            continue
        if ts[i].text == "pub" and txt(ts, nxt(ts, i)) == "use" and is_left_out(crate, txt(ts, nxt(ts, nxt(ts, i)))):
            i = cut(ts, i, split_use(ts, i), "file left out", comments=False)
            continue
        i += 1


def functions(ts):
    """(start, name, first of the parameters, its end, the body's brace or ;, end) of each function."""
    i = 0
    while i < len(ts):
        if ts[i].kind == "word" and ts[i].text == "fn" and ts[nxt(ts, i)].kind == "word":
            name = nxt(ts, i)
            p = nxt(ts, name)
            if txt(ts, p) == "<":
                depth = 0
                while True:
                    depth += (txt(ts, p) == "<") - (txt(ts, p) == ">")
                    p = nxt(ts, p)
                    if depth == 0:
                        break
            e = close(ts, p)
            b = nxt(ts, e)
            yield i, txt(ts, name), p, e, b
            i = b
        i += 1

"""Laws: functions that only the prover calls for."""
from __future__ import annotations

import collections
import re

from .lexer import close, cut, is_code, lex, note, nxt, prv, report, txt
from .uses import functions, split_use


def find_laws(files):
    """The functions outside impls and traits without a result and without a parameter that is or holds a `&mut`:
    a call of one has no effect, as it is proved that it ends and stops nowhere, and there are no cells, no statics
    and no io in these crates."""
    laws, others = collections.defaultdict(set), collections.defaultdict(set)
    for key, ts in files.items():
        for i, fn, p, e, b in functions(ts):
            others[fn].add(key)
            params = [t.text for t in ts[p:e + 1] if is_code(t)]
            if txt(ts, b) == "{" and "mut" not in params and "self" not in params:
                # Parameters by value could hold a `&mut`: only references and limits are let through.
                k = [j for j, w in enumerate(params) if w == ":"]
                if all(params[j + 1] == "&" for j in k):
                    laws[fn].add(key)
                    others[fn].remove(key)
    return laws, others


def with_visibility(ts, i):
    """Where the item at a place begins: at its `pub` or `pub(crate)`, if it has one."""
    q = prv(ts, i)
    if txt(ts, q) == ")":
        while txt(ts, q) != "pub":
            q = prv(ts, q)
    return q if txt(ts, q) == "pub" else i


def drop_functions(ts, own):
    """The laws of a file, from the last to the first."""
    for i, fn, _, _, b in reversed(list(functions(ts))):
        if fn in own:
            cut(ts, with_visibility(ts, i), close(ts, b), "law")


def call_end(ts, i):
    """The `;` of the call of a law at a place. What is given to it are references and names alone, so nothing else is lost."""
    p = nxt(ts, i)
    while txt(ts, p) != "(":                        # one_refusal::<L>()
        p = nxt(ts, p)
    e = close(ts, p)
    args = [t.text for t in ts[p + 1:e] if is_code(t)]
    if not all(re.fullmatch(r"&|\.|,|\w+", a) for a in args):
        raise SystemExit(f"{report.where}: call of a law with {args}")
    if txt(ts, nxt(ts, e)) != ";":
        raise SystemExit(f"{report.where}: call of a law is no statement")
    return nxt(ts, e)


def drop_calls(ts, laws):
    """Calls of laws, which are statements."""
    i = 0
    while i < len(ts):
        is_call = ts[i].kind == "word" and ts[i].text in laws and txt(ts, nxt(ts, i)) in ("(", "::")
        if is_call and txt(ts, prv(ts, i)) in ("{", ";", "}"):
            i = cut(ts, i, call_end(ts, i), "call of a law")
        else:
            i += 1


def without_laws(ts, start, i, words, laws):
    """The `use` item without the names of laws, or nothing where no other is left."""
    b = words.index("{") if "{" in words else None
    kept = [w for w in words[b + 1:-1] if w != "," and w not in laws] if b else []
    head, path = "".join(t.text for t in ts[start:i]), "".join(words[1:b])
    if len(kept) > 1:
        return f"{head}use {path}{{{', '.join(kept)}}};"
    return f"{head}use {path}{kept[0]};" if kept else None


def drop_names(ts, laws):
    """The names of laws in `use` items."""
    i = 0
    while i < len(ts):
        words = [t.text for t in ts[i:split_use(ts, i)] if is_code(t)] if ts[i].kind == "word" and ts[i].text == "use" else []
        gone = [w for w in words if w in laws and w != words[1]]
        if not gone:
            i += 1
            continue
        start, e = with_visibility(ts, i), split_use(ts, i)
        note("use of a law", " ".join(gone))
        new = without_laws(ts, start, i, words, laws)
        if new is None:
            i = cut(ts, start, e, "use of a law", comments=False)
        else:
            ts[start:e + 1] = lex(new)
            i = start + 1


def drop_laws(files):
    of_files, others = find_laws(files)
    for key, ts in files.items():
        report.where = "/".join(key)
        # A name is that of a law where this file has the law, or no file another function of that name.
        laws = {n for n, where in of_files.items() if key in where or where and not others[n]}
        drop_functions(ts, {n for n, where in of_files.items() if key in where})
        drop_calls(ts, laws)
        drop_names(ts, laws)

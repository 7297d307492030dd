"""The rules that drop what only the prover reads, and rewrite what Rust says in another way."""
from __future__ import annotations

import re

from .lexer import Tok, close, cut, is_code, lex, note, nxt, prv, report, txt


def drop_ghosts(ts):
    i = 0
    while i < len(ts):
        if ts[i].kind == "ghost":
            t = ts[i].text
            rule = ("ghost use" if re.match(r"ghost\s+use", t) else "ghost item" if t.startswith("ghost")
                    else "clause requires" if t.startswith("requires") else "clause ensures")
            i = max(cut(ts, i, i, rule), 0)
        else:
            i += 1


def drop_impls_of_model(ts):
    i = 0
    while i < len(ts):
        if ts[i].text == "impl" and ts[i].kind == "word":
            b = i
            while txt(ts, b) != "{":
                b = nxt(ts, b)
            words = [t.text for t in ts[i:b] if is_code(t)]
            if "Model" in words and words[words.index("Model") + 1] == "for":
                e = close(ts, b)
                if any(is_code(t) for t in ts[b + 1:e]):
                    raise SystemExit(f"{report.where}: impl Model has code")
                i = cut(ts, i, e, "impl Model")
                continue
            i = b
        i += 1


def drop_attributes(ts):
    i = 0
    while i < len(ts):
        if ts[i].text == "#":
            b = nxt(ts, i)
            inner = txt(ts, b) == "!"
            if inner:
                b = nxt(ts, b)
            if txt(ts, b) == "[" and txt(ts, nxt(ts, b)) in ("tactic", "cycle"):
                i = cut(ts, i, close(ts, b), "attribute of the prover", comments=False)
                continue
            if txt(ts, b) == "[" and txt(ts, nxt(ts, b)) == "unsafe" \
                    and txt(ts, nxt(ts, nxt(ts, nxt(ts, b)))) == "no_mangle":
                i = cut(ts, i, close(ts, b), "no_mangle", comments=False)
                continue
        if ts[i].text == "extern" and txt(ts, nxt(ts, i)) == '"C"':
            note("extern C", 'extern "C"')
            del ts[i:nxt(ts, nxt(ts, i))]
            continue
        i += 1


def drop_drop(ts):
    """Drop as a bound, as a supertrait and in a derive: in Rust each type may be let go."""
    i = 0
    while i < len(ts):
        if ts[i].kind == "word" and ts[i].text == "Drop":
            p, n = prv(ts, i), nxt(ts, i)
            if txt(ts, p) == "for" or txt(ts, n) == "for":
                raise SystemExit(f"{report.where}: impl Drop")
            if txt(ts, p) == ":" and txt(ts, n) != "+":
                note("bound Drop", ": Drop")
                del ts[p:i + 1]
                i = p
                continue
            if txt(ts, p) in ("+", ","):
                note("bound Drop" if txt(ts, p) == "+" else "derive Drop", txt(ts, p) + " Drop")
                del ts[p:i + 1]
                i = p
                continue
            if txt(ts, n) in ("+", ","):
                note("bound Drop" if txt(ts, n) == "+" else "derive Drop", "Drop " + txt(ts, n))
                end = n + 1
                while ts[end].kind == "space":
                    end += 1
                del ts[i:end]
                continue
            if txt(ts, p) == "(" and txt(ts, n) == ")":
                a = prv(ts, p)
                if txt(ts, a) == "derive":
                    h = prv(ts, prv(ts, a))
                    i = cut(ts, h, nxt(ts, n), "derive Drop", comments=False)
                    continue
            raise SystemExit(f"{report.where}: Drop in {txt(ts, p)} Drop {txt(ts, n)}")
        i += 1


FMT_FROM = [t.text for t in lex("fn fmt<W: fmt::Write>(&self, f: &mut fmt::Formatter<W>)") if is_code(t)]
FMT_TO = "fn fmt(&self, f: &mut fmt::Formatter<'_>)"


def rewrite_fmt(ts):
    """Rattle's fmt is generic over the writer."""
    i = 0
    while i < len(ts):
        if ts[i].text == "fn":
            j, ok = i, True
            for want in FMT_FROM:
                if txt(ts, j) != want:
                    ok = False
                    break
                last, j = j, nxt(ts, j)
            if ok:
                note("fmt's writer", "".join(t.text for t in ts[i:last + 1]))
                ts[i:last + 1] = lex(FMT_TO)
        i += 1


def check_unsafe(ts):
    """`unsafe { str::from_utf8_unchecked(X) }`, whose contract is proved: core's test in its place, with a panic that
    never comes."""
    i = 0
    while i < len(ts):
        if ts[i].kind == "word" and ts[i].text == "unsafe":
            b = nxt(ts, i)
            e = close(ts, b)
            words = [t.text for t in ts[b + 1:e] if is_code(t)]
            if words[:4] != ["str", "::", "from_utf8_unchecked", "("] or words[-1] != ")":
                raise SystemExit(f"{report.where}: unsafe {words}")
            note("unsafe made a test", "".join(t.text for t in ts[i:e + 1]))
            ts[i:e + 1] = lex(f"core::str::from_utf8({''.join(words[4:-1])}).unwrap()")
        i += 1


REWRITES = [
    # A checker of C lies in memory of the caller that may hold anything: in Rust it is a value.
    ("ndef_c/feeding", "unsafe extern \"C\" fn", "fn", 2),
    ("ndef_c/feeding", "checker: *mut NdefChecker", "checker: &mut NdefChecker", 2),
    ("ndef_c/feeding", "checker.write(begun(limits))", "*checker = begun(limits)", 1),
    # What the header says of the bytes of a checker.
    ("ndef_c/feeding", "const _: () = prove!(size_of::<NdefChecker>() <= 488);", "", 1),
    ("ndef_c/feeding", "const _: () = prove!(align_of::<NdefChecker>() == 8);", "", 1),
    ("ndef_c/feeding", "fn begun", "pub fn begun", 1),
    ("ndef_c/lib", "pub use feeding::ndef_begin", "pub use feeding::begun;\npub use feeding::ndef_begin", 1),
]


def rewrite_listed(ts):
    """The few places that are rewritten, or dropped, one by one."""
    for where, old, new, count in REWRITES:
        if where != report.where:
            continue
        words = [t.text for t in lex(old) if is_code(t)]
        found, i = 0, 0
        while i < len(ts):
            if ts[i].text == words[0]:
                j, last = i, i
                for w in words:
                    if txt(ts, j) != w:
                        break
                    last, j = j, nxt(ts, j)
                else:
                    if new:
                        note("listed place", f"{old} -> {new}")
                        ts[i:last + 1] = lex(new)
                        i += len(lex(new)) - 1
                    else:
                        i = cut(ts, i, last, "listed place")
                    found += 1
            i += 1
        if found != count:
            raise SystemExit(f"{report.where}: {old} stands {found} times")


def derive_clone(ts):
    """What is Drop alone in Rattle can't be copied there without an allocator: in Rust it gets Clone."""
    i = 0
    while i < len(ts):
        if ts[i].text == "derive" and txt(ts, nxt(ts, i)) == "(":
            b = nxt(ts, i)
            e = close(ts, b)
            words = [t.text for t in ts[b + 1:e] if is_code(t)]
            if "Drop" in words and "Clone" not in words:
                j = nxt(ts, nxt(ts, e))
                while txt(ts, j) not in ("struct", "enum"):
                    j = nxt(ts, j)
                while txt(ts, j) not in ("{", ";", "("):
                    j = nxt(ts, j)
                body = [t.text for t in ts[j:close(ts, j)] if is_code(t)] if txt(ts, j) == "{" else []
                if not any(a == "mut" for a in body):
                    note("derive Clone", "")
                    ts[b + 1:b + 1] = lex("Clone, ")
        i += 1


def derive_more(ts):
    """The structs of C are plain numbers: in Rust they get the usual derives, and their fields are the crate's."""
    i = 0
    while i < len(ts):
        if ts[i].text == "repr" and txt(ts, nxt(ts, nxt(ts, i))) == "C":
            j = i
            while txt(ts, j) != "derive":
                j = nxt(ts, j)
            e = close(ts, nxt(ts, j))
            words = [t.text for t in ts[nxt(ts, j) + 1:e] if is_code(t)]
            if words == ["Clone", ",", "Copy"]:
                note("derives of a struct of C", "")
                brace = e
                while txt(ts, brace) != "{":
                    brace = nxt(ts, brace)
                for k in reversed(range(brace, close(ts, brace))):
                    if ts[k].kind == "word" and ts[k].text == "pub" and txt(ts, nxt(ts, k)) != "(":
                        note("field of a struct of C", txt(ts, nxt(ts, k)))
                        ts[k] = Tok("word", "pub(crate)")
                ts[e:e] = lex(", Debug, Default, PartialEq, Eq, Hash")
        i += 1


def chained(ts, i):
    """The place of the `&&` by which the condition of the `if let` at i goes on, if it does, and the brace of the body."""
    chain, j = None, nxt(ts, i)
    while txt(ts, j) != "{":
        if txt(ts, j) == "&&" and chain is None:
            chain = j
        j = nxt(ts, close(ts, j)) if txt(ts, j) in ("(", "[") else nxt(ts, j)
    return chain, j


def nest_let_chains(ts):
    """`if let A = b && c { .. }` without an `else` becomes two ifs: Rust has such chains since 1.88 only."""
    for i in reversed(range(len(ts))):
        if ts[i].text != "if" or txt(ts, nxt(ts, i)) != "let":
            continue
        chain, brace = chained(ts, i)
        if chain is None:
            continue
        end = close(ts, brace)
        if txt(ts, nxt(ts, end)) == "else" or txt(ts, prv(ts, i)) == "else":
            raise SystemExit(f"{report.where}: a chain of lets with an else")
        note("chain of lets", "".join(t.text for t in ts[i:brace]))
        ts[end + 1:end + 1] = lex(" }")
        ts[chain:chain + 1] = lex("{ if")

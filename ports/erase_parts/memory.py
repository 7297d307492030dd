"""What allocates is left out: the Rust crate reads bytes where they lie.

An item allocates where it names what stands for memory, or an item that does; a function of an impl too, each by itself. In Rattle what
allocates is given the allocator, so no call of a method hides it: its caller names `Global`, or holds what does."""
from __future__ import annotations

from .lexer import close, cut, is_code, lex, note, nxt, prv, report, txt
from .uses import CRATES, split_use

MEMORY = {"Global", "AllocError", "AllocFailed", "FromUtf16Error", "Vec", "String", "BTreeMap", "Box", "SmallVec"}
KINDS = ("fn", "struct", "enum", "trait", "impl", "use", "const", "type", "mod")
BEFORE = ("pub", "const", "unsafe", "extern")


class Item:
    """An item: where its attributes begin, its word, its name, the brace of its body if it has one, its last token."""

    def __init__(self, start, at, kind, name, brace, end):
        self.start, self.at, self.kind, self.name, self.brace, self.end = start, at, kind, name, brace, end


def skip_attributes(ts, i):
    while txt(ts, i) == "#":
        b = nxt(ts, i)
        i = nxt(ts, close(ts, nxt(ts, b) if txt(ts, b) == "!" else b))
    return i


def keyword(ts, i):
    """The place of the word that says what the item at i is."""
    while txt(ts, i) in BEFORE and not (txt(ts, i) == "const" and txt(ts, nxt(ts, i)) not in ("fn", "unsafe")):
        i = nxt(ts, i)
        if txt(ts, i) == "(":
            i = nxt(ts, close(ts, i))
    if txt(ts, i) not in KINDS:
        raise SystemExit(f"{report.where}: an item begins with {txt(ts, i)}")
    return i


def body(ts, i, kind):
    """The brace of the item's body, if it has one, and its last token."""
    while txt(ts, i) != ";":
        if txt(ts, i) == "{" and kind not in ("use", "const"):
            return i, close(ts, i)
        i = nxt(ts, close(ts, i)) if txt(ts, i) in ("(", "[", "{") else nxt(ts, i)
    return None, i


def items(ts, first, last):
    """The items between two places."""
    i = nxt(ts, first)
    while i < last:
        start, i = i, skip_attributes(ts, i)
        if i >= last:
            return
        at = keyword(ts, i)
        kind = txt(ts, at)
        brace, end = body(ts, nxt(ts, at), kind)
        yield Item(start, at, kind, txt(ts, nxt(ts, at)), brace, end)
        i = nxt(ts, end)


def imported(ts, e, i):
    """The names of a `use` item, with the words of the path before them."""
    words = [t.text for t in ts[i + 1:e] if is_code(t)]
    if "*" in words or words.count("{") > 1:
        raise SystemExit(f"{report.where}: use {' '.join(words)}")
    b = words.index("{") if "{" in words else len(words) - (3 if "as" in words else 1)
    names = " ".join(words[b:]).strip("{} ").split(",")
    return words[:b], [name.strip() for name in names if name.strip()]


class Scope:
    """What the names of a file stand for."""

    def __init__(self, crate, ts):
        self.crate, self.of = crate, {}
        for item in items(ts, -1, len(ts)):
            if item.kind == "use":
                path, names = imported(ts, item.end, item.at)
                of = path[0] if path[0] in CRATES else crate
                self.of.update({name.split()[-1]: (of, name.split()[0]) for name in names})

    def names(self, ts, first, last, gated):
        """Whether the tokens name what is gated."""
        return any(self.is_gated(ts, i, gated) for i in range(first, last + 1) if ts[i].kind == "word")

    def is_gated(self, ts, i, gated):
        word, before, after = ts[i].text, prv(ts, i), txt(ts, nxt(ts, i))
        if word in MEMORY:
            return True
        if txt(ts, before) == "." or (word[0].islower() and after not in ("(", "::")):
            return False
        meant = self.of.get(word, (self.crate, word))
        if txt(ts, before) == "::":
            head = before
            while txt(ts, head) == "::":
                head = prv(ts, prv(ts, head)) if txt(ts, prv(ts, prv(ts, head))) == "::" else prv(ts, head)
            head = txt(ts, head)
            if head[:1].isupper():
                return False
            meant = (head if head in CRATES else self.of.get(head, (self.crate, head))[0], word)
        return meant in gated


def allocates(scope, ts, item, gated):
    """Whether the item allocates as a whole."""
    if item.kind in ("use", "mod"):
        return False
    if item.kind in ("impl", "trait") and item.brace:
        if scope.names(ts, item.at, item.brace, gated):
            return True
        parts = list(items(ts, item.brace, item.end))
        has_for = any(t.text == "for" for t in ts[item.at:item.brace])
        return bool(parts) and item.kind == "impl" and not has_for and all(scope.names(ts, p.at, p.end, gated) for p in parts)
    return scope.names(ts, item.start, item.end, gated)


def find(files):
    """The items that allocate, by their crates and names; again and again, until no more are found."""
    gated, scopes, size = set(), {key: Scope(key[0], ts) for key, ts in files.items()}, -1
    while size != len(gated):
        size = len(gated)
        for (crate, name), ts in files.items():
            report.where = f"{crate}/{name}"
            for item in items(ts, -1, len(ts)):
                if item.kind != "impl" and allocates(scopes[crate, name], ts, item, gated):
                    gated.add((crate, item.name))
    return gated, scopes


def drop_names(ts, item, crate, gated):
    """A `use` item without the names that allocate."""
    path, names = imported(ts, item.end, item.at)
    of = path[0] if path[0] in CRATES else crate
    kept = [n for n in names if n.split()[0] not in MEMORY and (of, n.split()[0]) not in gated]
    if len(kept) == len(names):
        return
    note("use of what allocates", " ".join(sorted(set(names) - set(kept))))
    if not kept:
        cut(ts, item.start, item.end, "use of what allocates", comments=False)
        return
    head = "".join(t.text for t in ts[item.start:item.at])
    last = kept[0] if len(kept) == 1 else f"{{{', '.join(kept)}}}"
    ts[item.start:item.end + 1] = lex(f"{head}use {''.join(path)}{last};")


def drop_parts(scope, ts, item, gated):
    for part in reversed(list(items(ts, item.brace, item.end))):
        if scope.names(ts, part.at, part.end, gated):
            cut(ts, part.start, part.end, "function that allocates")


def is_whole(scope, ts, gated):
    """Whether all of a file allocates, but for its `use` items."""
    own = [item for item in items(ts, -1, len(ts)) if item.kind != "use"]
    return bool(own) and all(allocates(scope, ts, item, gated) for item in own)


def drop_allocating(files):
    """Drops what allocates."""
    gated, scopes = find(files)
    whole = {key for key, ts in files.items() if key[1] != "lib" and is_whole(scopes[key], ts, gated)}
    for key, ts in files.items():
        report.where = "/".join(key)
        for item in [] if key in whole else reversed(list(items(ts, -1, len(ts)))):
            if item.kind == "mod" and (key[0], item.name) in whole:
                cut(ts, item.start, item.end, "file that allocates", comments=False)
            elif item.kind == "use":
                drop_names(ts, item, key[0], gated)
            elif allocates(scopes[key], ts, item, gated):
                cut(ts, item.start, item.end, "item that allocates")
            elif item.kind in ("impl", "trait") and item.brace:
                drop_parts(scopes[key], ts, item, gated)
    for key in whole:
        del files[key]

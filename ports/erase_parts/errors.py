"""The derive of thiserror, written out."""
from __future__ import annotations

import re

from .lexer import close, cut, is_code, lex, note, nxt, prv, report, txt


class Fault:
    """An error type: its name, the arms of its message, and the errors that become a variant of it."""

    def __init__(self, name):
        self.name, self.arms, self.froms = name, [], []

    def written(self):
        body = "".join(f"            {pattern} => write!(f, {message}),\n" for pattern, message in self.arms)
        text = (f"\n\nimpl core::fmt::Display for {self.name} {{\n"
                f"    fn fmt(&self, f: &mut core::fmt::Formatter<'_>) -> core::fmt::Result {{\n"
                f"        match self {{\n{body}        }}\n    }}\n}}\n\n"
                f"impl core::error::Error for {self.name} {{}}")
        for variant, kind in self.froms:
            text += (f"\n\nimpl From<{kind}> for {self.name} {{\n    fn from(error: {kind}) -> {self.name} {{\n"
                     f"        {self.name}::{variant}(error)\n    }}\n}}")
        return text


def parts(ts, opened):
    """The fields between two brackets, the tokens of each."""
    found, depth = [[]], 0
    for t in ts[opened + 1:close(ts, opened)]:
        if is_code(t):
            depth += (t.text in "([<{") - (t.text in ")]>}")
            if t.text == "," and depth == 0:
                found.append([])
            else:
                found[-1].append(t.text)
    return [field for field in found if field]


def fields(ts, opened):
    """The number of fields without names, or the names of those with names."""
    found = parts(ts, opened)
    if txt(ts, opened) == "(":
        return len(found)
    return [field[field.index(":") - 1] for field in found]


def arm(path, message, shape):
    """One arm of fmt, for a message with {name}, {0} and no other form."""
    if message == "transparent":
        return f"{path}(_0)", '"{_0}"'
    used = re.findall(r"\{(\w*)\}", message)
    if len(used) != message.count("{"):
        raise SystemExit(f"{report.where}: message {message}")
    if isinstance(shape, int):
        names = [f"_{n}" if str(n) in used else "_" for n in range(shape)]
        return f"{path}({', '.join(names)})", re.sub(r"\{(\d+)\}", r"{_\1}", message)
    if shape:
        names = [n for n in shape if n in used]
        return f"{path} {{ {', '.join(names + (['..'] if len(names) < len(shape) else []))} }}", message
    return path, message


def take_message(ts, at):
    """Drops the `#[error(..)]` among the attributes at a place; gives its text, and where what has the attributes begins."""
    message = None
    while txt(ts, at) == "#":
        end = close(ts, nxt(ts, at))
        if txt(ts, nxt(ts, nxt(ts, at))) != "error":
            at = nxt(ts, end)
            continue
        message = txt(ts, nxt(ts, nxt(ts, nxt(ts, nxt(ts, at)))))
        at = cut(ts, at, end, "attribute of thiserror", comments=False)
        while not is_code(ts[at]):
            at += 1
    return message, at


def take_from(ts, opened, variant, fault):
    """Drops a `#[from]` before the field of a variant, and keeps what its type is."""
    at = nxt(ts, opened)
    if txt(ts, at) == "#" and txt(ts, nxt(ts, nxt(ts, at))) == "from":
        end = close(ts, nxt(ts, at))
        fault.froms.append((variant, txt(ts, nxt(ts, end))))
        note("attribute of thiserror", "".join(t.text for t in ts[at:end + 1]))
        del ts[at:nxt(ts, end)]


def take_variant(ts, at, fault):
    """Takes the message of the variant at a place; gives the place of the next one."""
    message, at = take_message(ts, at)
    variant, shape, at = txt(ts, at), None, nxt(ts, at)
    if txt(ts, at) in ("(", "{"):
        take_from(ts, at, variant, fault)
        shape = fields(ts, at)
        at = nxt(ts, close(ts, at))
    fault.arms.append(arm(f"{fault.name}::{variant}", message, shape))
    return nxt(ts, at) if txt(ts, at) == "," else at


def take_type(ts, at):
    """The error type at a place, without what thiserror reads, and its last token."""
    message, at = take_message(ts, at)
    while txt(ts, at) not in ("struct", "enum"):
        at = nxt(ts, close(ts, at) if txt(ts, at) == "(" else at)
    fault, opened = Fault(txt(ts, nxt(ts, at))), nxt(ts, nxt(ts, at))
    if txt(ts, opened) == "<":
        raise SystemExit(f"{report.where}: generic error {fault.name}")
    if txt(ts, at) == "enum":
        variant = nxt(ts, opened)
        while variant < close(ts, opened):
            variant = take_variant(ts, variant, fault)
        return fault, close(ts, opened)
    has_fields = txt(ts, opened) in ("(", "{")
    fault.arms.append(arm(fault.name, message, fields(ts, opened) if has_fields else None))
    end = close(ts, opened) if has_fields else opened
    return fault, nxt(ts, end) if txt(ts, end) == ")" else end


def derive_of(ts, i):
    """The bracket of the derive in which the word `Error` at a place stands."""
    if ts[i].text != "Error" or txt(ts, prv(ts, i)) not in (",", "("):
        return None
    b = i
    while b >= 0 and txt(ts, b) not in ("(", "{", ";"):
        b = prv(ts, b)
    return b if txt(ts, b) == "(" and txt(ts, prv(ts, b)) == "derive" else None


def rewrite_errors(ts):
    """derive(Error) of thiserror, and its #[error(..)]: the impls of Display and Error are written out."""
    i = 0
    while i < len(ts):
        b = derive_of(ts, i)
        if b is None:
            i += 1
            continue
        if txt(ts, prv(ts, i)) != ",":
            raise SystemExit(f"{report.where}: derive(Error, ..)")
        del ts[prv(ts, i):i + 1]
        fault, i = take_type(ts, nxt(ts, nxt(ts, close(ts, b))))
        note("impls of thiserror's Error", fault.name)
        ts[i + 1:i + 1] = lex(fault.written())

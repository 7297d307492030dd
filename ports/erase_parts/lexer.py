"""Tokens of Rattle and of Rust, and the report of what was done to them."""
from __future__ import annotations

import collections
import re


class Report:
    """How often each rule was used, and on what."""

    def __init__(self):
        self.rules, self.lines, self.where = collections.Counter(), [], ""

    def note(self, rule, text):
        self.rules[rule] += 1
        self.lines.append(f"{self.where}\t{rule}\t{' '.join(text.split())[:160]}")


report = Report()
note = report.note


LEX = re.compile(r"""
    (?P<space>\s+)
  | (?P<comment>//[^\n]*|/\*.*?\*/)
  | (?P<text>b?r\#*".*?"\#*|b?"(?:\\.|[^"\\])*")
  | (?P<char>b?'(?:\\(?:x[0-9a-fA-F]{2}|u\{[^}]*\}|.)|[^'\\])')
  | (?P<life>'[A-Za-z_]\w*)
  | (?P<word>[A-Za-z_]\w*)
  | (?P<number>[0-9](?:[0-9A-Za-z_]|\.(?=[0-9]))*)
  | (?P<mark>::|->|=>|\.\.=|\.\.|&&|\|\||[^\s])
""", re.X | re.S)


class Tok:
    __slots__ = ("kind", "text")

    def __init__(self, kind, text):
        self.kind, self.text = kind, text

    def __repr__(self):
        return self.text


def braces_end(text, at):
    """The place behind the brace that closes the one at `at`, in text of the logic, where ' may end a name."""
    depth = 0
    while at < len(text):
        c = text[at]
        if text.startswith("//", at):
            at = text.index("\n", at)
            continue
        if c == '"':
            at = re.compile(r'"(?:\\.|[^"\\])*"', re.S).match(text, at).end()
            continue
        depth += (c == "{") - (c == "}")
        at += 1
        if depth == 0:
            return at
    raise SystemExit(f"{report.where}: open brace")


CLAUSE = re.compile(r"(?:requires|ensures)\*?(?:\s+[A-Za-z_]\w*)?\s*(?=\{)")
GHOST_USE = re.compile(r"ghost\s+use\b[^;]*;")
GHOST = re.compile(r"ghost\s+[^\s:={]+\s*[:=]\s*(?=\{)")


def lex(text):
    """Tokens of a file; each ghost item and each clause is one token of kind 'ghost'."""
    out, at, last = [], 0, None
    while at < len(text):
        end = None
        word = re.compile(r"(ghost|requires|ensures)\b").match(text, at)
        if word and not (last and (last[-1].isalnum() or last[-1] in "_.")):
            if m := GHOST_USE.match(text, at):
                end = m.end()
            elif m := GHOST.match(text, at):
                end = braces_end(text, m.end())
                if by := re.compile(r"\s*by\s*(?=\{)").match(text, end):
                    end = braces_end(text, by.end())
                if text[end:end + 1] in (";", ","):
                    end += 1
            elif m := CLAUSE.match(text, at):
                end = braces_end(text, m.end())
        if end:
            out.append(Tok("ghost", text[at:end]))
        else:
            m = LEX.match(text, at)
            end = m.end()
            out.append(Tok(m.lastgroup, m.group()))
        last = text[at:end]
        at = end
    return out


CODE = ("text", "char", "life", "word", "number", "mark")


def is_code(t):
    return t.kind in CODE


def nxt(ts, i):
    """The place of the next code token behind i."""
    i += 1
    while i < len(ts) and not is_code(ts[i]):
        i += 1
    return i


def prv(ts, i):
    i -= 1
    while i >= 0 and not is_code(ts[i]):
        i -= 1
    return i


def txt(ts, i):
    return ts[i].text if 0 <= i < len(ts) else ""


OPEN = {"(": ")", "[": "]", "{": "}"}


def close(ts, i):
    """The place of the bracket that closes the one at i."""
    depth = 0
    for j in range(i, len(ts)):
        if ts[j].kind == "mark":
            if ts[j].text in OPEN:
                depth += 1
            elif ts[j].text in (")", "]", "}"):
                depth -= 1
                if depth == 0:
                    return j
    raise SystemExit(f"{report.where}: open bracket")


def cut(ts, i, j, rule, comments=True):
    """Drops tokens i to j, and the comments and attributes right before them, with their line."""
    note(rule, "".join(t.text for t in ts[i:j + 1]))
    start = i
    while comments and start > 0:
        if ts[start - 1].kind == "space" and ts[start - 1].text.count("\n") <= 1 and start > 1 \
                and ts[start - 2].kind == "comment" and not ts[start - 2].text.startswith("//!"):
            start -= 2
        elif ts[start - 1].kind == "space" and txt(ts, prv(ts, start)) == "]" and prv(ts, start) == start - 2:
            k = start - 2
            depth = 0
            while True:
                depth += (ts[k].text == "]") - (ts[k].text == "[")
                if depth == 0:
                    break
                k -= 1
            if txt(ts, k - 1) != "#":
                break
            start = k - 1
        else:
            break
    # The space before goes too, where the space behind keeps the lines apart.
    end = j + 1
    if start > 0 and ts[start - 1].kind == "space":
        before = ts[start - 1].text
        after = ts[end].text if end < len(ts) and ts[end].kind == "space" else ""
        if "\n" in before:
            # Keep the larger gap once.
            keep = after if after else before
            if after and txt(ts, start - 2) == "{" and after.count("\n") > 1:
                keep = "\n" + after.split("\n")[-1]
            ts[start - 1] = Tok("space", keep)
            if after:
                end += 1
    del ts[start:end]
    return start

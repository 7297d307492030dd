"""The verdicts on wrong bodies that test/wrong_bodies/run keeps: verdicts.txt has a line 'CRATE KEY OWN_KEY COUNT' for each crate of which each wrong
body was tried and refused, and how many these are.

A key is the SHA-256 of all on which a verdict rests: the logic (`rt version` names it; kits of one logic differ in a letter), the number of the way
in which edits are tried (TRIAL), the crate's line of crates.txt, its src/, specs/ and proofs/, what its wrong bodies do, however their file is
written, its rows of without_answers.txt, and src/ and specs/ of the crates below it. The own key is the same without the crates below. While the
key stands, one wrong body in twenty is tried. While the own key alone stands, something changed below: one in four is tried. Where the crate itself
changed, each is tried again, as far as --at-most lets `run`."""
import hashlib
import json
import math
import os
import re
import subprocess

import edit_files

# The number of the way in which `run` tries an edit and reads what the check says of it. Whoever changes one of these so that a verdict may turn out
# otherwise raises it, and each wrong body is tried anew.
TRIAL = 1
FILE = "test/wrong_bodies/verdicts.txt"
# One wrong body in this number is tried while the key stands, and while the own key alone does.
ONE_IN, OWN_ONE_IN = 20, 4
HEAD = """\
# Verdicts on the wrong bodies of test/wrong_bodies: a line is a crate, the key of what the verdict rests on, that of what of this is the crate's own, and
# how many wrong bodies the prover refused. `test/wrong_bodies/run --record` and `.ci/run --keep` write the lines of crates of which each was tried;
# verdicts.py says what a key is. The gate tries one in twenty of a crate whose key stands, one in four where a crate below changed, and else each, but
# at most 100 in all, by chance; for a release it tries all.
"""


def logic():
    """The number of the logic, without the name of the kit."""
    said = subprocess.run(["rt", "version"], stdout=subprocess.PIPE, check=True, text=True).stdout
    return re.search(r"\blogic (\w+)", said)[1]


def files_below(folder):
    return sorted(f"{at}/{name}" for at, _, names in os.walk(folder) for name in names)


def lines_of(path, pattern):
    with open(path, encoding="utf-8") as file:
        return [it for it in file if re.match(pattern, it)]


def key(top, name, below):
    """The key of a crate; `below` are the crates of the repository that it stands on."""
    total = hashlib.sha256()
    folders = [f"crates/{name}/{part}" for part in ("src", "specs", "proofs")]
    folders += [f"crates/{it}/{part}" for it in sorted(below) for part in ("src", "specs")]
    words = [logic(), f"trial {TRIAL}", *lines_of(f"{top}/crates.txt", rf"{name}[ :]")]
    words += sorted(json.dumps(it.meaning()) for it in edit_files.own(top, name))
    if os.path.exists(f"{top}/test/wrong_bodies/without_answers.txt"):
        words += lines_of(f"{top}/test/wrong_bodies/without_answers.txt", rf"{name}/")
    for word in words:
        total.update(f"{word}\n".encode())
    for path in (it for folder in folders for it in files_below(f"{top}/{folder}")):
        with open(path, "rb") as file:
            total.update(f"{os.path.relpath(path, top)} {hashlib.sha256(file.read()).hexdigest()}\n".encode())
    return total.hexdigest()


def rows(top):
    """The key, the own key and the count of each crate that the file has."""
    if not os.path.exists(f"{top}/{FILE}"):
        return {}
    found = [re.fullmatch(r"(\w+) ([0-9a-f]{64}) ([0-9a-f]{64}) (\d+)\n", it) for it in lines_of(f"{top}/{FILE}", r"[^#\n]")]
    return {it[1]: (it[2], it[3], int(it[4])) for it in found if it}


def share(row, now):
    """One wrong body in how many is tried, by the row that was kept, if there is one, and the row as it is now."""
    if row is None or row[1:] != now[1:]:
        return 1
    return ONE_IN if row[0] == now[0] else OWN_ONE_IN


def write(path, found):
    os.makedirs(os.path.dirname(path), exist_ok=True)
    with open(path, "w", encoding="utf-8") as file:
        file.write(HEAD + "".join(f"{name} {key} {own} {count}\n" for name, (key, own, count) in sorted(found.items())))


def seed(top):
    """The commit, which is the seed of the sample."""
    said = subprocess.run(["git", "-C", top, "rev-parse", "HEAD"], stdout=subprocess.PIPE, stderr=subprocess.DEVNULL, check=False, text=True).stdout
    return os.environ.get("WRONG_BODIES_SEED") or said.strip() or "none"


def by_chance(seed_word, names):
    return sorted(names, key=lambda it: hashlib.sha256(f"{seed_word} {it}".encode()).digest())


def sample(seed_word, names, one_in):
    """One name in this number, rounded up, by chance."""
    return sorted(by_chance(seed_word, names)[: math.ceil(len(names) / one_in)])


def at_most(seed_word, names, most):
    """At most this number of names, by chance, but one of each crate. A name is CRATE/EDIT."""
    order = by_chance(seed_word, names)
    first = {it.split("/")[0]: it for it in reversed(order)}.values()
    return {*first, *[it for it in order if it not in first][: max(0, most - len(first))]}

"""The texts of wrong bodies. CRATE.edits has one after another, each under a line '[NAME]':

    [NAME]
    # what a reader should know of it, or '# fn PATH', where the function can't be read from the text
    file: src/FILE.rt
    old: a text that stands once in the file
    new: what replaces it

An edit has one or more pairs of old and new texts; a line 'file: PATH' holds until the next. A file of must-fail/ has the same lines, without a
heading: its own name is the edit's."""
import os
import re


class Source:
    """An edit as its file has it: pairs of texts, each with the file that it changes, the function, where a line names it, and what is wrong."""

    def __init__(self, name):
        self.name, self.pairs, self.function, self.wrong = name, [], None, None
        self.file, self.old = None, None

    def take(self, line):
        """Reads one more line."""
        if line.startswith("file: "):
            self.file = line[6:].strip()
        elif line.startswith("old: "):
            self.old = line[5:]
        elif line.startswith("new:") and self.old is not None:
            self.pairs.append((self.file, self.old, line[4:].removeprefix(" ")))
            self.old = None
        elif line.startswith("# fn "):
            self.function = line[5:].strip()
        elif line.strip() and not line.startswith("#"):
            self.wrong = self.wrong or f"a line that is neither file, old and new, nor a comment: {line}"

    def meaning(self):
        """What the edit does, however its file writes it."""
        return [self.name, self.function, self.pairs]


def lines_of(path):
    if not os.path.exists(path):
        return []
    with open(path, encoding="utf-8") as file:
        return file.read().split("\n")


def own(top, crate):
    """The wrong bodies of a crate, in the order of its file."""
    found = []
    for line in lines_of(f"{top}/test/wrong_bodies/{crate}.edits"):
        heading = re.fullmatch(r"\[(\w+)\]", line)
        if heading:
            found.append(Source(heading[1]))
            if heading[1] in [it.name for it in found[:-1]]:
                found[-1].wrong = "two edits have this name"
        elif found:
            found[-1].take(line)
        elif line.strip() and not line.startswith("#"):
            found.append(Source("(no name)"))
            found[-1].take(line)
            found[-1].wrong = f"no heading comes before the line: {line}"
    return found


def must_fail(top, crate):
    """The edits of a crate that `rt ci` tries."""
    folder, found = f"{top}/crates/{crate}/must-fail", []
    for name in sorted(os.listdir(folder) if os.path.isdir(folder) else []):
        if name.endswith(".edit"):
            found.append(Source(name.removesuffix(".edit")))
            for line in lines_of(f"{folder}/{name}"):
                found[-1].take(line)
    return found

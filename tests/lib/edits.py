"""Edits of the crates' files, in the form of the toolchain's, and copies to apply them to.

An edit has lines `file: PATH`, `old: TEXT` and `new: TEXT`: each old text stands there once, and is
replaced by the new one behind it. Other lines `KEY: TEXT` say what the edit is for. A text is one
line, so an edit with another line, or with a text that stays as it is, is no edit.
"""

import os
import re
import shutil

ROOT = os.path.abspath(f"{__file__}/../../..")
PARTS = ("src", "specs", "proofs")
KEY = re.compile(r"[a-z-]+:(?: |$)")
HEAD = re.compile(r"( *)(?:pub(?:\(\w+\))? )?(?:const |unsafe )*fn (\w+)")
# What a check says where a proof file names what an edit took away.
GONE = re.compile(r"has no field|is not in scope|has no `|was not admitted")


def read(path):
    with open(path, encoding="utf-8") as file:
        return file.read()


def linked_or_copied(source, target):
    """A link costs nothing. Another disk has none, and another user's file may be given none."""
    try:
        os.link(source, target)
    except OSError:
        shutil.copy2(source, target)


class Edit:
    """What an edit says: its files, its old texts with the new ones, and what else it tells."""

    def __init__(self, path):
        lines = read(path).splitlines()
        self.files = [line[len("file: ") :].strip() for line in lines if line.startswith("file: ")]
        olds = [line[len("old: ") :] for line in lines if line.startswith("old: ")]
        news = [line[len("new:") :].removeprefix(" ") for line in lines if line.startswith("new:")]
        is_changed = all(old != new for old, new in zip(olds, news))
        is_read = all(KEY.match(line) for line in lines)
        self.is_whole = len(self.files) == 1 and len(olds) == len(news) and is_changed and is_read
        self.pairs = list(zip(olds, news))
        told = (line.partition(": ") for line in lines if not re.match(r"(file|old|new):", line))
        self.told = {key: text.strip() for key, _, text in told}

    def apply(self, folder):
        """Changes a copy of the folder that its file is named from. Where a text stands there
        never, or more than once, it answers False and changes nothing."""
        path = f"{folder}/{self.files[0]}"
        text = read(path)
        for old, new in self.pairs:
            if text.count(old) != 1:
                return False
            text = text.replace(old, new)
        with open(path, "w", encoding="utf-8") as file:
            file.write(text)
        return True


def function_at(lines, place):
    """The function in whose body a line stands: its name, its first line and its last, counted from
    one. None where it stands in no body, since a clause, a type or a constant is seen by other
    functions too."""
    for start in range(place, -1, -1):
        head = HEAD.match(lines[start])
        if not head:
            continue
        indent, name = head.groups()
        opens = next((at for at in range(start, len(lines)) if lines[at] == f"{indent}{{" or lines[at].endswith(" {")), len(lines))
        closes = next((at for at in range(opens, len(lines)) if lines[at] == f"{indent}}}"), len(lines))
        while lines[start - 1].strip().startswith("#["):
            start -= 1
        return (name, start + 1, closes + 1) if opens < place < closes else None
    return None


def copy_crates(room):
    """Copies what is checked of each crate."""
    shutil.copyfile(f"{ROOT}/crates.txt", f"{room}/crates.txt")
    shutil.copyfile(f"{ROOT}/HANDLES", f"{room}/HANDLES")
    for name in os.listdir(f"{ROOT}/crates"):
        for part in PARTS:
            if os.path.isdir(f"{ROOT}/crates/{name}/{part}"):
                shutil.copytree(f"{ROOT}/crates/{name}/{part}", f"{room}/crates/{name}/{part}")


def libraries():
    """What each crate of crates.txt stands on, in its order: crates of ours, and the toolchain's."""
    lines = [line.split("#")[0].partition(":") for line in read(f"{ROOT}/crates.txt").splitlines()]
    return {words.split()[0]: after.split() for words, _, after in lines if words.strip()}


def below(name):
    """The crates that a crate stands on, and itself."""
    known = libraries()
    found, left = [], [name]
    while left:
        crate = left.pop()
        if crate in known and crate not in found:
            found.append(crate)
            left.extend(known[crate])
    return found

"""Proofs of single functions of a crate over its libraries, where some of these were changed, and
what of them is refused.

A library that was changed, and each that stands on one, is read as a source. Whether its own
functions are proved over the change is no matter. Where RLIBS names a folder of this tree's proved
libraries (NAME.rlib, as a check leaves them), the others are taken from there, which is quicker.
"""

import os
import re
import subprocess

from edits import GONE, libraries, read

# Where a declaration of a proof file begins: its name and its type.
DECLARED = re.compile(r" *(?:abbrev )?(?:pub )?([^\s:]+) : ")
FUNCTION = re.compile(r" *(?:pub )?fn (\w+)")
REFUSED = re.compile(r"(?:note: )?(?:\./)?((?:src|proofs)/\S+?):(\d+):\d+: (?:error: )?(.*)")
# What is said of a proof's form, or of what only rests on a refused one.
OF_FORM = re.compile(r"(?:was|were) not checked|tuple pattern|numbers of patterns|unknown name|parse")


def kit():
    """The folder of the toolchain."""
    told = subprocess.run(["rt", "doc"], capture_output=True, text=True, check=True)
    return os.path.dirname(told.stdout.strip())


def ours_below(known, name):
    """The crates of ours that a crate stands on, each behind those that it stands on."""
    found = []
    for crate in known[name]:
        if crate in known:
            found += [one for one in [*ours_below(known, crate), crate] if one not in found]
    return found


def built(known, names, changed):
    """Those of the crates that are taken as proved libraries, each with its path."""
    folder = os.environ.get("RLIBS")
    paths = {name: os.path.join(folder, f"{name}.rlib") for name in names} if folder else {}
    return {
        name: path
        for name, path in paths.items()
        if os.path.exists(path) and not set(changed) & {name, *ours_below(known, name)}
    }


def words_of(tree, crate, functions, changed):
    """The command that proves functions of a crate of a tree, in which crates were changed."""
    known, at = libraries(), kit()
    others = {name: ["std", *(one for one in after if one not in known)] for name, after in known.items()}
    ours = ours_below(known, crate)
    ready = built(known, ours, changed)
    words = [f"{at}/bin/rattle", "check", "--crate-name", crate, "src/lib.rt"]
    below = {"core", *(one for name in [crate, *ours] for one in others[name])}
    externs = {**{one: f"{at}/rlibs/{one}.rlib" for one in sorted(below)}, **ready}
    words += [word for one, path in externs.items() for word in ("--extern", f"{one}={path}")]
    words += ["-L", f"dependency={at}/rlibs"]
    words += ["-L", f"dependency={os.environ['RLIBS']}"] if ready else []
    for name in ours:
        if name not in ready:
            uses = dict.fromkeys(["core", *others[name], *(one for one in known[name] if one in known)])
            words += ["--lib", f"{name}:{','.join(uses)}={tree}/crates/{name}/src/lib.rt"]
    words += ["--antt-project", f"{at}/rattle/logic/antt-project.json", "--logic-built", f"{at}/logic_built"]
    words += ["--links", f"{crate}=", "--jobs", "1"]
    return [*words, *(word for name in functions for word in ("--only", name))]


def proved(tree, crate, functions, changed=()):
    """What a check says of functions of a crate of a tree: whether it ended, and its lines."""
    words = words_of(tree, crate, functions, changed)
    how = {"cwd": f"{tree}/crates/{crate}", "stdin": subprocess.DEVNULL, "stdout": subprocess.PIPE, "stderr": subprocess.STDOUT}
    told = subprocess.run(words, **how, text=True, errors="replace").stdout.splitlines()
    return any(re.match(r"only=\d+ proved=\d+", line) for line in told), told


def is_proved(function, told):
    return any(re.match(rf"fn (?:\S+::)?{function}: proved", line) for line in told)


def owners_of(path, place):
    """In which declarations of a proof file, or function of a source, a line stands: their names,
    the innermost first."""
    lines = read(path).splitlines() if os.path.exists(path) else []
    begins = FUNCTION if path.endswith(".rt") else DECLARED
    names, inside = [], len(lines[place - 1]) + 1 if lines else 0
    for line in reversed(lines[:place]):
        head = begins.match(line)
        depth = len(line) - len(line.lstrip(" "))
        if head and depth < inside:
            names.append(head[1])
            inside = depth
    return names


def refusals(folder, told):
    """What a check of the crate in a folder refuses for what it states: each by what it stands in,
    its file and its words."""
    for line in told:
        at = REFUSED.match(line)
        if at and not GONE.search(line) and not OF_FORM.search(line):
            yield owners_of(f"{folder}/{at[1]}", int(at[2])), at[1], at[3]

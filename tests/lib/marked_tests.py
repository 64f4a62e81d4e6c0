"""Which tests the sources in Rattle mark: of a crate, or of a program that is built unproved."""

import os
import re

MARKED = re.compile(r"^ *#\[test\](?:\n *(?://[^\n]*|#\[[^\n]*))*\n *(?:pub(?:\([a-z]+\))? )?fn (\w+)", re.MULTILINE)


def sources(folder, ending=".rt"):
    """The files below a folder that have this ending: their paths from there without it, and their texts."""
    for place, _, names in os.walk(folder):
        for name in names:
            if name.endswith(ending):
                path = os.path.join(place, name)
                with open(path, encoding="utf-8") as file:
                    yield os.path.relpath(path, folder).removesuffix(ending), file.read()


def marked(texts):
    """The tests of these texts, each with the path of its file."""
    return [(path, name) for path, text in texts for name in MARKED.findall(text)]


def whole_name(path, name):
    """The name by which a program of tests knows a test."""
    return "::".join([*path.split(os.sep), name])

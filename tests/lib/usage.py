"""What a script says of a word that it doesn't know: how it is called, with status 2. How that is
stands in the script's head once, in lines that begin with its path."""

import os
import re
import sys


def usage():
    """These lines of the head, each up to two spaces: what is said of the call stands behind them."""
    name = re.escape(os.path.basename(sys.argv[0]))
    lines = re.findall(rf"^ +((?:\w+/)*{name}\b.*?)(?: {{2}}|$)", sys.modules["__main__"].__doc__, re.MULTILINE)
    return " or ".join(lines)


def refuse(known=()):
    """Ends the script by its usage, and by the names that it knows."""
    print(f"usage: {usage()}" + (f", of {' '.join(known)}" if known else ""), file=sys.stderr)
    sys.exit(2)


def refuse_unknown(names, known):
    """Refuses names of which one isn't known."""
    if not set(names) <= set(known):
        refuse(known)


def refuse_any():
    """Refuses each word: the script has none."""
    if sys.argv[1:]:
        refuse()

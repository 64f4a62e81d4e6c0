"""What the scripts of this folder print: a line that says of which run the figures are, and tables.

A label ends with the unit of its row. A ratio above 1 is better, where more is better and where
less is. `docs/BENCHMARKS.md` has tables as they are printed here.
"""

import os
import sys

sys.path.append(os.path.abspath(f"{__file__}/../../tests/lib"))
from measured import head


def head_of_a_run():
    """The line above the table of a run that has ended."""
    return head(f"load {os.getloadavg()[2]:.1f}")


def shown(value, digits=3):
    """A figure: of one below 0.1 so many digits behind the point."""
    if value is None:
        return "-"
    if isinstance(value, int):
        return f"{value:,}"
    if value >= 100:
        return f"{value:,.0f}"
    return f"{value:.1f}" if value >= 10 else f"{value:.2f}" if value >= 0.1 else f"{value:.{digits}f}"


def ratio(ours, other, is_more, digits=3):
    if ours is None or not other or (not is_more and not ours):
        return "-"
    return shown(ours / other if is_more else other / ours, digits)


def table(heads, rows):
    """A table of these heads of columns and rows of texts."""
    lines = [f"| {' | '.join(cells)} |" for cells in (heads, *rows)]
    return "\n".join([lines[0], "|" + "-|" * len(heads), *lines[1:]])

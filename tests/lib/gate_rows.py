"""Stubs of the toolchain and of ./check, and pages and scripts with faults: the tables of tests/gate/gate_cases."""

# What a part of ./check and a crate of `rt ci` print where they fail.
FAILED_PART = """FAILED  words: each is told (0 s)
        the seed is 1
        it is not told: 1
"""
FAILED_CRATE = """== bm_lines
src/lib.rt:1:1: error
rt: bm_lines NOT PROVED
rt: FAILED: bm_lines
"""
# A toolchain that answers its version, and for a check of proofs leaves the programs of a folder.
# It proves none that call themselves unproved.
RT = f"""#!/bin/sh
case $1 in
version) echo "$STUB_VERSION" ;;
ci)
    for program in buildmaster buildworker; do
        mkdir -p crates/$program/out && cp "$STUB_BUILT/$program" crates/$program/out/ || exit 1
    done
    if grep -q unproved "$STUB_BUILT/buildmaster"; then
        printf '== bm_work\\nrt: bm_work proved\\n%s\\n2 passed, 1 failed\\n' '{FAILED_CRATE.rstrip()}'
        exit 1
    fi
    echo "3 passed, 0 failed"
    ;;
esac
"""
# Tests of the programs, which stale ones don't pass, and which don't end as they should where they
# call themselves broken. By itself it looks at dist/ as the real one.
CHECK = f"""#!/bin/sh
cd "$(dirname "$0")" || exit 1
programs=${{PROGRAMS:-dist}}
[ -n "${{PROGRAMS:-}}" ] || dist/verify || {{ echo "0 passed, 1 failed"; exit 1; }}
! grep -q broken "$programs/buildmaster" || {{ echo "a trace ${{1:-}}"; exit 1; }}
if grep -q stale "$programs/buildmaster" "$programs/buildworker"; then
    printf 'passed  one: it holds (0 s)\\n%s\\npassed  other: it holds (0 s)\\n0 passed, 1 failed\\n' '{FAILED_PART.rstrip()}'
    exit 1
fi
echo "tested ${{1:-}}: $(cat "$programs/buildmaster")"
echo "1 passed, 0 failed"
"""

# Scripts that are called with a word that they don't know, and what is told of each.
USAGE = "echo 'usage: bench/deaf' >&2; exit 2"
DEAF = [
    (USAGE, None),
    ("exit 0", "its status is 0"),
    (f"buildworker; {USAGE}", "it starts "),
    (f"echo first; {USAGE}", "it prints "),
    ("echo 'bench/deaf: no such word' >&2; exit 2", "its usage isn't told"),
    (f"echo 'usage: bench/deaf' >&2; echo >&2; {USAGE}", "its usage isn't told"),
]
# A page with faults, and what is told of them. No source has the word.
GONE = f"See [it](page.md#no-heading): `tests/gate/no_script`, `bm_board/src/no_file.rt`, `{'no_such'}_word`.\n"
GONE_FAULTS = ["{page} has no heading #no-heading", "tests/gate/no_script is not there"]
GONE_FAULTS += ["bm_board/src/no_file.rt is not there", f"the tree has no word {'no_such'}_word"]
# Pages, and what is told of each. Two lines of words are a sentence of as many words.
SHORT, LONG = "so " * 11 + "so\n" + "so " * 11 + "so", "so " * 11 + "so\n" + "so " * 12 + "so"
TOO_LONG = f"25 words: {'so ' * 8}.."
PROSE = [
    (f"{SHORT}. {SHORT}?\n", []),
    (f"{SHORT}.\n{LONG}.\n", [f"3: {TOO_LONG}"]),
    (f"# So\n{LONG}\n", [f"2: {TOO_LONG}"]),
    (f"> {LONG}\n", [f"1: {TOO_LONG}"]),
    (f"- {SHORT}\n- {LONG}, 10. So\n", [f"3: {TOO_LONG.replace('25', '26')}"]),
    (f"`so so` so [so `so` so](so)\n{'so ' * 19}\n", []),
    (f"`so so` so [so `so` so](so)\n{'so ' * 20}\n", ["1: 25 words: `..` so so `..` so so so so .."]),
    (f"| {'so ' * 60} |\n\n    {'so ' * 60}\n\n    {'so ' * 60}\n\n```\n{'so ' * 60}\n```\n", []),
    ("so `so` so 1.5, " + "`so`, [it](it), 2,\n" * 20, []),
    (f"{'x' * 100}\n    {'x' * 97}\n", ["2: 101 columns"]),
]

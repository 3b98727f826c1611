"""Writes the listings of the folder examples to the program `examples` (crates/examples/stdin), and holds its stored output
(crates/examples/stdout) against the answers beside the listings. The texts beside them, and examples/tray, are among the tests of command/.

    python3 tools/examples/make.py write     # writes crates/examples/stdin
    python3 tools/examples/make.py compare   # each NAME.out is what the program wrote, examples/README.md has each name,
                                             # each line that docs/FORMAT.md shows stands in a listing that is accepted, with its text,
                                             # and the listings of docs/RULES.md are those of the folder, with their answers
"""
import re
import sys
from pathlib import Path

ROOT = Path(__file__).resolve().parents[2]
EXAMPLES = ROOT / "examples"
STDIN = ROOT / "crates/examples/stdin"
STDOUT = ROOT / "crates/examples/stdout"


def names():
    return sorted(str(path.relative_to(EXAMPLES).with_suffix("")) for path in EXAMPLES.rglob("*.lst"))


def listing(name):
    return (EXAMPLES / f"{name}.lst").read_text()


def blocks():
    """All listings as the program reads them: a line `==` ends each."""
    return "".join(listing(name) + "==\n" for name in names())


def answers():
    """What the program printed for each listing, without the lines IMAGE."""
    for part in STDOUT.read_text().split("==\n")[:-1]:
        yield "".join(line for line in part.splitlines(keepends=True) if not line.startswith("IMAGE "))


def shown():
    """Each statement of docs/FORMAT.md, and its text for people where the table has one. Lines from 70 on are answers."""
    for row in re.findall(r"^\| .*\|$", (ROOT / "docs/FORMAT.md").read_text(), re.M):
        found = re.search(r"\| `([0-9A-F]{4,})` \|(?: `([^`]+)` \|)?", row)
        if found and not found[1].startswith("7"):
            yield found[1], found[2] and found[2].replace("\\|", "|")


def ruled():
    """The listings that docs/RULES.md shows, a row a statement: `at bytes in | out at bytes remark`, up to the 7F line."""
    for name, rows in re.findall(r"^    at .* examples/(\S+)\.lst\n((?:    .*\n)+)", (ROOT / "docs/RULES.md").read_text(), re.M):
        halves = [row.split("|") for row in rows.splitlines()]
        lines = [left.split()[-1] for left, _ in halves if left.strip()]
        yield name, lines, [right.split()[0] for _, right in halves if right.split()[0] != "-"]


def faults():
    if STDIN.read_text() != blocks():
        yield "crates/examples/stdin is not what `write` writes"
    people = {}
    for name in names():
        path = EXAMPLES / f"{name}.txt"
        lines = listing(name).split()
        people.update(zip(lines[lines[:1] == ["7D02"] :], path.read_text().splitlines() if path.exists() else []))
    table = (EXAMPLES / "README.md").read_text()
    accepted = set()
    for name, answer in zip(names(), answers(), strict=True):
        if (EXAMPLES / f"{name}.out").read_text() != answer:
            yield f"{name}.out is not what the program wrote"
        if f"`{name}`" not in table:
            yield f"examples/README.md does not have {name}"
        if not answer.startswith("7E"):
            accepted.update(listing(name).split())
    for line, text in shown():
        if line not in accepted:
            yield f"docs/FORMAT.md: {line} stands in no listing that is accepted"
        elif text and text != people.get(line):
            yield f"docs/FORMAT.md: {line} is not {text} for people"
    for name, lines, answer in ruled():
        if lines != listing(name).split() or answer != (EXAMPLES / f"{name}.out").read_text().split():
            yield f"docs/RULES.md: {name} is not as in the folder"


if __name__ == "__main__":
    if sys.argv[1:] == ["write"]:
        STDIN.write_text(blocks())
        print(len(names()), "listings")
    elif sys.argv[1:] == ["compare"]:
        found = list(faults())
        print(*found, f"{len(names())} listings, {len(found)} faults", sep="\n")
        sys.exit(1 if found else 0)
    else:
        sys.exit(__doc__)

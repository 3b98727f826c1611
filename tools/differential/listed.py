"""The listings of docs/DIFFERENCES.md: each has to show its own difference, and no other; one that is said to be alike shows none."""
import os
import re

from programs import ROOT
from rules import ANCHORS, CANDIDATES, PATTERNS, RULES


# entries that share the lines behind the branch, which stand indented on the page
SHARED = ["DIFF-%d" % n for n in range(5, 13)]


def rows():
    """What stands in the first cell of each row of the tables, and its listing."""
    with open(os.path.join(ROOT, "docs", "DIFFERENCES.md"), encoding="utf-8") as page:
        lines = page.read().splitlines()
    shared = [line.strip() for line in lines if re.fullmatch(r"    [0-9A-F]+", line)]
    for line in lines:
        cells = [cell.strip() for cell in line.split("|")]
        if len(cells) > 4 and re.fullmatch(r"DIFF-\d+( too)?|alike", cells[1]):
            frames = re.findall(r"`([0-9A-F]+)`", cells[3]) + (shared if cells[1] in SHARED else [])
            yield cells[1], "".join(frame + "\n" for frame in frames).encode()


def listings():
    """Number and text of each entry."""
    return {int(cell[5:]): text for cell, text in rows() if re.fullmatch(r"DIFF-\d+", cell)}


def further():
    """Listings that show an entry too, with its number, or that are alike, with none."""
    return [(set() if cell == "alike" else {int(cell[5:-4])}, text) for cell, text in rows() if not re.fullmatch(r"DIFF-\d+", cell)]


def check(comparison):
    """Runs them and says which do not show what they are there for."""
    texts = listings()
    numbers = [n for n in sorted(texts) if not comparison.assemble or n not in [*PATTERNS, *CANDIDATES, *ANCHORS]]
    failed = sorted(set(RULES) ^ set(texts))
    for number in failed:
        print("DIFF-%d has no %s" % (number, "rule" if number in texts else "entry in docs/DIFFERENCES.md"))
    shown = 0
    for number, (mine, theirs) in zip(numbers, comparison.answers([texts[n] for n in numbers])):
        found, odd = comparison.judge(texts[number], mine, theirs)
        if odd or found != {number}:
            failed.append(number)
            print("DIFF-%d shows %s%s" % (number, sorted(found), ", not explained against " + odd if odd else ""))
        else:
            shown += 1
    more = [] if comparison.assemble else further()
    for (wanted, text), (mine, theirs) in zip(more, comparison.answers([text for _, text in more])):
        found, odd = comparison.judge(text, mine, theirs)
        if odd or found != wanted:
            failed.append(text)
            print("%s shows %s, not %s" % (text.split(), sorted(found), sorted(wanted)))
    print("%d of the %d listings of docs/DIFFERENCES.md show their own difference" % (shown, len(numbers)))
    return failed

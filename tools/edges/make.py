"""Writes the listings of the program `edges` (crates/edges/stdin) from the tables of computed runs in crates/runs/proofs,
and holds the program's stored output (crates/edges/stdout) against what those tables say.

    python3 tools/edges/make.py write     # writes crates/edges/stdin
    python3 tools/edges/make.py compare   # after the program ran: every table row that speaks of a run is met
"""
import re
import sys
from pathlib import Path

ROOT = Path(__file__).resolve().parents[2]
TABLES = ["Points", "RunsReading", "RunsJudging", "RunsRules", "RunsFolds", "RunsSettings", "RunsPads", "RunsLines"]
ROW = re.compile(r'^\s+(turns|keeps|encodes|refuses|faults|prints|turnsByDefault|turnsWith(?: (?:true|false)){3}) "((?:[^"\\]|\\.)*)"(.*?)(?: ∷)?$')
DOCUMENT_01, BY_DEFAULT = 7, 6  # settings by number: 1 keeps comments, 2 lets Callf shrink, 4 lets folds run


def rows():
    """Each row once: what it is called, the kind of its test, the text, and the rest of the line."""
    seen = set()
    for table in TABLES:
        called = ""
        for line in (ROOT / "crates/runs/proofs" / f"{table}.antt").read_text().splitlines():
            if line.strip().startswith("--"):
                called = line.strip()[3:]
            match = ROW.match(line)
            if match and match.group(0) not in seen:
                seen.add(match.group(0))
                kind, text, rest = match.groups()
                yield called, kind, text.replace("\\n", "\n").replace("\\r", "\r"), rest.replace("\\n", "\n")


def text_of(kind, text):
    """`prints` has the text as it is; in the other kinds spaces part the lines."""
    if kind == "prints":
        return text
    return "".join(word + "\n" for word in text.split(" ")) if text else ""


def fits_a_block(text):
    """A block ends at a line `==`: a text without a line feed at its end cannot be one."""
    return text == "" or text.endswith("\n")


def extras():
    """Limits that are too long for a table: 1,024 statements, 120 bytes a frame, 24,576 frame bytes in all, and those of the new form."""
    long = "04" + 119 * "AB" + "\n"
    full = 204 * long + "04" + 95 * "AB" + "\n"
    yield "1,024 statements", 1024 * "04\n", "7F0000000000"
    yield "7D02 as statement 1,025", 1024 * "04\n" + "7D02\n", "7E0204000000000000"
    yield "a frame of 120 bytes", long, "7F0000000000"
    yield "a frame of 121 bytes", long[:-1] + "AB\n", "7E0200000000000000"
    yield "24,576 frame bytes", full, "7F0000000000"
    yield "24,578 frame bytes", full + "0143\n", "7E0200CD0000000000"
    # C-20: four bytes more a frame, 28,672 frame bytes in all
    lined = "0400000001" + 119 * "AB" + "\n"
    filled = "7D02\n" + 231 * lined + "0400000001" + 23 * "AB" + "\n"
    yield "a frame of 124 bytes", "7D02\n" + lined, "7F0000000000"
    yield "a frame of 125 bytes", "7D02\n" + lined[:-1] + "AB\n", "7E0200000000000000"
    yield "28,672 frame bytes", filled, "7F0000000000"
    yield "1,024 statements, 7D02 before them", "7D02\n" + 1024 * "0400000000\n", "7F0000000000"
    yield "7D02 as statement 1,025, 7D02 before all", "7D02\n" + 1024 * "0400000000\n" + "7D02\n", "7E0204000000000000"
    yield "28,678 frame bytes", filled + "010000000143\n", "7E0200E80000000000"


def blocks():
    found = {}
    for called, body, last in extras():
        found[body] = [(called, "ends", f'"{last}"')]
    for called, kind, text, rest in rows():
        body = text_of(kind, text)
        if fits_a_block(body):
            found.setdefault(body, []).append((called, kind, rest))
    return found


def signed(rest):
    """The number at fault of a row: `(pos n)`, or `(negsuc n)` for -n - 1."""
    sign, n = re.search(r"\((pos|negsuc) (\w+)\)", rest).groups()
    return int(n, 0) if sign == "pos" else -int(n, 0) - 1


def setting(kind):
    """The settings that a row is about."""
    switches = kind.split()[1:]
    if switches:
        return sum(1 << i for i, switch in enumerate(switches) if switch == "true")
    return BY_DEFAULT if kind == "turnsByDefault" else DOCUMENT_01


def expectation(kind, body, rest):
    """What a row says of the answer: a test of its lines and its image."""
    strings = re.findall(r'"([^"]*)"', rest)
    words = re.sub(r'"[^"]*"', " ", rest).split()
    if kind.startswith("turns"):
        return lambda lines, image: lines == strings[0].split(" ")
    if kind == "keeps":
        return lambda lines, image: lines == body.split("\n")[:-1] + [strings[0]]
    if kind == "ends":
        return lambda lines, image: lines[-1] == strings[0]
    if kind == "prints":
        return lambda lines, image: "".join(x + "\n" for x in lines) == strings[0]
    if kind == "encodes":
        start = int(words[0], 0)
        return lambda lines, image: image[start:].hex().upper() == strings[0]
    number, place = int(words[0], 0), int(words[1], 0)
    argument, amount = (int(words[2], 0), signed(rest)) if kind == "faults" else (0, 0)
    return lambda lines, image: lines == [f"7E{number:02X}{place:04X}{argument:02X}{amount & 0xFFFFFFFF:08X}"]


def answers():
    """The answers of the stored output, in the order of the blocks: lines by settings, where they are others than document 01's, and the image."""
    for part in (ROOT / "crates/edges/stdout").read_text().split("==\n")[:-1]:
        asked, image = DOCUMENT_01, b""
        lines = {DOCUMENT_01: []}
        for line in part.splitlines():
            if line.startswith("IMAGE "):
                zeros, _, digits = line[6:].partition(" ")
                image = bytes(int(zeros, 16)) + bytes.fromhex(digits)
            elif line.startswith("ASKED "):
                asked = int(line[6:])
                lines[asked] = []
            elif not line.startswith("ROOMS "):
                lines[asked].append(line)
        yield lines, image


def write():
    bodies = list(blocks())
    (ROOT / "crates/edges/stdin").write_text("".join(body + "==\n" for body in bodies))
    print(len(bodies), "listings")


def compare():
    met = missed = 0
    for (body, tests), (lines, image) in zip(blocks().items(), answers(), strict=True):
        for called, kind, rest in tests:
            answer = lines.get(setting(kind), lines[DOCUMENT_01])
            if expectation(kind, body, rest)(answer, image):
                met += 1
            else:
                missed += 1
                print("NOT MET:", called, kind, body.split(), answer)
    print(met, "rows met,", missed, "not met")
    return missed == 0


if __name__ == "__main__":
    if sys.argv[1:] == ["write"]:
        write()
    elif sys.argv[1:] == ["compare"]:
        sys.exit(0 if compare() else 1)
    else:
        sys.exit(__doc__)

"""Mortarbee's words (docs/FORMAT.md), and the frames of a listing. MORTARBEE names the program; without it, it is the one at the top."""
import os
import re
import subprocess

TOP = os.path.dirname(os.path.dirname(os.path.dirname(os.path.abspath(__file__))))
PROGRAM = os.environ.get("MORTARBEE", TOP + "/mortarbee")
MARK = "7D02"                   # the first line of a listing with source lines
BATCH = 262143                  # the characters that a batch may have
TARGETS = ("rel8", "a12", "a16", "rel16")
ROW = re.compile(r"^\| ([0-9A-F]{2}) \| (\w+) \| ([\w, ]*?) *\| (\d) \| `[0-9A-F]+` \| `([^`]*)` \|$")


class Form:
    """A row of docs/FORMAT.md's table of forms."""

    def __init__(self, row):
        self.number, self.name, self.size = int(row[1], 16), row[2], int(row[4])
        self.operands = [kind for kind in row[3].split(", ") if kind]
        self.word = row[5].split()[0]
        self.is_transfer = bool(self.operands) and self.operands[-1] in TARGETS


def read_forms():
    with open(TOP + "/docs/FORMAT.md") as page:
        forms = [Form(row) for row in map(ROW.match, page.read().splitlines()) if row]
    if [form.number for form in forms] != list(range(70)):
        raise RuntimeError("docs/FORMAT.md: the table of the seventy forms was not found")
    return forms


FORMS = read_forms()
BY = {form.name: form for form in FORMS}


# ---- frames

def number(v):
    return b"\x00" + v.to_bytes(4, "big", signed=True)


def name(n):
    return b"\x01" + n.to_bytes(2, "big")


def label(n):
    return b"\x02" + n.to_bytes(2, "big")


def variable(n, expression):
    return b"\x03" + n.to_bytes(2, "big") + expression


def org(location):
    return b"\x05" + location.to_bytes(2, "big")


def pad(add, multiple):
    return bytes([8, add]) + multiple.to_bytes(2, "big")


def data(*values):
    return bytes([6, len(values)]) + b"".join(map(number, values))


def instruction(form, args):
    """The arguments are numbers, or bytes where an expression is ready."""
    out = bytes([1, form.number])
    for kind, v in zip(form.operands, args):
        out += bytes([v]) if kind == "reg" else v if isinstance(v, bytes) else number(v)
    return out


def listing_of(frames, lines=None):
    """The text of a listing; `lines` gives each statement a source line (C-20)."""
    if lines is None:
        return "".join(frame.hex().upper() + "\n" for frame in frames)
    lined = [frame[:1] + line.to_bytes(4, "big") + frame[1:] for frame, line in zip(frames, lines)]
    return MARK + "\n" + listing_of(lined)


def frames_of(listing):
    """The frames of a text without their source lines."""
    lines = listing.split()
    if lines[:1] != [MARK]:
        return [bytes.fromhex(line) for line in lines]
    return [bytes.fromhex(line[:2] + line[10:]) for line in lines[1:]]


# ---- words

class Refused(Exception):
    """A line 7E: its number and the statement's place."""

    def __init__(self, line):
        super().__init__(line)
        self.number, self.place = int(line[2:4], 16), int(line[4:8], 16)


def ask(word, given, *options):
    given = given if isinstance(given, bytes) else given.encode()
    ended = subprocess.run([PROGRAM, word, *options], input=given, stdout=subprocess.PIPE, stderr=subprocess.PIPE)
    if ended.returncode == 1:
        raise Refused(ended.stdout.decode())
    if ended.returncode:
        raise RuntimeError("mortarbee %s: status %d: %s" % (word, ended.returncode, ended.stderr.decode()))
    return ended.stdout


def image(listing):
    return ask("image", listing)


def read_back(bytes_, start):
    return ask("read-back", bytes_, str(start)).decode()


def stems(listing, flags):
    return [int(line, 16) for line in ask("stems", listing, *flags).decode().split()]


def rules(listing, flags):
    """The rule that rewrote each place last: 1 an inverted fold, 2 a trampoline, 3 a shrink."""
    return {int(line[4:8], 16): int(line[2:4], 16) for line in ask("steps", listing, *flags).decode().split()}


def addresses(listing):
    """[(address, its first bytes, text)], a statement each."""
    rows = []
    for line in ask("text", listing, "--addresses").decode().splitlines():
        if line.count("\t") == 2:               # else more bytes of the statement above
            address, digits, text = line.split("\t")
            rows.append((int(address.rstrip(":"), 16), bytes.fromhex(digits), text))
    return rows


def answer_of(block):
    """One answer of a batch: the new listing, the rewrites and the image; or a refusal."""
    lines = block.split("\n")[:-1]
    if lines[0].startswith("7E"):
        return Refused(lines[0])
    zeros, digits = (lines[-1].split() + ["", ""])[1:3]
    return "".join(line + "\n" for line in lines[:-2]), int(lines[-2][2:6], 16), bytes(int(zeros, 16)) + bytes.fromhex(digits)


def batch(listings, flags):
    """The answers to many listings, by as few runs as their length allows."""
    answers, at = [], 0
    while at < len(listings):
        end, size = at, 0
        while end < len(listings) and (end == at or size + len(listings[end]) + 3 <= BATCH):
            size += len(listings[end]) + 3
            end += 1
        said = ask("batch", "".join(listing + "==\n" for listing in listings[at:end]), *flags).decode()
        answers += [answer_of(block) for block in said.split("==\n")[:-1]]
        at = end
    return answers

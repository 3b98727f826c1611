"""One program through waterbear with its own optimizer (orig), with document 01's patterns in it (doc) and with the drop-in (tested): what
comes out, and which known difference explains it."""
import json
import os
import re
import subprocess

# Reasons for which the drop-in may refuse what waterbear takes.
LIMITS = (
    "an .org goes back",
    "the program passes n bytes",
    "a value passes n bits",
    "an expression takes n bytes",
    "after packing it has n statements",
)
TRANSFERS = "jmp jmpf br brf bz bnz bp bpc bn dbnz be bne call callf callr".split()


def plain_numbers(text):
    """Numbers of an instruction's text in decimal: a number that moved is written in another radix by both."""
    def one(m):
        for prefix, base in (("$", 16), ("0x", 16), ("0o", 8), ("%", 2), ("0b", 2)):
            if m[0].startswith(prefix):
                return str(int(m[0][len(prefix):], base))
        return str(int(m[0]))
    return re.sub(r"(?<![\w.$])(\$[0-9A-Fa-f]+|0[xX][0-9A-Fa-f]+|0o[0-7]+|%[01]+|0b[01]+|\d+)", one, text)


def without_digits(text):
    """A macro's label has 32 random digits."""
    return re.sub(r"_[0-9a-f]{32}", "_UUID", text)


class Result:
    """What one build made of a program: a message, or an image and its debug information."""

    def __init__(self, process, out):
        self.message = without_digits(process.stderr.decode("utf-8", "replace")) if process.returncode else None
        if self.message is not None:
            return
        self.image = open(out, "rb").read()
        info = json.load(open(out + ".debug.json"))
        info["binary"] = info["producer"] = None
        self.info = json.loads(without_digits(json.dumps(info, sort_keys=True)))
        for instruction in self.info["instructions"]:
            instruction["text"] = plain_numbers(instruction["text"])

    def same(self, other):
        return self.message is None and other.message is None and self.image == other.image


class Runner:
    """Programs of one folder of builds; what waterbear itself makes of a source is kept."""

    def __init__(self, binaries, folder):
        self.binaries, self.folder, self.kept = binaries, folder, {}

    def run(self, which, source, level=None, optimize=True, **more):
        key = (which, source, level, optimize, tuple(sorted(more.items())))
        if key not in self.kept:
            out = os.path.join(self.folder, which + ".bin")
            env = dict(os.environ, **({"MORTARBEE_" + name.upper(): value for name, value in more.items()}))
            if level is not None:
                env["MORTARBEE_LEVEL"] = str(level)
            command = [os.path.join(self.binaries, "wb-" + which), "assemble", source, "-o", out, "--debug"]
            command += ["--optimize-jumps"] if optimize else []
            self.kept[key] = Result(subprocess.run(command, capture_output=True, env=env), out)
        return self.kept[key]

    def forget(self):
        self.kept = {}


def refusal(drop):
    why = re.search(r"Mortarbee cannot optimize this program: ([^\n]*)", drop.message)
    return re.sub(r"\d[\d,]*", "n", re.sub(r" \(7E.*", "", why[1])) if why else "PANIC: " + drop.message[-300:]


def explained(name, ours, theirs):
    """An explanation counts only if the debug information is the same too."""
    if ours.info == theirs.info:
        return name, True
    pairs = zip(ours.info["instructions"], theirs.info["instructions"])
    return name + ", BUT OTHER DEBUG INFORMATION " + str([(a["text"], b["text"]) for a, b in pairs if a != b][:3]), False


def places(info):
    """The instructions by address, and those whose place in the source is theirs alone by that place."""
    by_address, by_place = {}, {}
    for instruction in info["instructions"]:
        place = json.dumps(instruction["span"], sort_keys=True)
        by_address[instruction["offset"]] = place
        by_place[place] = None if place in by_place else instruction
    return by_address, by_place


def number_target(instruction):
    """The target of a transfer that is a plain number, or None."""
    mnemonic, *operands = (instruction["text"] if instruction else "").lower().split(None, 1)[:2] or [""]
    target = operands[0].split(",")[-1].strip() if operands else ""
    return int(target) if mnemonic in TRANSFERS and target.isdigit() else None


def stale(before, after):
    """A transfer to a number that named an instruction and names another one now, or None. A change jump keeps its number."""
    was, old = places(before)
    now, new = places(after)
    last = ""
    for instruction in before["instructions"]:
        change, last = last.startswith("not1"), instruction["text"]
        place = json.dumps(instruction["span"], sort_keys=True)
        kept = new.get(place) if old[place] else None
        first, second = number_target(instruction), number_target(kept)
        if first in was and second is not None and was[first] != now.get(second) and not change:
            return instruction["text"], kept["text"]
    return None


def smaller_multiples(source):
    """The same program with multiples of 256 in the place of larger ones, or None if it has none."""
    text = open(source).read()
    less = re.sub(r"(\.cnop \d+, )(\$200|300)\b", r"\g<1>256", text)
    if less == text:
        return None
    path = os.path.join(os.path.dirname(source), "less.s")
    open(path, "w").write(less)
    return path


def classify(runner, source, level):
    """The class of a program at a level, and whether it is a known one."""
    orig, drop = runner.run("orig", source), runner.run("tested", source, level)
    if orig.message is not None:
        if drop.message == orig.message:
            return "refused by waterbear, same message", True
        return "OTHERWISE THAN WATERBEAR: " + str(drop.message or "done"), False
    if drop.message is not None:
        why = refusal(drop)
        return "refused by the drop-in: " + why, why.startswith(LIMITS)
    wrong = stale(runner.run("orig", source, optimize=False).info, drop.info)
    if wrong:
        return "A NUMBER WENT STALE: %s is %s" % wrong, False
    if drop.same(orig):
        return explained("same image and debug info", drop, orig)
    doc, stay = runner.run("doc", source), runner.run("tested", source, level, constants="stay")
    if drop.same(doc):
        return explained("other: document 01's patterns (DIFF-1 to DIFF-12)", drop, doc)
    if stay.same(orig):
        return explained("other: constants as targets (DIFF-33)", stay, orig)
    if stay.same(doc):
        return explained("other: patterns and constants (DIFF-1 to DIFF-12, DIFF-33)", stay, doc)
    negative = runner.run("tested", source, level, constants="stay", items="negative")
    if negative.same(doc):
        return explained("other: data below zero (DIFF-13, DIFF-14)", negative, doc)
    less = smaller_multiples(source)
    if less is not None:
        found, known = classify(runner, less, level)
        os.remove(less)
        if known:
            return "other: a .cnop of a multiple over 256 (S-1)", True
        return found, False
    return "NOT EXPLAINED", False

#!/usr/bin/env python3
"""Brings the names of this repository's own definitions to today's spelling, right after port.py.

usage: python3 tools/port/respell.py           at the top of the repository: rewrites crates/**/*.antt and *.rt, runs rt fmt, writes tools/port/respelled.txt
       python3 tools/port/respell.py --look    changes nothing, prints what falls together
       python3 tools/port/respell.py --no-fmt  rewrites, without rt fmt

In .antt files: every token that begins in lower case and has a capital or a hyphen, but what the file imports from a library.
In .rt files: the same tokens in `ghost use` of our crates and inside the braces of requires and ensures.
A second run changes nothing.
"""
import collections
import concurrent.futures
import glob
import os
import re
import subprocess
import sys

# Names whose plain new spelling would fall together with another name that is in scope, or would read badly.
# Lemmas that have the name of the function that they speak of: that function keeps the plain name.
LEMMAS = """
after-global after-mark all-kept anchor-at anchor-target answer-from as-instr by-op by-start by-tag
byte-from bytes-walk code-from context-from doing-as end-finding end-image form-of frame-by frame-bytes
frame-in frame-of front-plain gone-form held-aim held-bit in-front in-range in-store is-at
is-form is-gone is-hash is-none is-of is-plain items-text lack-of line-length line-of
line-plan low-bytes moved-to moving-after name-said name-text names-before names-from of-label on-instr
op-at operand-bytes pattern-at placed-at placed-from read-before register-at same-form same-seat shape-test
size-here stem-of step-test target-bytes told-from value-bytes worth-at
""".split()
EXCEPTIONS = {o: o.replace("-", "_") + "_lem" for o in LEMMAS} | {
    "context-at": "context_at_is",
    "stems-from": "stems_from_is",
    "page-length": "page_length_is",
    "image-room": "image_room_holds",
    "listing-room": "listing_room_holds",
    "getOr": "option_or",
    "getD-behind": "get_or_behind",
    "getD-map-in": "get_or_map_in",
    "getD-tab": "get_or_tab",
    "orD": "judged_or",
    "valued10DAnd0": "valued_10d_and_0",
}

# Lemmas that port.py gave the spelling that a function of ours comes to now: turned in these files alone, and only while
# the function has its old name: lemma -> (the function, the lemma's new name, the files).
ALREADY = {
    "is_ok": ("isOk", "is_ok_lem", "listing/proofs/Refused listing/proofs/OneLine pairing/proofs/lines/find_lines/Proof pairing/proofs/Accepted salvage/proofs/Moved"),
    "is_digit": ("isDigit", "is_digit_lem", "believed/proofs/LinesWritten promises/proofs/TextBack"),
    "same_key": ("sameKey", "same_key_lem", "believed/proofs/Rows paths/proofs/Names paths/proofs/Standing paths/proofs/Bounces walk/proofs/Lookups"),
    "same_bool": ("sameBool", "same_bool_lem", "paths/proofs/Forms"),
    "same_tests": ("sameTests", "same_tests_lem", "patterns/proofs/Order"),
    "position_from": ("positionFrom", "position_from_lem", "attempts/proofs/Missed image/proofs/Placed"),
    "stands_up": ("standsUp", "stands_up_lem", "mapwalk/proofs/Exact"),
    "inner_last": ("innerLast", "inner_last_lem", "paths/proofs/SamePaths"),
    "by_mode": ("byMode", "by_mode_lem", "grammar/proofs/Computing"),
}

# Definitions whose result is a type.
TYPES = {
    "ifKind": "IfKind",
    "below-n": "BelowN",
    "insideLeft": "InsideLeft",
}

TOKEN = re.compile(r'"(?:[^"\\\n]|\\.)*"|--[^\n]*|[^\s(){}.,;"]+|[(){}.,;]|\s+|"')
USE = re.compile(r"^[ \t]*(?:pub )?use[ \t]+([^\s{]+?)(?:\.\{([^}]*)\}|[ \t]+as[ \t]+(\S+))?[ \t]*$", re.M)
GHOST_USE = re.compile(r"^[ \t]*(?:pub )?ghost use[ \t]+([^\s{;]+?)(?:\.\{([^}]*)\})?;", re.M)
WORD = re.compile(r"[^\s(){}.,;\"`:]+")


def own_crates():
    with open("crates.txt", encoding="utf-8") as f:
        return {l.split(":")[0].split()[0] for l in f if l.strip() and not l.startswith("#")}


def files(end):
    return [p for p in sorted(glob.glob("crates/**/*" + end, recursive=True)) if "/out/" not in p]


def wanted(t):
    return t[0].isalpha() and t[0].islower() and (re.search("[A-Z]", t) is not None or "-" in t)


def snake(part):
    if not part or part[0].isupper():
        return part
    s = re.sub(r"([A-Z]+)([A-Z][a-z])", r"\1_\2", part)
    s = re.sub(r"([^\WA-Z_])([A-Z])", r"\1_\2", s)
    return re.sub("[A-Z]", lambda m: m.group(0).lower(), s)


def new_name(t):
    if t in EXCEPTIONS:
        return EXCEPTIONS[t]
    if t in TYPES:
        return TYPES[t]
    return plain_name(t)


def plain_name(t):
    """The name without the exceptions: what Rattle makes of a function's name, as c.before.form-of.ensures."""
    if not wanted(t):
        return t
    return "_".join("_".join(snake(q) for q in p.split("_")) for p in re.split("[-·]", t))


class Turn:
    """The new name of a token of one file."""

    def __init__(self, path, exempt, seen):
        self.exempt = exempt
        self.proof = os.path.basename(path) == "Proof.antt"
        stem = path[len("crates/"):].rsplit(".", 1)[0]
        self.already = {o: new for o, (old, new, where) in ALREADY.items() if old in seen and stem in where.split()}

    def __call__(self, t, dotted=False):
        if t in self.exempt:
            return t
        if dotted and self.proof:
            return plain_name(t)
        if t in self.already:
            return self.already[t]
        return new_name(t)


def own(path, crates):
    return path.startswith("Rattle.") and path.split(".")[1] in crates


def imported(text, use, crates):
    """The names that a file imports from libraries."""
    names = set()
    for m in use.finditer(text):
        if not own(m.group(1), crates):
            for item in (m.group(2) or "").split(","):
                names.update(item.split())
    return names


def pieces(text):
    """The tokens of an .antt file: (text, kind), kind one of name, comment, string, path, other."""
    at = 0
    for m in USE.finditer(text):
        yield from plain(text[at:m.start()])
        a, b = m.span(1)
        yield text[m.start():a], "other"
        yield text[a:b], "path"
        yield from plain(text[b:m.end()])
        at = m.end()
    yield from plain(text[at:])


def plain(text):
    for m in TOKEN.finditer(text):
        t = m.group(0)
        if t.startswith("--"):
            yield t, "comment"
        elif t.startswith('"'):
            yield t, "string"
        elif t.isspace() or t in "(){}.,;":
            yield t, "other"
        else:
            yield t, "name"


def clauses(text):
    """The spans of an .rt file that hold antt: the names of `ghost use` of our crates apart, the clauses' braces."""
    masked = re.sub(r'//[^\n]*|"(?:[^"\\]|\\.)*"', lambda m: " " * len(m.group(0)), text)
    spans = []
    for m in re.finditer(r"\b(?:requires|ensures)\b(?:\s+\w+)?\s*\{", masked):
        depth, i = 1, m.end()
        while depth:
            c = masked[i]
            depth += (c == "{") - (c == "}")
            i += 1
        spans.append((m.end(), i - 1))
    return spans


def in_comment(text, names):
    """camelCase words that are names of ours, and hyphenated ones between backticks."""
    def camel(m):
        t = m.group(0)
        return names.get(t, t) if "-" not in t else t

    def ticked(m):
        return WORD.sub(lambda w: names.get(w.group(0), w.group(0)), m.group(0))

    return WORD.sub(camel, re.sub(r"`[^`\n]*`", ticked, text))


def rust_binders(text):
    """Of each function of an .rt file: (its name, its parameters, its clauses' text)."""
    masked = re.sub(r'//[^\n]*|"(?:[^"\\]|\\.)*"', lambda m: " " * len(m.group(0)), text)
    spans = clauses(text)
    functions = []
    heads = list(re.finditer(r"\bfn\s+(\w+)", masked))
    for k, m in enumerate(heads):
        i = masked.index("(", m.end())
        j, depth = i + 1, 1
        while depth:
            depth += (masked[j] == "(") - (masked[j] == ")")
            j += 1
        params = re.findall(r"(\w+)\s*:(?!:)", masked[i:j])
        stop = heads[k + 1].start() if k + 1 < len(heads) else len(text)
        functions.append((m.group(1), params, " ".join(text[a:b] for a, b in spans if m.start() < a < stop)))
    return functions


def main(argv):
    look = "--look" in argv
    crates = own_crates()
    names = {}          # old -> new, over all files
    left = []
    texts = {}
    # what the .antt files hold
    for p in files(".antt"):
        with open(p, encoding="utf-8") as f:
            texts[p] = f.read()
    exempt = {p: imported(t, USE, crates) for p, t in texts.items()}
    seen = {x for t in texts.values() for x, kind in pieces(t) if kind == "name"}
    turns = {p: Turn(p, exempt[p], seen) for p in texts}
    special = []        # what differs by file
    for p, t in texts.items():
        groups = collections.defaultdict(lambda: collections.defaultdict(int))
        before = ""
        for x, kind in pieces(t):
            if kind == "name":
                dotted = before == "."
                y = turns[p](x, dotted)
                if y != x:
                    if x in turns[p].already or y != new_name(x):
                        special.append((x, y, p))
                    else:
                        names[x] = y
                groups[y][x] += not dotted
            before = x
        for y, olds in groups.items():
            if len([o for o in olds if olds[o]]) > 1:
                left.append((p, y, dict(olds)))
    # what the .rt files hold
    rust = {}
    for p in files(".rt"):
        with open(p, encoding="utf-8") as f:
            rust[p] = f.read()
    rexempt = {p: imported(t, GHOST_USE, crates) for p, t in rust.items()}
    for p, t in rust.items():
        groups = collections.defaultdict(set)
        ghost = {}
        for m in GHOST_USE.finditer(t):
            for item in (m.group(2) or m.group(1).split(".")[-1]).split(","):
                w = item.split()
                if w:
                    ghost[w[-1]] = w[-1] if w[-1] in rexempt[p] else new_name(w[-1])
                    for x in w:
                        if x not in rexempt[p] and new_name(x) != x:
                            names[x] = new_name(x)
        for a, b in clauses(t):
            before = ""
            for x, kind in plain(t[a:b]):
                if kind == "name" and before != ".":
                    groups[x if x in rexempt[p] else new_name(x)].add(x)
                if kind == "name" and x not in rexempt[p] and new_name(x) != x:
                    names[x] = new_name(x)
                before = x
        for x, y in ghost.items():
            groups[y].add(x)
        for y, olds in groups.items():
            if len(olds) > 1:
                left.append((p, y, sorted(olds)))
        functions = rust_binders(t)
        cited = set(ghost.values())
        for f, params, text in functions:
            words = {x if x in rexempt[p] else new_name(x) for x, kind in plain(text) if kind == "name"}
            for q in params:
                if q in cited and q in words:
                    if any(o != q and n == q for o, n in ghost.items()):
                        left.append((p, q, f"a parameter of {f}, whose clauses cite the word"))
                    else:
                        print(f"note: {p}: {q} is a parameter of {f}, and a word of the file: as before")
    for it in left:
        print("together:", *it)
    print(f"respell: {len(names)} names, {len(left)} places where names fall together")
    if look:
        return 1 if left else 0
    if left:
        print("respell: nothing was written")
        return 1
    changed = 0
    for p, t in texts.items():
        mine = {o: n for o, n in names.items() if o not in exempt[p]}
        out = []
        before = ""
        for x, kind in pieces(t):
            dotted = before == "."
            before = x
            if kind == "name":
                x = turns[p](x, dotted)
            elif kind == "comment":
                x = in_comment(x, mine)
            out.append(x)
        changed += put(p, t, "".join(out))
    for p, t in rust.items():
        mine = {o: n for o, n in names.items() if o not in rexempt[p]}
        cuts = [(a, b, True) for a, b in clauses(t)]
        for m in GHOST_USE.finditer(t):
            if own(m.group(1), crates):
                a, b = m.span(2) if m.group(2) is not None else (m.start(1) + m.group(1).rfind(".") + 1, m.end(1))
                cuts.append((a, b, True))
        for m in re.finditer(r"//[^\n]*", t):
            if not any(a <= m.start() < b for a, b, _ in cuts) and t.count('"', t.rfind("\n", 0, m.start()) + 1, m.start()) % 2 == 0:
                cuts.append((m.start(), m.end(), False))
        s, at = [], 0
        for a, b, code in sorted(cuts):
            s.append(t[at:a])
            if code:
                for x, kind in plain(t[a:b]):
                    s.append(new_name(x) if kind == "name" and x not in rexempt[p] else x)
            else:
                s.append(in_comment(t[a:b], mine))
            at = b
        s.append(t[at:])
        changed += put(p, t, "".join(s))
    print(f"respell: {changed} files changed")
    here = os.path.join("tools", "port", "respelled.txt")
    if names:
        os.makedirs(os.path.dirname(here), exist_ok=True)
        with open(here, "w", encoding="utf-8") as f:
            lines = {f"{o} -> {n}" for o, n in names.items()} | {f"{o} -> {n}  in {p}" for o, n, p in special}
            f.writelines(l + "\n" for l in sorted(lines))
    if "--no-fmt" not in argv:
        def fmt(c):
            r = subprocess.run(["rt", "fmt"], cwd=c, stdout=subprocess.PIPE, stderr=subprocess.STDOUT, text=True)
            return c, r.returncode, r.stdout
        with concurrent.futures.ThreadPoolExecutor(4) as pool:
            for c, code, said in pool.map(fmt, [c for c in sorted(glob.glob("crates/*")) if os.path.isdir(os.path.join(c, "src"))]):
                if code:
                    print(f"respell: rt fmt in {c}: {said.strip()[-300:]}")
    return 0


def put(path, old, new):
    if old == new:
        return 0
    with open(path, "w", encoding="utf-8") as f:
        f.write(new)
    return 1


if __name__ == "__main__":
    raise SystemExit(main(sys.argv[1:]))

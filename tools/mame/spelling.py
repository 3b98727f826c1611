"""Instructions as bytes and as text, held against MAME's disassembler: those that a listing writes, and those that an image is read
back as."""
import random
import re

import bee
import mame
from bee import FORMS
from singles import packed, pages

BYTES = [0, 1, 0x7F, 0x80, 0xFE, 0xFF]
CELLS = [0, 1, 0x0D, 0x7F, 0x80, 0xFF, 0x100, 0x101, 0x10D, 0x17F, 0x180, 0x1FE, 0x1FF]
NEAR = [-128, -127, -2, -1, 0, 1, 126, 127]
LOW = [0, 1, 0xFF, 0x100, 0x345, 0x7FF, 0x800, 0x801, 0xEFF, 0xF00, 0xFFE, 0xFFF] + [1 << k for k in range(12)]
FAR = [0, 1, 0xFF, 0x100, 0x1234, 0x7FFF, 0x8000, 0xFF00, 0xFFFF] + [1 << k for k in range(16)]
STARTS = [0x100, 0xF80, 0x1F00, 0x7F00, 0xEF00]
LAST = [0xFFFA, 0xFFFB, 0xFFFC, 0xFFFD, 0xFFFE]
SHORT = {form.word for form in FORMS if form.operands[-1:] == ["rel8"]}
SPELLED = [(r"#\$([0-9a-f]{2})", "#%d"), (r"\(\$([0-9a-f]{3})\)", "%d"), (r"@([0-3])", "@R%d"), (r"([0-9a-f]{4}|[0-7])", "%d")]


def ours(word, operands):
    """MAME's text as C-16 writes it."""
    out = []
    for operand in operands.split(",") if operands else []:
        for pattern, shape in SPELLED:
            found = re.fullmatch(pattern, operand)
            if found:
                out.append(shape % int(found[1], 16))
                break
        else:
            raise RuntimeError("MAME's operand %r of %s" % (operand, word))
    return word + (" " + ",".join(out) if out else "")


def theirs(path):
    return [(address, digits, ours(word, operands)) for address, digits, word, operands in mame.disassembled(path)]


# ---- written

def values_of(form, kind):
    """Functions from the address behind the instruction to an argument."""
    alone = len(form.operands) == 1
    given = {"reg": range(4), "bit": range(8), "i8": range(256) if alone else BYTES, "d9": range(512) if alone else CELLS, "a16": FAR}
    if kind in given:
        return [lambda _, v=v: v for v in given[kind]]
    if kind == "a12":
        return [lambda n, v=v: n & 0xF000 | v for v in LOW]
    near = [lambda n, d=d: n + d for d in (range(-128, 128) if form.name in ("Br", "Bz") else NEAR if kind == "rel8" else range(-5, 6))]
    return near if kind == "rel8" else near + [lambda _, v=v: v for v in FAR]


def all_arguments(form):
    rows = [[]]
    for kind in form.operands:
        rows = [row + [value] for row in rows for value in values_of(form, kind)]
    return rows


def listings_in_rows():
    """Each form with each choice of arguments, one behind the other, at places in several pages: [(frames, start, end)]"""
    rng = random.Random(1)
    todo = [(form, row) for form in FORMS for row in all_arguments(form)]
    todo += [(form, rng.choice(all_arguments(form))) for form in FORMS for _ in range(12)]
    made, at = [], 0
    while at < len(todo):
        start = position = STARTS[len(made) % len(STARTS)]
        frames, size = [bee.org(start)], 0
        while at < len(todo) and len(frames) < 1000 and size < 23000 and position < 0xFF00:
            form, row = todo[at]
            position += form.size
            frames.append(bee.instruction(form, [value(position) for value in row]))
            at, size = at + 1, size + len(frames[-1])
        made.append((frames, start, position))
    return made


def edge_tests():
    """Transfers at the edges of pages and of the memory, to both ends of their reach."""
    ends = pages()
    for form in (form for form in FORMS if form.is_transfer):
        for before in (4, 3, 2, 1, 0):
            for i in range(7):
                yield edge_test(form, next(ends) - before, i)
        for place in (place for place in LAST if place + form.size <= 65536):
            for i in (0, 1):
                yield edge_test(form, place, i)


def edge_test(form, place, i):
    behind = place + form.size
    page = behind & 0xF000
    reach = {"rel8": [behind + d for d in (-128, -1, 0, 127)], "a12": [page, page | 0xFFF, page | 0x345], "a16": [0, 0xFFFF, 0x1234],
             "rel16": [behind & 0xFFFF, 0, 1, (behind - 1) & 0xFFFF, (behind - 2) & 0xFFFF, 0xFFFF, 0x8000]}[form.operands[-1]]
    reach = [target for target in reach if 0 <= target < 65536]
    others = [{"reg": 2, "bit": 5, "d9": 0x123, "i8": 0x45}[kind] for kind in form.operands[:-1]]
    return form, place, others + [reach[i % len(reach)]]


def listings_at_edges():
    made = []
    for tests in packed(edge_tests()):
        frames = [f for form, place, args in tests for f in (bee.org(place), bee.instruction(form, args))]
        made.append((frames, None, [(place, form.size) for form, place, _ in tests]))
    return made


def listings(folder):
    """Image and text of listings against MAME's disassembler."""
    rows, edges, lines, held = listings_in_rows(), listings_at_edges(), [], []
    for i, (frames, start, end) in enumerate(rows + edges):
        text, path = bee.listing_of(frames), "%s/l%d" % (folder, i)
        with open(path + ".bin", "wb") as out:
            out.write(bee.image(text))
        held.append([row for row in bee.addresses(text) if row[1]])
        spans = [(start, end - start)] if start is not None else end
        for k, (at, length) in enumerate(spans):
            lines.append("dasm %s.bin %s-%d.asm %x %x" % (path, path, k, at, length))
    mame.jobs(lines, folder)
    differences, seen = [], 0
    said = [line.split()[2] for line in lines]
    for i, mine in enumerate(held):
        found = [row for path in said if path.startswith("%s/l%d-" % (folder, i)) for row in theirs(path)]
        seen += len(mine)
        differences += ["%s and MAME's %s" % pair for pair in zip(mine, found) if pair[0] != pair[1]]
        if len(mine) != len(found):
            differences.append("listing %d: %d instructions, MAME %d" % (i, len(mine), len(found)))
    single = sum(len(end) for _, _, end in edges)
    return "%d instructions written in %d listings, %d of them at edges, read alike" % (seen, len(held), single), differences


# ---- read back

def sizes_by_mame(folder):
    path = folder + "/sizes"
    with open(path + ".bin", "wb") as out:
        out.write(b"".join(bytes([x, 0, 0, 0]) for x in range(256)))
    mame.jobs(["dasm %s.bin %s%d.asm %x 1" % (path, path, x, 4 * x) for x in range(256)], folder)
    return [len(mame.disassembled("%s%d.asm" % (path, x))[0][1]) for x in range(256)]


def bodies(sizes, rng):
    """Every first byte with every second one, twice, in two orders; and random bytes: (bytes, start)"""
    pairs = [(x, y) for x in range(256) for y in (range(256) if sizes[x] > 1 else [0])]
    twice = [pairs, [pairs[k * 7919 % len(pairs)] for k in range(len(pairs))]]
    for order in twice:
        for at in range(0, len(order), 900):
            body = b"".join(bytes([x, y, rng.randrange(256)])[:sizes[x]] for x, y in order[at:at + 900])
            yield body, rng.choice([0x200, 0xF00, 0xFF0, 0x1000, 0x7E80, 0xA55A, 0xF000])
    for _ in range(20):
        yield bytes(rng.randrange(256) for _ in range(1400)), rng.choice([0x200, 0xF00, 0x7D00, 0xF000])


def read_back(image, start):
    """The rows of the listing, of so much of the image as the limits of a listing take; the end of what was read."""
    end = len(image)
    while True:
        try:
            return bee.addresses(bee.read_back(image[:end], start)), end
        except bee.Refused:
            end -= 200


def back(folder, part=1):
    """Images read back, against MAME's disassembler; `part` takes every so-manieth image."""
    lines, held = [], []
    for i, (body, start) in enumerate(list(bodies(sizes_by_mame(folder), random.Random(2)))[::part]):
        image, path = bytes(start) + body, "%s/b%d" % (folder, i)
        with open(path + ".bin", "wb") as out:
            out.write(image)
        rows, end = read_back(image, start)
        held.append([row for row in rows if row[1]])
        lines.append("dasm %s.bin %s.asm %x %x" % (path, path, start, end - start))
    mame.jobs(lines, folder)
    differences, pairs, seen, cut = [], set(), 0, 0
    for i, mine in enumerate(held):
        for row, other in zip(mine, theirs("%s/b%d.asm" % (folder, i))):
            if row == other:
                seen += 1
                pairs.add(row[1][:2])
            elif row[2].startswith(".byte") and row is mine[-1]:
                cut += 1                    # the image's end cuts it (C-21)
            else:
                differences.append("image %d: %s and MAME's %s" % (i, row, other))
                break
    return "%d instructions of %d pairs of first two bytes read back alike, %d cut by the end" % (seen, len(pairs), cut), differences


def edge_bytes(rng):
    firsts, offsets = [0x01, 0x80, 0x90, 0x31, 0x52, 0x68, 0x11, 0x10, 0x28, 0x08], [0x80, 0x7F, 0xFE]
    return bytes(rng.choice((firsts if k % 3 == 0 else offsets) + [rng.randrange(256)]) for k in range(300))


def is_outside(address, digits, text):
    """Whether a short branch leads out of the memory, or the memory's end cuts the instruction."""
    behind = address + len(digits)
    target = behind + int.from_bytes(digits[-1:], "big", signed=True)
    return behind > 65536 or text.split()[0] in SHORT and not 0 <= target < 65536


def edges(folder):
    """Both ends of the memory. MAME wraps a target there; ours is a bytes frame of the first byte (C-21), counted apart."""
    rng, differences, seen, outside = random.Random(3), [], 0, 0
    parts = [(folder + "/low", edge_bytes(rng), 0), (folder + "/high", bytes(65536 - 300) + edge_bytes(rng), 65536 - 300)]
    for path, image, _ in parts:
        with open(path + ".bin", "wb") as out:
            out.write(image)
    mame.jobs(["each %s.bin %s.asm %x %x" % (path, path, start, len(image) - start) for path, image, start in parts], folder)
    for path, image, start in parts:
        found = {row[0]: row for row in theirs(path + ".asm")}
        for row in (row for row in bee.addresses(bee.read_back(image, start)) if row[1]):
            is_byte = row[2].startswith(".byte")
            seen, outside = seen + (row == found[row[0]]), outside + is_byte
            if row != found[row[0]] and not (is_byte and is_outside(*found[row[0]])):
                differences.append("%s and MAME's %s" % (row, found[row[0]]))
    return "%d instructions at both ends of the memory read alike, %d bytes frames of ours" % (seen, outside), differences

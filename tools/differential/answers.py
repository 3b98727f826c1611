"""An answer to a listing, in one shape for ours, the Rust's and the model's."""

NUMBERS = {
    "NameAlreadyExists": 3, "NameNotFound": 4, "DivideByZero": 7, "NumOutOfRange": 8, "ByteOutOfRange": 8, "WordOutOfRange": 8,
    "InvalidAddress": 9, "SignedNumOutOfRange": 10, "AddrBitsDontMatch": 11,
}


class Answer:
    """kind: done (lines, rewrites, image and its length), refused (number, place), panic, late (no answer in time) or strange.
    The image is None where only its length is known. fault is the argument's place and the number at fault, None of the Rust's refusals.
    stems, of the Rust's alone: for each line the place that its statement stems from."""

    stems = None

    def __init__(self, kind, lines=b"", rewrites=0, image=b"", length=0, number=0, place=0, text="", fault=(0, 0)):
        self.kind, self.lines, self.rewrites, self.image = kind, lines, rewrites, image
        self.length = length if image is None else len(image)
        self.number, self.place, self.text, self.fault = number, place, text, fault

    def key(self):
        return (self.kind, self.lines, self.rewrites, self.length, self.number, self.place, self.text)

    def __eq__(self, other):
        alike = all(None in pair or pair[0] == pair[1] for pair in ((self.image, other.image), (self.fault, other.fault)))
        return self.key() == other.key() and alike

    def line(self):
        """The 7E line; with no number at fault where none is known."""
        told = "" if self.fault is None else "%02X%08X" % (self.fault[0], self.fault[1] & 0xFFFFFFFF)
        return "7E%02X%04X%s\n" % (self.number, self.place, told)

    def show(self):
        if self.kind == "done":
            image = "not printed" if self.image is None else self.image.hex(" ").upper()
            return "%s7F%04X%06X\nimage %s\n" % (self.lines.decode(), self.rewrites, self.length, image)
        if self.kind == "refused":
            return self.line()
        return "%s %s\n" % (self.kind, self.text)


def refused(number, place, fault=None):
    return Answer("refused", number=number, place=place, fault=fault)


def done(lines, rewrites, image):
    return Answer("done", lines=lines, rewrites=rewrites, image=image)


def parse(block):
    """An answer as the batch driver or the oracle prints it, the line `==` apart."""
    lines = block.split(b"\n")[:-1]
    if lines and lines[-1].startswith(b"ORIGINS"):
        answer = parse(b"".join(line + b"\n" for line in lines[:-1]))
        answer.stems = [int(place) for place in lines[-1].split()[1:]]
        return answer
    if len(lines) >= 2 and lines[-1].startswith(b"IMAGE ") and lines[-2].startswith(b"7F"):
        head = b"".join(line + b"\n" for line in lines[:-2])
        image = bytes.fromhex(lines[-1][6:].decode())
        if len(image) == int(lines[-2][6:], 16):
            return done(head, int(lines[-2][2:6], 16), image)
    if lines and lines[-1].startswith(b"7F") and len(lines[-1]) == 12:
        head = b"".join(line + b"\n" for line in lines[:-1])
        return Answer("done", lines=head, rewrites=int(lines[-1][2:6], 16), image=None, length=int(lines[-1][6:], 16))
    if len(lines) == 1 and lines[0].startswith(b"7E") and len(lines[0]) == 18:
        amount = int.from_bytes(bytes.fromhex(lines[0][10:].decode()), "big", signed=True)
        return refused(int(lines[0][2:4], 16), int(lines[0][4:8], 16), (int(lines[0][8:10], 16), amount))
    if lines == [b"PANIC"]:
        return Answer("panic")
    words = lines[0].decode(errors="replace").split() if len(lines) == 1 else []
    if words[:1] == ["FORM"]:
        return refused(1, int(words[1]))
    if words[:1] == ["ERR"] and words[1] in NUMBERS and words[2].startswith("place="):
        return refused(NUMBERS[words[1]], int(words[2][6:]))
    return Answer("strange", text=block.decode(errors="replace"))

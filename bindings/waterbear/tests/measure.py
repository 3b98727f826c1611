"""measure.py BIN [--orig]: how many source lines of firmware-like code the drop-in takes without leave, as a skeleton and bare, and how
long that takes; with --orig how long waterbear's own optimizer takes on the same program. A hundred lines are 25 blank or comments, 12
labels, 34 plain instructions, 15 transfers, 9 lines of eight data bytes, 5 constants."""
import os
import random
import resource
import subprocess
import sys
import tempfile

BIN = sys.argv[1]
MIX = {"comment": 25, "label": 12, "plain": 34, "transfer": 15, "data": 9, "constant": 5}


class Firmware:
    def __init__(self, count):
        self.r = random.Random(1)
        self.out = ["sfr%d equ $%x" % (i, 0x100 + i) for i in range(70)] + ["start:"]
        self.names, self.near, self.n = ["start"], [], 0
        while len(self.out) < count:
            self.n += 1
            getattr(self, self.r.choices(list(MIX), list(MIX.values()))[0])()

    def text(self):
        return "\n".join(self.out) + "\n"

    def register(self):
        return "sfr%d" % self.r.randrange(70)

    def comment(self):
        self.out.append(self.r.choice(["", "  ; what this does"]))

    def label(self):
        if self.r.random() < 0.35:
            self.names.append("routine%d" % self.n)
            self.near = []
            self.out.append(self.names[-1] + ":")
        else:
            self.near.append((".l%d" % self.n, len(self.out)))
            self.out.append(".l%d:" % self.n)

    def plain(self):
        s = self.register()
        self.out.append("  " + self.r.choice([
            "ld " + s, "st " + s, "mov #%d, %s" % (self.r.randrange(256), s), "add #1", "and #$0f", "xor " + s, "inc " + s, "push " + s,
            "pop " + s, "ret", "ldc", "set1 %s, 3" % s, "clr1 %s, 1" % s, "mov #<%s, sfr4" % self.r.choice(self.names), "ror", "nop"]))

    def transfer(self):
        near = [label for label, at in self.near if len(self.out) - at < 25]
        if near and self.r.random() < 0.6:
            branch = self.r.choice(["bz", "bnz", "bne #4,", "bp %s, 2," % self.register(), "dbnz sfr2,"])
            self.out.append("  %s %s" % (branch, near[-1]))
        else:
            self.out.append("  %s %s" % (self.r.choice(["callf", "callf", "jmpf"]), self.r.choice(self.names)))

    def data(self):
        self.out.append("  .byte " + ", ".join("$%02x" % self.r.randrange(256) for _ in range(8)))

    def constant(self):
        self.out.append("k%d = %d" % (self.n, self.n & 255))


def used():
    children = resource.getrusage(resource.RUSAGE_CHILDREN)
    return children.ru_utime + children.ru_stime


def run(which, count, folder, leave):
    """Seconds of the processor, or None if the program is too long."""
    source, out = os.path.join(folder, "f.s"), os.path.join(folder, "f.bin")
    open(source, "w").write(Firmware(count).text())
    begun = used()
    command = [os.path.join(BIN, "wb-" + which), "assemble", source, "-o", out, "--optimize-jumps"]
    process = subprocess.run(command, capture_output=True, env=dict(os.environ, **leave))
    if process.returncode and b"the limit is passed here" not in process.stderr:
        sys.exit(process.stderr.decode())
    return None if process.returncode else used() - begun


def main(orig):
    with tempfile.TemporaryDirectory() as folder:
        for name, leave in (("without leave", {}), ("as a skeleton", {"MORTARBEE_SKELETON": "1"}), ("bare", {"MORTARBEE_BARE": "1"})):
            low, high = 100, 20000
            while high - low > 10:
                middle = (low + high) // 2
                low, high = (low, middle) if run("drop", middle, folder, leave) is None else (middle, high)
            seconds = min(run("drop", low, folder, leave) for _ in range(5))
            size = os.path.getsize(os.path.join(folder, "f.bin"))
            print("%s: %d lines, an image of %d bytes, %.2f s" % (name, low, size, seconds), flush=True)
            if orig:
                print("  waterbear's own: %.2f s" % run("orig", low, folder, {}), flush=True)


if __name__ == "__main__":
    main("--orig" in sys.argv)

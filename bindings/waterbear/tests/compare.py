"""compare.py BIN [--programs FOLDER] [--count N --seed S] [--levels 0123] [--longer FILE] [--keep FOLDER] [--stop]

Holds the drop-in (BIN/wb-tested) against waterbear (BIN/wb-orig, BIN/wb-doc): exit status, messages, image and debug information, each
program at each level. A program of FOLDER has its class in its first line; a random one passes with any known class. FILE gets a line for
each image that is longer than waterbear's own. With --stop the first failure is the last program. The last line is `N passed, M failed`."""
import argparse
import collections
import glob
import os
import re
import sys
import tempfile

from generate import Program
from run import Runner, classify

parser = argparse.ArgumentParser(description=__doc__)
parser.add_argument("bin")
parser.add_argument("--programs")
parser.add_argument("--count", type=int, default=0)
parser.add_argument("--seed", type=int, default=1)
parser.add_argument("--levels", default="0123")
parser.add_argument("--longer")
parser.add_argument("--keep")
parser.add_argument("--stop", action="store_true")
options = parser.parse_args()
counts = {level: collections.Counter() for level in options.levels}
lengths = collections.Counter()
longer = []
failed = []


def measure(runner, name, source):
    """Whether the drop-in's image is shorter or longer than waterbear's own, at the first level."""
    orig, drop = runner.run("orig", source), runner.run("tested", source, options.levels[0])
    if orig.message is not None or drop.message is not None:
        return
    a, b = len(orig.image), len(drop.image)
    lengths["shorter" if b < a else "longer" if b > a else "as long"] += 1
    if b > a:
        doc, stay = runner.run("doc", source), runner.run("tested", source, options.levels[0], constants="stay")
        sizes = (a, len(doc.image), len(stay.image), b)
        longer.append("%s: waterbear's %d, document 01's patterns in it %d, ours with C-15 off %d, ours %d" % ((name,) + sizes))


def one(runner, name, source):
    wanted = re.match(r"; expect: ([^\n]*)", open(source).read())
    runner.forget()
    for level in options.levels:
        found, known = classify(runner, source, level)
        counts[level][found if known else "FAILED"] += 1
        if not known or wanted and not found.startswith(wanted[1]):
            failed.append("%s at level %s: %s%s" % (name, level, found, ", and not " + wanted[1] if wanted else ""))
    measure(runner, name, source)


def programs(folder):
    """Names and sources: those by hand, then random ones."""
    for source in sorted(glob.glob(os.path.join(options.programs, "[0-9]*.s"))) if options.programs else []:
        yield os.path.basename(source), source
    for n in range(options.count):
        where = os.path.join(options.keep or folder, "p%d" % n)
        Program(options.seed * 1000003 + n).write(where)
        yield "seed %d, number %d" % (options.seed, n), os.path.join(where, "main.s")


with tempfile.TemporaryDirectory() as folder:
    runner = Runner(options.bin, folder)
    for name, source in programs(folder):
        one(runner, name, source)
        if failed and options.stop:
            break
for line in failed:
    print(line)
for level, found in counts.items():
    print("level %s:" % level)
    for name, count in found.most_common():
        print("%6d  %s" % (count, name))
print("images: " + ", ".join("%d %s" % (count, name) for name, count in lengths.most_common()))
if options.longer:
    open(options.longer, "w").write("".join(line + "\n" for line in longer))
total = sum(sum(found.values()) for found in counts.values())
print("%d passed, %d failed" % (total - len(failed), len(failed)))
sys.exit(bool(failed))

"""Times our program and the Rust on the same listings in one run, and prints the ratios as a Markdown table.

    python3 tools/bench/run.py --sources FOLDER [--assemble] [--limit 60]
"""
import argparse
import os
import platform
import random
import shutil
import subprocess
import sys
import time

sys.path.insert(0, os.path.join(os.path.dirname(os.path.dirname(os.path.abspath(__file__))), "differential"))

from families.build import data, instr, label, name, number, quiet, text_of, variable
from families.code import inverted, tramp
from programs import Program, build_oracle, ours

SIZES = [128, 256, 512, 1024]


def nops(n):
    """All Nops"""
    return [instr("Nop") for _ in range(n)]


def mixed(n):
    """Mixed: folds, jumps and calls among other instructions"""
    rng = random.Random("mixed %d" % n)
    result, here = [], 0x8000
    labels = [0x9000 + i for i in range(n // 16)]
    every = [label(k) for k in labels]
    while len(result) + len(every) < n:
        here += 2
        k = name(rng.choice(labels))
        part = [quiet(rng)] if rng.random() < 0.7 else rng.choice([
            lambda: [instr("Jmpf", k)], lambda: [instr("Callf", k)], lambda: inverted(rng, here, [here]),
            lambda: tramp(rng, here, here + 1, [here + 1])])()
        result += part if len(result) + len(every) + len(part) <= n else nops(n - len(result) - len(every))
    for s in every:
        result.insert(rng.randint(0, len(result)), s)
    return result


def all_shrink(n):
    """All jumps shrink"""
    result = [instr("Jmpf", name(0x8000)) for _ in range(n - 1)]
    result.insert(n // 2, label(0x8000))
    return result


def half_stuck(n):
    """Half the jumps cannot shrink, before half that can"""
    stuck = [instr("Jmpf", number(0xF000)) for _ in range(n // 2)]
    return stuck + [label(0x8000)] + [instr("Jmpf", name(0x8000)) for _ in range(n - n // 2 - 1)]


def many_names(n):
    """Hundreds of names in many contexts"""
    rng = random.Random("many names %d" % n)
    result, contexts = [], n // 16
    for g in range(1, contexts + 1):
        own = [0x8000 + i for i in range(4)]
        near, far = name(rng.choice(own)), name(rng.randint(1, contexts))
        part = [variable(0x4000 + g, name(g)), instr("Jmpf", near), instr("Callf", far), instr("Jmpf", name(0x4000 + g)), data("words", far, near)]
        part += [label(k) for k in own] + inverted(rng, 0x8004, own)
        result += [label(g)] + part + [quiet(rng) for _ in range(15 - len(part))]
    return result[:n]


CASES = [nops, mixed, all_shrink, half_stuck, many_names]


def once(program, text, times, limit):
    """Seconds for a batch of the same listing, or None where it takes too long."""
    began = time.time()
    blocks, _, _ = program.once([text] * times, limit)
    return time.time() - began if len(blocks) == times else None


def seconds_of(program, text, limit):
    """Seconds for one listing: by itself if it takes long, else by what a batch takes more than one, the least of three; None past the limit."""
    alone = once(program, text, 1, limit)
    if alone is None or alone > 2:
        return alone
    alone = min([alone] + [t for t in (once(program, text, 1, limit) for _ in range(2)) if t is not None])
    times, took = 4, 0
    while times < 1000 and took is not None and took < 0.4:
        took = once(program, text, times, times * limit)
        times *= 4
    times //= 4
    batches = [t for t in (once(program, text, times, times * limit) for _ in range(3)) if t is not None]
    return max(1e-9, min(batches) - alone) / (times - 1) if batches else alone


def shown(seconds, limit):
    if seconds is None:
        return "over %g s" % limit
    return "%.3g s" % seconds if seconds >= 1 else "%.3g ms" % (1000 * seconds)


def growth(now, before):
    return "" if now is None or before is None else "x %.1f" % (now / before)


def rows(case, programs, limit, rewrites):
    """The table's rows of a case. Once over the limit, a program is not asked for more."""
    before = [None, None]
    over = [False, False]
    for n in SIZES:
        text = text_of(case(n))
        times = [None if over[i] else seconds_of(p, text, limit) for i, p in enumerate(programs)]
        over = [t is None for t in times]
        ratio = "%.2f" % (times[0] / times[1]) if None not in times else ""
        cells = [case.__doc__ if n == SIZES[0] else "", str(n), rewrites(text)] + [shown(t, limit) for t in times] + [ratio]
        yield cells + [growth(times[i], before[i]) for i in (0, 1)]
        before = times


def counter(program, limit):
    """How many rewrites a listing takes, by our program."""
    def count(text):
        answers = program.ask([text], limit)
        return str(answers[0].rewrites) if answers[0].kind == "done" else answers[0].kind
    return count


def seconds(text):
    value = float(text)
    if not 0 < value <= 86400:
        raise argparse.ArgumentTypeError("seconds, above 0 and at most a day")
    return value


def main():
    p = argparse.ArgumentParser(description=__doc__, formatter_class=argparse.RawDescriptionHelpFormatter)
    p.add_argument("--sources", help="the folder of the Rust's sources; needed until the oracle is built")
    p.add_argument("--assemble", action="store_true", help="time `assemble` alone")
    p.add_argument("--limit", type=seconds, default=60, help="seconds for one listing")
    options = p.parse_args()
    rust = [os.path.join(build_oracle(options.sources), "oracle-release"), "--batch"] + (["--assemble"] if options.assemble else [])
    programs = [ours(options.assemble), Program("the Rust", rust)]
    version = subprocess.run(["rustc", "--version"], capture_output=True, text=True).stdout.strip() if shutil.which("rustc") else "no rustc here"
    emulated = "" if platform.machine() == "x86_64" else " Ours is compiled for x86-64 and runs emulated here, beside a native Rust."
    print("%s, %s, %s, %d processors.%s" % ("`assemble` alone" if options.assemble else "`optimize_jumps`", version, platform.machine(),
                                          os.cpu_count(), emulated))
    print("\n| Listing | Statements | Rewrites | Ours | The Rust | Ours / the Rust | Ours grows | The Rust grows |")
    print("|---|---|---|---|---|---|---|---|")
    for case in CASES:
        for cells in rows(case, programs, options.limit, counter(programs[0], options.limit)):
            print("| " + " | ".join(cells) + " |")
            sys.stdout.flush()


if __name__ == "__main__":
    main()

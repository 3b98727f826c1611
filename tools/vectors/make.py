"""Makes the list that the program `vectors` replays: crates/vectors/stdin (listings, each ended by a line ==) and crates/vectors/stdout.

    python3 tools/vectors/make.py --sources FOLDER     # FOLDER: the Rust's sources; the oracle is built from them on first use

An accepted listing's answer is the one that the Rust gives, with document 01's pattern list, in the checked build; a listing on which the Rust
differs (docs/DIFFERENCES.md) is left out. A refusal's answer is document 01's, computed by tools/differential/model, which shares no code
with the program. Listings come from tools/differential/families by a fixed seed, and from docs/DIFFERENCES.md.
"""
import argparse
import os
import sys

HERE = os.path.dirname(os.path.abspath(__file__))
sys.path.insert(0, os.path.join(os.path.dirname(HERE), "differential"))

import families
import listed
from explain import modelled
from model.ways import TooLong
from programs import ROOT, Program, ask_rust, build_oracle, comparable

SEED = "vectors"
WANTED = 480
LONGEST = 2000  # characters: the whole list stays within one run of the program
LONGEST_ANSWER = 12000
LARGE_ONES = 2


def candidates():
    """The listings of the differences, then generated ones, each once."""
    seen, large = set(), 0
    for text in listed.listings().values():
        seen.add(text)
        yield text
    for family, _, text in families.sequence(SEED):
        if text in seen or b"==" in text or (text and not text.endswith(b"\n")):
            continue
        if len(text) > LONGEST:
            if large == LARGE_ONES:
                continue
            large += 1
        seen.add(text)
        yield text


def printed(answer):
    """As the program prints it in a batch."""
    if answer.kind == "refused":
        return answer.line().encode()
    zeros = len(answer.image) - len(answer.image.lstrip(b"\0"))
    digits = answer.image[zeros:].hex().upper()
    return answer.lines + b"7F%04X%06X\nIMAGE %X %s\n" % (answer.rewrites, answer.length, zeros, digits.encode())


def expected(text, oracle):
    """The answer to replay, and whose it is; None where the Rust differs from document 01 on an accepted listing."""
    try:
        document = modelled(text, [], "checked", False)
    except TooLong:
        document = None
    if document is not None and document.kind == "refused":
        return document, "document 01"
    if not comparable(text):
        return None, ""
    answer = ask_rust(oracle, [text], 120)[0]
    if answer.kind == "done" and (document is None or answer == document):
        return answer, "the Rust"
    return None, ""


def main():
    options = argparse.ArgumentParser(description=__doc__, formatter_class=argparse.RawDescriptionHelpFormatter)
    options.add_argument("--sources")
    folder = build_oracle(options.parse_args().sources)
    oracle = Program("the Rust", [os.path.join(folder, "oracle"), "--batch", "--count", "--places", "--origins", "--doc-patterns"])
    inputs, outputs, whose = [], [], {}
    for text in candidates():
        answer, who = expected(text, oracle)
        if answer is None or len(printed(answer)) > LONGEST_ANSWER:
            continue
        inputs.append(text + b"==\n")
        outputs.append(printed(answer) + b"==\n")
        whose[who] = whose.get(who, 0) + 1
        if len(inputs) == WANTED:
            break
    for name, parts in (("stdin", inputs), ("stdout", outputs)):
        with open(os.path.join(ROOT, "crates", "vectors", name), "wb") as out:
            out.write(b"".join(parts))
    print("%d listings, %d characters;" % (len(inputs), sum(map(len, inputs))), ", ".join("%s %d" % x for x in whose.items()))


if __name__ == "__main__":
    main()

"""example.py BIN: builds examples/waterbear/tray.s with waterbear's own optimizer, without one and with the drop-in, and holds what comes
out against the files of examples. The last line is `N passed, M failed`."""
import os
import subprocess
import sys
import tempfile

EXAMPLES = os.path.join(os.path.dirname(os.path.abspath(__file__)), "../../../examples")


def digits(image):
    """As `mortarbee image --hex` writes it: rows that repeat the one before are a star, and the length ends it."""
    out, last = [], None
    for at in range(0, len(image), 16):
        row = image[at : at + 16]
        line = "*" if row == last else "%06X: %s" % (at, " ".join("%02X" % b for b in row))
        out += [line] if line != "*" or out[-1] != "*" else []
        last = row
    return "".join(line + "\n" for line in out) + "%06X:\n" % len(image)


def assembled(binary, out, *options, **more):
    command = [binary, "assemble", os.path.join(EXAMPLES, "waterbear/tray.s"), "-o", out, *options]
    subprocess.run(command, env=dict(os.environ, **more), check=True, capture_output=True)
    return digits(open(out, "rb").read())


def main(binaries):
    orig, drop = os.path.join(binaries, "wb-orig"), os.path.join(binaries, "wb-drop")
    with tempfile.TemporaryDirectory() as folder:
        out, dump = os.path.join(folder, "tray.bin"), os.path.join(folder, "tray")
        found = {
            "tray/long.hex": assembled(orig, out),
            "waterbear/original.hex": assembled(orig, out, "--optimize-jumps"),
            "tray/short.hex": assembled(drop, out, "--optimize-jumps", MORTARBEE_DUMP=dump),
            "waterbear/tray.listing": open(dump + ".lst").read(),
            "waterbear/tray.names": open(dump + ".names").read(),
        }
    other = [name for name, text in found.items() if open(os.path.join(EXAMPLES, name)).read() != text]
    for name in other:
        print("examples/%s is not what comes out" % name)
    print("%d passed, %d failed" % (len(found) - len(other), len(other)))
    return bool(other)


if __name__ == "__main__":
    sys.exit(main(*sys.argv[1:]))

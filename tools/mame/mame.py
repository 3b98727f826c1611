"""MAME's emulated LC8670 (machine svmu) without a screen: its disassembler, and its CPU on an image."""
import os
import re
import shutil
import subprocess

HERE = os.path.dirname(os.path.abspath(__file__))
PROGRAM = shutil.which("mame") or "/usr/games/mame"
ROM = "en1005-19991026-315-6208-05.bin"     # the name that MAME looks for; what is in it is ours
QUIET = ["-video", "none", "-sound", "none", "-nothrottle", "-skip_gameinfo", "-debug", "-debugger", "none", "-autoboot_delay", "0"]
DASM = re.compile(r"^([0-9A-F]{4}): ((?:[0-9A-F]{2} ){1,3}) *(\S+) *(.*?)\s*$")


def is_there():
    return os.path.exists(PROGRAM)


def version():
    said = subprocess.run([PROGRAM, "-version"], stdout=subprocess.PIPE, stderr=subprocess.DEVNULL, text=True).stdout
    return said.split()[0] if said.split() else "of a version that is not known"


def jobs(lines, folder):
    """Runs jobs.lua on the lines in one MAME process. It may crash while it closes: what counts is the line before."""
    os.makedirs(folder + "/rom/svmu", exist_ok=True)
    with open(folder + "/rom/svmu/" + ROM, "wb") as rom:
        rom.write(bytes([0x01, 0xFE]) + bytes(65534))       # br to itself, until a job begins
    with open(folder + "/jobs", "w") as file:
        file.write("".join(line + "\n" for line in lines))
    env = dict(os.environ, HOME=folder, SDL_VIDEODRIVER="dummy", SDL_AUDIODRIVER="dummy", MAME_JOBS=folder + "/jobs")
    command = [PROGRAM, "svmu", "-rompath", folder + "/rom"] + QUIET + ["-autoboot_script", HERE + "/jobs.lua"]
    done = subprocess.run(command, cwd=folder, env=env, stdout=subprocess.PIPE, stderr=subprocess.STDOUT, text=True, errors="replace")
    if "jobs.lua: all done" not in done.stdout:
        raise RuntimeError("mame: status %d\n%s" % (done.returncode, done.stdout))


def disassembled(path):
    """[(address, bytes, mnemonic, operands)]"""
    rows = []
    with open(path) as file:
        for line in file:
            found = DASM.match(line)
            if not found:
                raise RuntimeError("a line of MAME's disassembler: %r" % line)
            rows.append((int(found[1], 16), bytes.fromhex(found[2]), found[3].lower(), found[4]))
    return rows


def parted(path):
    """The lines of each walk."""
    walks, at_home = [], True
    with open(path) as file:
        for line in file:
            if line[0] in "TH":
                at_home = line[0] == "T"
                if at_home:
                    walks.append([])
            elif at_home:
                walks[-1].append(line)
    return walks


class Step:
    """A line of a walk: where it is, how many cycles were counted, the state before it, and what MAME says stands there."""

    NAMES = ("A, PSW, B, C, TRL, TRH, SP, PCON", "EXT", "R0 to R3", "20 to 2F")

    def __init__(self, line):
        head, said = line.split(" | ", 1)
        self.pc, self.cycles, self.state = int(said[:4], 16), int(head[:8], 16), head[9:]
        self.said = said[6:].split()

    def show(self):
        state = "; ".join("%s %s" % pair for pair in zip(self.NAMES, self.state.split()))
        return "%04X %-24s %s" % (self.pc, " ".join(self.said).lower(), state)

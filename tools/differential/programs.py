"""Our batch driver and the oracle's two builds, asked for many listings at a time and under a time limit."""
import os
import shutil
import subprocess
import tempfile

from answers import Answer, parse
from lines import has_lines, with_lines, without_lines

HERE = os.path.dirname(os.path.abspath(__file__))
ROOT = os.path.dirname(os.path.dirname(HERE))
TARGET = os.path.join(ROOT, "target")
RUNNER = os.path.join(ROOT, "bindings", "run.sh")


class Program:
    """A command, and how a listing is handed to it."""

    def __init__(self, name, command, sized=False):
        self.name, self.command, self.sized = name, command, sized

    def join(self, texts):
        if self.sized:
            return b"".join(b"%d\n%s" % (len(text), text) for text in texts)
        return b"".join(text + b"==\n" for text in texts)

    def once(self, texts, seconds):
        """The answers that come within the time, as printed."""
        with tempfile.TemporaryFile() as given, tempfile.TemporaryFile() as said:
            given.write(self.join(texts))
            given.seek(0)
            process = subprocess.Popen(self.command, stdin=given, stdout=said, stderr=subprocess.PIPE)
            try:
                error = process.communicate(timeout=seconds)[1]
            except subprocess.TimeoutExpired:
                process.kill()
                error = process.communicate()[1]
            said.seek(0)
            blocks = said.read().split(b"==\n")
        return blocks[:-1], process.returncode, error.decode(errors="replace").strip()

    def ask(self, texts, seconds):
        """An answer for each text. One that ends the program or takes too long is left out, and the others are asked again."""
        answers, rest = [], list(texts)
        while rest:
            blocks, status, error = self.once(rest, seconds)
            answers += [parse(block) for block in blocks]
            rest = rest[len(blocks):]
            if rest:
                if status == 2:
                    raise SystemExit("%s: %s" % (self.name, error))
                answers.append(Answer("late" if status == -9 else "strange", text="status %s %s" % (status, error)))
                rest = rest[1:]
        return answers


class OneByOne:
    """The command at the top, started for each listing. It prints no image, so that only the image's length is compared."""

    name = "ours"

    def __init__(self, word):
        self.command = [os.path.join(ROOT, "mortarbee")] + ([word] if word else ["optimize", "--comments"])

    def ask(self, texts, seconds):
        answers = []
        for text in texts:
            try:
                said = subprocess.run(self.command, input=text, capture_output=True, timeout=seconds).stdout
                answers.append(parse(said))
            except subprocess.TimeoutExpired:
                answers.append(Answer("late"))
        return answers


class Model:
    """The model in the place of our program."""

    name = "model"

    def __init__(self, assemble):
        self.assemble = assemble

    def ask(self, texts, _):
        from explain import modelled
        return [modelled(text, [], "checked", self.assemble) for text in texts]


def ours(assemble):
    batch = os.path.join(TARGET, "bindings", "batch")
    if not os.path.exists(batch):
        raise SystemExit("no %s: run 'bindings/archive.sh border' and bindings/build.sh first" % batch)
    trial = subprocess.run([RUNNER, batch, "--assemble"], stdin=subprocess.DEVNULL, capture_output=True, text=True)
    if trial.returncode:
        raise SystemExit(trial.stderr.strip() or "%s cannot be run here" % batch)
    return Program("ours", [RUNNER, batch, "--sized"] + (["--assemble"] if assemble else []), sized=True)


def build_oracle(sources):
    """The oracle, built once into target/oracle."""
    out = os.path.join(TARGET, "oracle")
    if not os.path.exists(os.path.join(out, "oracle-release")):
        if not sources:
            raise SystemExit("no oracle yet: name the folder of the Rust's sources with --sources")
        if not shutil.which("rustc"):
            raise SystemExit("no rustc (1.85 or newer): the oracle cannot be built here")
        if subprocess.run(["sh", os.path.join(ROOT, "tools", "oracle", "build.sh"), sources, out]).returncode:
            raise SystemExit("the oracle cannot be built here")
    return out


def rusts(folder, assemble):
    """The Rust four times: its own pattern list or document 01's, overflow checked or not. (program, own patterns, build)"""
    common = ["--batch", "--count", "--places", "--origins", "--raw-image"] + (["--assemble"] if assemble else [])
    result = []
    for own in ([True] if assemble else [True, False]):
        for build, binary in (("checked", "oracle"), ("release", "oracle-release")):
            command = [os.path.join(folder, binary)] + common + ([] if own else ["--doc-patterns"])
            result.append((Program("the Rust, %s%s" % (build, "" if own else ", document 01's patterns"), command), own, build))
    return result


def ask_rust(program, texts, seconds):
    """The Rust's answers in the form of the texts: it is given them without source lines, which come back by its own stems."""
    answers = program.ask([without_lines(text) for text in texts], seconds)
    return [with_lines(text, answer) for text, answer in zip(texts, answers)]


def comparable(text):
    """Whether the oracle can be handed a text: it reads lines, and knows no limits and no source lines."""
    return has_lines(text) and text.isascii() and b"\r" not in text and b"==" not in text and (not text or text.endswith(b"\n"))

"""The form of C-20 put off and on, by the text alone: the Rust knows no source lines. What each statement of its answer stems from is
the Rust's own word: the oracle puts the place into the span of each statement, and the Rust carries spans through its rewriting."""
import re

from answers import Answer

MARK = b"7D02\n"
FRAME = re.compile(rb"[0-9A-F]{10}[^\n]*")


def frames(text):
    return text[len(MARK):].split(b"\n")[:-1]


def has_lines(text):
    """Whether each line behind a mark has a source line to take out."""
    return not text.startswith(MARK) or all(FRAME.fullmatch(frame) for frame in frames(text))


def without_lines(text):
    """The same listing in the old form."""
    if not text.startswith(MARK):
        return text
    return b"".join(frame[:2] + frame[10:] + b"\n" for frame in frames(text))


def with_lines(text, answer):
    """The Rust's answer in the form of the text that it was asked for: each statement with the line of the one that it stems from."""
    if not text.startswith(MARK) or answer.kind != "done":
        return answer
    numbers = [frame[2:10] for frame in frames(text)]
    written = answer.lines.split(b"\n")[:-1]
    if len(written) != len(answer.stems):
        return Answer("strange", text="%d statements and %d stems" % (len(written), len(answer.stems)))
    lined = [line[:2] + numbers[stem] + line[2:] + b"\n" for line, stem in zip(written, answer.stems)]
    return Answer("done", lines=MARK + b"".join(lined), rewrites=answer.rewrites, image=answer.image)

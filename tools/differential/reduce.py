"""Makes a listing smaller while a test stays true: whole lines first, then the operands of each line. Its form stays (C-20)."""
from copy import copy

from model.reading import MARK, Frame, Refused, is_marked, line_of


def drop_lines(lines, test):
    """Runs of lines go, from half of them down to one."""
    size = max(1, len(lines) // 2)
    while True:
        at, changed = 0, False
        while at < len(lines):
            fewer = lines[:at] + lines[at + size:]
            if test(fewer):
                lines, changed = fewer, True
            else:
                at += size
        if size == 1 and not changed:
            return lines
        size = max(1, size // 2)


def simpler(tree):
    """Smaller expressions in the place of one."""
    if tree[0] == "number":
        return [("number", v) for v in (0, 1, tree[1] // 2) if abs(v) < abs(tree[1])]
    if tree[0] == "name":
        return []
    result = [("number", 0)] + list(tree[1:])
    for i in range(1, len(tree)):
        result += [tree[:i] + (part,) + tree[i + 1:] for part in simpler(tree[i])]
    return result


def shorter(line, marked):
    """Shorter or plainer lines in the place of one."""
    result = [line[:len(line) // 2], line[:-2], line[2:], line[:-1]] if len(line) > 2 else []
    try:
        s = Frame(bytes.fromhex(line.decode()), 0).statement(marked)
    except (ValueError, Refused):
        return result
    return [line_of(other, marked)[:-1] for other in plainer(s)]


def plainer(s):
    """Plainer statements in the place of one."""
    result = [s.with_line(line) for line in (0, 1, s.line // 2) if line < s.line]
    if s.kind == "comment" and s.comment:
        result.append(changed_to(s, comment=b""))
    if s.kind == "org" and s.location:
        result += [changed_to(s, location=location) for location in (0, s.location // 2, s.location - 1)]
    if s.kind in ("bytes", "words") and len(s.args) > 1:
        result += [changed_to(s, args=s.args[:i] + s.args[i + 1:]) for i in range(len(s.args))]
    for i, arg in enumerate(s.args):
        for other in ([0] if arg else []) if isinstance(arg, int) else simpler(arg):
            result.append(changed_to(s, args=s.args[:i] + [other] + s.args[i + 1:]))
    return result


def changed_to(s, **parts):
    other = copy(s)
    vars(other).update(parts)
    return other


def shorten(lines, test, marked):
    changed = True
    while changed:
        changed = False
        for at in range(len(lines)):
            for other in shorter(lines[at], marked):
                if other != lines[at] and test(lines[:at] + [other] + lines[at + 1:]):
                    lines = lines[:at] + [other] + lines[at + 1:]
                    changed = True
                    break
    return lines


def reduced(text, test, tries=3000):
    """The smallest text that was found; `test` takes a text."""
    left = [tries]
    marked = is_marked(text)
    head = MARK if marked else b""
    text = text[len(head):]
    ended = text.endswith(b"\n")

    def joined(lines):
        return head + (b"".join(line + b"\n" for line in lines) if ended else b"\n".join(lines))

    def holds(lines):
        left[0] -= 1
        return left[0] >= 0 and test(joined(lines))

    lines = text.split(b"\n")[:-1] if ended else text.split(b"\n")
    return joined(drop_lines(shorten(drop_lines(lines, holds), holds, marked), holds))

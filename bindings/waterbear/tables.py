"""tables.py write | compare: makes src/tables.rs and optimize/instr.rs from the tables of docs/FORMAT.md, or says whether they are what it makes."""
import os
import re
import sys

HERE = os.path.dirname(os.path.abspath(__file__))
FORMAT = os.path.join(HERE, "../../docs/FORMAT.md")
MADE = "//! Made by tables.py from docs/FORMAT.md, not to be edited: "


def rows(text, section):
    """The cells of the tables of a section."""
    part = re.search(r"^## %s\n(.*?)(?=^## |\Z)" % section, text, re.M | re.S)[1]
    for line in part.splitlines():
        if line.startswith("|"):
            yield [cell.strip() for cell in re.split(r"(?<!\\)\|", line)[1:-1]]


def numbered(text, section, column):
    """The numbers and names of a table such as `02 label`; a name that occurs again is of one operand."""
    found = {}
    for cells in rows(text, section):
        m = re.fullmatch(r"([0-9A-F]{2}) ([a-z ]+)", cells[column]) if len(cells) > column else None
        if m and int(m[1], 16) not in found.values():
            name = m[2].upper().replace(" ", "_")
            found["UNARY_" + name if name in found else name] = int(m[1], 16)
    return found


def forms(text):
    """Number, name and argument kinds of each form."""
    for cells in rows(text, "Forms"):
        if len(cells) == 6 and re.fullmatch("[0-9A-F]{2}", cells[0]):
            yield int(cells[0], 16), cells[1], [kind for kind in cells[2].split(", ") if kind]


def limit(text, pattern):
    return int(re.search(pattern, text)[1].replace(",", ""))


def matching(name, what, numbers):
    runs = []
    for n in numbers:
        if runs and runs[-1][1] + 1 == n:
            runs[-1][1] = n
        else:
            runs.append([n, n])
    tests = " | ".join("0x%02X..=0x%02X" % tuple(run) for run in runs)
    return "/// %s\npub fn %s(form: u8) -> bool {\n    matches!(form, %s)\n}\n" % (what, name, tests)


def tables(text):
    out = [MADE + "the numbers of kinds, operators and forms, and the limits of a listing.", ""]
    for what, found in (("The first byte of a frame.", numbered(text, "Kinds", 2)), ("The first byte of an expression.", numbered(text, "Expressions", 2))):
        out += ["/// " + what] + ["pub const %s: u8 = 0x%02X;" % item for item in found.items()] + [""]
    all_forms = list(forms(text))
    out += ["/// Forms."] + ["pub const %s: u8 = 0x%02X;" % (name.upper(), n) for n, name, _ in all_forms] + [""]
    out += ["/// Limits of a listing with source lines; a frame's is without its line."]
    out += ["pub const STATEMENTS: usize = %d;" % limit(text, r"Limits: ([\d,]+) statements")]
    out += ["pub const FRAME: usize = %d;" % limit(text, r"statements, (\d+) bytes")]
    out += ["pub const EXPRESSION: usize = %d;" % limit(text, r"in all, (\d+) bytes an")]
    out += ["pub const TOTAL: usize = %d;" % limit(text, r"and all frames ([\d,]+)")]
    out += ['/// The first line of a listing with source lines.', 'pub const MARK: &str = "%s";' % re.search(r"A first line `(\w+)`", text)[1], ""]
    targets = [(n, name, kinds[-1]) for n, name, kinds in all_forms if kinds and kinds[-1] in ("rel8", "a12", "a16", "rel16")]
    out += [matching("is_transfer", "Whether the last argument is a target.", [n for n, _, _ in targets])]
    out += [matching("is_branch", "Whether it is a conditional branch.", [n for n, name, kind in targets if kind == "rel8" and name != "Br"])]
    return "\n".join(out)


def instr(text):
    out = [MADE + "waterbear's instructions as a form's number and arguments, and back."]
    out += ["use super::Instruction;", "use super::statements::Part::{self, E, R};", "use crate::instruction::Instr::*;", "", "#[rustfmt::skip]"]
    out += ["pub(super) fn parts(instruction: &Instruction) -> (u8, Vec<Part>) {", "    match instruction.clone() {"]
    back = []
    for n, name, kinds in forms(text):
        letters = "abc"[: len(kinds)]
        head = name + ("(%s)" % ", ".join(letters) if kinds else "")
        made = ["%s(%s)" % ("R" if kind == "reg" else "E", letter) for kind, letter in zip(kinds, letters)]
        out += ["        %s => (0x%02X, vec![%s])," % (head, n, ", ".join(made))]
        wanted = ["Some(%s)" % part for part in made] + ["None"] * (3 - len(made))
        back += ["        (0x%02X, %s) => Some(%s)," % (n, ", ".join(wanted), head)]
    out += ["    }", "}", "", "/// None where the arguments are not of the form's kinds.", "#[rustfmt::skip]"]
    out += ["pub(super) fn made(form: u8, parts: Vec<Part>) -> Option<Instruction> {", "    let mut parts = parts.into_iter();"]
    out += ["    match (form, parts.next(), parts.next(), parts.next()) {"] + back + ["        _ => None,", "    }", "}", ""]
    return "\n".join(out)


text = open(FORMAT, encoding="utf-8").read()
stale = 0
for name, content in (("src/tables.rs", tables(text)), ("optimize/instr.rs", instr(text))):
    path = os.path.join(HERE, name)
    if sys.argv[1:] == ["write"]:
        open(path, "w", encoding="utf-8").write(content)
    elif sys.argv[1:] != ["compare"]:
        sys.exit(__doc__)
    elif not os.path.exists(path) or open(path, encoding="utf-8").read() != content:
        print("%s is not what tables.py makes of docs/FORMAT.md" % name)
        stale += 1
sys.exit(stale > 0)

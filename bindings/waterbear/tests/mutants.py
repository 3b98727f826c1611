"""mutants.py OUT ARCHIVE [COUNT [TEXT]]: wrong copies of the drop-in, each of which compare.py must tell from the right one by the programs
of this folder and COUNT random ones (100). OUT is build.sh's; with TEXT only those whose name has it. The last line is
`N passed, M failed`."""
import os
import shutil
import subprocess
import sys

HERE = os.path.dirname(os.path.abspath(__file__))
MUTANTS = [  # what is wrong, level, file, old text, new text; the first is the right one, and must pass
    ("nothing", "0123", "src/lib.rs", "fn too_long(", "fn too_long("),
    ("no blocker where a constant goes", "2", "src/writer.rs", "if self.blocked && self.last", "if false && self.last"),
    ("Not1 is inert", "2", "src/inert.rs", "            What::Instruction(NOT1, _) => false,\n", ""),
    ("labels of folds lose references", "3", "src/inert.rs", " && !self.shape.pieces[at])", ")"),
    ("branches over an org are inert", "3", "src/inert.rs", "self.shape.segments[at] == self.shape.segments[place] && ", ""),
    ("pieces of folds are inert", "3", "src/inert.rs", " && !self.shape.pieces[place];", ";"),
    ("labels that nothing names block nothing", "3", "src/writer.rs", "!self.shape.pieces[place] {\n            self.leave_out();",
     "!self.shape.pieces[place] {"),
    ("local names have one number where contexts run together", "3", "src/writer.rs",
     "if self.options.level == Level::Bare && is_local(name) {", "if false {"),
    ("data without bytes has no frame", "0", "src/writer.rs", "if statement.size == 0 => self.put(place, vec![PAD, 0, 0, 1], 0),",
     "if statement.size == 0 => {}"),
    ("a fold's first jump has the target", "0", "src/back.rs", "jumps.last()", "jumps.min()"),
    ("a variable stays above what it names", "0", "src/writer.rs", "if expr.any_name(&mut |n| !self.seen.contains(n)) {", "if false {"),
    ("words have the high byte first", "1", "src/data.rs",
     "pair[0] as i32 + 256 * pair[1] as i32", "pair[1] as i32 + 256 * pair[0] as i32"),
    ("negative data as it is", "0", "src/data.rs", "if value >= 0 && !(", "if value >= -200 && !("),
    ("negative data under a mask alone", "0", "src/data.rs",
     "&with(XOR, with(PLUS, expr.clone(), half), half)", "&with(AND, expr.clone(), mask)"),
    ("a moved target keeps the old number", "0", "src/back.rs", "Target::Number(value) })", "Target::Of(carrier.statement) })"),
    ("a number goes stale behind a large .cnop", "0", "optimize/mod.rs",
     "Ok(_) if !outcome.numbers_behind_pins && round", "Ok(_) if round"),
    ("a large .cnop owns no bytes", "0", "src/writer.rs", "self.room(place, size as usize);", ""),
    ("a constant is no number", "1", "src/back.rs", "values.constant(written) == Some(value)", "false"),
]


def copied(crate, folder, name, old, new):
    """A copy of the drop-in with one error."""
    copy = os.path.join(crate, "waterbear")
    shutil.rmtree(copy, ignore_errors=True)
    shutil.copytree(folder, copy)
    for name, old, new in (("Cargo.toml", '"../rust"', '"%s"' % os.path.join(folder, "../rust")), (name, old, new)):
        text = open(os.path.join(copy, name)).read()
        if text.count(old) != 1:
            sys.exit("%r occurs %d times in %s" % (old, text.count(old), name))
        open(os.path.join(copy, name), "w").write(text.replace(old, new))
    return copy


def build(out, archive, crate, folder, copy):
    """The build of build.sh with the copy for the drop-in; nothing is optimized here, which takes less time."""
    for name in ("Cargo.toml", "src/lib.rs"):
        text = open(os.path.join(out, "tested", name)).read().replace(folder, copy).replace(copy + "/stand-ins", folder + "/stand-ins")
        open(os.path.join(crate, name), "w").write(text)
    env = dict(os.environ, RUSTC_VERSION="x", CARGO_VERSION="x", GITSHA="x", MORTARBEE_ARCHIVE=archive, RUSTFLAGS="-A warnings",
               CARGO_TARGET_DIR=os.path.join(out, "target"))
    fast = [part for name in ("wb", "mortarbee-waterbear") for part in ("--config", "profile.release.package.%s.opt-level=0" % name)]
    subprocess.run(["cargo", "build", "-q", "--release", "--offline", "-j", "1", *fast], cwd=crate, env=env, check=True)


def told(binaries, count, level):
    """What compare.py says first, or None if it passes."""
    command = [sys.executable, os.path.join(HERE, "compare.py"), binaries, "--programs", os.path.join(HERE, "programs")]
    process = subprocess.run(command + ["--count", count, "--seed", "77", "--levels", level, "--stop"], capture_output=True, text=True)
    return None if process.returncode == 0 else (process.stdout or process.stderr).splitlines()[0][:110]


def main(out, archive, count="100", only=""):
    out, archive = os.path.abspath(out), os.path.abspath(archive)
    crate, binaries, folder = os.path.join(out, "mutant"), os.path.join(out, "mutant-bin"), os.path.dirname(HERE)
    shutil.rmtree(crate, ignore_errors=True)
    shutil.copytree(os.path.join(out, "tested"), crate)
    os.makedirs(binaries, exist_ok=True)
    for name in ("wb-orig", "wb-doc"):
        shutil.copy(os.path.join(out, "bin", name), binaries)
    results = []
    for what, level, name, old, new in (mutant for mutant in MUTANTS if only in mutant[0]):
        build(out, archive, crate, folder, copied(crate, folder, name, old, new))
        shutil.copy(os.path.join(out, "target/release/wb-tested"), binaries)
        said = told(binaries, count, level)
        results.append((what == "nothing") == (said is None))
        print("%s (level %s): %s" % (what, level, "passes" if said is None else "told: " + said), flush=True)
    print("%d passed, %d failed" % (sum(results), len(results) - sum(results)))
    return not all(results)


if __name__ == "__main__":
    sys.exit(main(*sys.argv[1:]))

"""The differences of docs/DIFFERENCES.md: each function switches the model to the Rust's way in one point, and is named after its entry."""

PATTERNS = range(1, 13)
CANDIDATES = range(13, 16)
ANCHORS = [33]


# ---- folds (rule 3)

def diff_1(ways):
    """Bp is inverted to Bn."""
    ways.on("no inverted of Bp")


def diff_2(ways):
    """Bn is inverted to Bp."""
    ways.on("no inverted of Bn")


def diff_3(ways):
    """A trampoline of Bp is inverted first."""
    ways.on("no inverted of Bp that is a trampoline")


def diff_4(ways):
    """A trampoline of Bn is inverted first."""
    ways.on("no inverted of Bn that is a trampoline")


def diff_5(ways):
    """A trampoline of Bz."""
    ways.on("no trampoline of Bz")


def diff_6(ways):
    """A trampoline of Bnz."""
    ways.on("no trampoline of Bnz")


def diff_7(ways):
    """A trampoline of Be_i8."""
    ways.on("no trampoline of Be_i8")


def diff_8(ways):
    """A trampoline of Be_d9."""
    ways.on("no trampoline of Be_d9")


def diff_9(ways):
    """A trampoline of Be_Rj."""
    ways.on("no trampoline of Be_Rj")


def diff_10(ways):
    """A trampoline of Bne_i8."""
    ways.on("no trampoline of Bne_i8")


def diff_11(ways):
    """A trampoline of Bne_d9."""
    ways.on("no trampoline of Bne_d9")


def diff_12(ways):
    """A trampoline of Bne_Rj."""
    ways.on("no trampoline of Bne_Rj")


# ---- candidates (rule 5)

def diff_13(ways):
    """The Rust takes a candidate that makes a byte negative."""
    ways.on("negative bytes in a candidate")


def diff_14(ways):
    """The Rust takes a candidate that makes a word negative."""
    ways.on("negative words in a candidate")


def diff_15(ways):
    """A node overflows in a candidate: the Rust panics or wraps."""
    ways.on("overflow in a candidate")


# ---- the image's end

def diff_16(ways):
    """The Rust's image runs to the highest position."""
    ways.on("the image runs to the highest position")


# ---- refused by document 01

def diff_17(ways):
    """The Rust takes byte data from -128."""
    ways.on("negative bytes")


def diff_18(ways):
    """The Rust takes words from -32,768."""
    ways.on("negative words")


def diff_19(ways):
    """The Rust goes back on an org below the position."""
    ways.on("org goes back")


def diff_20(ways):
    """The Rust has no end at 65,536."""
    ways.on("no end at 65,536")


def diff_21(ways):
    """Unary minus overflows."""
    ways.on("negate overflows")


def diff_22(ways):
    """Unary minus overflows under lower byte."""
    ways.on("negate overflows under lower byte")


def diff_23(ways):
    """Plus overflows."""
    ways.on("plus overflows")


def diff_24(ways):
    """Minus overflows."""
    ways.on("minus overflows")


def diff_25(ways):
    """Times overflows."""
    ways.on("times overflows")


def diff_26(ways):
    """-2,147,483,648 divided by -1."""
    ways.on("divide overflows")


# ---- names

def diff_27(ways):
    """A variable names a global label below it."""
    ways.on("a variable sees labels below")


def diff_28(ways):
    """A variable names a local label above it."""
    ways.on("a variable sees no local label")


def diff_29(ways):
    """A variable, then a label of the same name: the Rust blames the variable."""
    ways.on("a variable is blamed for a label below")


def diff_30(ways):
    """Two variables of one name above two labels of one name: the Rust takes labels first."""
    ways.on("labels are named before variables")


def diff_31(ways):
    """The Rust judges a variable's name in one pass with the values."""
    ways.on("a variable's name is judged with its value")


def diff_32(ways):
    """The Rust evaluates a variable before it looks for its name."""
    ways.on("a variable's value is judged before its name")


# ---- anchors (rule 2, C-15)

def diff_33(ways):
    """A target with a constant is anchored: in the Rust it stays as written."""
    ways.on("a target with a constant stays")


RULES = {int(name[5:]): function for name, function in sorted(globals().items()) if name.startswith("diff_")}


def switch_of(number):
    """The switch that a rule turns."""
    class Catch:
        def on(self, switch):
            self.switch = switch
    catch = Catch()
    RULES[number](catch)
    return catch.switch


SWITCHES = {switch_of(number): number for number in RULES}

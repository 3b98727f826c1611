"""The state under which a conditional branch is taken, or not."""
POINTER = 0x25                  # where a register points


def state_for(form, args, taken, rng):
    """Words of a walk: registers and memory, by name, for the branch with these arguments."""
    given, kind = dict(zip(form.operands, args)), form.name
    if kind in ("Bz", "Bnz"):
        return {"a": 0 if taken == (kind == "Bz") else rng.randrange(1, 256)}
    if kind in ("Bp", "Bpc", "Bn"):
        bit = 1 << given["bit"]
        return {cell(given["d9"]): rng.randrange(256) & ~bit | (bit if taken == (kind != "Bn") else 0)}
    count = rng.choice([0, 2, 255]) if taken else 1
    if kind == "Dbnz_d9":
        return {cell(given["d9"]): count}
    if kind == "Dbnz_Ri":
        return {cell(given["reg"]): POINTER, cell(POINTER): count}
    return state_for_equal(given, kind, taken == kind.startswith("Be_"), rng)


def state_for_equal(given, kind, equal, rng):
    """Be and Bne: what is compared is the same, or differs in some bits."""
    aside = 0 if equal else rng.randrange(1, 256)
    if kind.endswith("_i8"):
        return {"a": given["i8"] ^ aside}
    if kind.endswith("_d9"):
        v = rng.randrange(256)
        return {cell(given["d9"]): v, "a": v ^ aside}
    return {cell(given["reg"]): POINTER, cell(POINTER): given["i8"] ^ aside}


def cell(address):
    return "%x" % address if address > 15 else "00%x" % address


def words(state):
    return " ".join("%s=%x" % pair for pair in state.items())

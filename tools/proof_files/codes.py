"""How a syntax tree is written as a tree of numbers, with the proofs that two trees of one code are one."""

import re

from families import filled

WIDTH = 180
# where a constructor holds more parts than this, they stand below the head of their clause
SIDE_BY_SIDE = 3

# how what a constructor holds is written, and how it is told apart, if it is no tree
OTHERS = {
    "ℤ": ("coded_ℤ.code", "coded_ℤ.inj"),
    "ℕ": ("gnum", "inj_num"),
    "Bool": ("coded_bool.code", "coded_bool.inj"),
    "List ℕ": ("coded_text.code", "coded_text.inj"),
    "CmpOp": ("coded_cmp.code", "coded_cmp.inj"),
    "MulOp": ("coded_mul.code", "coded_mul.inj"),
    "Function": ("coded_function.code", "coded_function.inj"),
    "Extreme": ("coded_extreme.code", "coded_extreme.inj"),
}


def variants(path, name):
    """The variants of an enum that hold nothing."""
    body = re.search(rf"pub enum {name} \{{(.*?)\n\}}", path.read_text(encoding="utf-8"), re.S).group(1)
    return re.findall(r"^    (\w+),$", body, re.M)


def number(at, last):
    text = "n" if last else "zero"
    for step in range(at):
        text = f"suc {text}" if " " not in text else f"suc ({text})"
    return text if " " not in text else f"({text})"


def enumerated(kind, word, comment, names):
    """An enum by the numbers of its variants."""
    there, back = f"number_of_{word}", f"{word}_of_number"
    found = [f"abbrev {there} : {kind} → ℕ", *[f"{there} {name} = {at}" for at, name in enumerate(names)], ""]
    found += [f"abbrev {back} : ℕ → {kind}"]
    found += [f"{back} {number(at, at == len(names) - 1)} = {name}" for at, name in enumerate(names)]
    found += ["", f"pub {back}-{there} : (op : {kind}) → {back} ({there} op) ≡ op", *[f"{back}-{there} {name} = refl" for name in names]]
    return [*found, "", f"-- {comment}", f"abbrev pub coded_{word} : Coded {kind}", f"coded_{word} = code_by ℕ coded_ℕ {there} {back} {back}-{there}", ""]


def held(constructor):
    return [kind for _, kind in constructor.variables] + constructor.premises


def coder(kind):
    return OTHERS.get(kind, (f"code_{kind.lower()}", f"inj_{kind.lower()}"))


def chained(codes):
    return codes[0] if len(codes) == 1 else f"(gcons {codes[0]} {chained(codes[1:])})"


def code_lines(family):
    found = [f"  pub code_{family.name.lower()} : {family.name} → Gv"]
    for at, constructor in enumerate(family.constructors):
        kinds = held(constructor)
        names = [name for name, _ in constructor.variables] or [f"x{i + 1}" for i in range(len(kinds))]
        codes = [f"({coder(kind)[0]} {name})" for kind, name in zip(kinds, names)]
        shape = " ".join([constructor.name, *names])
        shape = f"({shape})" if names else shape
        tagged = codes if len(family.constructors) == 1 else [f"(gnum {at})", *(codes or ["gnil"])]
        found.append(f"  code_{family.name.lower()} {shape} = {chained(tagged)[1:-1]}")
    return found


def places(count, tagged):
    """Where each part stands in an equation of codes."""
    behind = "(pairs e).1" if tagged else "e"
    if count == 1:
        return [behind]
    if not tagged:
        return ["(pairs e).0", "(pairs e).1"]
    found = []
    for at in range(count - 1):
        found.append(f"((pairs {behind}).0)")
        behind = f"(pairs {behind}).1" if at == 0 else f"(pairs ({behind})).1"
    return [*found, f"({behind})"]


def inj_lines(family):
    name = family.name.lower()
    found = [f"  pub inj_{name} : (x y : {family.name}) → code_{name} x ≡ code_{name} y → x ≡ y"]
    tagged = len(family.constructors) > 1
    for constructor in family.constructors:
        kinds = held(constructor)
        if not kinds:
            found.append(f"  inj_{name} {constructor.name} {constructor.name} e = refl")
            continue
        sides = [f"({' '.join([constructor.name, *[f'{side}{at + 1}' for at in range(len(kinds))]])})" for side in "xy"]
        parts = [
            f"({coder(kind)[1]} x{at + 1} y{at + 1} {place} i)"
            for at, (kind, place) in enumerate(zip(kinds, places(len(kinds), tagged)))
        ]
        head, first = f"inj_{name} {sides[0]} {sides[1]} e = λ i.", f"{constructor.name} {parts[0]}"
        if len(parts) > SIDE_BY_SIDE:
            found += ["  " + head, *filled([first, *parts[1:]], 6, WIDTH, 0)]
        else:
            found += filled([f"{head} {first}", *parts[1:]], 2, WIDTH)
    if tagged:
        found.append(f"  inj_{name} _ _ e = let f = ap num (pairs e).0 in absurd (omega arith)")
    return found


def body(families, comparisons, products, functions, extremes):
    found = enumerated("CmpOp", "cmp", "a comparison, by a number", comparisons)
    found += enumerated("MulOp", "mul", "an operator of a product, by a number", products)
    found += enumerated("Function", "function", "a function, by a number", functions)
    found += enumerated("Extreme", "extreme", "which of several is taken, by a number", extremes)
    found += ["-- a name, by its bytes", "abbrev pub coded_text : Coded (List ℕ)", "coded_text = coded_list coded_ℕ", ""]
    found.append("abbrev mutual")
    for family in families:
        found += [*code_lines(family), ""]
    found.append("mutual")
    for family in families:
        found += [*inj_lines(family), ""]
    return found

"""Writes the proof files that follow from the constructors of a definition, one clause for each.

    python3 tools/proof_files            writes them
    python3 tools/proof_files --check    says which of them stand otherwise than they would be written, and ends with status 1 if one does

What follows from nothing stands in `by_hand.py`."""

import sys

sys.dont_write_bytecode = True

from pathlib import Path

import by_hand
import codes
from families import families

CRATES = Path(__file__).resolve().parents[2] / "crates"
SPECS = CRATES / "sopl_ast" / "specs"


def codes_of_trees():
    comparisons = codes.variants(CRATES / "sopl_base" / "src" / "comparison.rt", "CmpOp")
    products = codes.variants(CRATES / "sopl_ast" / "src" / "operators.rt", "MulOp")
    functions = codes.variants(CRATES / "sopl_ast" / "src" / "operators.rt", "Function")
    extremes = codes.variants(CRATES / "sopl_base" / "src" / "extreme.rt", "Extreme")
    return codes.body(families(SPECS / "Tree.antt"), comparisons, products, functions, extremes)


def files():
    """Each file's place and its text."""
    first = "-- Written by tools/proof_files from the constructors of `Tree`.\n"
    text = first + by_hand.CODES + "\n".join(codes_of_trees()) + "\n" + by_hand.CODED
    yield SPECS / "Codes.antt", text.rstrip("\n") + "\n"


def main(words):
    if words not in ([], ["--check"]):
        sys.exit(__doc__)
    status = 0
    for path, text in files():
        if not words:
            path.write_text(text, encoding="utf-8")
        elif path.read_text(encoding="utf-8") != text:
            print(f"{path.relative_to(CRATES.parent)} stands otherwise than tools/proof_files writes it", file=sys.stderr)
            status = 1
    sys.exit(status)


main(sys.argv[1:])

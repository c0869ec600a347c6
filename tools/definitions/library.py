"""What the definitions take from the toolchain's library: where its modules are, and which of its words Prelude.agda
gives by hand, with their types."""

import os
import subprocess

from syntax import Refused
from unification import BOOL, NUMBER, PROPOSITION, con, fun

A, B = ("var", "A"), ("var", "B")
SET, TEXT, RESULT, WIDTH = con("FinSet"), con("Text"), con("Result", A, B), con("Width")
VEC = ("Prelude", "Vec")
OF_TWO, IS_TWO, OF_PROPOSITIONS = fun([NUMBER, NUMBER], NUMBER), fun([NUMBER, NUMBER], BOOL), fun([PROPOSITION, PROPOSITION], PROPOSITION)


def listed(t):
    return con("List", t)


def optional(t):
    return con("Option", t)


# The module that declares a word, and the word's type; for a type, how many arguments it has.
GIVEN = {
    "Prim.Native.Nat": {"ℕ": 0, "zero": NUMBER, "suc": fun([NUMBER], NUMBER), "min": OF_TWO, "max": OF_TWO,
                        "◌+◌": OF_TWO, "◌-◌": OF_TWO, "◌*◌": OF_TWO, "◌/◌": OF_TWO, "◌%◌": OF_TWO, "◌^◌": OF_TWO,
                        "◌≤◌": fun([NUMBER, NUMBER], PROPOSITION), "◌<◌": fun([NUMBER, NUMBER], PROPOSITION)},
    "lib.Dec": {"eqb": IS_TWO, "ltb": IS_TWO, "leb": IS_TWO},
    "lib.Bits": {"bit_and": OF_TWO, "bit_or": OF_TWO, "bit_xor": OF_TWO},
    "lib.Chars": {"codes": fun([TEXT], listed(NUMBER))},
    "mathlib.Core.Bool": {"Bool": 0, "true": BOOL, "false": BOOL, "not": fun([BOOL], BOOL), "cond": fun([BOOL, A, A], A),
                          "◌&&◌": fun([BOOL, BOOL], BOOL), "◌||◌": fun([BOOL, BOOL], BOOL)},
    "mathlib.Core.List": {"List": 1, "[]": listed(A), "◌∷◌": fun([A, listed(A)], listed(A)), "◌++◌": fun([listed(A), listed(A)], listed(A)),
                          "IsPrefix": fun([listed(A), listed(A)], PROPOSITION),
                          "map": fun([fun([A], B), listed(A)], listed(B))},
    "mathlib.Core.Path": {"◌≡◌": fun([A, A], PROPOSITION), "refl": None},
    "mathlib.Core.Logic": {"◌≢◌": fun([A, A], PROPOSITION), "◌⊎◌": OF_PROPOSITIONS, "◌↔◌": OF_PROPOSITIONS},
    "Rattle.core.specs.Bool": {"if◌then◌else◌": None, "◌==◌": IS_TWO},
    "Rattle.core.specs.declared.option.Option": {"Option": 1},
    "Rattle.core.specs.declared.option.Option.TheVariants": {"Some": fun([A], optional(A)), "None": optional(A)},
    "Rattle.core.specs.declared.result.Result": {"Result": 2},
    "Rattle.core.specs.declared.result.Result.TheVariants": {"Ok": fun([A], RESULT), "Err": fun([B], RESULT)},
    "mir.Syntax": {"Width": 0, "w64": WIDTH},
    "Rattle.core.specs.Int": {"to_le_bytes": fun([WIDTH, NUMBER], listed(NUMBER)), "from_le_bytes": fun([WIDTH, listed(NUMBER)], NUMBER),
                              "Width": 0, "w64": WIDTH},
    "Rattle.std_alloc.specs.Vec": {"vec_items": fun([con(VEC, A)], listed(A)), "vec_len": fun([con(VEC, A)], NUMBER)},
    "Chosen": {"chosen": fun([NUMBER], BOOL)},
    "Rattle.core.specs.FinSet": {"FinSet": 1, "empty": SET, "contains": fun([SET, NUMBER], BOOL), "insert": fun([SET, NUMBER], SET),
                                 "remove": fun([SET, NUMBER], SET), "union": fun([SET, SET], SET),
                                 "intersection": fun([SET, SET], SET), "difference": fun([SET, SET], SET), "retain": fun([SET, fun([NUMBER], BOOL)], SET),
                                 "items": fun([SET], listed(NUMBER))},
}
# A module that passes on what another one declares, and is not read.
PASSED_ON = {"mathlib.Core.List.Defs": "mathlib.Core.List"}

# A second declaration of the same, in another part of the library.
SAME = {("mathlib.Core.Option", "Option"): ("given", "Option"), ("mathlib.Core.Option", "some"): ("given", "Some"),
        ("mathlib.Core.Option", "none"): ("given", "None"), ("Rattle.std_alloc.specs.declared.vec.Vec", "Vec"): ("def", VEC)}

# How many arguments of a type are kept: a set's order and a vector's allocator are not.
KEPT = {"FinSet": 0, "Vec": 1}

# The words that another module than Prelude.agda gives: tests/definitions has that module.
HOME = {"chosen": "Chosen"}

# What is not translated: module.word, without `Rattle` and `specs`, and the reason. docs/ARCHITECTURE.md has the list.
LEFT_OUT = {
    "c_handles.Recorded.recorded_of": "its argument, a handle of the library for C, has a field with a proof",
    "text_base.Fields.TakesField": "its argument is a borrow, whose model is part of the toolchain's logic",
}

# What Agda keeps shut outside its module: it would count numbers such as 65536 * p down by one to compare them.
SHUT = {"text_restore.Restoring.rank"}

# How many constructors of the types above take as arguments: these words may be patterns.
CONSTRUCTORS = {"zero": 0, "suc": 1, "true": 0, "false": 0, "[]": 0, "◌∷◌": 2, "Some": 1, "None": 0, "Ok": 1, "Err": 1}
# Words without a `use` line.
EVERYWHERE = {"Unit": "⊤", "⊥": "⊥", "⊤": "⊤"}


def kit():
    """The folder of the toolchain's guides and library."""
    page = subprocess.run(["rt", "doc"], stdout=subprocess.PIPE, check=True, universal_newlines=True).stdout
    return os.path.join(os.path.dirname(page.strip()), "rattle")


def given(module, word):
    """The key of a word that Prelude.agda gives, or None."""
    if (module, word) in SAME:
        return SAME[module, word]
    words = GIVEN.get(module, {})
    return ("given", "set_" + word if words is GIVEN["Rattle.core.specs.FinSet"] and word != "FinSet" else word) if word in words else None


TYPES = {word: t for words in GIVEN.values() for word, t in words.items() if isinstance(t, int)}
VALUES = {given(module, word)[1]: t for module, words in GIVEN.items() for word, t in words.items() if isinstance(t, tuple)}


def short(id):
    """A name as LEFT_OUT and SHUT have it."""
    return ".".join(id[0].split(".")[1::2] + [id[1]])


def canonical(home, name):
    """The module that declares the words of this one: std passes on what core has."""
    parts = name.split(".")
    if parts[:3] == ["Rattle", "std", "specs"] and not os.path.exists(os.path.join(home, "std", *parts[2:]) + ".antt"):
        return ".".join(["Rattle", "core"] + parts[2:])
    return name


def path_of(root, home, name):
    """The file of a module."""
    parts = name.split(".")
    if parts[0] == "Rattle" and parts[2] == "specs":
        below = os.path.join("specs", *parts[3:]) + ".antt"
        ours = os.path.join(root, "crates", parts[1])
        if os.path.isdir(ours):
            return os.path.join(ours, below)
        return os.path.join(home, parts[1], below)
    if parts[0] == "lib":
        return os.path.join(home, "logic", "Lib", *parts[1:]) + ".antt"
    if parts[0] == "mathlib":
        return os.path.join(home, "antt", "port", "mathlib", "src", *parts[1:]) + ".antt"
    raise Refused("module %s of the toolchain's logic" % name)

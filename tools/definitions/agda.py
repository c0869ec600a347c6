"""Writes the declarations of a module as a module of Agda."""

import re
import textwrap

import library
from inference import is_type
from sharing import shared
from syntax import OPERATORS, Refused
from unification import PROPOSITION, prune, result_of, variables

KEYWORDS = set("abstract codata constructor data do eta-equality field forall hiding import in inductive infix infixl infixr "
               "instance interleaved let macro module mutual no-eta-equality open overlap pattern postulate primitive private "
               "public quote quoteTerm record renaming rewrite Set Prop syntax tactic unquote using variable where with to as "
               "λ ∀ Σ".split())
WIDTH = 120
APPLICATION, ATOM = 90, 100


def spelled(name):
    """A name in Agda, where `_` marks the place of an argument."""
    return name.replace("_", "-").replace("◌", "_")


def variable(name):
    name = spelled(name)
    return name + "′" if name in KEYWORDS or name == "base" else name


def module_name(name):
    """Rattle.synic_board.specs.Step is synic-board.Step."""
    parts = [part for at, part in enumerate(name.split(".")) if part != "specs" and not (at == 0 and part == "Rattle")]
    return ".".join(map(spelled, parts))


def wrapped(text, first="", indent="    "):
    """Lines of a text that may break at any space outside a string; a line break in it stays."""
    lines = []
    for number, line in enumerate(text.split("\n")):
        kept = re.sub(r'"[^"]*"', lambda match: match[0].replace(" ", "\0"), line)
        begin = first if number == 0 else indent
        lines += textwrap.wrap(kept, WIDTH, initial_indent=begin, subsequent_indent=indent + "  " * (number > 0),
                               break_long_words=False, break_on_hyphens=False) or [begin]
    return "\n".join(lines).replace("\0", " ")


class Page:
    """A module of Agda: what it imports, and its text."""

    def __init__(self, program, module):
        self.program, self.module = program, module
        self.imports = {}       # module of Agda: {name there: name here}
        self.whole = set()      # modules that are imported without names
        self.taken = {}         # name here: the key that it means
        self.text, self.rigid = [], set()

    # names

    def is_free(self, name, key):
        """Whether a name may denote here what has no name in the file itself."""
        if name in self.taken:
            return self.taken[name] == key
        m = self.module
        if name in m.definitions or name in m.constructors:
            return library.given(library.PASSED_ON.get(m.name, m.name), name) == key
        return name not in m.uses or self.program.resolve(*m.uses[name]) == key

    def name(self, key):
        """The name of a key here, which is imported if need be."""
        if key[0] == "given":
            return self.imported(key, library.HOME.get(key[1], "Prelude"), spelled(key[1]), key[1])
        home, name = key[1][0], key[-1] if key[0] == "variant" else key[1][1]
        if home == self.module.name:
            return spelled(name)
        if key[0] == "variant" and key not in self.module.local:
            return "%s.%s" % (self.name(("def", key[1])), spelled(name))
        return self.imported(key, module_name(home), spelled(name), name)

    def imported(self, key, home, there, name):
        here = self.module.local.get(key, name)
        if key in self.module.local or self.is_free(here, key):
            self.taken[here] = key
            here = there if here == name else spelled(here)
            self.imports.setdefault(home, {})[there] = here
            return here
        self.whole.add(home)
        return "%s.%s" % (home, there)

    def given(self, word):
        return self.name(("given", word))

    # types

    def paren(self, text, level, most):
        return "(%s)" % text if level > most else text

    def type(self, e, level=0):
        """A type as its file has it; implicit arguments are left to the caller."""
        if is_type(e):
            return "Set"
        if e[0] == "name":
            return variable(e[1]) if e[1] in self.rigid else self.type_name(e[1])
        if e[0] == "app":
            if self.is_dropped(e):
                return self.type(e[1], level)
            return self.paren("%s %s" % (self.type(e[1], APPLICATION), self.type(e[2], ATOM)), level, APPLICATION)
        if e[0] == "op" and e[1] == "→":
            return self.paren("%s → %s" % (self.type(e[2], 1), self.type(e[3])), level, 0)
        if e[0] == "product":
            self.given("◌×◌")
            return self.paren(" × ".join(self.type(x, 4) for x in e[1]), level, 3)
        if e[0] == "pi" and e[4]:
            return self.type(e[3], level)
        if e[0] == "pi":
            return self.paren(" → ".join([self.type(e[2], 1)] * len(e[1]) + [self.type(e[3])]), level, 0)
        raise Refused("%s: no type: %s" % (self.module.path, str(e)[:80]))

    def is_dropped(self, e):
        """Whether the last argument of a type is not kept."""
        arguments = 0
        while e[0] == "app":
            e, arguments = e[1], arguments + 1
        return e[0] == "name" and arguments > library.KEPT.get(e[1].split(".")[-1], arguments)

    def type_name(self, name):
        if name in library.EVERYWHERE:
            return self.given(library.EVERYWHERE[name])
        key, _ = self.program.lookup(self.module, name)
        if key[0] == "def" and self.program.entries.get(key[1]) and self.program.entries[key[1]].kind == "value":
            return self.known_type(self.program.entries[key[1]].type, ATOM)
        return self.name(key)

    def known_type(self, t, level=0):
        """A type of a .rt file."""
        t = prune(t)
        if t == PROPOSITION:
            return "Set"
        if t[0] == "var":
            return variable(t[1])
        if t[0] == "con":
            key = ("given", t[1]) if isinstance(t[1], str) else ("def", t[1])
            text = " ".join([self.name(key)] + [self.known_type(x, ATOM) for x in t[2]])
            return self.paren(text, level, APPLICATION if t[2] else ATOM)
        if t[0] == "fun":
            return self.paren("%s → %s" % (self.known_type(t[1], 1), self.known_type(t[2])), level, 0)
        self.given("◌×◌")
        return self.paren(" × ".join(self.known_type(x, 4) for x in t[1]), level, 3)

    # expressions

    def pattern(self, p, level=ATOM):
        if p[0] == "wild":
            return "_"
        if p[0] == "var":
            return variable(p[1])
        if p[0] == "num":
            return str(int(p[1], 0))
        if p[0] == "tuple":
            self.given("◌,◌")
            return "(%s)" % " , ".join(self.pattern(x, 1) for x in p[1])
        name, arguments = self.name(p[1]), p[2]
        if p[1] == ("given", "◌∷◌"):
            return self.paren("%s ∷ %s" % (self.pattern(arguments[0], 68), self.pattern(arguments[1], 67)), level, 67)
        text = " ".join([name] + [self.pattern(x) for x in arguments])
        return self.paren(text, level, APPLICATION if arguments else ATOM)

    def expression(self, e, level=0):
        return getattr(self, "write_" + e[0])(e, level)

    def write_var(self, e, level):
        return variable(e[1])

    def write_num(self, e, level):
        return str(int(e[1], 0)) if e[1].startswith("0b") else e[1]

    def write_text(self, e, level):
        return '"%s"' % e[1]

    def write_given(self, e, level):
        return self.name(e)

    write_def = write_variant = write_given

    def write_app(self, e, level):
        f, arguments = e[1], e[2]
        operator = f[1].strip("◌") if f[0] == "given" else None
        if operator in OPERATORS and len(arguments) == 2:
            self.name(f)
            precedence, side = OPERATORS[operator]
            left, right = [self.expression(x, precedence + (side != of)) for x, of in zip(arguments, "lr")]
            return self.paren("%s %s %s" % (left, operator, right), level, precedence)
        text = " ".join([self.expression(f, APPLICATION)] + [self.expression(x, ATOM) for x in arguments])
        return self.paren(text, level, APPLICATION)

    def write_if(self, e, level):
        self.given("if◌then◌else◌")
        condition, first, second = [self.expression(x, 1) for x in e[1:3]] + [self.expression(e[3])]
        return self.paren("if %s then %s else %s" % (condition, first, second), level, 0)

    def write_lam(self, e, level):
        return self.paren("λ %s → %s" % (variable(e[1]), self.expression(e[2])), level, 0)

    def write_let(self, e, level):
        text = "%s %s λ %s → %s" % (self.given("share"), self.expression(e[2], ATOM), variable(e[1]), self.expression(e[3]))
        return self.paren(text, level, 0)

    def write_tuple(self, e, level):
        self.given("◌,◌")
        return "(%s)" % " , ".join(self.expression(x, 1) for x in e[1])

    def write_proj(self, e, level):
        text = self.expression(e[2], ATOM)
        if e[1][0] == "record":
            return self.paren("%s.%s %s" % (self.name(("def", e[1][1])), spelled(e[3]), text), level, APPLICATION)
        for word in self.program.steps(e[1], e[3]):
            text = "(%s %s)" % (self.given(word), text)
        return text if level > APPLICATION else text[1:-1]

    def write_rec(self, e, level):
        fields = " ; ".join("%s = %s" % (spelled(field), self.expression(x)) for field, x in e[3])
        if e[2] is None:
            return "record { %s }" % fields
        if e[2][0] in ("var", "def"):
            return "record %s { %s }" % (self.expression(e[2]), fields)
        return self.paren("%s %s λ base → record base { %s }" % (self.given("share"), self.expression(e[2], ATOM), fields), level, 0)

    # propositions

    def write_type(self, e, level):
        return self.type(e[1], level)

    def write_pi(self, e, level):
        text = "(%s : %s) → %s" % (" ".join(map(variable, e[1])), self.expression(e[2]), self.expression(e[3]))
        return self.paren(text, level, 0)

    def write_sigma(self, e, level):
        return self.paren(self.pair(e[1], self.expression(e[2], 1)) + self.last(e[3]), level, 0)

    def last(self, e):
        """What a pair ends with: a function type needs parentheses there."""
        return self.expression(e, 1 if e[0] in ("pi", "arrow") else 0)

    def pair(self, names, t):
        return "".join("%s %s ∈ %s ] " % (self.sigma(), variable(name), t) for name in names)

    def sigma(self):
        self.given("Σ-syntax")
        return "Σ["

    def write_arrow(self, e, level):
        return self.paren("%s → %s" % (self.expression(e[1], 1), self.expression(e[2])), level, 0)

    def write_product(self, e, level):
        self.given("◌×◌")
        return self.paren(" × ".join(self.expression(x, 4) for x in e[1]), level, 3)

    # declarations

    def declare(self, entry):
        self.text += entry.comment
        self.rigid, begin = set(), len(self.text)
        getattr(self, "declare_" + entry.kind)(entry, spelled(entry.id[1]))
        if library.short(entry.id) in library.SHUT:
            self.text[begin:] = ["abstract"] + ["  " + line for line in self.text[begin:]]
        self.text.append("")

    def declare_synonym(self, entry, name):
        e = entry.definition.synonym
        self.text += ["%s : Set" % name, wrapped(self.type(e), name + " = ")]

    def declare_record(self, entry, name):
        self.rigid = set(entry.parameters)
        self.text += ["record %s%s : Set where" % (name, "".join(" (%s : Set)" % p for p in entry.parameters)), "  field"]
        for field, t, ast, comment in entry.fields:
            self.text += ["    " + line for line in comment]
            self.text.append(wrapped(self.type(ast) if ast else self.known_type(t), "    %s : " % spelled(field), "      "))

    def declare_data(self, entry, name):
        self.rigid = set(entry.parameters)
        self.text.append("data %s%s : Set where" % (name, "".join(" (%s : Set)" % p for p in entry.parameters)))
        for constructor, arguments, ast, comment in entry.constructors:
            of = " ".join([name] + entry.parameters)
            text = self.type(ast) if ast else " → ".join([self.known_type(t, 1) for t in arguments] + [of])
            self.text += ["  " + line for line in comment]
            self.text.append(wrapped(text, "  %s : " % spelled(constructor)))

    def implicit(self, names):
        return "{%s : Set} → " % " ".join(map(variable, names)) if names else ""

    def declare_predicate(self, entry, name):
        types = [term for term, t, _ in entry.terms if is_type(t)]
        self.rigid = set(types)
        arguments = [self.type(t, 1) for _, t, _ in entry.terms if not is_type(t)]
        self.text.append(wrapped(self.implicit(types) + " → ".join(arguments + ["Set"]), name + " : "))
        terms = ["{%s}" % variable(term) if is_type(t) else variable(term) for term, t, _ in entry.terms]
        self.text.append(" ".join([name] + terms) + " =")
        lines, closing, is_open = [], 0, True
        for at, (field, x, _, comment) in enumerate(entry.fields):
            is_last = at == len(entry.fields) - 1
            lines += comment
            if field in entry.bound:
                lines.append(wrapped(self.pair([field], self.expression(x, 1)), "" if is_open else "× (", "      "))
                closing, is_open = closing + (not is_open), True
                continue
            if not comment:
                lines.append("-- " + field)
            if not is_open:
                self.given("◌×◌")
            lines.append(wrapped(self.last(x) if is_last and is_open else self.expression(x, 4), "" if is_open else "× ", "    "))
            is_open = False
        lines[-1] += ")" * closing
        self.text += ["  " + line for line in "\n".join(lines).split("\n")]

    def declare_fun(self, entry, name):
        types = variables(entry.type)
        self.rigid = set(types)
        self.text.append(wrapped(self.implicit(types) + self.type(entry.signature), name + " : "))
        is_proposition = result_of(entry.type) == PROPOSITION
        implicit = ["{%s = %s}" % (variable(v), variable(v)) for v in types] if is_proposition else []
        for patterns, body, comment in entry.clauses:
            bindings, body = ([], body) if is_proposition else shared(body)
            text = self.expression(body)
            for x, e in reversed(bindings):
                text = "%s %s λ %s →\n%s" % (self.given("share"), self.expression(e, ATOM), x, text)
            self.text += comment
            left = " ".join([name] + implicit + [self.pattern(p) for p in patterns])
            self.text.append(wrapped(text, left + " = "))

    def state(self, statement):
        name = spelled(statement.name)
        self.text += [*statement.comment, name + " : Set", wrapped(self.expression(statement.e), name + " = "), ""]

    # the whole

    def importing(self):
        for home in sorted(self.whole):
            yield "import " + home
        for home, names in sorted(self.imports.items()):
            same = sorted(there for there, here in names.items() if there == here)
            other = ["%s to %s" % (there, here) for there, here in sorted(names.items()) if there != here]
            parts = (["using (%s)" % "; ".join(same)] if same or not other else []) + (["renaming (%s)" % "; ".join(other)] if other else [])
            if other and not same:
                parts.insert(0, "using ()")
            yield wrapped("open import %s %s" % (home, " ".join(parts)), "", "  ")

    def whole_text(self, source, options):
        head = ["{-# OPTIONS %s #-}" % options] * bool(options) + [*self.module.comment, "-- Translated from %s." % source, "module %s where" % module_name(self.module.name)]
        return "\n".join(head + [""] + list(self.importing()) + [""] + self.text).rstrip("\n") + "\n"

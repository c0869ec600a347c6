"""Writes the declarations of a module as a module of Coq, in one file for all modules."""

import re

import library
from agda import wrapped
from inference import is_type
from sharing import children, replaced, shared
from syntax import OPERATORS
from unification import PROPOSITION, prune, result_of, variables

# Words of Coq, and names in its library that a variable would hide.
KEYWORDS = set("as at cofix else end exists fix for forall fun if in let match mod return then using where with Prop Set "
               "Type O S nil cons left right pair inl inr tt true false eq lt le gt list nat bool base".split())
# Words that Coq's library has. The others are those of Prelude.v.
WORDS = {"zero": "O", "suc": "S", "[]": "nil", "true": "true", "false": "false", "Some": "Some", "None": "None", "⊤": "unit",
         "⊥": "Empty_set", "not": "negb", "eqb": "Nat.eqb", "ltb": "Nat.ltb", "leb": "Nat.leb", "min": "Nat.min",
         "max": "Nat.max", "bit_and": "Nat.land", "bit_or": "Nat.lor", "bit_xor": "Nat.lxor", "map": "List.map",
         "◌∷◌": "cons", "◌++◌": "app", "◌&&◌": "andb", "◌||◌": "orb", "◌==◌": "Nat.eqb", "◌+◌": "Nat.add"}
TYPES = {"ℕ": "nat", "Bool": "bool", "List": "list", "Option": "option", "Text": "string", "Set": "Type", "⊤": "unit",
         "⊥": "Empty_set"}
SIGNS = {"∷": "::", "%": "mod", "==": "=?", "≡": "="}
PREDICATES = {"≤": "Prelude.at_most", "<": "Prelude.below", "≢": "Prelude.differ", "⊎": "sum", "↔": "Prelude.equivalent"}
PARTS = {"witness": "projT1", "proof": "projT2"}
HEAD = """Require Import NArith Arith Bool List String.
Require Prelude.
Set Warnings "-unused-pattern-matching-variable".
Open Scope string_scope.
Open Scope nat_scope.
Open Scope list_scope.
"""
GREATEST = 8        # a greater numeral is binary, since Coq would count one of nat up by one


def plain(name):
    """A name without the letters that Coq does not have."""
    return re.sub(r"[^A-Za-z0-9_']", lambda match: "u%x" % ord(match[0]), name.replace("-", "_"))


def variable(name):
    name = plain(name)
    return name + "_" if name in KEYWORDS or not name[0].isalpha() else name


def module_name(name):
    """Rattle.synic_board.specs.Step is synic_board_Step."""
    parts = name.split(".")
    return "_".join(part for part in parts[parts[0] == "Rattle":] if part != "specs")


def commented(lines):
    """The lines of a comment. Coq reads strings in comments too."""
    text = " ".join(line.lstrip("-").strip() for line in lines).replace('"', "'")
    return [wrapped(text + " *)", "(* ", "   ")] if text else []


class Page:
    """A module: its text, and the modules that it names."""

    def __init__(self, program, module):
        self.program, self.module = program, module
        self.rigid, self.text, self.needs = {}, [], set()

    # names

    def name(self, key):
        if key[0] == "given":
            return WORDS.get(key[1], "Prelude." + plain(key[1]))
        name = plain(key[1][1])
        if key[0] == "variant":
            name = "%s_%s" % (name, plain(key[2]))
        return self.of(key[1], name)

    def of(self, id, name):
        """A name of the module that declares this type or function."""
        if id[0] == self.module.name:
            return name
        if id == library.VEC:
            return "Prelude." + name
        self.needs.add(id[0])
        return "%s.%s" % (module_name(id[0]), name)

    def field(self, id, field):
        return self.of(id, "%s_%s" % (plain(id[1]), plain(field)))

    # types

    def type(self, t):
        t = prune(t)
        if t[0] == "var":
            return variable(t[1])
        if t[0] == "fun":
            return "(%s -> %s)" % (self.type(t[1]), self.type(t[2]))
        if t[0] == "tuple":
            return nested([self.type(x) for x in t[1]], "(prod %s %s)")
        head = TYPES.get(t[1], "Prelude." + t[1]) if isinstance(t[1], str) else self.name(("def", t[1]))
        return "(%s)" % " ".join([head] + [self.type(x) for x in t[2]]) if t[2] else head

    def written(self, ast):
        return self.type(self.program.type(self.module, ast, self.rigid))

    # patterns and expressions

    def pattern(self, p):
        if p[0] == "wild":
            return "_"
        if p[0] == "var":
            return variable(p[1])
        if p[0] == "num":
            return str(int(p[1], 0))
        if p[0] == "tuple":
            return nested([self.pattern(x) for x in p[1]], "(%s, %s)")
        if p[0] == "alias":
            return "(%s as %s)" % (self.pattern(p[1]), p[2])
        return "(%s)" % " ".join([self.name(p[1])] + [self.pattern(x) for x in p[2]]) if p[2] else self.name(p[1])

    def expression(self, e):
        return getattr(self, "write_" + e[0])(e)

    def write_var(self, e):
        return variable(e[1])

    def write_num(self, e):
        number = int(e[1], 0)
        return str(number) if number <= GREATEST else "(N.to_nat %d)" % number

    def write_text(self, e):
        return '"%s"' % e[1]

    def write_given(self, e):
        return self.name(e)

    write_def = write_variant = write_given

    def write_app(self, e):
        arguments = [self.expression(x) for x in e[2]]
        operator = e[1][1].strip("◌") if e[1][0] == "given" else None
        if operator in PREDICATES and len(arguments) == 2:
            return "(%s %s %s)" % (PREDICATES[operator], *arguments)
        if operator in OPERATORS and len(arguments) == 2:
            return "(%s %s %s)" % (arguments[0], SIGNS.get(operator, operator), arguments[1])
        return "(%s)" % " ".join([self.expression(e[1])] + arguments)

    def write_if(self, e):
        return "(if %s then %s else %s)" % tuple(map(self.expression, e[1:]))

    def write_lam(self, e):
        return "(fun %s => %s)" % (variable(e[1]), self.expression(e[2]))

    def write_let(self, e):
        return "(let %s := %s in %s)" % (variable(e[1]), self.expression(e[2]), self.expression(e[3]))

    def write_tuple(self, e):
        return nested([self.expression(x) for x in e[1]], "(%s, %s)")

    def write_proj(self, e):
        text = self.expression(e[2])
        if e[1][0] == "record":
            return "(%s %s)" % (self.field(e[1][1], e[3]), text)
        for word in self.program.steps(e[1], e[3]):
            text = "(%s %s)" % (PARTS.get(word, word), text)
        return text

    def write_rec(self, e):
        entry, given = self.program.entries[e[1]], dict(e[3])
        fields = [self.expression(given[name]) if name in given else "(%s base)" % self.field(e[1], name)
                  for name, *_ in entry.fields]
        text = "(%s)" % " ".join([self.of(e[1], "Build_" + plain(e[1][1]))] + ["_"] * len(entry.parameters) + fields)
        return text if e[2] is None else "(let base := %s in %s)" % (self.expression(e[2]), text)

    # propositions

    def write_type(self, e):
        return self.written(e[1])

    def write_pi(self, e):
        return "(forall (%s : %s), %s)" % (" ".join(map(variable, e[1])), self.expression(e[2]), self.expression(e[3]))

    def write_sigma(self, e):
        text = self.expression(e[3])
        for name in reversed(e[1]):
            text = "{%s : %s & %s}" % (variable(name), self.expression(e[2]), text)
        return text

    def write_arrow(self, e):
        return "(%s -> %s)" % (self.expression(e[1]), self.expression(e[2]))

    def write_product(self, e):
        return nested([self.expression(x) for x in e[1]], "(prod %s %s)")

    # declarations

    def declare(self, entry):
        self.text += commented(entry.comment)
        self.rigid = {name: name for name in entry.parameters}
        getattr(self, "declare_" + entry.kind)(entry, plain(entry.id[1]))
        self.text.append("")

    def declare_synonym(self, entry, name):
        self.text.append(wrapped("%s." % self.written(entry.definition.synonym), "Definition %s : Type := " % name))

    def declare_record(self, entry, name):
        self.text.append("Record %s%s : Type := {" % (name, given_types(entry.parameters)))
        for at, (field, t, _, comment) in enumerate(entry.fields):
            self.text += ["  " + line for line in commented(comment)]
            self.text.append("  %s_%s : %s%s" % (name, plain(field), self.type(t), ";" * (at < len(entry.fields) - 1)))
        self.text.append("}.")
        self.implicit(entry, ["%s_%s" % (name, plain(field)) for field, *_ in entry.fields])

    def declare_data(self, entry, name):
        self.text.append("Inductive %s%s : Type :=" % (name, given_types(entry.parameters)))
        of = " ".join([name] + list(map(variable, entry.parameters)))
        for constructor, arguments, _, comment in entry.constructors:
            self.text += ["  " + line for line in commented(comment)]
            types = " -> ".join([self.type(t) for t in arguments] + [of])
            self.text.append("  | %s_%s : %s" % (name, plain(constructor), types))
        self.text[-1] += "."
        self.implicit(entry, ["%s_%s" % (name, plain(constructor)) for constructor, *_ in entry.constructors])

    def implicit(self, entry, names):
        for name in names if entry.parameters else ():
            self.text.append("Arguments %s {%s}." % (name, " ".join(map(variable, entry.parameters))))

    def declare_predicate(self, entry, name):
        types = [term for term, t, _ in entry.terms if is_type(t)]
        self.rigid = {term: term for term in types}
        values = "".join(" (%s : %s)" % (variable(term), self.written(t)) for term, t, _ in entry.terms if not is_type(t))
        text = None
        for field, x, _, comment in reversed(entry.fields):
            part, named = self.expression(x), "\n".join([""] + commented(comment or ["-- " + field]) + [""])
            if field in entry.bound:
                text = "%s{%s : %s & %s}" % (named, variable(field), part, text)
            else:
                text = named + part if text is None else "(prod %s%s %s)" % (named, part, text)
        head = "Definition %s%s%s : Type :=" % (name, inferred_types(types), values)
        self.text += [wrapped(head), wrapped("%s." % text.lstrip("\n"), "  ", "  ")]

    def declare_fun(self, entry, name):
        types, t, arguments = variables(entry.type), entry.type, []
        self.rigid = {x: x for x in types}
        for _ in entry.clauses[0][0]:
            arguments.append(prune(t)[1])
            t = prune(t)[2]
        names, text = self.clauses(entry)
        values = "".join(" (%s : %s)" % (x, self.type(of)) for x, of in zip(names, arguments))
        word = "Fixpoint" if any(mentioned(clause[1], entry.id) for clause in entry.clauses) else "Definition"
        head = "%s %s%s%s : %s :=" % (word, name, inferred_types(types), values, self.type(t))
        self.text += [wrapped(head), wrapped("%s." % text, "  ", "  ")]

    def clauses(self, entry):
        """The names of the arguments, and the body."""
        patterns, body, _ = entry.clauses[0]
        if len(entry.clauses) == 1 and all(p[0] == "var" for p in patterns):
            return [variable(p[1]) for p in patterns], self.body(entry, body)
        names, lines = ["x%d" % at for at in range(len(patterns))], []
        for patterns, body, comment in entry.clauses:
            patterns, body = aliased(patterns, body)
            lines += commented(comment)
            lines.append("| %s => %s" % (", ".join(map(self.pattern, patterns)), self.body(entry, body)))
        return names, "\n".join(["match %s with" % ", ".join(names)] + lines + ["end"])

    def body(self, entry, body):
        bindings, body = ([], body) if result_of(entry.type) == PROPOSITION else shared(body)
        text = self.expression(body)
        for name, e in reversed(bindings):
            text = "Prelude.share %s (fun %s => %s)" % (self.expression(e), name, text)
        return text

    def state(self, statement):
        self.rigid = {}
        self.text += commented(statement.comment)
        self.text += [wrapped("%s." % self.expression(statement.e), "Definition %s : Type := " % plain(statement.name)), ""]

    def whole_text(self, source):
        name = module_name(self.module.name)
        head = commented(self.module.comment + ["-- Translated from %s." % source])
        return "\n".join(head + ["Module %s." % name, ""] + self.text + ["End %s." % name, ""])


def given_types(names):
    return "".join(" (%s : Type)" % variable(name) for name in names)


def inferred_types(names):
    return "".join(" {%s : Type}" % variable(name) for name in names)


def nested(parts, form):
    """Of three parts, a pair whose second part is a pair."""
    text = parts[-1]
    for part in reversed(parts[:-1]):
        text = form % (part, text)
    return text


def mentioned(e, id):
    return e == ("def", id) or isinstance(e, (tuple, list)) and any(mentioned(part, id) for part in e)


def aliased(patterns, body):
    """A part of a pattern that the body builds again has a name: Coq sees that it is a part of the argument."""
    def within(p, is_whole):
        nonlocal body
        if p[0] != "con" or not p[2]:
            return p
        e, name = built(p), "part%d" % len(p[2])
        p = ("con", p[1], [within(x, False) for x in p[2]])
        if is_whole or e is None or not contains(body, e):
            return p
        body = replaced(body, e, name)
        return ("alias", p, name)
    patterns = [within(p, True) for p in patterns]
    return patterns, body


def built(p):
    """The expression that a pattern matches, or None."""
    if p[0] == "var":
        return p
    parts = [built(x) for x in p[2]] if p[0] == "con" else [None]
    return None if None in parts else ("app", p[1], tuple(parts)) if parts else p[1]


def contains(x, e):
    return x == e or any(contains(child, e) for child in children(x))

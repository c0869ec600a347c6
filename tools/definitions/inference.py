"""The types in clauses, and what names and fields in them denote.

The result has no names of the file: ('var', x) ('num', digits) ('text', s) ('given', word) ('def', id)
('variant', id, name) ('app', f, (a..)) ('if', c, a, b) ('lam', x, e) ('let', x, e, body) ('tuple', (e..))
('proj', ('record', id), ('predicate', id) or ('tuple', size), e, field) ('rec', id, base or None, ((field, e)..)) and, in propositions,
('type', type as it is written) ('pi', x, t, e) ('sigma', x, t, e) ('arrow', a, b) ('product', (e..))."""

import library
from syntax import Parser, Refused, parsed, words
from unification import BOOL, NUMBER, PROPOSITION, con, fun, instantiated, meta, prune, result_of, unify



def is_type(e):
    """Whether an expression is `Type` at some level."""
    return e[0] == "app" and e[1] == ("name", "Type")


class Inference:
    """Reads one clause or statement of a module. `rigid`: its type variables."""

    def __init__(self, program, module, place, rigid=None):
        self.program, self.module, self.place, self.rigid = program, module, place, rigid or {}
        self.pending = []       # (type, cell, ..): fields whose record is not known yet

    # clauses

    def clause(self, d, entry, text):
        found, depth = words(text), 0
        for at, (word, _) in enumerate(found):
            depth += (word in "({") - (word in ")}")
            if word == "=" and depth == 0:
                break
        left = Parser(found[:at])
        if left.next() != d.name:
            raise Refused("%s: a clause of another name than %s" % (self.place, d.name))
        patterns, result, env = [], entry.type, {}
        while left.peek() is not None:
            if left.peek() == "{":
                left.skip_braces()
                continue
            if result[0] != "fun":
                raise Refused(self.place + ": more patterns than arguments")
            pattern = left.atom()
            if pattern is None:
                raise Refused("%s: no pattern at %s" % (self.place, left.peek()))
            patterns.append(self.pattern(pattern, result[1], env))
            result = result[2]
        return patterns, self.typed(Parser(found[at + 1:]).whole(), result, env)

    def typed(self, e, t, env):
        body = self.infer(e, t, env)
        while self.pending:
            if not self.step():
                raise Refused("%s: the type of %s is not known" % (self.place, self.pending[0][1][3]))
        return finished(body)

    def predicate(self, d, entry):
        """A record whose parameters are values: its fields may be propositions about these, and about the fields before."""
        env, entry.terms = {}, []
        for names, t, is_implicit in d.parameters:
            for name in names:
                if is_type(t):
                    self.rigid[name] = name
                else:
                    env[name] = self.program.type(self.module, t, self.rigid)
                entry.terms.append((name, t, is_implicit))
        entry.type = fun([env[name] for name, t, _ in entry.terms if not is_type(t)], PROPOSITION)
        for name, text, comment in d.fields:
            ast = parsed(text)
            x = self.proposition(ast, env)
            entry.parts[name] = self.bound(x)
            env = {**env, name: entry.parts[name]}
            entry.fields.append((name, x, ast, comment))
        for at, (name, x, *_) in enumerate(entry.fields[:-1]):
            if x[0] == "type" or any(mentions(later[1], name) for later in entry.fields[at + 1:]):
                entry.bound.add(name)

    def bound(self, x):
        """The type of a variable that a proposition binds: of values, or of proofs with named parts."""
        if x[0] == "type":
            return self.program.type(self.module, x[1], self.rigid)
        head = x[1] if x[0] == "app" else x
        return con(head[1] if head[0] == "def" else "a proof")

    def proposition(self, e, env):
        """A type in a proposition: of values, or another proposition."""
        try:
            self.program.type(self.module, e, self.rigid)
            return ("type", e)
        except Refused:
            return self.typed(e, PROPOSITION, env)

    # patterns

    def constructor(self, name, wanted=None):
        """A constructor; of the wanted type, if constructors of several types have the name."""
        if name == "∷":
            key = ("given", "◌∷◌")
        else:
            try:
                key, rest = self.program.lookup(self.module, name)
            except Refused:
                return None
            if rest:
                return None
        t = self.program.constructor(key)
        for other in self.module.overloaded.get(name, ()):
            if t and wanted and wanted[0] == "con" and result_of(t)[1] != wanted[1]:
                key = self.program.resolve(*other)
                t = self.program.constructor(key)
        return (key, t) if t else None

    def pattern(self, e, t, env):
        t = prune(t)
        if e[0] == "num":
            return ("num", e[1])
        if e[0] == "tuple":
            if t[0] != "tuple" or len(t[1]) != len(e[1]):
                raise Refused(self.place + ": a tuple in place of another type")
            return ("tuple", [self.pattern(x, y, env) for x, y in zip(e[1], t[1])])
        if e[0] == "op" and e[1] == "∷":
            e = ("app", ("app", ("name", "∷"), e[2]), e[3])
        arguments = []
        while e[0] == "app":
            arguments.insert(0, e[2])
            e = e[1]
        if e[0] != "name":
            raise Refused(self.place + ": no pattern: " + str(e))
        if e[1] == "_":
            return ("wild",)
        found = self.constructor(e[1], t)
        if not found and not arguments:
            env[e[1]] = t
            return ("var", e[1])
        if not found:
            raise Refused("%s: no constructor %s" % (self.place, e[1]))
        return self.constructed(found, arguments, t, env)

    def constructed(self, found, arguments, t, env):
        key, of = found[0], instantiated(found[1], {})
        result = of
        for _ in arguments:
            if result[0] != "fun":
                raise Refused(self.place + ": a constructor with more arguments than it has")
            result = result[2]
        unify(result, t, self.place)
        patterns = []
        for x in arguments:
            patterns.append(self.pattern(x, of[1], env))
            of = of[2]
        return ("con", key, patterns)

    # expressions

    def infer(self, e, t, env):
        return getattr(self, "infer_" + e[0])(e, t, env)

    def infer_num(self, e, t, env):
        unify(t, NUMBER, self.place)
        return e

    def infer_text(self, e, t, env):
        unify(t, con("Text"), self.place)
        return e

    def infer_pi(self, e, t, env):
        unify(t, PROPOSITION, self.place)
        if e[0] == "pi" and e[4]:
            raise Refused(self.place + ": an implicit argument in a proposition")
        x = self.proposition(e[2], env)
        env = {**env, **{name: self.bound(x) for name in e[1]}}
        return (e[0], tuple(e[1]), x, self.infer(e[3], PROPOSITION, env))

    infer_sigma = infer_pi

    def infer_product(self, e, t, env):
        unify(t, PROPOSITION, self.place)
        return ("product", tuple(self.proposition(x, env) for x in e[1]))

    def infer_op(self, e, t, env):
        if e[1] == "→":
            unify(t, PROPOSITION, self.place)
            return ("arrow", self.proposition(e[2], env), self.infer(e[3], PROPOSITION, env))
        key = ("given", "◌%s◌" % e[1])
        return self.applied(key, instantiated(self.program.value(key), {}), [e[2], e[3]], t, env)

    def infer_name(self, e, t, env):
        parts = e[1].split(".")
        if parts[0] in env:
            return self.projected(("var", parts[0]), env[parts[0]], parts[1:], t)
        if e[1] in library.EVERYWHERE:
            unify(t, PROPOSITION, self.place)
            return ("given", library.EVERYWHERE[e[1]])
        key, rest = self.program.lookup(self.module, e[1])
        return self.projected(key, instantiated(self.program.value(key), {}), rest, t)

    def infer_app(self, e, t, env):
        arguments = []
        while e[0] == "app":
            arguments.insert(0, e[2])
            e = e[1]
        of = meta()
        return self.applied(self.infer(e, of, env), of, arguments, t, env)

    def applied(self, f, of, arguments, t, env):
        types, result = [], prune(of)
        for _ in arguments:
            result = prune(result)
            if result[0] != "fun":
                unknown = ("fun", meta(), meta())
                unify(result, unknown, self.place)
                result = unknown
            types.append(result[1])
            result = result[2]
        unify(result, t, self.place)
        return ("app", f, tuple([self.infer(x, of, env) for x, of in zip(arguments, types)]))

    def infer_if(self, e, t, env):
        return ("if", self.infer(e[1], BOOL, env), self.infer(e[2], t, env), self.infer(e[3], t, env))

    def infer_lam(self, e, t, env):
        a, b = meta(), meta()
        unify(t, ("fun", a, b), self.place)
        if e[2]:
            unify(a, self.program.type(self.module, e[2], self.rigid), self.place)
        return ("lam", e[1], self.infer(e[3], b, {**env, e[1]: a}))

    def infer_let(self, e, t, env):
        a = self.program.type(self.module, e[2], self.rigid) if e[2] else meta()
        x = self.infer(e[3], a, env)
        return ("let", e[1], x, self.infer(e[4], t, {**env, e[1]: a}))

    def infer_tuple(self, e, t, env):
        types = [meta() for _ in e[1]]
        unify(t, ("tuple", types), self.place)
        return ("tuple", tuple([self.infer(x, of, env) for x, of in zip(e[1], types)]))

    def infer_proj(self, e, t, env):
        of = meta()
        return self.projected(self.infer(e[1], of, env), of, [e[2]], t)

    def infer_rec(self, e, t, env):
        return self.fields_of(None, e[1], t, env)

    def infer_upd(self, e, t, env):
        return self.fields_of(self.infer(e[1], t, env), e[2], t, env)

    def fields_of(self, base, fields, t, env):
        types = [(field, meta()) for field, _ in fields]
        values = [(field, self.infer(x, of, env)) for (field, x), (_, of) in zip(fields, types)]
        cell = ["rec", None, base, values]
        self.pending.append((t, cell, types))
        self.step()
        return cell

    def projected(self, x, of, path, t):
        for field in path:
            result = meta()
            cell = ["proj", None, x, field]
            self.pending.append((of, cell, result))
            self.step()
            x, of = cell, result
        unify(of, t, self.place)
        return x

    # fields

    def step(self):
        """Settles the fields whose record is known by now; whether there were any."""
        ready = [item for item in self.pending if prune(item[0])[0] != "meta"]
        self.pending = [item for item in self.pending if prune(item[0])[0] == "meta"]
        for t, cell, of in ready:
            t = prune(t)
            if cell[0] == "proj" and t[0] == "tuple":
                cell[1] = ("tuple", len(t[1]))
                unify(t[1][int(cell[3])], of, self.place)
                continue
            entry = self.program.record(t, self.place)
            cell[1] = (entry.kind, entry.id) if cell[0] == "proj" else entry.id
            for field, part in [(cell[3], of)] if cell[0] == "proj" else of:
                unify(self.field(entry, t, field), part, self.place)
        return bool(ready)

    def field(self, entry, t, field):
        if field in entry.parts:
            return instantiated(entry.parts[field], {})
        for name, of, *_ in entry.fields:
            if name == field and entry.kind == "record":
                return instantiated(of, dict(zip(entry.parameters, t[2])))
        raise Refused("%s: no field %s of %s" % (self.place, field, entry.id[1]))


def mentions(e, name):
    return e == ("var", name) or isinstance(e, tuple) and any(mentions(part, name) for part in e)


def finished(e):
    """The expression with its cells, which are lists, as tuples."""
    if isinstance(e, list) and e[0] == "proj":
        return ("proj", e[1], finished(e[2]), e[3])
    if isinstance(e, list):
        return ("rec", e[1], finished(e[2]) if e[2] is not None else None, tuple((field, finished(x)) for field, x in e[3]))
    if e[0] in ("var", "num", "text", "given", "def", "variant", "type"):
        return e
    return tuple(finished(part) if isinstance(part, (tuple, list)) and part and isinstance(part[0], str) else
                 tuple(finished(x) for x in part) if isinstance(part, tuple) else part for part in e)

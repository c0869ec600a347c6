"""What names denote, and the types of what is declared.

A name denotes a key: ('given', word), which Prelude.agda has, ('def', id) or ('variant', id of the type, name),
where an id is (module, name). `Program.get` has what the key of a declaration denotes, as an `Entry`."""

import os

import library
import rust
from inference import Inference, is_type
from modules import Module, read_module, use
from syntax import Refused, parsed
from unification import BOOL, NUMBER, PROPOSITION, con, fun, prune, variables

class Entry:
    """A declaration with its types. kind: 'record', 'data', 'fun', 'synonym', or 'predicate' for a record whose
    parameters are values."""

    def __init__(self, id, kind, module, place, definition=None):
        self.id, self.kind, self.module, self.place, self.definition = id, kind, module, place, definition
        self.type, self.parameters, self.fields, self.constructors, self.clauses = None, [], [], [], []
        self.comment = definition.comment if definition else []
        self.parts, self.bound = {}, set()      # of a predicate: the types of its fields, and those that later ones name


class Program:
    def __init__(self, root, home):
        self.root, self.home = root, home
        self.crates = os.path.join(root, "crates")
        self.modules, self.entries, self.refused = {}, {}, {}
        vector = self.entries[library.VEC] = Entry(library.VEC, "record", None, "Prelude.agda")
        vector.parameters, vector.fields = ["A"], [("items", con("List", ("var", "A")), None, [])]

    # names

    def module(self, name):
        name = library.canonical(self.home, name)
        if name not in self.modules:
            path = library.path_of(self.root, self.home, name)
            if not os.path.exists(path):
                raise Refused("there is no module %s" % name)
            self.modules[name] = read_module(name, path)
        return self.modules[name]

    def resolve(self, module, item):
        """The key of what a module declares or passes on."""
        module = library.canonical(self.home, module)
        given = library.given(library.PASSED_ON.get(module, module), item)
        if given:
            return given
        parts = module.split(".")
        if "declared" in parts:
            at = parts.index("declared")
            if parts[-1] == "TheVariants":
                return ("variant", self.rust(parts[1], parts[-2], parts[at + 1:-2]).id, item)
            return ("def", self.rust(parts[1], parts[-1], parts[at + 1:-1]).id)
        m = self.module(module)
        if item in m.constructors:
            return ("variant", (module, m.constructors[item].name), item)
        if item in m.definitions:
            return ("def", (module, item))
        if item in m.uses:
            return self.resolve(*m.uses[item])
        raise Refused("no %s in %s" % (item, module))

    def lookup(self, m, name):
        """The key of a name in a module, and what is left of the name's path."""
        parts = name.split(".")
        given = library.given(library.PASSED_ON.get(m.name, m.name), parts[0])
        if given:
            return given, parts[1:]
        if parts[0] in m.constructors:
            return ("variant", (m.name, m.constructors[parts[0]].name), parts[0]), parts[1:]
        if parts[0] in m.definitions:
            return ("def", (m.name, parts[0])), parts[1:]
        if parts[0] in m.uses:
            key = self.resolve(*m.uses[parts[0]])
            m.local.setdefault(key, parts[0])
            return key, parts[1:]
        if parts[0] in m.aliases and len(parts) > 1:
            return self.resolve(m.aliases[parts[0]], parts[1]), parts[2:]
        raise Refused("%s: no name %s" % (m.path, name))

    # declarations

    def get(self, id):
        if id in self.refused:
            raise Refused(self.refused[id])
        if id not in self.entries:
            try:
                self.declare(self.module(id[0]).definitions[id[1]])
            except Refused as refused:
                self.entries.pop(id, None)
                self.refused[id] = str(refused)
                raise
        return self.entries[id]

    def declare(self, d):
        if d.refused or d.kind == "data" and d.parameters:
            raise Refused("%s: %s" % (d.place, d.refused or "a data type with parameters"))
        m = d.module
        entry = self.entries[d.id] = Entry(d.id, d.kind, m, d.place, d)
        if d.kind == "record":
            self.declare_record(m, d, entry)
        elif d.kind == "data":
            self.declare_data(m, d, entry)
        elif d.signature.startswith("Type ") and self.is_synonym(m, d):
            entry.kind = "synonym"
        else:
            self.declare_function(m, d, entry)

    def is_synonym(self, m, d):
        """Whether a definition without arguments is a type of values, and no proposition."""
        d.synonym = parsed(d.clauses[0][1].split(" = ", 1)[1])
        return self.is_of_values(m, d.synonym, {})

    def declare_record(self, m, d, entry):
        entry.parameters = [name for names, _, _ in d.parameters for name in names]
        rigid = {name: name for name in entry.parameters}
        members = [(name, parsed(text), comment) for name, text, comment in d.fields]
        if not all(is_type(t) for _, t, _ in d.parameters) or not all(self.is_of_values(m, e, rigid) for _, e, _ in members):
            entry.kind = "predicate"
            Inference(self, m, d.place).predicate(d, entry)
            return
        entry.fields = [(name, self.type(m, e, rigid), e, comment) for name, e, comment in members]

    def declare_data(self, m, d, entry):
        for name, text, comment in d.constructors:
            ast = parsed(text)
            t, arguments = self.type(m, ast, {}), []
            while t[0] == "fun":
                arguments.append(t[1])
                t = t[2]
            entry.constructors.append((name, arguments, ast, comment))

    def declare_function(self, m, d, entry):
        rigid = {name: name for names, _, _ in d.parameters or [] for name in names}
        entry.signature = parsed(d.signature)
        entry.type = self.type(m, entry.signature, rigid)
        for line, text, comment in d.clauses:
            place = "%s:%d" % (m.path, line)
            inference = Inference(self, m, place, {name: name for name in variables(entry.type)})
            entry.clauses.append((*inference.clause(d, entry, text), comment))
        if not entry.clauses:
            raise Refused("%s: %s has no clause" % (d.place, d.name))

    # types

    def is_of_values(self, m, e, rigid):
        try:
            self.type(m, e, rigid)
            return True
        except Refused:
            return False

    def type(self, m, e, rigid):
        if is_type(e):
            return PROPOSITION
        if e[0] == "pi":
            if e[4]:
                return self.type(m, e[3], {**rigid, **{name: name for name in e[1]}})
            return fun([self.type(m, e[2], rigid)] * len(e[1]), self.type(m, e[3], rigid))
        if e[0] == "name":
            return ("var", rigid[e[1]]) if e[1] in rigid else self.named_type(m, e[1])
        if e[0] == "app":
            f = self.type(m, e[1], rigid)
            if f[0] == "con":
                word = f[1] if isinstance(f[1], str) else f[1][1]
                return f if len(f[2]) == library.KEPT.get(word) else ("con", f[1], f[2] + [self.type(m, e[2], rigid)])
        if e[0] == "op" and e[1] == "→":
            return ("fun", self.type(m, e[2], rigid), self.type(m, e[3], rigid))
        if e[0] == "product":
            return ("tuple", [self.type(m, x, rigid) for x in e[1]])
        raise Refused("%s: no type of values: %s" % (m.path, str(e)[:100]))

    def named_type(self, m, name):
        if name in library.EVERYWHERE:
            return con(library.EVERYWHERE[name])
        key, rest = self.lookup(m, name)
        if rest or key[0] == "variant" or key[0] == "given" and key[1] not in library.TYPES:
            raise Refused("%s: no type: %s" % (m.path, name))
        if key[0] == "given":
            return con(key[1])
        entry = self.get(key[1])
        if entry.kind == "synonym":
            return self.type(entry.module, entry.definition.synonym, {})
        if entry.kind == "value":
            return entry.type
        if entry.kind not in ("record", "data"):
            raise Refused("%s: no type of values: %s" % (m.path, name))
        return con(key[1])

    # types of .rt files

    def rust(self, crate, name, inner):
        return self.rust_entry(rust.find(self.crates, crate, name, inner or None), crate, name)

    def rust_entry(self, found, crate, name):
        if found is None or found.kind == "alias":
            raise Refused("no type %s in the .rt files of %s" % (name, crate))
        id = (found.module + "." + name, name)
        if id in self.refused:
            raise Refused(self.refused[id])
        if id not in self.entries:
            m = self.modules[id[0]] = Module(id[0], found.path)
            kind = {"struct": "record", "enum": "data", "value": "value"}[found.kind]
            entry = self.entries[id] = Entry(id, kind, m, found.path)
            entry.parameters = found.parameters
            try:
                self.rust_members(found, entry)
            except Refused as refused:
                self.entries.pop(id)
                self.refused[id] = str(refused)
                raise
        return self.entries[id]

    def rust_members(self, found, entry):
        if found.kind == "value":
            entry.type = self.rust_model(found)
        elif found.kind == "struct":
            for field, t in rust.fields(found.body):
                entry.fields.append((field, self.rust_type(found, t), None, []))
        else:
            for variant, types in rust.variants(found.body):
                entry.constructors.append((variant, [self.rust_type(found, t) for t in types], None, []))

    def rust_type(self, at, t):
        if t in at.parameters:
            return ("var", t)
        if t in ("u8", "u16", "u32", "u64", "u128", "usize"):
            return NUMBER
        if t == "bool":
            return BOOL
        if t.startswith("(") and t.endswith(")"):
            return ("tuple", [self.rust_type(at, part) for part in rust.split(t[1:-1])])
        if t.startswith("[") and ";" in t:
            return con("List", self.rust_type(at, t[1:].split(";")[0].strip()))
        name, _, arguments = t.partition("<")
        arguments = rust.split(arguments[:-1])
        if name in ("Option", "Vec"):
            return con(library.VEC if name == "Vec" else name, self.rust_type(at, arguments[0]))
        if name == "ArrayVec":
            return con(self.get(("Rattle.arrayvec.specs.ArrayVec", "ArrayVec")).id, self.rust_type(at, arguments[0]))
        if not name.isidentifier():
            raise Refused("%s: type %s" % (at.path, t))
        return self.rust_named(at, name, arguments)

    def rust_named(self, at, name, arguments):
        found = rust.find_used(self.crates, at.crate, rust.text_of(at.path), name)
        if found.kind == "alias":
            return self.rust_type(found, found.body.strip())
        if found.kind == "value":
            return self.rust_model(found)
        entry = self.rust_entry(found, found.crate, name)
        return con(entry.id, *[self.rust_type(at, argument) for argument in arguments])

    def rust_model(self, found):
        """The `ghost Value` of a type, in the names that its file uses."""
        return self.type(rust_module("value", found.path), parsed(found.body), {})

    # what expressions need

    def steps(self, of, field):
        """The words ('fst', 'snd', 'witness' or 'proof') that lead to a part of a tuple or a predicate, the first one first."""
        if of[0] == "tuple":
            at, bound = int(field), [False] * (of[1] - 1)
        else:
            entry = self.entries[of[1]]
            names = [name for name, *_ in entry.fields]
            at, bound = names.index(field), [name in entry.bound for name in names[:-1]]
        return ["proof" if is_bound else "snd" for is_bound in bound[:at]] + [
            "witness" if is_bound else "fst" for is_bound in bound[at:at + 1]]

    def constructor(self, key):
        """The type of a constructor, or None if the key is of something else."""
        if key[0] == "given":
            return library.VALUES[key[1]] if key[1] in library.CONSTRUCTORS else None
        if key[0] != "variant":
            return None
        entry = self.get(key[1])
        for name, arguments, *_ in entry.constructors:
            if name == key[2]:
                return fun(arguments, con(entry.id, *[("var", p) for p in entry.parameters]))
        raise Refused("no constructor %s of %s" % (key[2], key[1][1]))

    def value(self, key):
        """The type of a value."""
        if key[0] == "given":
            if key[1] not in library.VALUES:
                raise Refused("no type of %s" % key[1])
            return library.VALUES[key[1]]
        if key[0] == "variant":
            return self.constructor(key)
        entry = self.get(key[1])
        if entry.type is None:
            raise Refused("%s is no value" % key[1][1])
        return entry.type

    def record(self, t, place):
        t = prune(t)
        entry = self.entries.get(t[1]) if t[0] == "con" else None
        if entry is None or entry.kind not in ("record", "predicate"):
            raise Refused("%s: a field of what is no record" % place)
        return entry


def rust_module(name, path):
    """The names that a .rt file uses in its ghost code."""
    m, text = Module(name, path), rust.text_of(path)
    m.uses["ℕ"] = ("Prim.Native.Nat", "ℕ")
    for line in rust.ghost_uses(text):
        use(m, line)
    return m

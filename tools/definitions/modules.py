"""The .antt files: what a module uses and declares, each declaration with the comment above it."""

import re

from syntax import Parser, Refused, words

MARKS = re.compile(r"((?:pattern |unfoldable |abbrev |pub )*)(.*)", re.S)
USE_ITEMS = re.compile(r"(?:unfoldable )?(?:pub )?use (\S+?)\.\{(.*)\}$")
USE_MODULE = re.compile(r"(?:pub )?use (\S+)(?: as (\S+))?$")


class Definition:
    """A function or predicate ('fun'), a 'record' or a 'data' type, as its file has it."""

    def __init__(self, module, name, kind, line, comment):
        self.module, self.name, self.kind, self.line, self.comment = module, name, kind, line, comment
        self.signature = self.parameters = self.refused = None
        self.clauses = []           # (line, text, comment)
        self.fields = []            # [name, type, comment]
        self.constructors = []      # [name, type, comment]

    @property
    def id(self):
        return (self.module.name, self.name)

    @property
    def place(self):
        return "%s:%d" % (self.module.path, self.line)


class Module:
    def __init__(self, name, path):
        self.name, self.path, self.comment = name, path, []
        self.uses = {}              # local name: (module, item)
        self.overloaded = {}        # local name: the others that have it
        self.aliases = {}           # local name: module
        self.definitions = {}       # in the order of the file
        self.constructors = {}      # constructor: the definition of its data type
        self.local = {}             # what a name of this file denotes: that name

    def declare(self, definition):
        self.definitions[definition.name] = definition
        return definition


def use(module, line):
    """Notes the names of a `use` line; whether it is one."""
    match = USE_ITEMS.match(line)
    if match:
        for item in match[2].split(","):
            name, _, local = item.strip().partition(" as ")
            if name:
                here = (local or name).strip()
                if here in module.uses:
                    module.overloaded.setdefault(here, []).append(module.uses[here])
                module.uses[here] = (match[1], name.strip())
        return True
    match = USE_MODULE.match(line)
    if match:
        module.aliases[match[2] or match[1].split(".")[-1]] = match[1]
    return bool(match)


def is_comment(line):
    return line.lstrip().startswith("--")


def without_comments(lines):
    return [line for line in lines if line.strip() and not is_comment(line)]


def blocks(lines, first):
    """(line number, comment, lines) of each declaration: a line at the margin, with the lines below it that are indented."""
    found, comment, at = [], [], 0
    while at < len(lines):
        line = lines[at]
        if not line.strip() or is_comment(line):
            comment = comment + [line.strip()] if line.strip() else []
            at += 1
            continue
        end = at + 1
        while end < len(lines) and (not lines[end].strip() or lines[end][0] in " )}"):
            end += 1
        found.append((first + at, comment, [line for line in lines[at:end] if line.strip()]))
        comment, at = [], end
    return found


def read_module(name, path):
    module = Module(name, path)
    with open(path, encoding="utf-8") as file:
        lines = file.read().split("\n")
    for line in lines:
        if not is_comment(line):
            break
        module.comment.append(line.strip())
    read_blocks(module, blocks(lines, 1), [])
    return module


def read_blocks(module, found, parameters):
    current = None
    for number, comment, lines in found:
        try:
            current = read_block(module, number, comment, lines, parameters, current)
        except Refused as refused:
            raise Refused("%s:%d: %s" % (module.path, number, refused)) from None


def read_block(module, number, comment, lines, parameters, current):
    """Returns the function to which clauses that follow belong."""
    text = "\n".join(without_comments(lines))
    if use(module, text.replace("\n", " ")):
        return None
    if re.match(r"(pub )?mod |infix|(pub )?ruleset |unfolding ", text):
        return current
    if text.startswith("module _"):
        head = lines[0][len("module _"):lines[0].rindex("where")]
        inner = [line[2:] for line in lines[1:]]
        read_blocks(module, blocks(inner, number + 1), parameters + binders(head))
        return None
    rest = MARKS.match(text)[2]
    if rest.startswith(("record ", "data ")):
        return read_type(module, number, comment, lines, rest.split()[0])
    match = re.match(r"(\S+)(?: \{[^}:]*\})? : (.*)$", rest, re.S)
    if match and " = " not in rest.split("\n")[0].split(" : ")[0]:
        definition = Definition(module, match[1], "fun", number, comment)
        definition.signature, definition.parameters = " ".join(match[2].split()), parameters
        return module.declare(definition)
    if current is None:
        raise Refused("a clause of no function: " + text)
    current.clauses.append((number, " ".join(text.split("\n")), comment))
    return current


def binders(text):
    parser, found = Parser(words(text)), []
    while parser.peek():
        binder = parser.binder()
        if binder:
            found.append(binder)
        elif parser.peek() == "{":          # a level
            parser.skip_braces()
        else:
            raise Refused("no parameters: " + text)
    return found


def members(lines):
    """[name, type, comment] of each field or constructor."""
    found, comment = [], []
    for line in lines:
        match = re.match(r"  (?:pub )?(\S+) : (.*)$", line)
        if is_comment(line):
            comment.append(line.strip())
        elif match:
            found.append([match[1], match[2], comment])
            comment = []
        elif found and line.startswith("   "):
            found[-1][1] += " " + line.strip()
        else:
            raise Refused("no field or constructor: " + line)
    return found


def read_type(module, number, comment, lines, kind):
    """A record, or a data type. One of a form that no file of ours has is refused where it is used."""
    definition = module.declare(Definition(module, re.search(kind + r" (\S+)", lines[0])[1], kind, number, comment))
    end = next((at for at, line in enumerate(lines) if line.endswith(" where")), len(lines))
    head = re.match(r"(?:pub )?%s \S+\s*(.*?): Type \S+ where$" % kind, " ".join(line.strip() for line in lines[:end + 1]))
    try:
        if not head:
            raise Refused("a form that is not read")
        definition.parameters, found = binders(head[1]), members(lines[end + 1:])
    except Refused as refused:
        definition.refused = str(refused)
    else:
        definition.fields, definition.constructors = (found, []) if kind == "record" else ([], found)
        module.constructors.update({name: definition for name, *_ in definition.constructors})

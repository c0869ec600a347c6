"""What documents cite: a definition that a page gives with its file is defined there, and one that a
section of docs/PROVED.md names is reached from a clause, a call or a law that the section has."""

import os
import re

import calls
import passages

read, found = passages.read, passages.found

IMPORT = re.compile(r"^(?:ghost )?use Rattle\.(\w+)\.specs\.(\w+(?:\.\w+)*)\.\{([^}]*)\}", re.M)
DEFINED = re.compile(r"(?:abbrev |unfoldable )?pub (?:record |data )?([\w'×-]+)")
ITEM = re.compile(r"\b(?:struct|enum|trait|fn|const|type|mod) (\w+)")
CALL = re.compile(r"^ *(?:pub )?(?:const )?(?:extern \"C\" )?fn (\w+)")
WORD = re.compile(r"(?<![\w'.])[\w'×]+(?:-[\w'×]+)*")

# `Name`, `Name` and `Name`, and then the file that defines them: (`specs/File.antt`), of `crate/specs/File.antt`
# or of `crate` (`specs/File.antt`).
PLACED = re.compile(r"((?:`[\w']+`(?:, (?:and )?| and )?)+)(?: of `(\w+)`)? (?:\(|of )`(?:(\w+)/)?specs/([\w/]+)\.antt`")


def words(text):
    """The words of a text that may name a definition: all but fields and variants."""
    return set(WORD.findall(text))


def imports(path):
    """Where each word that a file imports from a specification is defined, and under which name."""
    places = {}
    for crate, module, some in IMPORT.findall(read(path)):
        for item in some.split(","):
            name, _, alias = item.strip().partition(" as ")
            places[alias or name] = ("crates/%s/specs/%s.antt" % (crate, module.replace(".", "/")), name)
    return places


def definitions(path):
    """Each definition of a specification, with its fields and the words of its text."""
    text = re.sub(r"--.*", "", re.sub(r"^use [^{\n]*(?:\{[^}]*\})?\n", "", read(path), flags=re.M))
    for part in re.split(r"^(?=(?:abbrev |unfoldable )?pub )", text, flags=re.M):
        name = DEFINED.match(part)
        if name and name[1] != "mod":
            yield name[1], (re.findall(r"^  pub (\w+) :", part, re.M), words(part))


class Tree:
    """The definitions, calls and laws of all crates."""

    def __init__(self):
        self.defined = {path: dict(definitions(path)) for path in found("crates/*/specs/**/*.antt")}
        self.imported = {path: imports(path) for path in self.defined}
        self.used, self.clauses = {}, []
        # what is no definition: crates, the names of the header, of the sources and of std, and an event
        self.names = {"Ok", "None", "Wait", "assert", "true", *map(os.path.basename, found("crates/*"))}
        self.names.update(re.findall(r"\w+", re.sub(r"/\*.*?\*/", "", read("include/synicboard.h"), flags=re.S)))
        for path in found("crates/*/src/**/*.rt"):
            self.source(path)

    def source(self, path):
        """The words of the clauses of each function, which its file imports from specifications."""
        text = re.sub(r"//.*", "", read(path))
        self.names.update(ITEM.findall(text))
        self.names.update(name for body in re.findall(r"^pub enum .*?^}", text, re.M | re.S) for name in re.findall(r"^    (\w+)", body, re.M))
        places, lines, owner = imports(path), text.splitlines(), None
        for at, line in enumerate(lines):
            block = re.match(r"(?:impl|pub trait)(?:<[^>]*>)? (?:\w+(?:<[^>]*>)? for )?(\w+)", line)
            owner = block[1] if block else None if line.startswith("}") else owner
            call = CALL.match(line)
            if not call:
                continue
            whole = set()
            for clause in calls.header(lines[at:]):
                uses = {places[word] for word in words(clause) if word in places}
                self.clauses.append((" ".join(clause.split()), uses))
                self.names.update(re.findall(r"^(?:ensures|requires)\*? (\w+) \{", clause))
                whole.update(uses)
            for name in {call[1], "%s::%s" % (owner, call[1])}:
                self.used.setdefault(name, set()).update(whole)

    def quoted(self, text):
        """What the clauses use that have this text."""
        return set().union(*(uses for clause, uses in self.clauses if text in clause))

    def reached(self, places):
        """The names of all definitions that these reach, and of their fields."""
        open_places, seen, names = set(places), set(), set()
        while open_places:
            path, name = open_places.pop()
            if (path, name) in seen or name not in self.defined.get(path, ()):
                continue
            fields, used = self.defined[path][name]
            seen.add((path, name))
            names.update([name, *fields])
            open_places.update(self.imported[path].get(word, (path, word)) for word in used)
        return names


def placed(tree, page):
    """A name that a page gives with its file is defined there."""
    for names, of, crate, module in PLACED.findall(read(page)):
        paths = found("crates/%s/specs/%s.antt" % (crate or of or "*", module))
        for name in re.findall(r"`([\w']+)`", names):
            if not any(name in tree.defined[path] for path in paths):
                yield "%s: no %sspecs/%s.antt defines %s" % (page, (crate or of) + "/" if crate or of else "", module, name)


def cited(tree, section):
    """The definitions that a section's quoted clauses, its calls and its laws use, and those that it gives with their file."""
    places = set()
    for names, of, crate, module in PLACED.findall(section):
        for path in found("crates/%s/specs/%s.antt" % (crate or of or "*", module)):
            places.update((path, name) for name in re.findall(r"`([\w']+)`", names))
    for name in re.findall(r"`(\w+(?:::\w+)?)`", section):
        places.update(tree.used.get(name, ()))
    for clause in re.findall(r"^((?:ensures|requires) .*)$|`((?:ensures|requires) [^`]*)`", section, re.M):
        places.update(tree.quoted(" ".join("".join(clause).split())))
    return places


def reachable(tree, page):
    """Each definition that a section names, in a row of a table or in a sentence, is one that its clauses, calls and laws reach."""
    for section in re.split(r"^#+ ", read(page), flags=re.M):
        there = None
        for name in sorted(set(re.findall(r"`([A-Za-z]\w*)`", re.sub(r"^```.*?^```", "", section, flags=re.M | re.S)))):
            if name not in tree.names:
                there = tree.reached(cited(tree, section)) if there is None else there
                if name not in there:
                    yield "%s: \"%s\" has no clause, call or law that reaches %s" % (page, section.splitlines()[0], name)


def differences():
    tree = Tree()
    for page in found("*.md") + found("docs/*.md") + found("crates/*/README.md"):
        yield from placed(tree, page)
    yield from reachable(tree, "docs/PROVED.md")

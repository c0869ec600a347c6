"""The enums, structs and aliases of .rt files, as far as definitions use them."""

import functools
import os
import re

from syntax import Refused

TYPE = r"^(?:pub(?:\([a-z]*\))? )?(enum|struct) %s(?:<([\w, ]*)>)? \{\n(.*?)^\}"
ALIAS = r"^pub(?:\([a-z]*\))? type %s = ([^;]*);"
MODEL = r"^impl(?:<[^>]*>)? Model for %s(?:<[^>]*>)? \{.*?ghost Value = \{ (.*?) \};"


@functools.lru_cache(None)
def text_of(path):
    with open(path, encoding="utf-8") as file:
        return file.read()


def files(source):
    """The .rt files of a crate, with their paths as modules."""
    for folder, _, names in sorted(os.walk(source)):
        for name in sorted(names):
            if name.endswith(".rt"):
                path = os.path.join(folder, name)
                inner = os.path.relpath(path, source)[:-len(".rt")].split(os.sep)
                yield path, [part for part in inner if part not in ("lib", "main", "mod")]


class Found:
    """A type in a file: its kind ('enum', 'struct', 'alias' or 'value'), parameters and text."""

    def __init__(self, crate, path, inner, kind, parameters, body):
        self.crate, self.path, self.inner, self.kind, self.parameters, self.body = crate, path, inner, kind, parameters, body

    @property
    def module(self):
        return "Rattle.%s.specs.declared.%s" % (self.crate, ".".join(self.inner))


def find(crates, crate, name, only=None):
    """The type of this name in a crate, in the file of the module `only` if it is given; None if there is none."""
    source = os.path.join(crates, crate, "src")
    for path, inner in files(source) if os.path.isdir(source) else ():
        if only is not None and inner != only:
            continue
        text = text_of(path)
        alias, model = re.search(ALIAS % name, text, re.M), re.search(MODEL % name, text, re.M | re.S)
        match = re.search(TYPE % name, text, re.M | re.S)
        if alias:
            return Found(crate, path, inner, "alias", [], alias[1])
        if match and model:
            return Found(crate, path, inner, "value", [], model[1])
        if match:
            parameters = [part.strip() for part in (match[2] or "").split(",") if part.strip()]
            body = re.sub(r"//[^\n]*|#\[[^\n]*\]", "", match[3])
            return Found(crate, path, inner, match[1], parameters, body)
    return None


def used(text):
    return re.findall(r"^(?:pub )?use (\w+)::", text, re.M)


def find_used(crates, crate, text, name):
    """The type that a name denotes in a file: of its crate, or of one that it uses, or that these use."""
    left, seen = [crate] + used(text), set()
    while left:
        other = left.pop(0)
        if other in seen:
            continue
        seen.add(other)
        found = find(crates, other, name)
        if found:
            return found
        root = os.path.join(crates, other, "src", "lib.rt")
        left += used(text_of(root)) if os.path.exists(root) else []
    raise Refused("no type %s of a .rt file" % name)


def split(text):
    """The parts of a text between commas that no bracket encloses."""
    parts, depth = [""], 0
    for character in text:
        depth += (character in "<([{") - (character in ">)]}")
        if character == "," and depth == 0:
            parts.append("")
        else:
            parts[-1] += character
    return [part.strip() for part in parts if part.strip()]


def fields(body):
    """(name, type) of each field of a struct, or of a variant with named fields."""
    found = []
    for part in split(body):
        match = re.fullmatch(r"(?:pub(?:\([a-z]*\))? )?(\w+)\s*:\s*(.+)", part, re.S)
        if not match:
            raise Refused("field " + part)
        found.append((match[1], match[2]))
    return found


def variants(body):
    """(name, [type]) of each variant of an enum."""
    found = []
    for part in split(body):
        match = re.fullmatch(r"(\w+)\s*(?:\((.*)\)|\{(.*)\})?(?:\s*=\s*\w+)?", part, re.S)
        if not match:
            raise Refused("variant " + part)
        found.append((match[1], split(match[2]) if match[2] else [t for _, t in fields(match[3] or "")]))
    return found


def ghost_uses(text):
    """The `use` lines of the ghost code of a file, as .antt files have them."""
    return ["use " + " ".join(line.split()) for line in re.findall(r"^\s*ghost use (.*?);", text, re.M | re.S)]

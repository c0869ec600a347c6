"""The theorems of the crates law_*: functions with an empty body, whose clauses are the statements. A law with arguments
and a body is a claim about calls of the code, and no statement about the definitions."""

import os
import re

import rust
from inference import Inference
from modules import Module, use
from syntax import Refused, parsed
from unification import PROPOSITION

THEOREM = re.compile(r"((?:^///[^\n]*\n)*)^pub fn (\w+)\(\)(.*?)^\{\}", re.M | re.S)
CLAUSE = re.compile(r"ensures (\w+ )?\{(.*?)\}(?=\s*(?:ensures|$))", re.S)


class Statement:
    def __init__(self, module, name, e, comment):
        self.module, self.name, self.e, self.comment = module, name, e, comment


def statements(program, complaints):
    found = []
    for crate in sorted(os.listdir(program.crates)):
        source = os.path.join(program.crates, crate, "src")
        if crate.startswith("law_") and os.path.isdir(source):
            for path, inner in rust.files(source):
                found += of_file(program, crate, path, inner, complaints)
    return found


def of_file(program, crate, path, inner, complaints):
    text = rust.text_of(path)
    module = Module(".".join(["Rattle", crate, "specs", "Theorems"] + [part for part in inner if part != "laws"]), path)
    for line in rust.ghost_uses(text):
        use(module, line)
    theorems = THEOREM.findall(text)
    if len(theorems) != len(re.findall(r"^\{\}", text, re.M)):
        complaints.append("%s: a theorem of a form that is not read" % path)
    for comment, name, clauses in theorems:
        place = "%s:%d" % (path, text[:text.index("fn " + name + "(")].count("\n") + 1)
        for label, body in CLAUSE.findall(clauses.strip()):
            try:
                e = Inference(program, module, place).typed(parsed(" ".join(body.split())), PROPOSITION, {})
            except Refused as refused:
                complaints.append("%s: %s: %s" % (place, name, refused))
                continue
            yield Statement(module, name + ("_" + label.strip() if label else ""), e,
                            ["--" + line[3:] for line in comment.splitlines()])


def pages(program, found, language):
    """A module for each file with theorems, whose definitions are their statements, with its source."""
    of = {}
    for statement in found:
        of.setdefault(statement.module.name, []).append(statement)
    for group in of.values():
        page = language.Page(program, group[0].module)
        for statement in group:
            page.state(statement)
        yield page, os.path.relpath(group[0].module.path, program.root)

"""The words and the expressions of .antt files.

An expression or a type is a tuple: ('name', path) ('num', digits) ('text', characters) ('app', f, a) ('op', o, a, b)
('if', c, a, b) ('lam', x, type, e) ('let', x, type, e, body) ('tuple', [e]) ('rec', [(field, e)]) ('upd', e, [(field, e)])
('proj', e, field) ('pi', [x], type, body, is_implicit) ('sigma', [x], type, body) ('product', [type]). A type that is
not given is None."""

import re

NAME = r'[^\s(){}.;,@"«»]+'
WORD = re.compile(r'\s*(?:("(?:[^"\\]|\\.)*")|(\.(?=%s)|[(){};,.])|(%s(?:\.%s)*))' % (NAME, NAME, NAME))
NUMBER = re.compile(r"\d[\d_]*|0x[0-9a-f_]+|0b[01_]+")

# operator: precedence, and the side to which it groups
OPERATORS = {"^": (75, "r"), "*": (70, "l"), "/": (70, "l"), "%": (70, "l"), "∷": (67, "r"), "+": (65, "l"), "-": (65, "l"),
             "++": (65, "r"), "<": (50, "n"), "≤": (50, "n"), "==": (40, "n"), "&&": (35, "l"), "||": (30, "l"), "≡": (4, "n"),
             "≢": (4, "n"), "×": (3, "x"), "⊎": (2, "r"), "↔": (1, "n"), "→": (0, "r")}
NO_ATOM = set(OPERATORS) | set(") } ; , . = : in then else { λ let if ↦ |".split())


class Refused(Exception):
    """A text that this program does not read."""


def words(text):
    """The words of a text, each with whether it follows the one before without a space."""
    found, at, text = [], 0, text.rstrip()
    while at < len(text):
        match = WORD.match(text, at)
        if not match:
            raise Refused("no word at " + text[at:at + 40])
        found.append((match[match.lastindex], match.start(match.lastindex) == at))
        at = match.end()
    return found


class Parser:
    """Reads one expression after another from words."""

    def __init__(self, given):
        self.words, self.at = given, 0

    def peek(self):
        return self.words[self.at][0] if self.at < len(self.words) else None

    def next(self):
        if self.peek() is None:
            raise Refused("the text ends too early: " + self.text())
        self.at += 1
        return self.words[self.at - 1][0]

    def text(self):
        return " ".join(word for word, _ in self.words)

    def eat(self, word):
        if self.peek() != word:
            raise Refused("%s in place of %s in %s" % (self.peek(), word, self.text()))
        self.at += 1

    def whole(self):
        e = self.expression(0)
        if self.peek() is not None:
            raise Refused("%s is left of %s" % (self.peek(), self.text()))
        return e

    def skip_braces(self):
        while self.next() != "}":
            pass

    def binder(self):
        """(names, type, is_implicit) of `(names : type)` or `{names : type}`, or None if there is none here."""
        if self.peek() not in ("(", "{"):
            return None
        at, names = self.at + 1, []
        while at < len(self.words) and re.fullmatch(NAME, self.words[at][0]) and self.words[at][0] != ":":
            names.append(self.words[at][0])
            at += 1
        if not names or at >= len(self.words) or self.words[at][0] != ":":
            return None
        is_implicit = self.peek() == "{"
        self.at = at + 1
        t = self.expression(0)
        self.eat("}" if is_implicit else ")")
        return names, t, is_implicit

    def bound(self, first):
        """The rest of a function type or of a dependent pair, after its first binder."""
        groups = []
        while first:
            groups.append(first)
            first = self.binder()
        kind = {"→": "pi", "×": "sigma"}.get(self.peek())
        if kind is None:
            raise Refused("neither → nor × after a binder in " + self.text())
        self.next()
        e = self.expression(0 if kind == "pi" else 3)
        for names, t, is_implicit in reversed(groups):
            e = ("pi", names, t, e, is_implicit) if kind == "pi" else ("sigma", names, t, e)
        return e

    def expression(self, level):
        first = self.binder() if level <= 3 else None
        if first:
            return self.bound(first)
        left = self.application()
        while self.peek() in OPERATORS:
            operator = self.peek()
            precedence, side = OPERATORS[operator]
            if precedence < level:
                break
            self.next()
            if side == "x":
                left = self.product(left)
            else:
                left = ("op", operator, left, self.expression(precedence if side == "r" else precedence + 1))
        return left

    def product(self, first):
        parts = [first]
        while True:
            binder = self.binder()
            if binder:
                self.eat("×")
                parts.append(("sigma", binder[0], binder[1], self.expression(3)))
                break
            parts.append(self.expression(4))
            if self.peek() != "×":
                break
            self.next()
        return ("product", parts)

    def abstraction(self):
        self.eat("λ")
        names = []
        while self.peek() != ".":
            binder = self.binder()
            names += [(name, binder[1]) for name in binder[0]] if binder else [(self.next(), None)]
        self.eat(".")
        e = self.expression(0)
        for name, t in reversed(names):
            e = ("lam", name, t, e)
        return e

    def binding(self):
        self.eat("let")
        name, t = self.next(), None
        if self.peek() == ":":
            self.next()
            t = self.expression(0)
        self.eat("=")
        e = self.expression(0)
        self.eat("in")
        return ("let", name, t, e, self.expression(0))

    def choice(self):
        self.eat("if")
        condition = self.expression(5)
        self.eat("then")
        first = self.expression(5)
        self.eat("else")
        return ("if", condition, first, self.expression(5))

    def application(self):
        forms = {"λ": self.abstraction, "let": self.binding, "if": self.choice}
        if self.peek() in forms:
            return forms[self.peek()]()
        f = self.atom()
        if f is None:
            raise Refused("no term at %s in %s" % (self.peek(), self.text()))
        while True:
            if self.peek() in forms:
                f = ("app", f, self.application())
            elif self.peek() == "{":       # an implicit argument or a level, which Agda infers
                self.skip_braces()
            else:
                a = self.atom()
                if a is None:
                    return f
                f = ("app", f, a)

    def atom(self):
        word = self.peek()
        if word == "record":
            return self.record()
        if word == "(":
            return self.parentheses()
        if word is None or word in NO_ATOM:
            return None
        self.next()
        if NUMBER.fullmatch(word):
            return ("num", word.replace("_", ""))
        return ("text", word[1:-1]) if word.startswith('"') else ("name", word)

    def record(self):
        self.eat("record")
        base = None if self.peek() == "{" else self.atom()
        self.eat("{")
        fields = []
        while self.peek() != "}":
            field = self.next()
            self.eat("=")
            fields.append((field, self.expression(0)))
            if self.peek() == ";":
                self.next()
        self.eat("}")
        return ("rec", fields) if base is None else ("upd", base, fields)

    def parentheses(self):
        self.eat("(")
        parts, is_tuple = [self.expression(0)], False
        while self.peek() == ",":
            is_tuple = True
            self.next()
            if self.peek() == ")":
                break
            parts.append(self.expression(0))
        self.eat(")")
        e = ("tuple", parts) if is_tuple else parts[0]
        while self.peek() == "." and self.at + 1 < len(self.words) and self.words[self.at][1] and self.words[self.at + 1][1]:
            self.next()
            for field in self.next().split("."):
                e = ("proj", e, field)
        return e


def parsed(text):
    return Parser(words(text)).whole()

"""Types, and their unification: ('con', id, [type]) ('var', name) ('fun', from, to) ('tuple', [type]) ('meta', cell)."""

from syntax import Refused


def con(name, *arguments):
    return ("con", name, list(arguments))


NUMBER, BOOL, PROPOSITION = con("ℕ"), con("Bool"), con("Set")


def fun(arguments, result):
    for argument in reversed(arguments):
        result = ("fun", argument, result)
    return result


def result_of(t):
    t = prune(t)
    while t[0] == "fun":
        t = prune(t[2])
    return t


def meta():
    return ("meta", [None])


def prune(t):
    while t[0] == "meta" and t[1][0] is not None:
        t = t[1][0]
    return t


def parts(t):
    return t[2] if t[0] == "con" else t[1:] if t[0] == "fun" else t[1] if t[0] == "tuple" else []


def shown(t):
    t = prune(t)
    if t[0] == "con":
        return " ".join([t[1] if isinstance(t[1], str) else t[1][1]] + [shown(a) for a in t[2]])
    if t[0] == "fun":
        return "(%s → %s)" % (shown(t[1]), shown(t[2]))
    if t[0] == "tuple":
        return "(%s)" % " × ".join(map(shown, t[1]))
    return t[1] if t[0] == "var" else "?"


def unify(a, b, place):
    a, b = prune(a), prune(b)
    if a is b or a[0] == b[0] == "meta" and a[1] is b[1]:
        return
    if a[0] == "meta":
        a[1][0] = b
    elif b[0] == "meta":
        b[1][0] = a
    elif a[0] == b[0] and (a[0] not in ("con", "var") or a[1] == b[1]) and len(parts(a)) == len(parts(b)):
        for x, y in zip(parts(a), parts(b)):
            unify(x, y, place)
    else:
        raise Refused("%s: types %s and %s" % (place, shown(a), shown(b)))


def instantiated(t, names):
    """The type with its variables replaced: by those of `names`, and otherwise by unknown types."""
    t = prune(t)
    if t[0] == "var":
        return names.setdefault(t[1], meta())
    if t[0] == "con":
        return ("con", t[1], [instantiated(x, names) for x in t[2]])
    if t[0] == "fun":
        return ("fun", instantiated(t[1], names), instantiated(t[2], names))
    if t[0] == "tuple":
        return ("tuple", [instantiated(x, names) for x in t[1]])
    return t


def variables(t, found=()):
    """The type variables of a type, in their order."""
    t = prune(t)
    found = list(found)
    if t[0] == "var" and t[1] not in found:
        found.append(t[1])
    for part in parts(t):
        found = variables(part, found)
    return found

"""Expressions that a body has twice are computed once: `share e λ x → ..`, which is equal to the body by computation.
A recursive function that names its recursive call twice would otherwise take exponentially many steps."""


def rebuilt(e, f):
    """The expression with its parts replaced."""
    kind = e[0]
    if kind == "app":
        return ("app", f(e[1]), tuple(map(f, e[2])))
    if kind == "if":
        return ("if", *map(f, e[1:]))
    if kind == "lam":
        return ("lam", e[1], f(e[2]))
    if kind == "proj":
        return ("proj", e[1], f(e[2]), e[3])
    if kind == "let":
        return ("let", e[1], f(e[2]), f(e[3]))
    if kind == "tuple":
        return ("tuple", tuple(map(f, e[1])))
    if kind == "rec":
        return ("rec", e[1], f(e[2]) if e[2] is not None else None, tuple((field, f(x)) for field, x in e[3]))
    return e


def children(e):
    found = []
    rebuilt(e, found.append)
    return found


def size(e):
    return 1 + sum(map(size, children(e)))


def free(e):
    """The variables that occur free."""
    if e[0] == "var":
        return {e[1]}
    if e[0] == "lam":
        return free(e[2]) - {e[1]}
    if e[0] == "let":
        return free(e[2]) | (free(e[3]) - {e[1]})
    return set().union(*map(free, children(e)))


def count(e, bound, counts):
    """Counts the applications of definitions that name no variable bound inside the body."""
    if e[0] == "app" and e[1][0] == "def" and not free(e) & bound:
        counts[e] = counts.get(e, 0) + 1
    if e[0] == "let":
        count(e[2], bound, counts)
    inner = bound | {e[1]} if e[0] in ("lam", "let") else bound
    for child in [e[-1]] if e[0] in ("lam", "let") else children(e):
        count(child, inner, counts)


def replaced(x, e, name):
    """x with this name in place of e, where the variables of e are the same."""
    if x == e:
        return ("var", name)
    if x[0] == "lam" and x[1] in free(e):
        return x
    if x[0] == "let" and x[1] in free(e):
        return ("let", x[1], replaced(x[2], e, name), x[3])
    return rebuilt(x, lambda child: replaced(child, e, name))


def shared(body):
    """(bindings, body): the names of what is computed once, and the body with them."""
    bindings = []
    while True:
        counts = {}
        for e in [x for _, x in bindings] + [body]:
            count(e, frozenset(), counts)
        twice = [e for e, n in counts.items() if n > 1]
        if not twice:
            return bindings, body
        e, name = max(twice, key=size), "shared%d" % (len(bindings) + 1)
        bindings = [(name, e)] + [(other, replaced(x, e, name)) for other, x in bindings]
        body = replaced(body, e, name)

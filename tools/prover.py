"""The dependencies of the crates and the minutes of their proofs, what a built file was made from, and the command that
has the toolchain check a crate against the libraries that `rt ci` proved in this checkout."""

import collections
import functools
import hashlib
import os
import subprocess

ROOT = os.path.dirname(os.path.dirname(os.path.abspath(__file__)))


def libraries():
    """The dependencies of each crate, in the order of crates.txt, which has the lowest first."""
    crates = {}
    with open(os.path.join(ROOT, "crates.txt"), encoding="utf-8") as file:
        for line in file:
            if line.strip() and not line.startswith("#"):
                name, below = line.split(":")
                crates[name.split()[0]] = below.split()
    return crates


def below(crates, name):
    """The crates that this one depends on, lowest first."""
    found = set()
    left = [name]
    while left:
        for library in crates[left.pop()]:
            if library in crates and library not in found:
                found.add(library)
                left.append(library)
    return [library for library in crates if library in found]


@functools.lru_cache(maxsize=None)
def minutes():
    """The processor-minutes of each crate's proof, mutants and tests, as tools/minutes has them; few if it has none."""
    with open(os.path.join(ROOT, "tools", "minutes"), encoding="utf-8") as file:
        rows = [line.split() for line in file if line.strip() and not line.startswith("#")]
    return collections.defaultdict(lambda: (0.2, 0, 0), {crate: tuple(map(float, some)) for crate, *some in rows})


def checksum(crate, built):
    """Of what a crate is made from: the sources of it and of those below it, and what they depend on; and of a file built of it."""
    crates, found = libraries(), hashlib.sha256()
    for name in below(crates, crate) + [crate]:
        found.update(repr((name, crates[name])).encode())
        for part in ("src", "specs", "proofs"):
            for folder, folders, files in os.walk(os.path.join(ROOT, "crates", name, part)):
                folders.sort()
                for path in (os.path.join(folder, file) for file in sorted(files)):
                    with open(path, "rb") as file:
                        found.update(repr((os.path.relpath(path, ROOT), file.read())).encode())
    with open(built, "rb") as file:
        found.update(file.read())
    return found.hexdigest()


def mark(crate, built):
    """Notes, next to a file built of a crate, from what it was made."""
    with open(built + ".made", "w", encoding="ascii") as file:
        file.write(checksum(crate, built))


def is_current(crate, built):
    """Whether a file was built of the present sources of a crate."""
    try:
        with open(built + ".made", encoding="ascii") as file:
            return file.read() == checksum(crate, built)
    except FileNotFoundError:
        return False


def kit():
    """The folder of the toolchain."""
    page = subprocess.run(["rt", "doc"], stdout=subprocess.PIPE, check=True, universal_newlines=True).stdout
    return os.path.dirname(page.strip())


def proved(library):
    """Where `rt ci` leaves a library of this repository."""
    path = os.path.join(ROOT, "crates", library, "out", "rlib", library + ".rlib")
    if not os.path.isdir(path):
        raise SystemExit("rt ci has not proved %s in this checkout" % library)
    return path


def words(verb, name):
    """The command that runs `verb` on the crate whose folder is current."""
    crates, home = libraries(), kit()
    found = [os.path.join(home, "bin", "rattle"), verb, "--crate-name", name, os.path.join("src", "lib.rt")]
    found += ["-L", "dependency=" + os.path.join(home, "rlibs")]
    for library in ["std"] + crates[name]:
        path = proved(library) if library in crates else os.path.join(home, "rlibs", library + ".rlib")
        found += ["--extern", "%s=%s" % (library, path)]
    for library in below(crates, name):
        found += ["-L", "dependency=" + os.path.dirname(proved(library))]
    found += ["--antt-project", os.path.join(home, "rattle", "logic", "antt-project.json")]
    found += ["--logic-built", os.path.join(home, "logic_built")]
    return found

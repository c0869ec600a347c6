"""What the runners of the tests share: running a program, comparing what it writes, and counting."""

import collections
import concurrent.futures
import os
import subprocess

# How a run of a program ended: its status, and what it wrote.
Ended = collections.namedtuple("Ended", "status stdout stderr")
LATE = "none: it had not ended after %d seconds"


class Tally:
    """Counts what passed, and prints what did not."""

    def __init__(self, what, workers=os.cpu_count()):
        self.what, self.workers, self.passed, self.failed = what, workers, 0, 0

    def judge(self, name, complaints):
        """Prints the complaints, a text or several, and returns whether there are none."""
        complaints = [complaints] if isinstance(complaints, str) else list(complaints or ())
        self.passed, self.failed = self.passed + (not complaints), self.failed + bool(complaints)
        if complaints:
            print("FAIL %s: %s" % (self.what, name))
        for complaint in complaints:
            print("    " + complaint.rstrip("\n").replace("\n", "\n    "))
        return not complaints

    def hold(self, name, holds, shown=""):
        """Passes if that holds; otherwise prints what is to be shown."""
        return self.judge(name, [] if holds else [shown.decode(errors="replace") if isinstance(shown, bytes) else str(shown)])

    def equal(self, name, got, wanted):
        return self.judge(name, [] if got == wanted else ["got %r, not %r" % (got, wanted)])

    def judge_all(self, cases):
        """Many cases at once: each has a name, a function that complains, and what it is given."""
        with concurrent.futures.ThreadPoolExecutor(self.workers) as pool:
            for name, begun in [(name, pool.submit(complaints_of, *given)) for name, *given in cases]:
                self.judge(name, begun.result())

    def end(self):
        """Prints the counts, and returns the exit status: if nothing was tried, that failed."""
        print("%s: %d passed, %d failed" % (self.what, self.passed, self.failed))
        return 1 if self.failed or not self.passed else 0


def complaints_of(judged, *given):
    found = judged(*given)
    return found if found is None or isinstance(found, str) else list(found)


def run(command, data=b"", seconds=120, **more):
    """Runs a program on these bytes, unless it is given a standard input."""
    given = {"stdout": subprocess.PIPE, "stderr": subprocess.PIPE, **({} if "stdin" in more else {"input": data}), **more}
    try:
        done = subprocess.run(command, timeout=seconds, **given)
    except subprocess.TimeoutExpired:
        return Ended(LATE % seconds, b"", b"")
    return Ended(done.returncode, done.stdout or b"", done.stderr or b"")


def output_of(*command, **more):
    """The status of a program, and what it wrote to standard output and standard error, as text."""
    given = {"stdin": subprocess.DEVNULL, "stdout": subprocess.PIPE, "stderr": subprocess.STDOUT, **more}
    try:
        done = subprocess.run(command, universal_newlines=True, **given)
    except subprocess.TimeoutExpired as late:
        return LATE % late.timeout, (late.stdout or b"").decode(errors="replace")
    return done.returncode, done.stdout


def read(path, missing=b""):
    """The bytes of a file; if it is not there, what is given for that."""
    try:
        with open(path, "rb") as file:
            return file.read()
    except FileNotFoundError:
        return missing


def difference(got, wanted):
    """The first line of an output that differs from what is expected, or None."""
    if got == wanted:
        return None
    lines = got.split(b"\n"), wanted.split(b"\n")
    at = next((at for at, (one, other) in enumerate(zip(*lines)) if one != other), min(map(len, lines)))
    return "output line %d: %r, expected %r" % (at + 1, *(some[at] if at < len(some) else None for some in lines))


def differences(ended, status, stdout, stderr=b""):
    """How a run differs from what is expected."""
    complaints = [] if ended.status == status else ["status %s, expected %s" % (ended.status, status)]
    complaints += [difference(ended.stdout, stdout)] if ended.stdout != stdout else []
    if ended.stderr != stderr:
        complaints.append("standard error %r, expected %r" % (ended.stderr[:400], stderr) if stderr else ended.stderr.decode(errors="replace"))
    return complaints

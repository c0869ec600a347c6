"""What the operating system can deny the program: memory, threads, streams; and inputs beyond the
limit."""

import os
import resource
import subprocess

# the greatest length of a text, in bytes
MOST = 1 << 30

KIB = 1024

MIB = 1024 * KIB

SECONDS = 120


def with_memory(binary, arguments, data, most):
    """Limits the address space of a run to this many bytes."""
    def narrow():
        resource.setrlimit(resource.RLIMIT_AS, (most, most))
    return subprocess.run([binary, *arguments], input=data, stdout=subprocess.PIPE,
                          stderr=subprocess.PIPE, preexec_fn=narrow, timeout=SECONDS)


def long_trace(binary):
    """A trace with more entries than a crew can have, and the same with a wrong count at its end."""
    entries = 1_100_000
    trace = b"trace 1\nboard 1 1 0\n" + b"0 take 0\n= taken none\n" * entries
    for count, status, answer in ((entries, 0, b"legal %d\n" % entries),
                                  (entries - 1, 3, b"refused %d\n" % (2 * entries + 3))):
        ended = subprocess.run([binary, "check"], input=trace + b"end %d\n" % count, stdout=subprocess.PIPE,
                               stderr=subprocess.PIPE, timeout=SECONDS)
        if (ended.returncode, ended.stdout, ended.stderr) != (status, answer, b""):
            yield "with `end %d`: %r" % (count, (ended.returncode, ended.stdout, ended.stderr))


def out_of_memory(binary):
    """As the address space shrinks, the program first does its work, then reports that it is out of
    memory, and then cannot be loaded. It writes nothing else."""
    complaints, wanting = [], 0
    for most in range(8 * MIB, MIB, -64 * KIB):
        ended = with_memory(binary, ["replay"], b"board 8 64 0\ntake 0\n", most)
        seen = (ended.returncode, ended.stdout, ended.stderr)
        if seen == (4, b"", b"synicboard: out of memory\n"):
            wanting += 1
        elif seen != (0, b"= taken none\n", b""):
            if ended.returncode not in (127, -6, -7, -11) or ended.stdout:
                complaints.append("in %d KiB: %r" % (most // KIB, seen))
            break
    if wanting == 0:
        complaints.append("no address space was too small for it")
    return complaints


def no_thread(binary, crew):
    """If thread stacks cannot be allocated, no crew runs, and nothing is written."""
    ended = with_memory(binary, ["crew"], crew, 64 * MIB)
    seen = (ended.returncode, ended.stdout, ended.stderr)
    return [] if seen == (4, b"", b"synicboard: no thread\n") else ["%r" % (seen,)]


def crew_out_of_memory(binary, crew, written):
    """As the address space shrinks, a crew first writes its trace, and then nothing: it reports that
    it is out of memory, or that it has no thread."""
    complaints, seen = [], set()
    allowed = {(0, written, b""): "done", (4, b"", b"synicboard: out of memory\n"): "memory",
               (4, b"", b"synicboard: no thread\n"): "thread"}
    for most in range(128 * MIB, 16 * MIB, -4 * MIB):
        ended = with_memory(binary, ["crew"], crew, most)
        end = (ended.returncode, ended.stdout, ended.stderr)
        if end in allowed:
            seen.add(allowed[end])
        else:
            complaints.append("in %d KiB: %r" % (most // KIB, (ended.returncode, ended.stdout[:40], ended.stderr)))
    return complaints + ["no address space has the end: %s" % end for end in ("done", "memory") if end not in seen]


def closed_streams(binary):
    """Standard input or standard output is not an open file."""
    complaints = []
    for closed, stderr in (("<&-", b"synicboard: read failed\n"), (">&-", b"synicboard: write failed\n")):
        for subcommand in ("replay", "save", "check", "crew"):
            ended = subprocess.run(["sh", "-c", 'exec "$0" "$1" ' + closed, binary, subcommand], input=b"",
                                   stderr=subprocess.PIPE, timeout=SECONDS)
            if (ended.returncode, ended.stderr) != (5, stderr):
                complaints.append("%s %s: %r" % (subcommand, closed, (ended.returncode, ended.stderr)))
    return complaints


def of_length(binary, subcommand, length, line=512):
    """The result for a script of this many bytes: a board line and comments, which make lines of this length."""
    program = subprocess.Popen([binary, subcommand], stdin=subprocess.PIPE, stdout=subprocess.PIPE,
                               stderr=subprocess.PIPE)
    first = b"board 1 1 0\n#" + b"#" * 498 + b"\n"
    block = (b"#" * (line - 1) + b"\n") * 2048
    left = length - len(first)
    try:
        program.stdin.write(first)
        while left:
            part = block[-left:] if left < len(block) else block
            program.stdin.write(part)
            left -= len(part)
        program.stdin.close()
    except BrokenPipeError:
        pass
    stdout, stderr = program.stdout.read(), program.stderr.read()
    return program.wait(SECONDS), stdout, stderr


def bytes_at_the_limit(binary):
    """The greatest length of an input, and one byte more; lines of a prime length end at other places of each block that is read."""
    complaints = []
    failed = (5, b"", b"synicboard: read failed\n")
    for subcommand, length, line, wanted in (("replay", MOST, 512, (0, b"", b"")), ("replay", MOST + 1, 512, failed),
                                             ("replay", MOST, 607, (0, b"", b"")), ("crew", MOST + 1, 607, failed)):
        ended = of_length(binary, subcommand, length, line)
        if ended != wanted:
            complaints.append("%s of %d bytes in lines of %d: %r, expected %r" % (subcommand, length, line, ended, wanted))
    return complaints


def fault_before_more(binary):
    """A fault is written, and the program ends, while the peer still holds the pipe open and sends
    nothing."""
    complaints = []
    for subcommand, text, status, wanted in (
            ("replay", b"board 1 1 0\ntake 0\ntake x\n", 1, b"= taken none\n! 3 form\n"),
            ("check", b"trace 2\nboard 1 1 0\n0 take x\n", 3, b"refused 3\n"),
            ("crew", b"board 1 1 0\nactor\ntake x\n", 1, b"! 3 form\n")):
        reading, writing = os.pipe()
        try:
            os.write(writing, text)
            ended = subprocess.run([binary, subcommand], stdin=reading, stdout=subprocess.PIPE, timeout=SECONDS)
            seen = (ended.returncode, ended.stdout)
        except subprocess.TimeoutExpired as expired:
            seen = ("none: it waits for more input", expired.stdout)
        finally:
            os.close(reading)
            os.close(writing)
        if seen != (status, wanted):
            complaints.append("%s: %r, expected %r" % (subcommand, seen, (status, wanted)))
    return complaints

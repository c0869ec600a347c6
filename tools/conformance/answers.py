"""Answers to the events of a script, and the first that differs."""

# The events whose replies a guest sees.
GUEST = ("read", "write", "load", "take")

NO_ANSWER = "no answer"
UNSUPPORTED = "unsupported"


class Unsupported(Exception):
    """The peer does not know an event of the script."""


def answers_of(output, count):
    """For each of `count` events its reply, without `= `, and its notices, as one text of lines."""
    text = "\n" + output.decode(errors="replace")
    first, *answers = text.split("\n= ")
    if first.strip():
        return [first.strip()] + [NO_ANSWER] * (count - 1)
    answers = [answer.rstrip("\n") for answer in answers[:count]]
    return answers + [NO_ANSWER] * (count - len(answers))


def reply_of(answer):
    return answer.split("\n", 1)[0]


def guest_sees(line, reference, peer):
    """Whether a guest sees that the answers differ. What the reference refuses no guest can do."""
    if not line.startswith(GUEST) or peer == NO_ANSWER:
        return peer == NO_ANSWER
    told, other = reply_of(reference), reply_of(peer)
    return not told.startswith("refused") and told != other


def first_difference(lines, reference, peer, see):
    """The number of the first event, from 0, whose answers differ; None if there is none."""
    if reference == peer:
        return None
    for at, (line, told, other) in enumerate(zip(lines[1:], reference, peer)):
        if other.startswith(UNSUPPORTED):
            raise Unsupported(line.split(" ", 1)[0])
        if told != other and (see == "host" or guest_sees(line, told, other)):
            return at
    return None

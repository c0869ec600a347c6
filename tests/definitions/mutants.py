"""Mutants of the definitions: each differs from the definitions in a stored output, or the comparison looks at too
little. All are in one program, in which Chosen.agda chooses one by the environment."""

import os
import shutil

# The file below crates/, a clause with {} for an expression, the expression, and the mutant's; and a script whose stored
# output shows it.
MUTANTS = (
    ("stimer_bank/specs/Timer.antt", "if {} then", "nat_le k 8", "nat_le k 9",
     "cases/replay/nine-periods-late-skips-one"),
    ("stimer_bank/specs/Bank.antt", "{}", "nat_lt d e", "nat_lt e d",
     "conformance/one-shot/by-deadline-across-processors"),
    ("lapic_core/specs/Apic.antt", "class v = {}", "v / 16", "v / 32",
     "cases/replay/priority-classes-and-end-of-interrupt"),
    ("message_queues/specs/Queues.antt", "{}", "(queue_of qs p i ++ m ∷ [])", "(m ∷ queue_of qs p i)",
     "cases/replay/post-behind-a-queue-places-the-head"),
    ("event_ports/specs/Ports.antt", "buffers_of shape) {}", "256", "255",
     "conformance/many-processors/256-buffers"),
    ("gpa_space/specs/Space.antt", "{}", "overlay % 2 == 0", "overlay % 2 == 1",
     "cases/replay/reset-withdraws-no-message-that-was-consumed"),
    ("synic_regs/specs/Registers.antt", "{}", "nat_le n 0x400000b7", "nat_le n 0x400000b6",
     "conformance/registers/timers-after-reset"),
    ("board_terms/specs/Dues.antt", "{}", "nat_lt x.0 r.0", "nat_lt r.0 x.0",
     "cases/replay/reset-stops-the-timers"),
    ("synic_board/specs/Timers.antt", "most_expiries = {}", "32", "31",
     "conformance/many-processors/the-earliest-32-expire"),
    ("synic_board/specs/Stores.antt", "consumed_below s p {}", "16", "15",
     "cases/replay/numbers-at-their-limits"),
    ("synic_board/specs/Posts.antt", "{}", "0xffffffffffffffff", "0xfffffffffffffffe",
     "cases/replay/last-ticket-goes-to-a-post"),
    ("synic_board/specs/Interrupts.antt", "{}", "value % 256", "value % 128",
     "conformance/priorities/tpr-of-the-highest-class"),
    ("synic_board/specs/Resetting.antt", "emptied_below s p {}", "16", "15",
     "conformance/reset/messages-of-each-source"),
    ("text_lines/specs/Printing.antt", "++ {})", "numbered queue_lines 0 values.queued", "numbered queue_lines 1 values.queued",
     "cases/replay/occupied-slot-queues-and-refuses-beyond-its-buffers"),
    ("text_lines/specs/Reading.antt", "u8_at = {}", "decimal_at 255", "decimal_at 256",
     "cases/replay/board-number-above-255-is-no-board-line"),
    ("text_image/specs/Image.antt", "each_below (processors s) {}", "(timers_lines s)", "(queues_lines s)",
     "cases/save/storm"),
)


def copied(root, folder):
    """A copy of the sources whose definitions have all mutants."""
    for crate in os.listdir(os.path.join(root, "crates")):
        for part in ("specs", "src"):
            source = os.path.join(root, "crates", crate, part)
            if os.path.isdir(source):
                shutil.copytree(source, os.path.join(folder, "crates", crate, part))
    for number, (file, clause, old, new, _) in enumerate(MUTANTS):
        planted(os.path.join(folder, "crates", file), number, clause, old, new)


def planted(path, number, clause, old, new):
    with open(path, encoding="utf-8") as file:
        text = file.read()
    if text.count(clause.format(old)) != 1:
        raise SystemExit("tests/definitions: mutant %d is not once in %s: %s" % (number, path, clause.format(old)))
    both = "(if chosen %d then %s else %s)" % (number, new, old)
    text = text.replace(clause.format(old), clause.format(both))
    at = text.index("\nuse ")
    with open(path, "w", encoding="utf-8") as file:
        file.write(text[:at] + "\nuse Chosen.{chosen}" + text[at:])

"""The limits of the board, as scripts with their whole expected output: full buffers, the last
ticket, all overlays at one page, the first and the last flags and vectors, the last times. They
are too long to store, or belong together. The expected output is derived here, event by event."""

TIME_REF_COUNT, TPR = 0x40000020, 0x40000072
SCONTROL, SIEFP, SIMP, EOM = 0x40000080, 0x40000082, 0x40000083, 0x40000084
SINT2 = 0x40000092
CONFIG, COUNT = 0x400000B0, 0x400000B1

# kinds of timers: enabled, one-shot with a message to SINT2; and in direct mode with vector 40
TO_SINT2 = 0x20001
ONE_SHOT, PERIODIC, LAZY = 0x1401, 0x1403, 0x1407

LAST = 2 ** 64 - 1


class Scene:
    """A script and its expected output."""

    def __init__(self, processors, pages, ticket=0):
        self.processors = processors
        self.lines = ["board %d %s %d" % (processors, pages, ticket)]
        self.output = []

    def ask(self, event, reply, *notices):
        self.lines.append(event)
        self.output.append("= " + reply)
        self.output += [". " + notice for notice in notices]

    def done(self, *events):
        for event in events:
            self.ask(event, "done")

    def write(self, vp, register, value, *notices):
        self.ask("write %d %x %x" % (vp, register, value), "done", *notices)

    def start_timer(self, vp, index, config, count, *notices):
        self.write(vp, COUNT + 2 * index, count)
        self.write(vp, CONFIG + 2 * index, config, *notices)

    def summary(self, nexts=None, timer="none", pages=None, queues=None):
        """A summary, with the given vectors, pages and queues."""
        self.lines.append("summary")
        vectors = nexts or {}
        self.output += [": next %d %s" % (vp, vectors.get(vp, "none")) for vp in range(self.processors)]
        self.output.append(": timer %s" % timer)
        self.output += [": page %d %s" % page for page in sorted((pages or {}).items())]
        self.output += [": queue %d %d %d" % (*place, count) for place, count in sorted((queues or {}).items())]

    def script(self):
        return ("\n".join(self.lines) + "\n").encode()

    def stdout(self):
        return ("\n".join(self.output) + "\n").encode()


# ---- Tickets and slots ----

def the_last_ticket_is_never_given():
    scene = Scene(1, 1, LAST - 1)
    scene.write(0, SCONTROL, 1)
    scene.done("open 0 message 0 2 16")
    scene.ask("post 0 1 -", "accepted %d" % (LAST - 1), "accepted %d 0 2" % (LAST - 1))
    scene.ask("post 0 1 -", "refused 9")
    return scene


def a_slot_is_empty_once_its_whole_type_is_zero():
    scene = Scene(1, 1)
    scene.write(0, SCONTROL, 1)
    scene.write(0, SIMP, 1)
    scene.done("open 0 message 0 2 16")
    scene.ask("post 0 1 -", "accepted 0", "accepted 0 0 2", "placed 0 0 2")
    scene.ask("post 0 1 -", "accepted 1", "accepted 1 0 2", "pending 0 2")
    # three bytes of the type, none of which is the one that is not zero
    scene.done("store 201 000000")
    scene.write(0, EOM, 0)
    scene.ask("store 200 00", "done", "consumed 0 0 2")
    # without an EOM nothing moves; the second EOM finds an empty queue
    scene.summary(pages={0: "sim 0"}, queues={(0, 2): 1})
    scene.write(0, EOM, 0, "placed 1 0 2")
    scene.summary(pages={0: "sim 0"})
    scene.write(0, EOM, 0)
    return scene


# ---- Overlays ----

def put(scene, number, is_here):
    """Writes the register of an overlay: those of processor 0 first, SIMP before SIEFP."""
    scene.write(number // 2, SIEFP if number % 2 else SIMP, 0x3001 if is_here else 0x3000)


def shows(scene, here):
    """The first overlay at page 3 is visible there."""
    first = min(here, default=None)
    name = None if first is None else "%s %d" % ("sief" if first % 2 else "sim", first // 2)
    scene.summary(pages={3: name} if name else {})


def overlays_that_come_and_go(coming, going):
    scene, here = Scene(8, 4), set()
    for number in coming:
        put(scene, number, True)
        here.add(number)
        shows(scene, here)
    for number in going:
        put(scene, number, False)
        here.remove(number)
        shows(scene, here)
    return scene


def overlays_go_in_many_orders():
    scene = Scene(8, 4)
    for start in range(16):
        for step in range(1, 16, 2):
            for number in range(16):
                put(scene, number, True)
            here = set(range(16))
            for turn in range(16):
                number = (start + step * turn) % 16
                put(scene, number, False)
                here.remove(number)
                shows(scene, here)
    return scene


# ---- Ports ----

def with_flags():
    """A port for all flags, and one for the last eight."""
    scene = Scene(1, 1)
    scene.write(0, SCONTROL, 1)
    scene.write(0, SIEFP, 1)
    scene.done("open 0 event 0 2 0 2048", "open 1 event 0 2 2040 8")
    return scene


def flags_reach_from_the_first_to_the_last():
    scene = with_flags()
    scene.ask("signal 0 0", "clear", "flag 0 2 0")
    scene.ask("signal 0 0", "set")
    scene.ask("signal 1 7", "clear", "flag 0 2 2047")
    scene.ask("signal 0 2047", "set")
    for port, flag in ((0, 2048), (0, 65535), (1, 8), (1, 2047)):
        scene.ask("signal %d %d" % (port, flag), "refused 6")
    return scene


def flags_outside_a_page_are_no_port():
    scene = Scene(1, 1)
    for base, count in ((2040, 9), (2048, 1), (0, 2049), (0, 0), (65535, 65535)):
        scene.ask("open 0 event 0 2 %d %d" % (base, count), "refused 4")
    return scene


def ports_of_one_queue_are_closed(first, second):
    """Two ports post in turn. The message page is disabled, so that all four messages are queued."""
    scene = Scene(1, 1)
    scene.write(0, SCONTROL, 1)
    scene.done("open 0 message 0 2 2", "open 1 message 0 2 2")
    for ticket in range(4):
        scene.ask("post %d 1 -" % (ticket % 2), "accepted %d" % ticket, "accepted %d 0 2" % ticket)
    for port, left in ((first, {(0, 2): 2}), (second, {})):
        scene.ask("close %d" % port, "done", "withdrawn %d 0 2" % port, "withdrawn %d 0 2" % (port + 2))
        scene.summary(queues=left)
    return scene


# ---- Full buffers ----

def fill_ports(scene, first, target, behind_a_slot):
    """Each of 16 ports posts 16 times, in turn, and refuses one more. A post to an occupied slot
    whose MessagePending is clear sets it."""
    for number in range(256):
        port, ticket = number % 16, first + number
        pending = ["pending %d 2" % target(port)] if behind_a_slot and number == 0 else []
        scene.ask("post %d 1 %02x" % (port, number // 16), "accepted %d" % ticket,
                  "accepted %d %d 2" % (ticket, target(port)), *pending)
    for port in range(16):
        scene.ask("post %d 1 00" % port, "refused 8")


def expire_timers(scene, processors, first):
    """The timers of a processor send their messages to SINT2: the last is due at 1, the first at 4."""
    for vp in range(processors):
        for index in range(4):
            scene.start_timer(vp, index, TO_SINT2, 4 - index)
    told = []
    for number in range(4 * processors):
        due, vp = number // processors + 1, number % processors
        told += ["expired %d %d %d" % (vp, 4 - due, due), "accepted %d %d 2" % (first + number, vp)]
    scene.ask("tick 4", "done", *told)


def receive(scene, vp, message, is_last):
    """Reads and empties the slot. The message page of a processor is mapped at the page of its own
    number."""
    ticket, kind, length, origin, byte = message
    slot = 4096 * vp + 512
    scene.ask("load %x 8" % slot, "bytes %s%02x%02x0000" % (kind, length, 0 if is_last else 1))
    scene.ask("load %x 8" % (slot + 8), "bytes %02x00000000000000" % origin)
    scene.ask("load %x 1" % (slot + 16), "bytes %02x" % byte)
    scene.ask("store %x 00000000" % slot, "done", "consumed %d %d 2" % (ticket, vp))


def place(scene, vp, ticket, is_last):
    scene.write(vp, EOM, 0, "placed %d %d 2" % (ticket, vp), *([] if is_last else ["pending %d 2" % vp]))


def of_port(ticket, number):
    """The message of a post of `fill_ports`, by its number."""
    return ticket, "01000000", 1, number % 16, number // 16


def of_timer(ticket, turn):
    """The message of the timer that is due at `turn` + 1."""
    return ticket, "10000080", 0x18, 0, 3 - turn


def the_fullest_queue_is_received_in_order():
    scene = Scene(1, 1)
    scene.write(0, SCONTROL, 1)
    scene.write(0, SIMP, 1)
    scene.done(*("open %d message 0 2 16" % port for port in range(16)))
    # it is placed at once, so that its buffer is free again
    scene.ask("post 0 1 ff", "accepted 0", "accepted 0 0 2", "placed 0 0 2")
    fill_ports(scene, 1, lambda port: 0, True)
    expire_timers(scene, 1, 257)
    scene.summary(pages={0: "sim 0"}, queues={(0, 2): 260})
    receive(scene, 0, (0, "01000000", 1, 0, 0xFF), False)
    messages = [of_port(1 + number, number) for number in range(256)]
    messages += [of_timer(257 + turn, turn) for turn in range(4)]
    for left, message in zip(range(259, -1, -1), messages):
        place(scene, 0, message[0], left == 0)
        receive(scene, 0, message, left == 0)
        scene.summary(pages={0: "sim 0"}, queues={(0, 2): left} if left else {})
    scene.write(0, EOM, 0)
    return scene


def all_buffers_in_use_are_received_once_each():
    scene = Scene(8, 8)
    for vp in range(8):
        scene.write(vp, SCONTROL, 1)
    scene.done(*("open %d message %d 2 16" % (port, port // 2) for port in range(16)))
    fill_ports(scene, 0, lambda port: port // 2, False)
    expire_timers(scene, 8, 256)
    queues = {(vp, 2): 36 for vp in range(8)}
    scene.summary(queues=queues)
    pages, received = {}, []
    for vp in range(8):
        scene.write(vp, SIMP, 4096 * vp + 1)
        pages[vp] = "sim %d" % vp
        posts = [16 * turn + port for turn in range(16) for port in (2 * vp, 2 * vp + 1)]
        messages = [of_port(number, number) for number in posts]
        messages += [of_timer(256 + 8 * turn + vp, turn) for turn in range(4)]
        for left, message in zip(range(35, -1, -1), messages):
            place(scene, vp, message[0], left == 0)
            receive(scene, vp, message, left == 0)
            received.append(message[0])
        scene.write(vp, EOM, 0)
        del queues[(vp, 2)]
        scene.summary(pages=pages, queues=queues)
    assert sorted(received) == list(range(288))
    return scene


# ---- Resets ----

def a_reset_withdraws_all_that_there_can_be():
    """A message in each of 16 slots, 16 queued for each of 16 ports, and 4 of timers."""
    scene = Scene(1, 1)
    scene.write(0, SCONTROL, 1)
    scene.write(0, SIMP, 1)
    scene.done(*("open %d message 0 %d 16" % (sint, sint) for sint in range(16)))
    tickets = {sint: [] for sint in range(16)}
    for number in range(17 * 16):
        sint, notices = number % 16, ["accepted %d 0 %d" % (number, number % 16)]
        if number < 16:
            notices.append("placed %d 0 %d" % (number, sint))
        elif number < 32:
            notices.append("pending 0 %d" % sint)
        scene.ask("post %d 1 -" % sint, "accepted %d" % number, *notices)
        tickets[sint].append(number)
    for port in range(16):
        scene.ask("post %d 1 -" % port, "refused 8")
    told = []
    for index in range(4):
        scene.start_timer(0, index, 0x10001 + 0x10000 * index, 1)
        told += ["expired 0 %d 1" % index, "accepted %d 0 %d" % (272 + index, 1 + index)]
        tickets[1 + index].append(272 + index)
    scene.ask("tick 1", "done", *told)
    scene.ask("reset 0", "done", *("withdrawn %d 0 %d" % (ticket, sint) for sint in range(16) for ticket in tickets[sint]))
    # a second one finds nothing, and all buffers are free again
    scene.done("reset 0")
    scene.summary()
    scene.write(0, SCONTROL, 1)
    for ticket in range(276, 292):
        scene.ask("post 15 1 -", "accepted %d" % ticket, "accepted %d 0 15" % ticket)
    return scene


def with_messages():
    """Two processors with a message in a slot and one in a queue each, and processor 0 with a timer."""
    scene = Scene(2, 4)
    for vp in range(2):
        scene.write(vp, SCONTROL, 1)
        scene.write(vp, SIMP, 0x2001 + 0x1000 * vp)
        scene.write(vp, SINT2, 0x50)
        scene.done("open %d message %d 2 2" % (vp, vp))
    scene.start_timer(0, 3, ONE_SHOT, 100)
    for vp in range(2):
        slot, queued = 2 * vp, 2 * vp + 1
        scene.ask("post %d 1 %02x" % (vp, 10 + slot), "accepted %d" % slot,
                  "accepted %d %d 2" % (slot, vp), "placed %d %d 2" % (slot, vp), "requested %d 50" % vp)
        scene.ask("post %d 1 %02x" % (vp, 10 + queued), "accepted %d" % queued,
                  "accepted %d %d 2" % (queued, vp), "pending %d 2" % vp)
    scene.summary({0: "50", 1: "50"}, "100 0 3", {2: "sim 0", 3: "sim 1"}, {(0, 2): 1, (1, 2): 1})
    return scene


def a_reset_ends_what_a_processor_does():
    scene = with_messages()
    scene.write(0, TPR, 0x20)
    scene.done("suspend 0")
    scene.ask("reset 0", "done", "withdrawn 0 0 2", "withdrawn 1 0 2")
    scene.summary({1: "50"}, pages={3: "sim 1"}, queues={(1, 2): 1})
    for register, value in ((SCONTROL, 0), (SIMP, 0), (SINT2, 0x10000), (TPR, 0), (CONFIG + 6, 0)):
        scene.ask("read 0 %x" % register, "value %x" % value)
    # the suspension is over too, and the port is open
    scene.ask("resume 0", "refused 16")
    scene.ask("post 0 1 -", "refused 7")
    # its message page is empty when it is mapped again
    scene.write(0, SCONTROL, 1)
    scene.write(0, SIMP, 0x2001)
    scene.ask("load 2200 8", "bytes 0000000000000000")
    scene.summary({1: "50"}, pages={2: "sim 0", 3: "sim 1"}, queues={(1, 2): 1})
    return scene


def a_reset_leaves_the_other_processor():
    scene = with_messages()
    scene.done("suspend 1")
    scene.ask("reset 0", "done", "withdrawn 0 0 2", "withdrawn 1 0 2")
    scene.summary(pages={3: "sim 1"}, queues={(1, 2): 1})
    scene.done("resume 1")
    scene.ask("load 3210 1", "bytes 0c")
    scene.ask("reset 2", "refused 14")
    scene.summary({1: "50"}, pages={3: "sim 1"}, queues={(1, 2): 1})
    return scene


# ---- Posted vectors ----

def posted_vectors_are_requested_rising():
    scene = Scene(1, 1)
    scene.ask("absorb 0 1 300000001", "done", "requested 0 40", "requested 0 60", "requested 0 61")
    scene.summary({0: "61"})
    scene.ask("absorb 0 0 1ffff", "done", "requested 0 10")
    scene.done("absorb 0 0 ffff")
    for part in (4, 5, 6, 255):
        scene.ask("absorb 0 %d 1" % part, "refused 4")
        scene.ask("absorb 1 %d 1" % part, "refused 14")
    scene.summary({0: "61"})
    return scene


def all_vectors_are_posted():
    scene = Scene(8, 1)
    nexts = {}
    for vp in range(8):
        for part in range(4):
            vectors = range(max(16, 64 * part), 64 * part + 64)
            scene.ask("absorb %d %d ffffffffffffffff" % (vp, part), "done",
                      *("requested %d %02x" % (vp, vector) for vector in vectors))
        # vectors that are already requested merge
        scene.done("absorb %d 3 ffffffffffffffff" % vp)
        nexts[vp] = "ff"
        scene.summary(nexts)
    return scene


# ---- Suspensions ----

def suspended(processors=2):
    """Timer 1 of processor 0 is due at 5, vector 61 is asserted there, and it is suspended."""
    scene = Scene(processors, 1)
    scene.start_timer(0, 1, ONE_SHOT, 5)
    scene.ask("assert 0 61", "done", "requested 0 61")
    scene.summary({0: "61"}, "5 0 1")
    scene.done("suspend 0")
    scene.summary()
    return scene


def a_suspended_processor_takes_nothing():
    scene = suspended()
    scene.ask("take 0", "taken none")
    scene.ask("suspend 0", "refused 15")
    # a request during the suspension stays
    scene.ask("assert 0 72", "done", "requested 0 72")
    scene.summary()
    scene.done("resume 0")
    scene.summary({0: "72"}, "5 0 1")
    scene.ask("resume 0", "refused 16")
    scene.ask("take 0", "taken 72")
    return scene


def a_suspended_timer_is_tried_by_a_later_tick():
    scene = suspended()
    scene.done("tick 7", "resume 0")
    scene.summary({0: "61"}, "5 0 1")
    # a tick to the present moment tries nothing
    scene.done("tick 7")
    scene.ask("tick 8", "done", "expired 0 1 5", "requested 0 40")
    scene.summary({0: "61"})
    return scene


def the_processor_is_judged_before_its_suspension():
    scene = Scene(2, 1)
    for vp in (2, 8, 255):
        for event in ("suspend", "suspend", "resume", "reset"):
            scene.ask("%s %d" % (event, vp), "refused 14")
    # each processor of the board has its own flag
    scene.done("suspend 1")
    scene.ask("resume 0", "refused 16")
    scene.done("suspend 0", "resume 1")
    scene.ask("suspend 0", "refused 15")
    return scene


# ---- Several processors ----

def each_mask_reaches_its_processors():
    """Each mask of each board, with another vector than the mask before, and each bit beyond the board."""
    scene = Scene(8, 1)
    for mask in range(256):
        vector = 16 + mask % 240
        reached = [vp for vp in range(8) if mask >> vp & 1]
        # mask 240 + i has the vector of mask i
        fresh = [vp for vp in reached if mask < 240 or not (mask - 240) >> vp & 1]
        scene.ask("send %02x %x" % (vector, mask), "done", *("requested %d %02x" % (vp, vector) for vp in fresh))
    for bit in range(8, 64):
        scene.ask("send ff %x" % (1 << bit), "refused 14")
        scene.ask("send ff %x" % (1 << bit | 255), "refused 14")
    # the greatest mask below 240 with each processor's bit has its greatest vector
    scene.summary({vp: "%02x" % (16 + max(mask for mask in range(240) if mask >> vp & 1)) for vp in range(8)})
    return scene


def the_last_processor_is_the_last_bit(processors):
    scene = Scene(processors, 1)
    last = 1 << processors - 1
    scene.ask("send 61 %x" % last, "done", "requested %d 61" % (processors - 1))
    scene.ask("send 62 %x" % (2 * last), "refused 14")
    scene.ask("send 62 %x" % (2 * last - 1), "done", *("requested %d 62" % vp for vp in range(processors)))
    scene.summary({vp: "62" for vp in range(processors)})
    return scene


# ---- The last moments ----

def the_largest_count_is_the_last_moment():
    """The deadline of a one-shot timer is its count."""
    scene = Scene(1, 1)
    scene.start_timer(0, 0, ONE_SHOT, LAST)
    scene.summary(timer="%d 0 0" % LAST)
    scene.done("tick %d" % (LAST - 1))
    scene.ask("tick %d" % LAST, "done", "expired 0 0 %d" % LAST, "requested 0 40")
    # Enabled is cleared, and the count stays
    scene.summary({0: "40"})
    scene.ask("read 0 %x" % CONFIG, "value 1400")
    scene.ask("read 0 %x" % COUNT, "value %x" % LAST)
    return scene


def nothing_is_behind_the_last_moment():
    scene = Scene(1, 1)
    scene.done("tick %d" % LAST, "tick %d" % LAST)
    scene.ask("tick %d" % (LAST - 1), "refused 10")
    scene.ask("tick 0", "refused 10")
    scene.ask("read 0 %x" % TIME_REF_COUNT, "value %x" % LAST)
    # a one-shot timer is due at its count, so the write tries it, even at the last time
    scene.start_timer(0, 0, ONE_SHOT, 1, "expired 0 0 1", "requested 0 40")
    scene.start_timer(0, 0, ONE_SHOT, LAST, "expired 0 0 %d" % LAST)
    scene.summary({0: "40"})
    # a periodic timer is due at the present moment plus the count, 2^64: never
    scene.start_timer(0, 0, PERIODIC, 1)
    scene.summary({0: "40"}, "%d 0 0" % 2 ** 64)
    return scene


def due_moments_may_need_more_than_64_bits():
    scene = Scene(1, 1)
    scene.done("tick %d" % (LAST - 1))
    # (2^64 - 2) + (2^64 - 1)
    scene.start_timer(0, 0, PERIODIC, LAST)
    scene.summary(timer="%d 0 0" % (2 ** 65 - 3))
    # a deadline of at most 64 bits comes before it, whatever the low 64 bits are
    scene.start_timer(0, 3, ONE_SHOT, LAST)
    scene.summary(timer="%d 0 3" % LAST)
    scene.ask("tick %d" % LAST, "done", "expired 0 3 %d" % LAST, "requested 0 40")
    # there is no later time, so it stays due
    scene.summary({0: "40"}, "%d 0 0" % (2 ** 65 - 3))
    return scene


def the_shortest_period_is_looked_at_last():
    """Due at d = 1 with period p = 1, at t = 2^64 - 1: k = 2^64 - 2, so that 1 is signalled, k - 8 are skipped,
    and it is due next at d + p * (k - 7)."""
    scene, k = Scene(1, 1), 2 ** 64 - 2
    scene.start_timer(0, 0, PERIODIC, 1)
    scene.ask("tick %d" % LAST, "done", "expired 0 0 1", "skipped 0 0 %d" % (k - 8), "requested 0 40")
    scene.summary({0: "40"}, "%d 0 0" % (k - 6))
    # there is no later time, and a tick to the present one tries nothing
    scene.done("tick %d" % LAST)
    scene.summary({0: "40"}, "%d 0 0" % (k - 6))
    return scene


def a_lazy_timer_is_looked_at_last(period, told, due):
    scene = Scene(1, 1)
    scene.start_timer(0, 0, LAZY, period)
    scene.ask("tick %d" % LAST, "done", *told)
    scene.summary({0: "40"} if "requested 0 40" in told else {}, "%d 0 0" % due)
    return scene


def a_message_has_the_last_moment():
    scene = Scene(1, 1)
    scene.write(0, SCONTROL, 1)
    scene.write(0, SIMP, 1)
    scene.start_timer(0, 0, TO_SINT2, LAST - 1)
    scene.ask("tick %d" % LAST, "done", "expired 0 0 %d" % (LAST - 1), "accepted 0 0 2", "placed 0 0 2")
    # the expiration and the delivery time, with the smallest byte first
    scene.ask("load 218 8", "bytes feffffffffffffff")
    scene.ask("load 220 8", "bytes ffffffffffffffff")
    return scene


def scenes():
    """Each scene with its name."""
    plain = (
        the_last_ticket_is_never_given, a_slot_is_empty_once_its_whole_type_is_zero, overlays_go_in_many_orders,
        flags_reach_from_the_first_to_the_last, flags_outside_a_page_are_no_port,
        the_fullest_queue_is_received_in_order, all_buffers_in_use_are_received_once_each,
        a_reset_withdraws_all_that_there_can_be, a_reset_ends_what_a_processor_does,
        a_reset_leaves_the_other_processor, posted_vectors_are_requested_rising, all_vectors_are_posted,
        a_suspended_processor_takes_nothing, a_suspended_timer_is_tried_by_a_later_tick,
        the_processor_is_judged_before_its_suspension, the_largest_count_is_the_last_moment,
        each_mask_reaches_its_processors, nothing_is_behind_the_last_moment, due_moments_may_need_more_than_64_bits,
        the_shortest_period_is_looked_at_last, a_message_has_the_last_moment,
    )
    for scene in plain:
        yield scene.__name__.replace("_", " "), scene()
    for processors in range(1, 9):
        yield "the last of %d processors is the last bit" % processors, the_last_processor_is_the_last_bit(processors)
    rising = range(16)
    yield "overlays come and go, the first first", overlays_that_come_and_go(rising, rising)
    yield "overlays come and go, the last first", overlays_that_come_and_go(rising[::-1], rising[::-1])
    yield "ports of one queue are closed, the first first", ports_of_one_queue_are_closed(0, 1)
    yield "ports of one queue are closed, the last first", ports_of_one_queue_are_closed(1, 0)
    # d = p = 1 at t = 2^64 - 1: k = 2^64 - 2 and e = t. 4 * (e + p - t) is above p, so that e is signalled, k are
    # skipped, and it is due next at e + p
    yield "a lazy timer of the shortest period", a_lazy_timer_is_looked_at_last(
        1, ("expired 0 0 %d" % LAST, "skipped 0 0 %d" % (LAST - 1), "requested 0 40"), 2 ** 64)
    # d = p = 2^62: k = 2 and e = 3 * 2^62. 4 * (e + p - t) = 4 is at most p, so that nothing is signalled, k + 1
    # are skipped, and it is due next at e + p
    yield "a lazy timer that signals nothing", a_lazy_timer_is_looked_at_last(2 ** 62, ("skipped 0 0 3",), 2 ** 64)
    # d = p = t: k = 0 and e = t. 4 * (e + p - t) = 4 * p is above p, so that e is signalled
    yield "a lazy timer of the longest period", a_lazy_timer_is_looked_at_last(
        LAST, ("expired 0 0 %d" % LAST, "requested 0 40"), 2 ** 65 - 2)

"""The state of a board after each event, followed from the replies, notices and summaries of the
program by the rules of docs/MACHINE.md. tests/explorer/run compares it with the program's answers.

The state is flat: a key for each value that can change, such as `p0.tpr` or `p1.slot2`."""

EOI, TPR, SCONTROL, SIEFP, SIMP = 0x40000070, 0x40000072, 0x40000080, 0x40000082, 0x40000083

SINT, TIMER = 0x40000090, 0x400000B0

WHOLE = {SCONTROL: "scontrol", SIEFP: "siefp", SIMP: "simp"}

# the bits of a timer's configuration that are stored
STORED = 0xF0000 | 0x1FFF

ENABLED, PERIODIC, AUTO_ENABLE, DIRECT = 1, 2, 8, 1 << 12

TIMER_TYPE = 0x80000010

# the guest pages of a sparse board
SPARSE_PAGES = 1 << 52


class Message:
    """A message that was accepted: what its image will hold, and who sent it."""

    def __init__(self, kind, payload, port=0, timer=None, expiration=None):
        self.kind, self.payload, self.port = kind, payload, port
        self.timer, self.expiration = timer, expiration

    def shown(self, ticket, number, actor):
        sender = ["port", self.port] if self.timer is None else ["timer", self.timer]
        due = None if self.expiration is None else str(self.expiration)
        return [str(ticket), *sender, "%x" % self.kind, self.payload.hex(), due, number, actor]

    def image(self, time):
        """The 256 bytes of a slot, without MessagePending."""
        payload = self.payload
        if self.timer is not None:
            numbers = ((self.timer, 4), (0, 4), (self.expiration, 8), (time, 8))
            payload = b"".join(number.to_bytes(size, "little") for number, size in numbers)
        head = self.kind.to_bytes(4, "little") + bytes([len(payload), 0, 0, 0]) + self.port.to_bytes(8, "little")
        return (head + payload).ljust(256, b"\0")


class Processor:
    """What belongs to one processor."""

    def __init__(self):
        self.requested, self.serving = set(), set()
        self.slots = bytearray(4096)
        self.flags = bytearray(4096)
        self.tickets = {}
        self.queues = {}
        # configuration, count and deadline of each timer
        self.timers = [[0, 0, None] for _ in range(4)]


class Machine:
    """The state after the steps so far. `changed` has what the last step changed."""

    def __init__(self, board):
        _, processors, pages, ticket = board.split()
        self.time, self.ticket = 0, int(ticket)
        self.processors = [Processor() for _ in range(int(processors))]
        self.ports, self.messages, self.owners = {}, {}, {}
        self.state, self.changed = {}, {}
        self.number, self.actor = 0, None
        self.put("time", "0")
        self.put("ticket", ticket)
        self.put("pages", SPARSE_PAGES if pages == "sparse" else int(pages))
        for vp in range(len(self.processors)):
            self.put("p%d.suspended" % vp, False)
            self.put("p%d.next" % vp, None)
            self.clear_registers(vp)

    def put(self, key, value):
        if key not in self.state or self.state[key] != value:
            self.state[key] = self.changed[key] = value

    def clear_registers(self, vp):
        for name in ("tpr", "scontrol", "siefp", "simp"):
            self.put("p%d.%s" % (vp, name), "0")
        for sint in range(16):
            self.put("p%d.sint%d" % (vp, sint), "10000")
            self.show_slot(vp, sint)
            self.show_flags(vp, sint)
            self.show_queue(vp, sint)
        for index in range(4):
            self.show_timer(vp, index)
        self.show_vectors(vp)

    def show_vectors(self, vp):
        processor = self.processors[vp]
        self.put("p%d.requested" % vp, ["%02x" % vector for vector in sorted(processor.requested)])
        self.put("p%d.serving" % vp, ["%02x" % vector for vector in sorted(processor.serving)])

    def show_slot(self, vp, sint):
        processor = self.processors[vp]
        ticket = processor.tickets.get(sint)
        held = processor.slots[256 * sint:256 * sint + 256].rstrip(b"\0").hex()
        self.put("p%d.slot%d" % (vp, sint), [held, None if ticket is None else str(ticket)])

    def show_flags(self, vp, sint):
        page = self.processors[vp].flags[256 * sint:256 * sint + 256]
        self.put("p%d.flags%d" % (vp, sint), [flag for flag in range(2048) if page[flag >> 3] >> (flag & 7) & 1] if any(page) else [])

    def show_queue(self, vp, sint):
        self.put("p%d.queue%d" % (vp, sint), list(self.processors[vp].queues.get(sint, [])))

    def show_timer(self, vp, index):
        config, count, due = self.processors[vp].timers[index]
        self.put("p%d.timer%d" % (vp, index), ["%x" % config, "%d" % count, None if due is None else str(due)])

    def follow(self, step):
        """Performs a step; its number and its reply are known."""
        self.number, self.actor, self.changed = self.number + 1, step.actor, {}
        if not step.is_refused:
            handler = getattr(self, "do_" + step.words[0], None)
            sent = handler(step.words[1:], step) if handler else None
            self.note(step, sent)
        self.summarise(step.summary)
        return self.changed

    def summarise(self, summary):
        """What the program says itself."""
        for vp, vector in summary.next.items():
            self.put("p%d.next" % vp, None if vector is None else "%02x" % vector)
            self.put("p%d.auto" % vp, ["%02x" % auto for auto in sorted(summary.auto.get(vp, ()))])
        self.owners = summary.pages
        self.put("owners", [[page, kind, vp] for page, (kind, vp) in sorted(summary.pages.items())])
        self.put("earliest", None if summary.timer is None else [str(number) for number in summary.timer])

    # what an event does apart from its notices

    def do_open(self, words, _):
        port, kind, *numbers = words
        self.ports[int(port)] = [kind] + [int(number) for number in numbers]
        self.put("port%s" % port, [kind] + [int(number) for number in numbers])

    def do_close(self, words, _):
        del self.ports[int(words[0])]
        self.put("port%s" % words[0], None)

    def do_post(self, words, _):
        payload = b"" if words[2] == "-" else bytes.fromhex(words[2])
        return Message(int(words[1], 16), payload, port=int(words[0]))

    def do_tick(self, words, _):
        self.time = int(words[0])
        self.put("time", words[0])

    def do_suspend(self, words, _):
        self.put("p%s.suspended" % words[0], True)

    def do_resume(self, words, _):
        self.put("p%s.suspended" % words[0], False)

    def do_take(self, words, step):
        vector = step.reply.split()[1]
        if vector != "none":
            vp = int(words[0])
            self.processors[vp].requested.discard(int(vector, 16))
            if vector not in self.state.get("p%d.auto" % vp, ()):
                self.processors[vp].serving.add(int(vector, 16))
            self.show_vectors(vp)

    def do_store(self, words, _):
        """The bytes go to the page that was visible before the event."""
        address, data = int(words[0], 16), bytes.fromhex(words[1])
        kind, vp = self.owners.get(address // 4096, ("guest", 0))
        if kind == "guest":
            return
        place = address % 4096
        page = self.processors[vp].slots if kind == "sim" else self.processors[vp].flags
        page[place:place + len(data)] = data
        for sint in {place // 256, (place + len(data) - 1) // 256}:
            (self.show_slot if kind == "sim" else self.show_flags)(vp, sint)

    def do_write(self, words, _):
        vp, register, value = int(words[0]), int(words[1], 16), int(words[2], 16)
        if register == EOI:
            self.processors[vp].serving.discard(max(self.processors[vp].serving, default=None))
            self.show_vectors(vp)
        elif register == TPR:
            self.put("p%d.tpr" % vp, "%x" % (value & 0xFF))
        elif register in WHOLE:
            self.put("p%d.%s" % (vp, WHOLE[register]), "%x" % value)
        elif SINT <= register < SINT + 16:
            self.put("p%d.sint%d" % (vp, register - SINT), "%x" % value)
        elif TIMER <= register < TIMER + 8:
            self.write_timer(vp, (register - TIMER) // 2, register % 2, value)

    def write_timer(self, vp, index, is_count, value):
        timer = self.processors[vp].timers[index]
        config, count = timer[0], timer[1]
        if not is_count:
            config = value & STORED
        else:
            count = value
            config = config & ~ENABLED if value == 0 else config | (ENABLED if config & AUTO_ENABLE else 0)
        has_target = config >> 4 & 0xFF >= 16 if config & DIRECT else config >> 16 & 15
        if not has_target:
            config &= ~ENABLED
        due = None
        if config & ENABLED and count:
            due = self.time + count if config & PERIODIC else count
        timer[:] = [config, count, due]
        self.show_timer(vp, index)

    def do_reset(self, words, step):
        """The notices empty the slots and the queues; the rest is cleared here, before them."""
        vp = int(words[0])
        processor = self.processors[vp]
        processor.requested, processor.serving = set(), set()
        processor.slots, processor.flags = bytearray(4096), bytearray(4096)
        processor.timers = [[0, 0, None] for _ in range(4)]
        self.put("p%d.suspended" % vp, False)
        self.clear_registers(vp)

    # what the notices say

    def note(self, step, sent):
        for kind, *numbers in step.notices:
            if kind == "expired":
                self.expire(*map(int, numbers))
                sent = Message(TIMER_TYPE, b"", timer=int(numbers[1]), expiration=int(numbers[2]))
            elif kind == "accepted":
                self.accept(*map(int, numbers), sent)
            else:
                getattr(self, "note_" + kind)(*numbers)

    def expire(self, vp, index, _):
        """The periods that a lazy timer leaves out are named as skipped, so one period passes here."""
        timer = self.processors[vp].timers[index]
        if timer[0] & PERIODIC:
            timer[2] += timer[1]
        else:
            timer[0], timer[2] = timer[0] & ~ENABLED, None
        self.show_timer(vp, index)

    def note_skipped(self, vp, index, periods):
        timer = self.processors[int(vp)].timers[int(index)]
        timer[2] += timer[1] * int(periods)
        self.show_timer(int(vp), int(index))

    def accept(self, ticket, vp, sint, message):
        self.messages[ticket] = message
        self.processors[vp].queues.setdefault(sint, []).append(message.shown(ticket, self.number, self.actor))
        self.ticket = ticket + 1
        self.put("ticket", str(self.ticket))
        self.show_queue(vp, sint)

    def leave(self, ticket, vp, sint):
        queue = self.processors[vp].queues.get(sint, [])
        kept = [entry for entry in queue if entry[0] != ticket]
        self.processors[vp].queues[sint] = kept
        self.show_queue(vp, sint)
        return len(kept) < len(queue)

    def note_placed(self, ticket, vp, sint):
        vp, sint = int(vp), int(sint)
        self.leave(ticket, vp, sint)
        processor = self.processors[vp]
        processor.slots[256 * sint:256 * sint + 256] = self.messages.pop(int(ticket)).image(self.time)
        processor.tickets[sint] = int(ticket)
        self.show_slot(vp, sint)

    def note_pending(self, vp, sint):
        vp, sint = int(vp), int(sint)
        self.processors[vp].slots[256 * sint + 5] |= 1
        self.show_slot(vp, sint)

    def note_consumed(self, _, vp, sint):
        vp, sint = int(vp), int(sint)
        self.processors[vp].tickets.pop(sint, None)
        self.show_slot(vp, sint)

    def note_withdrawn(self, ticket, vp, sint):
        vp, sint = int(vp), int(sint)
        if not self.leave(ticket, vp, sint):
            self.processors[vp].tickets.pop(sint, None)
            self.show_slot(vp, sint)
        self.messages.pop(int(ticket), None)

    def note_requested(self, vp, vector):
        self.processors[int(vp)].requested.add(int(vector, 16))
        self.show_vectors(int(vp))

    def note_flag(self, vp, sint, flag):
        vp, sint, flag = int(vp), int(sint), int(flag)
        self.processors[vp].flags[256 * sint + (flag >> 3)] |= 1 << (flag & 7)
        self.show_flags(vp, sint)

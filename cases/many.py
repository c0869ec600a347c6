"""Sparse boards of more than eight processors, as scripts with their whole expected output, derived here
event by event: sixty-four local APICs, the 32 timers that expire in one tick, message and event flags
pages of the last processor, and all overlays at one page."""

from edges import CONFIG, COUNT, EOM, LAST, ONE_SHOT, SCONTROL, SIEFP, SIMP, SINT2, TO_SINT2, Scene

EOI = 0x40000070
PROCESSORS = 64


def each_processor_has_a_local_apic():
    scene = Scene(PROCESSORS, "sparse")
    for vp in range(PROCESSORS):
        scene.ask("assert %d %x" % (vp, 0x40 + vp), "done", "requested %d %x" % (vp, 0x40 + vp))
    scene.summary({vp: "%x" % (0x40 + vp) for vp in range(PROCESSORS)})
    for vp in reversed(range(PROCESSORS)):
        scene.ask("take %d" % vp, "taken %x" % (0x40 + vp))
        # a lower vector waits until the one in service is ended
        scene.ask("assert %d 20" % vp, "done", "requested %d 20" % vp)
        scene.ask("take %d" % vp, "taken none")
        scene.write(vp, EOI, 0)
    scene.summary({vp: "20" for vp in range(PROCESSORS)})
    for vp in (64, 65, 128, 255):
        scene.ask("assert %d 20" % vp, "refused 14")
        scene.ask("take %d" % vp, "refused 14")
    return scene


def each_bit_of_a_mask_is_a_processor():
    scene = Scene(PROCESSORS, "sparse")
    for vp in range(PROCESSORS):
        scene.ask("send %x %x" % (0x40 + vp, 1 << vp), "done", "requested %d %x" % (vp, 0x40 + vp))
    scene.ask("send 90 %x" % LAST, "done", *("requested %d 90" % vp for vp in range(PROCESSORS)))
    scene.summary({vp: "90" for vp in range(PROCESSORS)})
    fewer = Scene(63, "sparse")
    fewer.ask("send 90 %x" % (1 << 63), "refused 14")
    fewer.ask("send 90 %x" % (LAST >> 1), "done", *("requested %d 90" % vp for vp in range(63)))
    return scene, fewer


def direct(vp, index, due, is_first):
    """What a one-shot timer in direct mode does, and whether its vector is not yet requested."""
    return ["expired %d %d %d" % (vp, index, due)] + (["requested %d 40" % vp] if is_first else [])


def a_tick_expires_32_timers():
    """Four timers of each processor are due at 10; the next tick expires those that are left."""
    scene = Scene(PROCESSORS, "sparse")
    timers = [(vp, index) for vp in range(PROCESSORS) for index in range(4)]
    for vp, index in timers:
        scene.start_timer(vp, index, ONE_SHOT, 10)
    for turn in range(8):
        here, left = timers[32 * turn:32 * turn + 32], timers[32 * turn + 32:]
        scene.ask("tick %d" % (10 + turn), "done", *(line for vp, index in here for line in direct(vp, index, 10, index == 0)))
        # the present moment tries nothing
        scene.ask("tick %d" % (10 + turn), "done")
        nexts = {vp: "40" for vp in range(8 * turn + 8)}
        scene.summary(nexts, "10 %d %d" % left[0] if left else "none")
    return scene


def the_earliest_expire_first():
    """The timer of the last processor is due first, and so on down: it is among the first 32."""
    scene = Scene(PROCESSORS, "sparse")
    for vp in range(PROCESSORS):
        scene.start_timer(vp, vp % 4, ONE_SHOT, 100 - vp)
    order = list(reversed(range(PROCESSORS)))
    scene.ask("tick 100", "done", *(line for vp in order[:32] for line in direct(vp, vp % 4, 100 - vp, True)))
    scene.summary({vp: "40" for vp in order[:32]}, "69 31 3")
    scene.ask("tick 101", "done", *(line for vp in order[32:] for line in direct(vp, vp % 4, 100 - vp, True)))
    scene.summary({vp: "40" for vp in order})
    return scene


def a_timer_that_is_not_ready_holds_up_no_other():
    """40 timers in message mode are due first, and their SynICs are off; 40 in direct mode are due later."""
    scene = Scene(20, "sparse")
    for vp in range(10):
        for index in range(4):
            scene.start_timer(vp, index, TO_SINT2, 5)
    for vp in range(10, 20):
        for index in range(4):
            scene.start_timer(vp, index, ONE_SHOT, 7)
    timers = [(vp, index) for vp in range(10, 20) for index in range(4)]
    scene.ask("tick 9", "done", *(line for vp, index in timers[:32] for line in direct(vp, index, 7, index == 0)))
    scene.summary({vp: "40" for vp in range(10, 18)}, "5 0 0")
    scene.ask("tick 10", "done", *(line for vp, index in timers[32:] for line in direct(vp, index, 7, index == 0)))
    scene.write(9, SCONTROL, 1)
    # those of processor 9 are ready now, and are tried by the next tick: each queues its message
    told = []
    for index in range(4):
        told += ["expired 9 %d 5" % index, "accepted %d 9 2" % index]
    scene.ask("tick 11", "done", *told)
    scene.summary({vp: "40" for vp in range(10, 20)}, "5 0 0", queues={(9, 2): 4})
    return scene


def a_reset_withdraws_the_messages_of_the_last_processor():
    """All buffers of ports, and the four of its timers, are at one source; those of other timers stay."""
    scene = Scene(PROCESSORS, "sparse")
    for port in range(16):
        scene.done("open %d message 63 2 16" % port)
    for vp in (62, 63):
        scene.write(vp, SCONTROL, 1)
        for index in range(4):
            scene.start_timer(vp, index, TO_SINT2, 4 - index)
    for ticket in range(256):
        scene.ask("post %d 1 -" % (ticket % 16), "accepted %d" % ticket, "accepted %d 63 2" % ticket)
    told = []
    for number in range(8):
        due, vp = number // 2 + 1, 62 + number % 2
        told += ["expired %d %d %d" % (vp, 4 - due, due), "accepted %d %d 2" % (256 + number, vp)]
    scene.ask("tick 4", "done", *told)
    scene.summary(queues={(62, 2): 4, (63, 2): 260})
    gone = list(range(256)) + [256 + number for number in range(8) if number % 2]
    scene.ask("reset 63", "done", *("withdrawn %d 63 2" % ticket for ticket in gone))
    scene.summary(queues={(62, 2): 4})
    return scene


def put(scene, number, is_here):
    """Writes the register of an overlay: those of processor 0 first, SIMP before SIEFP."""
    scene.write(number // 2, SIEFP if number % 2 else SIMP, 0x3001 if is_here else 0x3000)


def the_first_overlay_of_128_is_visible():
    """All overlays are at one page; the message page of each processor gets its own byte while it is the
    first, and the event flags pages stay zero."""
    scene = Scene(PROCESSORS, "sparse")
    for number in reversed(range(128)):
        put(scene, number, True)
        if number % 2 == 0:
            scene.done("store 3ff8 %02x" % (number // 2 + 1))
    for number in range(128):
        scene.ask("load 3ff8 1", "bytes %02x" % (0 if number % 2 else number // 2 + 1))
        put(scene, number, False)
    scene.ask("load 3ff8 1", "refused 17")
    return scene


def a_message_and_a_flag_reach_the_last_processor():
    scene = Scene(PROCESSORS, "sparse")
    scene.write(63, SCONTROL, 1)
    scene.write(63, SIMP, 0x7001)
    scene.write(63, SIEFP, 0x8001)
    scene.write(63, SINT2, 0x50)
    scene.done("open 0 message 63 2 1", "open 1 event 63 2 0 2048")
    scene.ask("post 0 1 2a", "accepted 0", "accepted 0 63 2", "placed 0 63 2", "requested 63 50")
    scene.ask("load 7210 1", "bytes 2a")
    scene.ask("take 63", "taken 50")
    scene.write(63, EOI, 0)
    scene.ask("store 7200 00000000", "done", "consumed 0 63 2")
    scene.write(63, EOM, 0)
    scene.ask("signal 1 2047", "clear", "flag 63 2 2047", "requested 63 50")
    scene.ask("signal 1 2047", "set")
    scene.ask("load 82ff 1", "bytes 80")
    for vp in (64, 128):
        scene.ask("open 2 message %d 2 1" % vp, "refused 4")
        scene.ask("write %d %x 1" % (vp, SCONTROL), "refused 14")
    return scene


def port_target(port):
    """The processor and the source of one of 256 ports: four for each processor."""
    return port // 4, 2 + port % 4


def each_processor_has_four_ports():
    """All 256 ports are open: each posts as often as it has buffers, is refused once more, and signals
    nothing. Closing it withdraws its own messages."""
    scene = Scene(PROCESSORS, "sparse")
    for vp in range(PROCESSORS):
        scene.write(vp, SCONTROL, 1)
    for port in range(256):
        scene.done("open %d message %d %d 16" % (port, *port_target(port)))
        scene.ask("open %d message 0 2 1" % port, "refused 2")
    for ticket in range(4096):
        port = ticket % 256
        scene.ask("post %d 1 -" % port, "accepted %d" % ticket, "accepted %d %d %d" % (ticket, *port_target(port)))
    for port in range(256):
        scene.ask("post %d 1 -" % port, "refused 8")
    scene.summary(queues={port_target(port): 16 for port in range(256)})
    for port in reversed(range(256)):
        scene.ask("signal %d 0" % port, "refused 3")
        own = range(port, 4096, 256)
        scene.ask("close %d" % port, "done", *("withdrawn %d %d %d" % (ticket, *port_target(port)) for ticket in own))
        scene.ask("close %d" % port, "refused 1")
    scene.summary()
    return scene


def a_board_has_four_ports_for_each_processor(processors):
    """Sixteen, if these are more."""
    count = max(16, 4 * processors)
    scene = Scene(processors, "sparse")
    scene.done("open %d event %d 2 0 1" % (count - 1, processors - 1))
    for port in (count, count + 1, 255):
        scene.ask("open %d event 0 2 0 1" % port, "refused 1")
        scene.ask("close %d" % port, "refused 1")
    return scene


def a_processor_has_256_buffers():
    """Of all its ports, whatever their sources. Ports of event flags need none, and a port that is closed gives
    its own back."""
    scene = Scene(5, "sparse")
    scene.done(*("open %d message 3 %d 16" % (port, port) for port in range(15)))
    scene.done("open 15 message 3 0 15")
    scene.ask("open 16 message 3 1 2", "refused 4")
    scene.done("open 16 message 3 1 1")
    scene.ask("open 17 message 3 2 1", "refused 4")
    scene.done("open 17 event 3 2 0 2048", "open 18 message 4 2 16")
    scene.done("close 15")
    scene.ask("open 15 message 3 2 16", "refused 4")
    scene.done("open 15 message 3 2 15", "close 17")
    scene.ask("open 17 message 3 2 1", "refused 4")
    scene.done("reset 3")
    # a reset leaves the ports
    scene.ask("open 17 message 3 2 1", "refused 4")
    return scene


def a_dense_board_of_eight_has_sixteen_ports():
    scene = Scene(8, 1)
    scene.ask("open 16 message 0 2 1", "refused 1")
    scene.done(*("open %d message 7 2 16" % port for port in range(16)))
    return scene


def each_timer_is_told_by_its_number():
    """Each of 256 timers is due at another moment, and ticks expire them one by one."""
    scene = Scene(PROCESSORS, "sparse")
    order = [(5 * number + 3) % 256 for number in range(256)]
    for turn, number in enumerate(order):
        scene.write(number // 4, COUNT + 2 * (number % 4), 1000 + turn)
        scene.write(number // 4, CONFIG + 2 * (number % 4), ONE_SHOT)
    asked = set()
    for turn, number in enumerate(order):
        vp = number // 4
        scene.ask("tick %d" % (1000 + turn), "done", *direct(vp, number % 4, 1000 + turn, vp not in asked))
        asked.add(vp)
    scene.summary({vp: "40" for vp in range(PROCESSORS)})
    return scene


def scenes():
    """Each scene with its name."""
    for scene in (
            each_processor_has_a_local_apic, a_tick_expires_32_timers, the_earliest_expire_first,
            a_timer_that_is_not_ready_holds_up_no_other, a_reset_withdraws_the_messages_of_the_last_processor,
            the_first_overlay_of_128_is_visible, a_message_and_a_flag_reach_the_last_processor,
            each_timer_is_told_by_its_number, each_processor_has_four_ports, a_processor_has_256_buffers,
            a_dense_board_of_eight_has_sixteen_ports):
        yield scene.__name__.replace("_", " "), scene()
    whole, fewer = each_bit_of_a_mask_is_a_processor()
    yield "each bit of a mask is a processor", whole
    yield "bit 63 is beyond 63 processors", fewer
    for processors in (1, 4, 5, 8, 63):
        yield "a board of %d has four ports for each" % processors, a_board_has_four_ports_for_each_processor(processors)

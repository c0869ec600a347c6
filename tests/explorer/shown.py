"""What pages have to show at chosen events: written by hand, from docs/MACHINE.md and the stored output
of the examples. A key names a cell: table, row, column. None is a row that is not there."""

I, S, Q, T = "p0.interrupts/", "p0.slots/", "p0.queues/", "p0.timers/"

CELLS = {
    ("end-of-message", 5): {
        I + "requested/1": "50", I + "next/1": "50", I + "why/1": "class 5 of 50 is above the priority 0", "board/ticket/1": "1",
        S + "slot2/1": "0", S + "slot2/2": "1", S + "slot2/3": "port 3", S + "slot2/4": "payload 0a", S + "slot2/5": "clear"},
    ("end-of-message", 10): {
        S + "slot2/5": "set", "ports/port3/3": "2 of 2 buffers used", Q + "message1/5": "event 9", Q + "message2/6": "1 before it in the queue",
        Q + "message1/6": "slot 2 is occupied by message 0: the guest has to empty it and to write EOM"},
    ("end-of-message", 14): {S + "slot2/1": "1", S + "slot2/4": "payload 0b", S + "slot2/5": "set", Q + "message1/1": None, Q + "message2/4": "payload 0c"},
    ("forgotten-eom", 13): {
        I + "next/1": "none", I + "why/1": "nothing is requested; message 1 waits at SINT2", S + "slot2/1": "none", S + "slot2/2": "empty", S + "slot2/5": "set",
        Q + "message1/6": "the slot is empty, and no delivery was attempted since: EOM is missing"},
    ("two-timers", 11): {Q + "message1/2": "timer 1", Q + "message1/4": "expiration 20", T + "timer1/3": "30", T + "timer0/4": "in 10"},
    ("two-timers", 12): {
        S + "slot2/1": "1", S + "slot2/2": "80000010 (timer)", S + "slot2/3": "timer 1", S + "slot2/4": "expiration 20, delivery 30", S + "slot2/5": "set",
        Q + "message2/2": "timer 0", Q + "message2/4": "expiration 30", Q + "message3/2": "timer 1", T + "timer0/3": "60", T + "timer1/3": "40",
        T + "timer1/5": "not due: 10 from now", "board/earliest/1": "timer 1 of processor 0 at 40"},
    ("priorities", 3): {I + "requested/1": "5f, 61", I + "next/1": "61", I + "priority/1": "5"},
    ("priorities", 4): {
        I + "serving/1": "61", I + "priority/1": "6", I + "next/1": "none",
        I + "why/1": "5f has class 5, which is not above the priority: 61 is in service, and no EOI ended it; TPR has class 5"},
    ("priorities", 6): {I + "serving/1": "none", I + "why/1": "5f has class 5, which is not above the priority: TPR has class 5"},
    ("priorities", 7): {I + "next/1": "5f", I + "priority/1": "4"},
    ("auto-eoi", 4): {I + "serving/1": "none", I + "auto/1": "60", I + "why/1": "nothing is requested; 60 is auto-EOI, so it is not in service after its take"},
    ("auto-eoi", 8): {I + "why/1": "62 has class 6, which is not above the priority: 61 is in service, and no EOI ended it"},
    ("offline", 15): {
        "p1.interrupts/why/1": "the processor is suspended, and 50 is requested", "p1.interrupts/suspended/1": "yes",
        "p1.timers/timer0/4": "20 late", "p1.timers/timer0/5": "the processor is suspended"},
    ("offline", 16): {"p1.interrupts/next/1": "50", "p1.timers/timer0/5": "due: the next tick to a later time tries it"},
    ("offline", 25): {"p1.slots/slot2/1": "1", "p1.slots/slot2/4": "payload 0b", "p1.queues/message2/2": "port 3"},
    ("reset", 16): {"ports/port3/3": "2 of 2 buffers used", "ports/port4/3": "1 of 1 buffers used", I + "serving/1": "51", T + "timer0/3": "20"},
    ("reset", 17): {
        "ports/port3/3": "0 of 2 buffers used", I + "serving/1": "none", T + "timer0/0": None, S + "slot2/0": None, Q + "message2/0": None,
        "p0.registers/sint2/1": None, "board/page2/1": None},
    ("recorded", 1): {"p0.registers/scontrol/2": "SynIC enabled"},
}

# exactly the cells that are marked as changed
CHANGED = {
    ("forgotten-eom", 10): {I + "priority/1", I + "serving/1"},
    ("forgotten-eom", 8): set(),
    ("priorities", 1): {I + "tpr/1", I + "priority/1"},
}

LIVES = {
    ("forgotten-eom", "message 1"): [(6, "message 1 joins the queue of SINT2 of processor 0")],
    ("end-of-message", "message 0"): [
        (5, "message 0 joins the queue of SINT2 of processor 0"), (5, "message 0 goes into slot 2 of processor 0"),
        (13, "slot 2 of processor 0 is empty: message 0 was consumed")],
    ("priorities", "vector 61 of processor 0"): [(3, "requested"), (4, "taken, and in service"), (5, "ended by EOI")],
    ("auto-eoi", "vector 60 of processor 0"): [(3, "requested"), (4, "taken as auto-EOI: it ends at once")],
    ("offline", "timer 0 of processor 1"): [
        (5, "COUNT written: 64"), (6, "CONFIG written: 1611"), (15, "due since 100, and not expired"),
        (18, "timer 0 of processor 1 expires for moment 100")],
}

# actions on the page of end-of-message, one after another, and what they lead to
ACTIONS = [
    ("key:End", {"event": 15}), ("key:ArrowUp", {"event": 14}), ("key:k", {"event": 13}), ("key:Home", {"event": 1}),
    ("key:PageDown", {"event": 11}), ("set:search:CONSUMED", {"found": "1 matches"}), ("key:n", {"event": 13}), ("key:n", {"event": 13}),
    ("set:by-kind:post", {"rows": 4, "chosen": []}), ("key:ArrowUp", {"event": 12, "chosen": [12]}), ("key:ArrowUp", {"event": 10}),
    ("check:by-refused", {"rows": 1}), ("check:by-refused", {"rows": 4}), ("set:by-kind:", {"rows": 15}), ("check:matches", {"rows": 1}),
    ("check:matches", {"rows": 15}), ("set:by-port:3", {"rows": 7}), ("set:by-port:", {"rows": 15}), ("life:message 0", {"event": 10}),
    ("key:Escape", {"life": None}), ("hash:event=9", {"event": 9, "chosen": [9], "life": None}),
    ("hash:event=12&life=message 2", {"event": 12, "life": "CloseLife of message 2event 10: message 2 joins the queue of SINT2 of processor 0"}),
    ("key:Escape", {"life": None}), ("hash:event=none", {"event": 1}), ("999", {"event": 15}), ("0", {"event": 0}), ("key:ArrowDown", {"event": 1}),
]

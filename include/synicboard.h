/* synicboard.h: the interrupt side of a Hyper-V-like partition, as a library for C.
 *
 * A board has 1 to 8 virtual processors, each with a local APIC, a SynIC and four synthetic timers,
 * and 1 to 64 guest pages of 4096 bytes. A sparse board has 1 to 64 processors and leaves all guest pages to
 * the caller, and its guest may have any number of them. A board starts no thread, reads no clock and calls nothing back:
 * the host performs events on it. Each event returns a reply and emits notices. docs/MACHINE.md
 * specifies both; docs/EMBEDDING.md shows the run loop of a host.
 *
 * Handles. A `synicboard` is a board. A `synicboard_line` raises vectors of posted words without the
 * board's lock. A `synicboard_shared` is a board with a lock, for several threads. A
 * handle with all bytes zero is closed. The caller owns the struct and may move it, but must not copy
 * it or access its fields. The open and split calls below open a handle; its close call frees it.
 *
 * Threads. At most one call at a time may use a `synicboard` or a `synicboard_line`, so threads that
 * share one need a lock of their own, for queries too, although these take a `const synicboard *` and
 * change nothing. Any number of threads may use one `synicboard_shared` at the same time, except while
 * it is opened or closed. Calls on different handles may run at the same time.
 *
 * Memory. Only these calls allocate: the open and split calls, synicboard_make_live, the calls on texts, and the
 * calls that share a board, append to the history of a recorded board or write it. No event on a `synicboard` allocates. No call
 * ends the program.
 *
 * Null pointers. Each call checks its pointers for null:
 *   - A null handle counts as closed. To open a null handle returns SYNICBOARD_NO_HANDLE, and to close
 *     one does nothing.
 *   - A null event or reply counts as one with no valid kind, also in place of an array of events with
 *     a count above 0.
 *   - Null bytes with a length above 0 count as too many bytes. A null text with a length above 0
 *     yields SYNICBOARD_NO_TEXT.
 *   - A null output buffer counts as one of length 0. If `page` is null, no address is stored. What the call
 *     does is done all the same: synicboard_tick_due moves the clock, and the vectors that synicboard_forward
 *     takes off the board are lost.
 * Every other pointer must point to as many valid objects as the call states; with a count of 0 it may
 * point anywhere.
 */
#ifndef SYNICBOARD_H
#define SYNICBOARD_H

#include <stdbool.h>
#include <stddef.h>
#include <stdint.h>

#ifdef __cplusplus
extern "C" {
#endif

/* The version of the library, by semantic versioning. The program, the package and the Rust bindings have the
 * same one. */
#define SYNICBOARD_VERSION_MAJOR 3
#define SYNICBOARD_VERSION_MINOR 0
#define SYNICBOARD_VERSION_PATCH 0

/* The version as one number, 10000 * major + 100 * minor + patch. The call gives that of the library which runs. */
#define SYNICBOARD_VERSION \
    (10000 * SYNICBOARD_VERSION_MAJOR + 100 * SYNICBOARD_VERSION_MINOR + SYNICBOARD_VERSION_PATCH)
uint32_t synicboard_version(void);

/* A handle of a board. */
typedef struct synicboard {
    void *at;
    bool is_open;
} synicboard;

/* The initial value of a handle: closed. */
#define SYNICBOARD_CLOSED { 0, false }

/* Outcomes. One outcome has one name and one number, whichever call returns it. Each call says which ones
 * it returns. */
enum synicboard_outcome {
    SYNICBOARD_OK = 0,
    SYNICBOARD_BAD_SIZE = 1,            /* not 1 to 8 processors, or not 1 to 64 pages; sparse: not 1 to 64 processors */
    SYNICBOARD_NO_MEMORY = 2,           /* an allocation failed */
    SYNICBOARD_IS_OPEN = 3,             /* the handle to open is already open */
    SYNICBOARD_IS_CLOSED = 4,           /* the handle is closed */
    SYNICBOARD_NO_MORE_LINES = 5,       /* the line has no lines left to split off */
    SYNICBOARD_NO_HANDLE = 6,           /* the pointer to the handle to open is null */
    SYNICBOARD_NO_LINE = 7,             /* the handle of the line is closed, and that of the board is not */
    SYNICBOARD_NO_EVENT = 8,            /* a vector below 16, too many bytes, or an unknown kind */
    SYNICBOARD_NO_ROOM = 9,             /* one more reply, or SYNICBOARD_MOST_NOTICES more notices, might not fit */
    SYNICBOARD_WRONG_LINE = 10,         /* a line of the text is wrong; `line` is the first, from 1 */
    SYNICBOARD_TOO_LONG = 11,           /* more than 1,073,741,824 bytes, and no line of these is wrong */
    SYNICBOARD_NO_TEXT = 12,            /* the text is null, and its length is not 0 */
    SYNICBOARD_NOT_RECORDED = 13,       /* the shared board has no history */
    SYNICBOARD_IS_LIVE = 14,            /* the board has live pages, and the call serves only others */
    SYNICBOARD_NOT_LIVE = 15,           /* the board has no live pages */
    SYNICBOARD_BAD_PAGE = 16,           /* a page is null, not at a multiple of 4096, there twice, or another board's */
    SYNICBOARD_IS_HELD = 17,            /* the thread holds the shared board already */
    SYNICBOARD_NOT_HELD = 18            /* the thread does not hold the shared board */
};

/* What an outcome, a refusal, or the kind of a notice means, in words: for the first two those of the comments here.
 * Null if it is none. */
const char *synicboard_outcome_text(uint8_t outcome);
const char *synicboard_refusal_text(uint8_t refusal);
const char *synicboard_notice_text(uint8_t kind);

/* Opens a board at time 0. The first message that it accepts gets the ticket `first_ticket`. Allocates
 * all memory that the events of this board need.
 *
 * Returns SYNICBOARD_OK; SYNICBOARD_NO_HANDLE if `board` is null; SYNICBOARD_IS_OPEN if it is
 * open; SYNICBOARD_BAD_SIZE unless `processors` is 1 to 8 and `pages` is 1 to 64; or
 * SYNICBOARD_NO_MEMORY if an allocation fails. */
uint8_t synicboard_open(synicboard *board, uint8_t processors, uint8_t pages, uint64_t first_ticket);

/* Opens a sparse board at time 0, for a guest with memory of any size: page numbers are 0 to 2^52 - 1, and the
 * caller has the pages. The board holds only the message and event flags pages, and decides at which page a
 * guest sees them. A load or a store of any other page is refused as SYNICBOARD_ELSEWHERE: the caller performs
 * it in the guest's memory. Everything else is as on a board with that many pages.
 *
 * Returns what synicboard_open returns; SYNICBOARD_BAD_SIZE unless `processors` is 1 to 64. */
uint8_t synicboard_open_sparse(synicboard *board, uint8_t processors, uint64_t first_ticket);

/* Frees the board and closes its handle. Does nothing if the handle is closed. Pointers to pages of the
 * board become invalid. */
void synicboard_close(synicboard *board);

/* Kinds of replies. The comment names the fields of synicboard_reply that the kind uses. */
enum synicboard_reply_kind {
    SYNICBOARD_NOT_PERFORMED = 0,       /* `fault` is the outcome: IS_CLOSED, NO_LINE, NO_EVENT, NOT_LIVE, IS_HELD, or NO_MEMORY
                                           if the history of a recorded board cannot grow; nothing has changed */
    SYNICBOARD_DONE = 1,
    SYNICBOARD_VALUE = 2,               /* `value` */
    SYNICBOARD_BYTES = 3,               /* the first `length` of `bytes` */
    SYNICBOARD_TAKEN = 4,               /* `vector` */
    SYNICBOARD_NONE_TAKEN = 5,          /* `take` without a next vector */
    SYNICBOARD_ACCEPTED = 6,            /* `ticket` */
    SYNICBOARD_FLAG_WAS_CLEAR = 7,      /* `signal` set the flag */
    SYNICBOARD_FLAG_WAS_SET = 8,        /* `signal` changed nothing */
    SYNICBOARD_GENERAL_PROTECTION = 9,  /* inject #GP; nothing has changed */
    SYNICBOARD_REFUSED = 10             /* `refusal`; nothing has changed */
};

/* Why the board refused an event (docs/MACHINE.md, "Refusals"). */
enum synicboard_refusal {
    SYNICBOARD_UNKNOWN_PORT = 1,        /* the port is not open, or the board has none of that number */
    SYNICBOARD_PORT_OPEN = 2,           /* the port to open is already open */
    SYNICBOARD_WRONG_KIND = 3,          /* a post to a flag port, or a signal to a message port */
    SYNICBOARD_BAD_TARGET = 4,          /* the target or shape of a port to open, or a part, is out of range */
    SYNICBOARD_BAD_TYPE = 5,            /* the message type is 0 or has bit 31 set */
    SYNICBOARD_BAD_FLAG = 6,            /* the flag is not below the port's count */
    SYNICBOARD_SYNIC_OFF = 7,           /* the target's SynIC or event flags page is disabled */
    SYNICBOARD_NO_BUFFERS = 8,          /* all buffers of the port are in use */
    SYNICBOARD_TICKETS_SPENT = 9,       /* no ticket is left */
    SYNICBOARD_CLOCK_BACK = 10,         /* the time is before the present one */
    SYNICBOARD_OUTSIDE_SPACE = 11,      /* the first byte is in no page */
    SYNICBOARD_CROSSES_PAGE = 12,       /* the last byte is in another page than the first */
    SYNICBOARD_BAD_LENGTH = 13,         /* the length is 0 or above 8 */
    SYNICBOARD_NO_SUCH_PROCESSOR = 14,  /* the processor is not on the board */
    SYNICBOARD_ALREADY_SUSPENDED = 15,  /* the processor is suspended */
    SYNICBOARD_NOT_SUSPENDED = 16,      /* the processor is not suspended */
    SYNICBOARD_ELSEWHERE = 17           /* of a sparse board: the page is in the caller's memory */
};

/* A reply. Fields that its kind does not use are 0, except `value` in a reply of
 * synicboard_absorb_line. */
typedef struct synicboard_reply {
    uint8_t kind;
    uint8_t fault;
    uint8_t refusal;
    uint8_t vector;
    uint8_t length;
    uint16_t notices;                   /* number of notices that the event emitted */
    uint64_t value;
    uint64_t ticket;
    uint8_t bytes[8];
} synicboard_reply;

/* Register numbers, by their names in the TLFS (HV_X64_MSR_..). */
enum synicboard_register {
    SYNICBOARD_MSR_TIME_REF_COUNT = 0x40000020, /* the partition reference counter, in units of 100 ns */
    SYNICBOARD_MSR_EOI = 0x40000070,            /* end of interrupt */
    SYNICBOARD_MSR_TPR = 0x40000072,            /* task priority */
    SYNICBOARD_MSR_SCONTROL = 0x40000080,       /* SynIC control */
    SYNICBOARD_MSR_SVERSION = 0x40000081,       /* SynIC version */
    SYNICBOARD_MSR_SIEFP = 0x40000082,          /* event flags page */
    SYNICBOARD_MSR_SIMP = 0x40000083,           /* message page */
    SYNICBOARD_MSR_EOM = 0x40000084,            /* end of message */
    SYNICBOARD_MSR_SINT0 = 0x40000090,          /* SINT1 to SINT15 follow */
    SYNICBOARD_MSR_STIMER0_CONFIG = 0x400000b0, /* each next timer is two numbers higher */
    SYNICBOARD_MSR_STIMER0_COUNT = 0x400000b1
};

/* ---- Events ----
 *
 * One call for each kind of event. Each performs the event on the board and returns the reply. It
 * allocates nothing. With SYNICBOARD_NOT_PERFORMED, SYNICBOARD_REFUSED or
 * SYNICBOARD_GENERAL_PROTECTION, the board is unchanged, except for the guest's stores that were found in live
 * pages. If the handle is closed, the fault is SYNICBOARD_IS_CLOSED; each call names the arguments that yield
 * SYNICBOARD_NO_EVENT. All of them serve a board with live pages too (below).
 *
 * `vp` is the number of a processor, from 0. If it is not on the board, the refusal is
 * SYNICBOARD_NO_SUCH_PROCESSOR (for opening a port, SYNICBOARD_BAD_TARGET). "Replies:" lists the kinds
 * of replies and, in parentheses, the other refusals, without the prefix SYNICBOARD_. */

/* Opens port `port` for messages to source `sint` of processor `vp`, with 1 to 16 buffers. A board has ports
 * 0 to 15; a sparse board of more than four processors has four for each. All ports of a processor have at
 * most 256 buffers; one that would have more is refused as BAD_TARGET.
 * Replies: DONE, REFUSED (UNKNOWN_PORT, PORT_OPEN, BAD_TARGET). */
synicboard_reply synicboard_open_message_port(synicboard *board, uint8_t port, uint8_t vp, uint8_t sint, uint8_t buffers);

/* Opens port `port`, as above, for the `count` event flags from `base` on, at source `sint` of processor
 * `vp`. `count` is at least 1, and `base + count` at most 2048.
 * Replies: DONE, REFUSED (UNKNOWN_PORT, PORT_OPEN, BAD_TARGET). */
synicboard_reply synicboard_open_event_port(synicboard *board, uint8_t port, uint8_t vp, uint8_t sint, uint16_t base, uint16_t count);

/* Closes a port and withdraws its queued messages. Messages in slots stay.
 * Replies: DONE, REFUSED (UNKNOWN_PORT). */
synicboard_reply synicboard_close_port(synicboard *board, uint8_t port);

/* A guest writes a register (SYNICBOARD_MSR_..).
 * Replies: DONE, GENERAL_PROTECTION, REFUSED. */
synicboard_reply synicboard_write(synicboard *board, uint8_t vp, uint32_t msr, uint64_t value);

/* Whether a register is a board's, of SYNICBOARD_MSR_.. : any other is the host's, or #GP. */
bool synicboard_has_register(uint32_t msr);

/* A guest reads a register.
 * Replies: VALUE, GENERAL_PROTECTION, REFUSED. */
synicboard_reply synicboard_read(synicboard *board, uint8_t vp, uint32_t msr);

/* Posts a message with a payload of `length` bytes to a message port. SYNICBOARD_NO_EVENT if `length` is
 * above 240.
 * Replies: ACCEPTED, REFUSED (UNKNOWN_PORT, WRONG_KIND, BAD_TYPE, SYNIC_OFF, NO_BUFFERS, TICKETS_SPENT). */
synicboard_reply synicboard_post(synicboard *board, uint8_t port, uint32_t message_type, const uint8_t *payload, size_t length);

/* Sets an event flag of a flag port. `flag` counts from the base of the port.
 * Replies: FLAG_WAS_CLEAR, FLAG_WAS_SET, REFUSED (UNKNOWN_PORT, WRONG_KIND, BAD_FLAG, SYNIC_OFF). */
synicboard_reply synicboard_signal(synicboard *board, uint8_t port, uint16_t flag);

/* A device requests a vector of a processor. SYNICBOARD_NO_EVENT if `vector` is below 16.
 * Replies: DONE, REFUSED. */
synicboard_reply synicboard_assert(synicboard *board, uint8_t vp, uint8_t vector);

/* Asserts source `sint` of processor `vp`, as a message or a signal to it would: requests its vector, unless SINTx
 * is masked or polling. SYNICBOARD_NO_EVENT if `sint` is above 15.
 * Replies: DONE, REFUSED. */
synicboard_reply synicboard_assert_source(synicboard *board, uint8_t vp, uint8_t sint);

/* Requests posted vectors. Bit i of `bits` is vector 64 * part + i; `part` is 0 to 3. Vectors below 16
 * are ignored.
 * Replies: DONE, REFUSED (BAD_TARGET if `part` is above 3). */
synicboard_reply synicboard_absorb(synicboard *board, uint8_t vp, uint8_t part, uint64_t bits);

/* A guest stores `length` bytes, 1 to 8, within one page. SYNICBOARD_NO_EVENT if `length` is above 8.
 * Replies: DONE, REFUSED (BAD_LENGTH, OUTSIDE_SPACE, CROSSES_PAGE; on a sparse board ELSEWHERE where no
 * overlay is visible: the caller stores in the guest's memory). */
synicboard_reply synicboard_store(synicboard *board, uint64_t address, const uint8_t *bytes, size_t length);

/* A guest loads `length` bytes, 1 to 8, from within one page.
 * Replies: BYTES, REFUSED (BAD_LENGTH, OUTSIDE_SPACE, CROSSES_PAGE; on a sparse board ELSEWHERE where no
 * overlay is visible: the caller loads from the guest's memory). */
synicboard_reply synicboard_load(synicboard *board, uint64_t address, uint8_t length);

/* Moves the clock to `moment`, in units of 100 ns. If that is later than the present time, tries the timers
 * that are due by then, by their deadlines, until 32 have expired: each that is tried expires, unless its
 * message cannot be sent yet. On a board of more than eight processors some may be left: the next tick to a
 * later time tries them, again until 32 have expired.
 * Replies: DONE, REFUSED (CLOCK_BACK). */
synicboard_reply synicboard_tick(synicboard *board, uint64_t moment);

/* A processor accepts its next vector. A vector that is auto-EOI does not enter service.
 * Replies: TAKEN, NONE_TAKEN, REFUSED. */
synicboard_reply synicboard_take(synicboard *board, uint8_t vp);

/* Suspends a processor: it has no next vector, and its timers do not expire, until it resumes.
 * Replies: DONE, REFUSED (ALREADY_SUSPENDED). */
synicboard_reply synicboard_suspend(synicboard *board, uint8_t vp);

/* Resumes a suspended processor. Its timers that became due are tried as others by the next tick to a later
 * time.
 * Replies: DONE, REFUSED (NOT_SUSPENDED). */
synicboard_reply synicboard_resume(synicboard *board, uint8_t vp);

/* Resets a processor: withdraws the messages in its queues and slots, and resets its registers, local APIC,
 * timers and own two pages. Ports stay open, and bits of posted words stay set.
 * Replies: DONE, REFUSED. */
synicboard_reply synicboard_reset(synicboard *board, uint8_t vp);

/* Sends an interrupt to several processors: requests the vector at each processor of `mask`, lowest first, as
 * synicboard_assert does at one. Bit p of `mask` is processor p. SYNICBOARD_NO_EVENT if `vector` is below 16.
 * Replies: DONE (also if `mask` is 0), REFUSED (NO_SUCH_PROCESSOR if `mask` has a processor that is not on the
 * board). */
synicboard_reply synicboard_send(synicboard *board, uint8_t vector, uint64_t mask);

/* Kinds of events. The comment names the fields of synicboard_event that the kind uses. */
enum synicboard_event_kind {
    SYNICBOARD_OPEN_MESSAGE_PORT = 1,   /* port, vp, sint, buffers */
    SYNICBOARD_OPEN_EVENT_PORT = 2,     /* port, vp, sint, flag (the base), count */
    SYNICBOARD_CLOSE_PORT = 3,          /* port */
    SYNICBOARD_WRITE = 4,               /* vp, msr, value */
    SYNICBOARD_READ = 5,                /* vp, msr */
    SYNICBOARD_POST = 6,                /* port, message_type, bytes, length */
    SYNICBOARD_SIGNAL = 7,              /* port, flag */
    SYNICBOARD_ASSERT = 8,              /* vp, vector */
    SYNICBOARD_ABSORB = 9,              /* vp, part, value (the bits) */
    SYNICBOARD_STORE = 10,              /* address, bytes, length */
    SYNICBOARD_LOAD = 11,               /* address, length */
    SYNICBOARD_TICK = 12,               /* moment */
    SYNICBOARD_TAKE = 13,               /* vp */
    SYNICBOARD_SUSPEND = 14,            /* vp */
    SYNICBOARD_RESUME = 15,             /* vp */
    SYNICBOARD_RESET = 16,              /* vp */
    SYNICBOARD_SEND = 17                /* vector, value (the mask) */
};

/* An event. Fields that its kind does not use are ignored. */
typedef struct synicboard_event {
    uint8_t kind;
    uint8_t vp;
    uint8_t sint;
    uint8_t port;
    uint8_t buffers;
    uint8_t vector;
    uint8_t part;
    uint8_t length;
    uint16_t flag;
    uint16_t count;
    uint32_t msr;
    uint32_t message_type;
    uint64_t value;
    uint64_t address;
    uint64_t moment;
    uint8_t bytes[240];
} synicboard_event;

/* Performs an event that is given as a struct. SYNICBOARD_NO_EVENT if its kind is unknown, its vector is
 * below 16 (assert, send), or its `length` is above 240 (post) or 8 (store). */
synicboard_reply synicboard_perform(synicboard *board, const synicboard_event *event);

/* ---- Notices ---- */

/* Kinds of notices. The comment names the fields of synicboard_notice that the kind uses. */
enum synicboard_notice_kind {
    SYNICBOARD_NOTICE_ACCEPTED = 1,     /* ticket, vp, sint */
    SYNICBOARD_NOTICE_PLACED = 2,       /* ticket, vp, sint */
    SYNICBOARD_NOTICE_PENDING = 3,      /* vp, sint */
    SYNICBOARD_NOTICE_REQUESTED = 4,    /* vp, vector */
    SYNICBOARD_NOTICE_FLAG = 5,         /* vp, sint, flag (the base of the port plus the number signalled) */
    SYNICBOARD_NOTICE_CONSUMED = 6,     /* ticket, vp, sint */
    SYNICBOARD_NOTICE_WITHDRAWN = 7,    /* ticket, vp, sint */
    SYNICBOARD_NOTICE_EXPIRED = 8,      /* vp, timer, due */
    SYNICBOARD_NOTICE_SKIPPED = 9       /* vp, timer, count */
};

/* A notice. Fields that its kind does not use are 0. */
typedef struct synicboard_notice {
    uint8_t kind;
    uint8_t vp;
    uint8_t sint;
    uint8_t vector;
    uint8_t timer;
    uint16_t flag;
    uint64_t ticket;
    uint64_t due;
    uint64_t count;
} synicboard_notice;

/* No event emits more notices. */
#define SYNICBOARD_MOST_NOTICES 276

/* Copies the notices of the last event, in order, as many as fit into `length` elements, and returns
 * how many there are; 0 if the handle is closed. An event that is refused or raises #GP
 * has none, apart from those of the guest's stores that were found in live pages. A call
 * that performs no event keeps the notices of the event before. */
size_t synicboard_notices(const synicboard *board, synicboard_notice *room, size_t length);

/* ---- Batches ---- */

typedef struct synicboard_batch {
    uint8_t end;
    size_t done;                        /* number of events performed */
    size_t emitted;                     /* number of notices that they emitted */
} synicboard_batch;

/* Performs events in order. Stops before an event that is invalid, or for which `replies` has no free
 * element, or `notices` fewer than SYNICBOARD_MOST_NOTICES free ones; if it is invalid too, the end is
 * SYNICBOARD_NO_ROOM. The reply to events[i] is replies[i]. The notices of all events follow one
 * another in `notices`; the `notices` field of each reply counts its own. Serves no board with live pages: there
 * the end is SYNICBOARD_IS_LIVE. */
synicboard_batch synicboard_perform_all(synicboard *board, const synicboard_event *events, size_t count, synicboard_reply *replies, size_t reply_room, synicboard_notice *notices, size_t notice_room);

/* ---- One call for an exit of the guest ---- */

/* When a host must tick next. */
typedef struct synicboard_next_tick {
    bool is_set;                        /* no tick makes a timer expire if not */
    uint64_t moment;
} synicboard_next_tick;

/* What became of an event, and all that the host must do next. Each field after `eoms` says how the board is, not
 * what has changed, so nothing is lost if an answer is not looked at. */
typedef struct synicboard_answer {
    synicboard_reply reply;             /* to the event, with the number of its own notices */
    size_t notices;                     /* of the clock and the event: the first of them are in the room */
    uint64_t clock_eoms;                /* the EOMs after the clock has moved, as synicboard_eoms returns them */
    uint64_t eoms;                      /* those after the event */
    uint64_t next;                      /* bit p iff processor p has a next vector: its thread takes it */
    uint64_t end_assist;                /* of `assisted`, those of which an EOI is required */
    synicboard_next_tick alarm;         /* when the host must tick next (synicboard_alarm) */
} synicboard_answer;

/* Moves the clock to `now`, as synicboard_tick does, if that is later than the board's time, and then performs the
 * event, if there is one: with a null event, or one of no valid kind, the fault is SYNICBOARD_NO_EVENT, and the clock
 * has moved. So a host passes its clock with each exit, and a register write never comes before the expiries that
 * are due by then. Copies the notices of both, in order, as many as fit into `room` elements.
 *
 * Bit p of `assisted` says that the host has set "No EOI required" in the assist page of processor p and has not found
 * it clear: where `end_assist` has the bit, the host clears it. 0 if the host has no assist pages.
 *
 * After each answer a host wakes the threads of the processors in `next`, or, if the local APICs are its own, requests
 * there what synicboard_forward returns for each of them; clears assist pages; arms its timer for `alarm`, and calls
 * this with a null event when it fires. After a write of SIMP or SIEFP, or a reset, it maps the overlays again
 * (synicboard_next_overlay). */
synicboard_answer synicboard_step(synicboard *board, uint64_t now, const synicboard_event *event, uint64_t assisted, synicboard_notice *notices, size_t room);

/* The processors that have a next vector: bit p for processor p. 0 if the handle is closed. */
uint64_t synicboard_next_bits(const synicboard *board);

/* ---- Posted vectors ----
 *
 * Posted words have one bit for each vector of each processor. A device sets a bit by one atomic step,
 * without the lock of the board; the thread of a processor absorbs the bits into the board. A line is
 * the right of one thread to do so: each thread uses its own line, and lines of the same words may be
 * used at the same time. Opening the words returns their first line, from which at most 319 more can be
 * split. The words are freed when the last of their lines is closed. What a thread wrote before it
 * raised a vector is visible to the thread that absorbs this raise. */

/* A handle of a line. */
typedef struct synicboard_line {
    void *at;
    bool is_open;
} synicboard_line;

/* The initial value of a handle of a line: closed. */
#define SYNICBOARD_LINE_CLOSED { 0, false }

/* Opens words for that many processors, with no vector raised, and their first line.
 *
 * Returns SYNICBOARD_OK; SYNICBOARD_NO_HANDLE if `line` is null; SYNICBOARD_IS_OPEN if it is open,
 * which is checked before the size; SYNICBOARD_BAD_SIZE unless `processors` is 1 to 64; or
 * SYNICBOARD_NO_MEMORY if an allocation fails. */
uint8_t synicboard_open_line(synicboard_line *line, uint8_t processors);

/* Opens `other` as a line of the same words. Only the first line of the words can split off others, 319
 * in all. No other call may use `line` at the same time.
 *
 * Returns SYNICBOARD_OK; SYNICBOARD_NO_HANDLE if `other` is null; SYNICBOARD_IS_OPEN if `other` is
 * open; SYNICBOARD_IS_CLOSED if it is not and `line` is closed; SYNICBOARD_NO_MORE_LINES if `line` has
 * none left; or SYNICBOARD_NO_MEMORY if an allocation fails. */
uint8_t synicboard_split_line(synicboard_line *line, synicboard_line *other);

/* Closes the line. Does nothing if the handle is closed. Closing the last line of the words frees
 * them; vectors that were raised and not absorbed are lost then. */
void synicboard_close_line(synicboard_line *line);

/* Results of synicboard_raise. */
enum synicboard_raised {
    SYNICBOARD_NOT_RAISED = 0,          /* closed handle, no such processor, or a vector below 16 */
    SYNICBOARD_FRESH = 1,               /* the bit was clear: kick the processor */
    SYNICBOARD_ALREADY = 2              /* the bit was already set: no kick needed */
};

/* Raises a vector, 16 to 255, of a processor, by one atomic step. Never blocks. */
uint8_t synicboard_raise(synicboard_line *line, uint8_t vp, uint8_t vector);

/* Clears the bits of a part, 0 to 3, of a processor's words, and performs an absorb of them on the
 * board. Bit i of the reply's `value` is vector 64 * part + i. This uses the board, so threads that
 * share it must hold its lock.
 *
 * The fault is SYNICBOARD_IS_CLOSED if the board is closed, and otherwise SYNICBOARD_NO_LINE if the line
 * is closed. If the board refuses, no bit is cleared. If the words do not have the processor, the board
 * absorbs no vector. */
synicboard_reply synicboard_absorb_line(synicboard *board, synicboard_line *line, uint8_t vp, uint8_t part);

/* ---- Queries ----
 *
 * What a host reads after each event. No query changes the board. Each returns a stored or a cached value. */

/* The next vector of a processor; 0 if it has none, or there is no such processor or board. */
uint8_t synicboard_next(const synicboard *board, uint8_t vp);
/* Whether a vector is auto-EOI on a processor: if it is taken, it does not enter service. */
bool synicboard_is_auto(const synicboard *board, uint8_t vp, uint8_t vector);
/* The number of messages that are queued for a source. */
uint16_t synicboard_queued(const synicboard *board, uint8_t vp, uint8_t sint);
/* The present time, in units of 100 ns; 0 if the handle is closed. */
uint64_t synicboard_moment(const synicboard *board);
/* The ticket that the next accepted message gets; 0 if the handle is closed. */
uint64_t synicboard_next_ticket(const synicboard *board);

/* How a port was opened: after a restore, a host finds its ports so. */
typedef struct synicboard_port_state {
    uint8_t kind;                       /* SYNICBOARD_PORT_.. ; if it is closed, all is 0 */
    uint8_t vp;
    uint8_t sint;
    uint8_t buffers;                    /* of messages */
    uint16_t base;                      /* of event flags */
    uint16_t count;
} synicboard_port_state;

enum synicboard_port_kind {
    SYNICBOARD_PORT_CLOSED = 0,
    SYNICBOARD_PORT_MESSAGES = 1,
    SYNICBOARD_PORT_FLAGS = 2
};

synicboard_port_state synicboard_port(const synicboard *board, uint8_t port);

/* A local APIC (SDM volume 3, "Local APIC State"). Bit i of word k is vector 64 * k + i. */
typedef struct synicboard_local_apic {
    uint64_t requested[4];              /* IRR */
    uint64_t in_service[4];             /* ISR */
    uint8_t task_priority;              /* TPR */
    uint8_t processor_priority;         /* PPR: the greater of TPR and the class of the greatest vector in service */
    bool is_suspended;
} synicboard_local_apic;

/* The local APIC of a processor, for reads of its registers; all 0 if there is no such processor or board. */
synicboard_local_apic synicboard_lapic(const synicboard *board, uint8_t vp);

/* Whether no EOI is required of a processor (TLFS, "EOI Assist"): a vector is in service, and none is requested. The host
 * may then set "No EOI required" in the processor's assist page when it injects the vector. If the guest clears the bit, it does not
 * write EOI: the host, if it has set the bit and finds it clear, writes it to the board when it looks at the bit,
 * which it does before it next asks what is next. If another vector is requested then, next or not, and the guest has
 * not cleared the bit, the host clears it. A vector that waits for the one in service is not next: ask again after an
 * event that has a notice REQUESTED for the processor. A reset and a save drop the bit. */
bool synicboard_no_eoi_required(const synicboard *board, uint8_t vp);

/* What a processor forwards to a local APIC outside the board. Bit i of word k is vector 64 * k + i. */
typedef struct synicboard_forwarded {
    uint64_t vectors[4];                /* all of them */
    uint64_t auto_eoi[4];               /* those that are auto-EOI on the processor: no EOI ends them */
} synicboard_forwarded;

/* For a host whose local APICs are not the board's (KVM's, or the processor's own). Forwards the vectors that are
 * requested at a processor: the board's APIC takes each and ends it at once, so that none is requested or in
 * service there any more, and the next request of each has its notice REQUESTED. The host requests them in its own
 * APIC: the board has them no longer, so what that APIC drops, while it is disabled, is lost. Call it after each event that has this notice for the processor, after
 * synicboard_resume, since a suspended processor forwards nothing, and once for each processor after
 * synicboard_restore. Such a host passes no EOI, no TPR, and no interrupt of anything else to the board. An image of a
 * board that was used otherwise may have a TPR, or vectors in service: they hold back the vectors of their class and
 * below, and have no notice when they are requested again. Write 0 to TPR and EOI for each vector in service then
 * (synicboard_lapic). Stores what is forwarded in `*forwarded`: all 0 if there is nothing, no such processor or no board.
 * Whether a vector is auto-EOI is read when it is forwarded.
 *
 * Serves a board with live pages, too, and accesses none. Afterwards there are no notices; if it is refused, those of
 * the event before are there still.
 * Replies: DONE, REFUSED. */
synicboard_reply synicboard_forward(synicboard *board, uint8_t vp, synicboard_forwarded *forwarded);

/* A timer, for inspection: its registers, and its deadline, even while its processor is suspended. If `is_due`,
 * it is due at high * 2^64 + low, in units of 100 ns. */
typedef struct synicboard_timer_state {
    bool is_due;
    uint64_t config;                    /* STIMERn_CONFIG */
    uint64_t count;                     /* STIMERn_COUNT */
    uint64_t low;
    uint64_t high;
} synicboard_timer_state;

/* The timer of a processor, 0 to 3; all 0 if there is no such timer or board. */
synicboard_timer_state synicboard_timer(const synicboard *board, uint8_t vp, uint8_t timer);

/* Stores the ticket of the message in the slot of a source in `*ticket`, and returns whether the slot holds
 * one; if not, or if there is no such source or board, `*ticket` is unchanged. A slot that a guest filled
 * itself holds none. */
bool synicboard_slot(const synicboard *board, uint8_t vp, uint8_t sint, uint64_t *ticket);

/* Which page is visible at a page number. */
enum synicboard_owner_kind {
    SYNICBOARD_OWNER_NOTHING = 0,       /* no such page, or the handle is closed */
    SYNICBOARD_OWNER_GUEST = 1,         /* the guest page, of a sparse board the caller's */
    SYNICBOARD_OWNER_MESSAGES = 2,      /* the message page of `vp` */
    SYNICBOARD_OWNER_FLAGS = 3          /* the event flags page of `vp` */
};

typedef struct synicboard_page_owner {
    uint8_t kind;
    uint8_t vp;
} synicboard_page_owner;

/* The page that a guest sees at page number `page`. */
synicboard_page_owner synicboard_owner(const synicboard *board, uint64_t page);

/* A page at which a guest sees an overlay. */
typedef struct synicboard_overlay {
    synicboard_page_owner owner;        /* SYNICBOARD_OWNER_NOTHING if there is none */
    uint64_t page;
} synicboard_overlay;

/* The first page from `from` on at which a guest sees an overlay. From 0 on, and then from `page` + 1, these are
 * all of them in ascending order, at most two for each processor, for a host to map. A write of SIMP or SIEFP, or a reset, may change
 * them. */
synicboard_overlay synicboard_next_overlay(const synicboard *board, uint64_t from);

/* The earliest deadline of a timer. If `is_due`, timer `timer` of processor `vp` is due at
 * high * 2^64 + low, in units of 100 ns. The clock never reaches a deadline with `high` above 0. */
typedef struct synicboard_due {
    bool is_due;
    uint8_t vp;
    uint8_t timer;
    uint64_t low;
    uint64_t high;
} synicboard_due;

/* The timer with the earliest deadline, even if it is late or not ready to expire. */
synicboard_due synicboard_earliest(const synicboard *board);

/* The earliest deadline that is later than `moment`. A timer that is late by more than a period has its next
 * deadline before the present, and is not among them: a host arms its timer for synicboard_alarm. */
synicboard_due synicboard_earliest_after(const synicboard *board, uint64_t moment);

/* The least time after the present at which a tick makes a timer expire or skip periods: a host arms its timer for
 * it. A timer that is late, such as one of more than 32 that were due, has it at the next moment; one that is not
 * ready to expire, such as one without a free buffer, has none until an event makes it ready. So a host asks again
 * after each event. */
synicboard_next_tick synicboard_alarm(const synicboard *board);

/* synicboard_tick, and the earliest timer afterwards in `*due`. At most 32 timers expire in one tick, the earliest
 * first. If more were due, as only a board of more than eight processors can have, the next of them is in `*due`,
 * and expires in a tick at a later moment. */
synicboard_reply synicboard_tick_due(synicboard *board, uint64_t moment, synicboard_due *due);

/* What a run loop acts on: the next vector of each processor, 0 if it has none, and the earliest
 * deadline. For a closed handle all is 0, and so is `next` for a processor that is not on the board. A view
 * has processors 0 to 7; a wide view, below, has 64. */
typedef struct synicboard_view {
    uint8_t next[8];
    synicboard_due earliest;
} synicboard_view;

/* The bit for `earliest`. */
#define SYNICBOARD_EARLIEST_CHANGED 0x100

/* Updates a view, and returns what differs from before: bit p iff the next vector of processor p does
 * (kick its thread), SYNICBOARD_EARLIEST_CHANGED iff the earliest deadline does, and no other bit. It compares
 * values: a vector that is taken and requested again between two calls differs in nothing. So call it after each
 * event, before the processor's thread may enter the guest. The host arms its timer for synicboard_alarm. */
uint64_t synicboard_update(const synicboard *board, synicboard_view *view);

/* The same for a board of up to 64 processors. */
typedef struct synicboard_wide_view {
    uint8_t next[64];
    synicboard_due earliest;
} synicboard_wide_view;

/* What differs in a wide view: bit p of `next` iff the next vector of processor p does (kick its thread),
 * `earliest` iff the earliest deadline does. Values are compared, as by synicboard_update. */
typedef struct synicboard_changes {
    uint64_t next;
    bool earliest;
} synicboard_changes;

/* Updates a wide view, and returns what differs from before. It asks for each of 64 processors; for a board of
 * at most eight use synicboard_update. */
synicboard_changes synicboard_update_wide(const synicboard *board, synicboard_wide_view *view);

/* Which page a guest sees at each page number, as synicboard_owner returns it. */
typedef struct synicboard_owners {
    synicboard_page_owner page[64];
} synicboard_owners;

/* Updates the owners of pages 0 to 63, and returns which differ from before: bit i iff the owner of page i
 * does (map the page again). A write of SIMP or SIEFP, or a reset, may change owners. The guest of a sparse
 * board may move an overlay to a page above 63, which is not among these: there use synicboard_next_overlay,
 * which returns each page with an overlay. */
uint64_t synicboard_update_owners(const synicboard *board, synicboard_owners *owners);

/* Store the address of a page of 4096 bytes in `*page`, for reading. Each returns whether there is such a
 * page; if not, `*page` is unchanged.
 *
 * The board owns the page. The address is valid, and the same, until the board is closed. Only events
 * and closing change the bytes, so do not read them while such a call runs. The address is a multiple of
 * 4096, so the page can be mapped into a guest, read-only (examples/c/pages.c). The message and event
 * flags pages are the processor's own, whether or not an overlay makes them visible; a guest page is the
 * page below the overlays. A sparse board holds none. */
bool synicboard_message_page(const synicboard *board, uint8_t vp, const uint8_t **page);
bool synicboard_flag_page(const synicboard *board, uint8_t vp, const uint8_t **page);
bool synicboard_guest_page(const synicboard *board, uint64_t number, const uint8_t **page);

/* ---- Live pages ----
 *
 * A board with live pages has, next to its own message and event flags pages, a page of memory for each, which
 * the host maps into the guest, readable and writable, where synicboard_owner says that the guest sees that
 * page. The guest uses it without an exit: it reads a message, stores 0 in the message type, has a barrier,
 * looks at MessagePending and writes EOM if it is set; it clears event flags by its own atomic instructions. It
 * may store anything there at any time. The host must not store there. On an event the board accesses the live
 * pages, by atomic accesses to aligned words of 64 bits, and learns what the guest has stored: the board
 * performs these stores, and then the event. A message that the guest has consumed has its notice CONSUMED at
 * the next event, or call of synicboard_observe, that looks at its slot.
 *
 * All calls that perform events serve such a board, but synicboard_perform_all. A store or a load at a page where
 * the guest sees a live page is refused as SYNICBOARD_ELSEWHERE: the caller performs it in the live page. The
 * notices of an event are those of the guest's stores that were found before it, of the event, of the stores that were
 * found after it, and of the EOMs that the board performs (synicboard_eoms), in this order. All queries serve it; those
 * that return pages return the board's own, as it knows them. */

/* Gives the board live pages, which have the bytes of its own pages; a processor that is in the guest must not
 * see these any more. Stores the addresses of the live pages in `pages`, two for each processor: the message
 * page of processor p in `pages[2 * p]`, its event flags page in `pages[2 * p + 1]`. Each is a page of 4096
 * bytes at a multiple of 4096, and stays valid until the board is closed. Allocates all memory that events need.
 *
 * Returns SYNICBOARD_OK; SYNICBOARD_NO_HANDLE if `pages` is null; SYNICBOARD_IS_CLOSED if the board is closed;
 * SYNICBOARD_IS_LIVE if it has live pages; or SYNICBOARD_NO_MEMORY if an allocation fails. Unless it returns
 * SYNICBOARD_OK, nothing changes. */
uint8_t synicboard_make_live(synicboard *board, uint8_t **pages);

/* The same in pages of the caller's, which it may have mapped already: `pages` has their addresses, in that order. They
 * are the board's until it is closed, and are not freed then. A board that is restored later may have them again, at
 * the same places. What was in them is lost, also if an allocation fails.
 *
 * Returns what synicboard_make_live returns; SYNICBOARD_BAD_PAGE if a page is null, not at a multiple of 4096,
 * there twice, or another open board's. */
uint8_t synicboard_make_live_in(synicboard *board, uint8_t *const *pages);

/* Whether the board has live pages. */
bool synicboard_is_live(const synicboard *board);

/* No event, and no synicboard_observe or synicboard_save, emits more notices on a board with live pages. Only a tick
 * of a board of many processors comes near it: one copies them in parts, or into static memory. */
#define SYNICBOARD_MOST_LIVE_NOTICES 22720

/* The processors of which the board performed an EOM after the last event: bit p for processor p. If a tick or a
 * write of a timer's register leaves a message waiting whose slot the guest has emptied meanwhile, perhaps without a
 * look at MessagePending, the board writes EOM of that processor itself in the same call, which places the message. A
 * host that logs events appends a write of 0 to SYNICBOARD_MSR_EOM for each, in the order of their numbers, with the
 * reply SYNICBOARD_DONE. 0 without live pages, or if the handle is closed. */
uint64_t synicboard_eoms(const synicboard *board);

/* Looks at the message slots of a processor, if the guest sees its message page, so that the notices are those of
 * the messages that it has consumed. The fault is SYNICBOARD_NOT_LIVE if the board has no live pages.
 * Replies: DONE, REFUSED. */
synicboard_reply synicboard_observe(synicboard *board, uint8_t vp);

/* Looks at all words of both live pages of a processor that the guest sees: the board's own pages have what the guest
 * has stored. synicboard_save does the same of each processor, and a write of SIMP or SIEFP for the pages that it may
 * hide. Notices and fault are those of synicboard_observe; a call that is refused keeps the notices of the event before.
 * Replies: DONE, REFUSED. */
synicboard_reply synicboard_observe_all(synicboard *board, uint8_t vp);

/* ---- The reference TSC page ---- */

/* What a guest computes the reference time with, in units of 100 ns: ((tsc * scale) >> 64) + offset, in 64 bits
 * that wrap (TLFS, "Partition Reference Time Enlightenment"). A host that takes its time from
 * synicboard_tsc_time passes the board, and the guest through the page, the same time. */
typedef struct synicboard_tsc_page {
    uint64_t scale;     /* TscScale */
    uint64_t offset;    /* TscOffset, in two's complement */
} synicboard_tsc_page;

/* A page for a TSC of `hz` ticks a second, by which the time is `time` when the TSC is `tsc`. Both fields are 0
 * if the TSC has no more than 10,000,000 ticks a second. Between two values of the TSC, the time passes by as
 * many units as the ticks last, or by one less or more. */
synicboard_tsc_page synicboard_tsc_page_at(uint64_t hz, uint64_t tsc, uint64_t time);

/* The page of a guest that continues, after it was saved or its TSC was set: the same scale, and the time is
 * `time` when the TSC is `tsc`. */
synicboard_tsc_page synicboard_tsc_page_moved(synicboard_tsc_page page, uint64_t tsc, uint64_t time);

/* The reference time of a page when the TSC is `tsc`. It wraps: for a TSC before the one at which the time was 0
 * it is near 2^64. Do not pass such a time to synicboard_tick, which would refuse all others after it. */
uint64_t synicboard_tsc_time(synicboard_tsc_page page, uint64_t tsc);

/* The first value of the TSC from which on the time of a page is at least `time`, as long as it does not wrap: what a host
 * sets a timer of its TSC to for synicboard_alarm. 0 if that was before the TSC was 0, and 2^64 - 1 if it never is. */
uint64_t synicboard_tsc_until(synicboard_tsc_page page, uint64_t time);

/* ---- Texts ----
 *
 * Scripts, traces and images, in the formats of docs/FORMATS.md. */

/* The result of a call that writes a text, or reads an image. */
typedef struct synicboard_end {
    uint8_t kind;
    uint64_t line;
    size_t length;                      /* of the whole text, even if it did not fit, or 0 if there is none */
} synicboard_end;

/* Performs a script on a board of its own, and writes its output to `room`, as much as fits. With
 * SYNICBOARD_WRONG_LINE the output ends with the fault line. With SYNICBOARD_NO_MEMORY or
 * SYNICBOARD_TOO_LONG nothing is written. */
synicboard_end synicboard_replay(const uint8_t *script, size_t script_length, uint8_t *room, size_t length);

/* Writes the image of a board to `room`, as much as fits. With SYNICBOARD_IS_CLOSED or SYNICBOARD_NO_MEMORY
 * nothing is written. If the board has live pages, it looks at all words of those that the guest sees first, so the
 * image has what the guest stored before; the notices are those of these stores. Stop the guest first. */
synicboard_end synicboard_save(synicboard *board, uint8_t *room, size_t length);

/* Restores a board from an image, in a closed handle. Each line is checked against those before it, so an
 * image that was cut, changed or forged gives SYNICBOARD_WRONG_LINE, or a board with the invariants of every
 * board, on which each event does what docs/MACHINE.md says; no events need lead to its state (docs/FORMATS.md,
 * "Image", has examples). With SYNICBOARD_NO_HANDLE, SYNICBOARD_NO_TEXT, SYNICBOARD_IS_OPEN,
 * SYNICBOARD_WRONG_LINE, SYNICBOARD_NO_MEMORY or SYNICBOARD_TOO_LONG the handle is unchanged. `length` is
 * always 0. Allocates all memory that the events of this board need. */
synicboard_end synicboard_restore(synicboard *board, const uint8_t *image, size_t length);

/* The result of a check. */
typedef struct synicboard_verdict {
    uint8_t kind;                       /* SYNICBOARD_OK if the trace is that of a legal history */
    uint64_t entries;                   /* of the legal history, or 0 */
    uint64_t line;                      /* the first wrong line, counted from 1, or 0 */
} synicboard_verdict;

/* Checks whether a text is the trace of a legal history, in one of the formats 1 to 3. A trace of format 3
 * may begin with an image, as synicboard_save writes it. Allocates a board of its own. */
synicboard_verdict synicboard_check(const uint8_t *trace, size_t length);

/* Writes the two lines of a trace entry for an event and its reply, each with its line feed, as much as
 * fits. Threads that share a board with a lock of their own can record a trace this way, in the order
 * in which they hold the lock. `actor` is the number of the thread. 76 bytes are enough for any event
 * except a post, and 535 for a post.
 *
 * With SYNICBOARD_WRONG_LINE, `line` is 1 if the event is invalid, and otherwise 2 if the reply is not
 * one of a board; then `room` is unchanged. Fields of the event and the reply that their kind does not
 * use are ignored. */
synicboard_end synicboard_format_entry(uint8_t actor, const synicboard_event *event, const synicboard_reply *reply, uint8_t *room, size_t length);

/* ---- Shared boards ----
 *
 * A board with a lock, for several threads, for as long as they run. Nothing is recorded, and no call takes
 * memory. Devices raise through lines, without the lock. A board that is opened as recorded also has a
 * history: an entry for each event, with its actor and its reply, in the order in which the events were
 * performed. An actor is a number that the caller gives to each thread.
 *
 * Any number of threads may be in these calls at the same time, with one handle, except while it is
 * opened, shared, taken back or closed. The calls block on the lock. They copy the notices of an event to the
 * caller: kick processors and arm timers after the call, when the lock is free. */

/* A handle of a shared board. */
typedef struct synicboard_shared {
    void *at;
    bool is_open;
} synicboard_shared;

/* The initial value of a handle of a shared board: closed. */
#define SYNICBOARD_SHARED_CLOSED { 0, false }

/* Opens a shared board at time 0. Arguments and results are those of synicboard_open. */
uint8_t synicboard_open_shared(synicboard_shared *shared, uint8_t processors, uint8_t pages, uint64_t first_ticket);

/* Puts a board under a lock, in the state that it is in: one that was opened, also as a sparse one, or
 * restored. Closes the handle `board`, whose board is in `shared` then. Returns SYNICBOARD_OK;
 * SYNICBOARD_NO_HANDLE if `shared` is null; SYNICBOARD_IS_OPEN if it is open; SYNICBOARD_IS_CLOSED if
 * `board` is closed; or SYNICBOARD_NO_MEMORY. Unless it returns SYNICBOARD_OK, nothing changes. */
uint8_t synicboard_share(synicboard_shared *shared, synicboard *board);

/* Takes the board back, and closes the handle `shared`. A history is lost. Returns SYNICBOARD_OK;
 * SYNICBOARD_NO_HANDLE if `board` is null; SYNICBOARD_IS_OPEN if it is open; SYNICBOARD_IS_CLOSED if
 * `shared` is closed. No other call may use `shared` at the same time. */
uint8_t synicboard_unshare(synicboard_shared *shared, synicboard *board);

/* Opens a shared board at time 0 that records each event of synicboard_act and synicboard_act_absorb, with
 * an empty history. Arguments and results are those of synicboard_open. An entry takes 40 bytes and those of
 * a payload, a store or a load, in lists that double; nothing limits them but memory, so record for tests and
 * traces, not for years. */
uint8_t synicboard_open_recorded(synicboard_shared *shared, uint8_t processors, uint8_t pages, uint64_t first_ticket);

/* Frees the shared board and its history, and closes its handle. Does nothing if the handle is closed.
 * No other call may use the handle at the same time. */
void synicboard_close_shared(synicboard_shared *shared);

/* Performs an event for an actor, as synicboard_perform does, and copies the notices of the event, as many as
 * fit into `room` elements. A recorded board appends the event and its reply to the history: if that cannot
 * grow, the fault is SYNICBOARD_NO_MEMORY, and no event is performed; an invalid event has its own fault
 * first. A board that is not recorded ignores `actor`. */
synicboard_reply synicboard_act(synicboard_shared *shared, uint8_t actor, const synicboard_event *event, synicboard_notice *notices, size_t room);

/* The same for synicboard_absorb_line. Other threads may raise through other lines at the same time. */
synicboard_reply synicboard_act_absorb(synicboard_shared *shared, uint8_t actor, synicboard_line *line, uint8_t vp, uint8_t part, synicboard_notice *notices, size_t room);

/* Acquires the lock and returns the board; null if the handle is closed, or if this thread holds the board already. The
 * pointer is valid until the thread calls synicboard_release. Until then, the thread may make any call on the
 * board, such as all events of one exit of the guest; any other call on the shared board returns SYNICBOARD_IS_HELD,
 * as its fault or its kind, and does nothing. If it
 * closes the board, it opens or restores another one in the same handle before it releases the lock. On a
 * recorded board it must perform no event so, nor close it, nor give it live pages, since the history would lack
 * that, and would be legal no longer. */
synicboard *synicboard_hold(synicboard_shared *shared);

/* Releases the lock. Returns SYNICBOARD_OK; SYNICBOARD_IS_CLOSED if the handle is closed; SYNICBOARD_NOT_HELD, and
 * does nothing, if the thread does not hold the board. */
uint8_t synicboard_release(synicboard_shared *shared);

/* The result of synicboard_settle. */
typedef struct synicboard_settled {
    uint8_t kind;                       /* SYNICBOARD_OK if the trace was written */
    uint64_t entries;
    uint64_t line;                      /* 0: no line is wrong */
    size_t length;                      /* of the whole trace, even if it did not fit, or 0 if there is none */
} synicboard_settled;

/* Writes the whole history as a trace to `room`, as much as fits. It is the trace of a legal history of
 * `entries` entries, so synicboard_check need not check it. Changes nothing, so it may be called at any time
 * and repeatedly. SYNICBOARD_NO_MEMORY if an allocation fails; SYNICBOARD_IS_CLOSED if the handle is closed;
 * SYNICBOARD_NOT_RECORDED if the board is not recorded. */
synicboard_settled synicboard_settle(synicboard_shared *shared, uint8_t *room, size_t length);

#ifdef __cplusplus
}
#endif

#endif

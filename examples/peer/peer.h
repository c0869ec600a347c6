/* peer.h: the calls with which an implementation answers a script (docs/CONFORMANCE.md).
 *
 * Fill in a `struct peer` and pass it to `peer_main`. A null call answers `= unsupported`, and the cases
 * that need it are skipped. */
#ifndef PEER_H
#define PEER_H

#include <stddef.h>
#include <stdint.h>

enum peer_kind {
    PEER_DONE,
    PEER_VALUE,                 /* `number` */
    PEER_BYTES,                 /* the first `length` of `bytes` */
    PEER_TAKEN,                 /* `number` is the vector */
    PEER_NONE_TAKEN,
    PEER_ACCEPTED,              /* `number` is the ticket */
    PEER_CLEAR,                 /* the flag was clear and is now set */
    PEER_SET,                   /* the flag was set already */
    PEER_GENERAL_PROTECTION,
    PEER_REFUSED,               /* `number` is the reason (docs/MACHINE.md, "Refusals") */
    PEER_UNSUPPORTED
};

struct peer_reply {
    enum peer_kind kind;
    uint64_t number;
    size_t length;
    uint8_t bytes[8];
};

struct peer {
    /* A new board at time 0. `ticket` is the number of its first message; an implementation that
     * numbers no messages ignores it. Returns 0 if it cannot be of this size: each event before the next
     * board line is then answered `= unsupported`. */
    int (*open_board)(unsigned processors, unsigned pages, uint64_t ticket);
    struct peer_reply (*open_message_port)(unsigned port, unsigned vp, unsigned sint, unsigned buffers);
    struct peer_reply (*open_event_port)(unsigned port, unsigned vp, unsigned sint, unsigned base, unsigned count);
    struct peer_reply (*close_port)(unsigned port);
    struct peer_reply (*write_msr)(unsigned vp, uint32_t msr, uint64_t value);
    struct peer_reply (*read_msr)(unsigned vp, uint32_t msr);
    struct peer_reply (*post_message)(unsigned port, uint32_t type, const uint8_t *payload, size_t length);
    struct peer_reply (*signal_event)(unsigned port, unsigned flag);
    struct peer_reply (*assert_irq)(unsigned vp, unsigned vector);
    struct peer_reply (*absorb_posted)(unsigned vp, unsigned part, uint64_t bits);
    struct peer_reply (*guest_store)(uint64_t address, const uint8_t *bytes, size_t length);
    struct peer_reply (*guest_load)(uint64_t address, unsigned length);
    struct peer_reply (*advance_time)(uint64_t time);
    struct peer_reply (*take_interrupt)(unsigned vp);
    struct peer_reply (*suspend)(unsigned vp);
    struct peer_reply (*resume)(unsigned vp);
    struct peer_reply (*reset)(unsigned vp);
    /* bit p of `mask` is processor p */
    struct peer_reply (*send_interrupt)(unsigned vector, uint64_t mask);
    /* A sparse board: up to 64 processors, and no pages of its own. A load or a store is refused (17) where
     * no overlay is visible. Otherwise as open_board. */
    int (*open_sparse_board)(unsigned processors, uint64_t ticket);
};

/* A reply without bytes. */
struct peer_reply peer_reply(enum peer_kind kind, uint64_t number);

/* Adds a notice of the event that is being performed, without its dot: peer_notice("placed %u ..", ..).
 * An implementation without notices never calls this. */
__attribute__((format(printf, 1, 2))) void peer_notice(const char *format, ...);

/* Answers the lines on standard input until its end. Returns the exit status of the program. */
int peer_main(const struct peer *peer);

#endif

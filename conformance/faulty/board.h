/* board.h: a plain board, written from docs/MACHINE.md alone, with one fault at a time. */
#ifndef BOARD_H
#define BOARD_H

#include <stdbool.h>
#include <stddef.h>
#include <stdint.h>

#include "faults.h"
#include "peer.h"

/* A board that holds its pages has at most 8 processors, a sparse one 64. */
enum { DENSE = 8, PROCESSORS = 64, PAGES = 64, PAGE = 4096, SOURCES = 16, SLOT = 256, TIMERS = 4, PORTS = 256, VECTORS = 256, FLAGS = 2048 };
enum { MASKED = 1 << 16, AUTO = 1 << 17, POLLING = 1 << 18 };

/* The senders of messages: ports 0 to 255, then timers. */
enum { FIRST_TIMER = PORTS };

struct message {
    struct message *next;
    unsigned sender;
    uint64_t ticket;
    uint32_t type;
    size_t length;
    uint8_t payload[240];
};

struct source {
    struct message *first;
    bool has_ticket;            /* of the message in its slot */
    uint64_t ticket;
    struct message *repeated;   /* by the fault masked_repeats */
    unsigned slot_sender;       /* by the faults buffers_until_emptied and close_ends_slot */
};

enum { ENABLED = 1, PERIODIC = 2, LAZY = 4, AUTO_ENABLE = 8, DIRECT = 1 << 12 };

struct timer {
    uint64_t config;
    uint64_t count;
    bool has_deadline;
    unsigned __int128 deadline;
};

struct processor {
    bool requested[VECTORS];
    bool serving[VECTORS];
    bool raised_auto[VECTORS];  /* by the fault auto_at_raise */
    unsigned repeats[VECTORS];  /* by the fault queued_requests */
    uint64_t tpr;
    bool suspended;
    bool is_disabled;           /* by the faults apic_disabled and resume_takes_nothing */
    uint64_t scontrol, siefp, simp;
    uint64_t old_siefp, old_simp; /* before the last write, by the fault old_overlay_place */
    uint64_t sint[SOURCES];
    struct timer timers[TIMERS];
    struct source sources[SOURCES];
    uint8_t sim[PAGE];
    uint8_t sief[PAGE];
};

struct port {
    bool is_open;
    bool is_flags;
    unsigned vp, sint, buffers, base, count;
    unsigned kept;              /* its buffers while it is closed, by the fault buffers_kept */
};

struct board {
    unsigned processors;
    bool is_sparse;
    uint64_t pages;
    uint64_t now, next_ticket;
    struct port ports[PORTS];
    struct processor vps[PROCESSORS];
    uint8_t guest[PAGES][PAGE];
};

extern struct board board;

/* interrupts.c */
void request(unsigned vp, unsigned vector);
void raise_source(unsigned vp, unsigned sint);
void end_of_interrupt(unsigned vp);
int take_next(unsigned vp);

/* pages.c */
uint8_t *page_at(uint64_t page);
uint8_t *message_page(unsigned vp);
uint8_t *flags_page(unsigned vp);
void page_register(unsigned vp, bool is_messages, uint64_t value);
struct peer_reply store_bytes(uint64_t address, const uint8_t *bytes, size_t length);
struct peer_reply load_bytes(uint64_t address, unsigned length);

/* messages.c */
bool synic_on(unsigned vp);
bool are_tickets_left(void);
unsigned queued_from(unsigned vp, unsigned sint, unsigned sender);
void drop_queued(unsigned vp, unsigned sint, unsigned sender, bool is_told);
void close_slot(unsigned vp, unsigned sint, unsigned sender);
uint64_t enqueue(unsigned vp, unsigned sint, unsigned sender, uint32_t type, const uint8_t *payload, size_t length);
uint8_t *slot_of(unsigned vp, unsigned sint);
bool is_slot_empty(unsigned vp, unsigned sint);
void try_delivery(unsigned vp, unsigned sint);
void end_of_message(unsigned vp);

/* ports.c */
struct port *port_at(unsigned number);
struct peer_reply open_port(unsigned number, struct port port);
struct peer_reply close_port(unsigned number);
struct peer_reply post(unsigned number, uint32_t type, const uint8_t *payload, size_t length);
struct peer_reply signal_flag(unsigned number, unsigned flag);

/* timers.c */
void write_config(unsigned vp, unsigned index, uint64_t value);
void write_count(unsigned vp, unsigned index, uint64_t value);
void try_due(void);

/* kvm_timers.c: in place of timers.c in the model of KVM */
void kvm_reset_timers(unsigned vp);
void kvm_write_config(unsigned vp, unsigned index, uint64_t value);
void kvm_write_count(unsigned vp, unsigned index, uint64_t value);
void kvm_try_due(void);
void kvm_end_of_message(unsigned vp);
void kvm_end_of_interrupt(unsigned vp, unsigned vector);

/* registers.c */
void clear_processor(unsigned vp);
struct peer_reply write_register(unsigned vp, uint32_t msr, uint64_t value);
struct peer_reply read_register(unsigned vp, uint32_t msr);

static inline struct peer_reply done(void) { return peer_reply(PEER_DONE, 0); }
static inline struct peer_reply refused(unsigned why) { return peer_reply(PEER_REFUSED, why); }

#endif

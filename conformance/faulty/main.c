/* main.c: the plain board as a peer.
 *
 *   faulty            without a fault
 *   faulty NAME       with the fault of this name
 *   faulty --kvm      the model of KVM as QEMU sets it up; then --bare: with the first SynIC capability;
 *                     --guarded: refuses the times that it leaves out, as kvm-peer --guarded does
 *   faulty --bare     without the calls that an implementation may leave out
 *   faulty --faults   lists the faults: the name, whether KVM has it, what it does */
#include <stdio.h>
#include <stdlib.h>
#include <string.h>

#include "board.h"

struct board board;
enum fault chosen = NO_FAULT;
bool is_kvm, is_bare;
static bool is_guarded;

static const struct {
    const char *name;
    bool is_kvm;
    const char *what;
} faults[] = {
    { "", false, "" },
#define F(name, kvm, what) { #name, kvm, what },
    FAULTS(F)
#undef F
};

/* The model of KVM has no greater times, as `kvm-peer --guarded` has none. */
enum { KVM_LAST = 20000 };

enum { FAULT_COUNT = sizeof faults / sizeof *faults };

static bool is_absent(unsigned vp)
{
    return vp >= board.processors || IS(all_absent);
}

static struct peer_reply absent(void)
{
    return IS(absent_is_fault) ? peer_reply(PEER_GENERAL_PROTECTION, 0) : refused(14);
}

static void begin(unsigned processors, uint64_t pages, uint64_t ticket)
{
    memset(&board, 0, sizeof board);
    board.processors = processors;
    board.pages = pages;
    board.next_ticket = IS(first_ticket_zero) ? 0 : ticket;
    for (unsigned vp = 0; vp < processors; vp++)
        clear_processor(vp);
}

static int open_board(unsigned processors, unsigned pages, uint64_t ticket)
{
    if (processors < 1 || processors > DENSE || pages < 1 || pages > PAGES)
        return 0;
    begin(processors, pages, ticket);
    return 1;
}

/* An address of 64 bits reaches 2^52 pages. */
static int open_sparse_board(unsigned processors, uint64_t ticket)
{
    if (processors < 1 || processors > PROCESSORS)
        return 0;
    begin(processors, IS(sparse_pages) ? PAGES : (uint64_t)1 << 52, ticket);
    board.is_sparse = true;
    return 1;
}

static struct peer_reply open_message_port(unsigned number, unsigned vp, unsigned sint, unsigned buffers)
{
    return open_port(number, (struct port){ .vp = vp, .sint = sint, .buffers = buffers });
}

static struct peer_reply open_event_port(unsigned number, unsigned vp, unsigned sint, unsigned base, unsigned count)
{
    return open_port(number, (struct port){ .is_flags = true, .vp = vp, .sint = sint, .base = base, .count = count });
}

static struct peer_reply write_msr(unsigned vp, uint32_t msr, uint64_t value)
{
    if (is_absent(vp))
        return absent();
    if (IS(written_twice))
        write_register(vp, msr, value);
    return write_register(vp, msr, value);
}

static struct peer_reply read_msr(unsigned vp, uint32_t msr)
{
    return is_absent(vp) ? absent() : read_register(vp, msr);
}

static struct peer_reply assert_irq(unsigned vp, unsigned vector)
{
    if (is_absent(vp))
        return absent();
    request(vp, vector);
    return done();
}

/* Whether a send leaves a processor of its mask out, by a fault. */
static bool is_left_out(unsigned vp, uint64_t mask)
{
    bool is_lowest = (mask & (((uint64_t)1 << vp) - 1)) == 0, is_highest = mask >> vp == 1;
    return (IS(send_skips_lowest) && is_lowest) || (IS(send_skips_highest) && is_highest);
}

static struct peer_reply send_interrupt(unsigned vector, uint64_t mask)
{
    if (IS(send_word))
        mask &= UINT32_MAX;
    if (IS(mask_bit_63))
        mask &= UINT64_MAX >> 1;
    bool is_beyond = board.processors < PROCESSORS && mask >> board.processors != 0;
    bool is_refused = (is_beyond && !IS(send_ignores)) || (IS(empty_mask_refused) && mask == 0);
    for (unsigned i = 0; i < board.processors && (!is_refused || IS(send_half)); i++) {
        unsigned vp = IS(send_backwards) ? board.processors - 1 - i : i;
        if (!(mask >> vp & 1) || is_left_out(vp, mask))
            continue;
        request(IS(send_neighbour) ? (vp + 1) % board.processors : vp, vector);
        if (IS(send_one))
            break;
    }
    return is_refused ? absent() : done();
}

/* Whether an absorb requests nothing after this vector, by a fault. */
static bool ends_absorb(bool was_requested)
{
    return IS(absorb_one) || (IS(absorb_stops) && was_requested);
}

static void absorb_bits(unsigned vp, unsigned base, uint64_t bits)
{
    struct processor *p = &board.vps[vp];
    if (IS(absorb_replaces))
        memset(&p->requested[base], 0, 64 * sizeof *p->requested);
    for (unsigned i = 0; i < 64 && !IS(absorb_dropped); i++) {
        unsigned at = IS(absorb_backwards) ? 63 - i : i;
        unsigned vector = base + at;
        bool is_ignored = (vector < 16 && !IS(low_vectors)) || (at < 16 && IS(absorb_low_bits));
        if (!(bits >> at & 1) || is_ignored)
            continue;
        bool was_requested = p->requested[vector];
        request(vp, vector);
        if (ends_absorb(was_requested))
            return;
    }
}

static struct peer_reply absorb_posted(unsigned vp, unsigned part, uint64_t bits)
{
    if (IS(part_before_processor) && part > 3)
        return refused(4);
    if (is_absent(vp))
        return absent();
    if (part > 3)
        return IS(part_unchecked) ? done() : refused(4);
    absorb_bits(vp, 64 * part, bits);
    return done();
}

static struct peer_reply advance_time(uint64_t time)
{
    if (time < board.now && !IS(clock_back))
        return refused(10);
    if (is_kvm && time > KVM_LAST)
        return is_guarded ? refused(10) : peer_reply(PEER_UNSUPPORTED, 0);
    bool is_later = time > board.now;
    board.now = time;
    if (is_later || IS(same_time_retries))
        try_due();
    return done();
}

static struct peer_reply take_interrupt(unsigned vp)
{
    if (is_absent(vp))
        return absent();
    if (IS(taken_twice))
        take_next(vp);
    int vector = take_next(vp);
    return vector < 0 ? peer_reply(PEER_NONE_TAKEN, 0) : peer_reply(PEER_TAKEN, (uint64_t)vector);
}

static struct peer_reply suspend(unsigned vp)
{
    if (is_absent(vp))
        return absent();
    struct processor *p = &board.vps[vp];
    if (p->suspended && !IS(suspend_twice))
        return refused(15);
    p->suspended = true;
    for (unsigned at = 0; at < TIMERS && IS(suspend_stops_timers); at++)
        p->timers[at].has_deadline = false;
    if (IS(suspend_drops_requests))
        memset(p->requested, 0, sizeof p->requested);
    return done();
}

static struct peer_reply resume(unsigned vp)
{
    if (is_absent(vp))
        return absent();
    struct processor *p = &board.vps[vp];
    if (!p->suspended && !IS(suspend_twice))
        return refused(16);
    p->suspended = false;
    p->is_disabled = IS(resume_takes_nothing);
    if (IS(resume_tries))
        try_due();
    return done();
}

static void withdraw_all(unsigned vp)
{
    for (unsigned s = 0; s < (IS(reset_of_eight) ? 8 : SOURCES); s++) {
        struct source *source = &board.vps[vp].sources[s];
        if (source->has_ticket && !IS(reset_keeps_slot))
            peer_notice("withdrawn %llu %u %u", (unsigned long long)source->ticket, vp, s);
        source->has_ticket = false;
        free(source->repeated);
        source->repeated = NULL;
        if (!IS(reset_keeps_queue))
            drop_queued(vp, s, UINT32_MAX, true);
    }
}

/* What a reset does not clear, by a fault. */
static void keep(struct processor *p, const struct processor *before)
{
    size_t kept_from = IS(reset_keeps_pages) ? 0 : IS(reset_clears_1024) ? 1024 : sizeof p->sim;
    memcpy(p->sim + kept_from, before->sim + kept_from, sizeof p->sim - kept_from);
    memcpy(p->sief + kept_from, before->sief + kept_from, sizeof p->sief - kept_from);
    if (IS(reset_keeps_requests))
        memcpy(p->requested, before->requested, sizeof p->requested);
    if (IS(reset_keeps_service))
        memcpy(p->serving, before->serving, sizeof p->serving);
    if (IS(reset_keeps_timers))
        memcpy(p->timers, before->timers, sizeof p->timers);
    if (IS(reset_keeps_tpr))
        p->tpr = before->tpr;
    if (IS(reset_keeps_registers)) {
        p->scontrol = before->scontrol;
        p->simp = before->simp;
        p->siefp = before->siefp;
    }
    if (IS(reset_suspends))
        p->suspended = before->suspended;
}

static struct peer_reply reset(unsigned vp)
{
    if (is_absent(vp))
        return absent();
    for (unsigned other = 0; other < board.processors; other++) {
        if (other != vp && !IS(reset_of_all))
            continue;
        struct processor before = board.vps[other];
        withdraw_all(other);
        clear_processor(other);
        keep(&board.vps[other], &before);
        for (unsigned at = 0; at < PORTS && IS(reset_closes_ports); at++)
            if (board.ports[at].vp == other)
                board.ports[at].is_open = false;
    }
    if (IS(reset_clock))
        board.now = 0;
    return done();
}

static bool choose(const char *name)
{
    for (int at = 1; at < FAULT_COUNT; at++)
        if (strcmp(faults[at].name, name) == 0)
            chosen = (enum fault)at;
    return chosen != NO_FAULT;
}

/* The faults that are rules of KVM for a guest without ports. Timers have theirs in kvm_timers.c. */
bool is_rule_of_kvm(enum fault rule)
{
    switch (rule) {
    case FAULT_polling_raises:
    case FAULT_no_overlays:
    case FAULT_high_bits_fault: return true;
    case FAULT_synic_on_at_reset:
    case FAULT_enabling_zeroes: return is_bare;
    default: return false;
    }
}

/* Leaves out sparse boards, and ports, suspension and sends, which are user space's. Whether there are such
 * options. */
static bool choose_kvm(struct peer *peer, int count, char **words)
{
    is_kvm = true;
    for (int at = 0; at < count; at++) {
        is_bare |= strcmp(words[at], "--bare") == 0;
        is_guarded |= strcmp(words[at], "--guarded") == 0;
    }
    peer->open_sparse_board = NULL;
    peer->open_message_port = NULL;
    peer->open_event_port = NULL;
    peer->close_port = NULL;
    peer->post_message = NULL;
    peer->signal_event = NULL;
    peer->suspend = peer->resume = NULL;
    peer->send_interrupt = NULL;
    return count == is_bare + is_guarded;
}

static int list_faults(void)
{
    for (int at = 1; at < FAULT_COUNT; at++)
        printf("%s\t%s\t%s\n", faults[at].name, faults[at].is_kvm ? "kvm" : "", faults[at].what);
    return 0;
}

int main(int count, char **words)
{
    struct peer peer = {
        .open_board = open_board, .open_message_port = open_message_port, .open_event_port = open_event_port,
        .close_port = close_port, .write_msr = write_msr, .read_msr = read_msr, .post_message = post,
        .signal_event = signal_flag, .assert_irq = assert_irq, .absorb_posted = absorb_posted,
        .guest_store = store_bytes, .guest_load = load_bytes, .advance_time = advance_time,
        .take_interrupt = take_interrupt, .suspend = suspend, .resume = resume, .reset = reset,
        .send_interrupt = send_interrupt, .open_sparse_board = open_sparse_board,
    };
    if (count == 2 && strcmp(words[1], "--faults") == 0)
        return list_faults();
    if (count >= 2 && strcmp(words[1], "--kvm") == 0) {
        if (!choose_kvm(&peer, count - 2, words + 2))
            return 2;
    } else if (count == 2 && strcmp(words[1], "--bare") == 0) {
        peer.absorb_posted = NULL;
        peer.send_interrupt = NULL;
        peer.open_sparse_board = NULL;
        peer.suspend = peer.resume = peer.reset = NULL;
    } else if (count > 2 || (count == 2 && !choose(words[1]))) {
        fprintf(stderr, "faulty: there is no such fault\n");
        return 2;
    }
    return peer_main(&peer);
}

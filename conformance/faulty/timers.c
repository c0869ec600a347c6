/* timers.c: the four timers of each processor. */
#include <stdlib.h>
#include <string.h>

#include "board.h"

typedef unsigned __int128 wide;

enum { CATCHES_UP = 8, MOST_EXPIRIES = 32, EXPIRED_TYPE_LOW = 16, TIMER_MESSAGE = 24 };

static unsigned vector_of(const struct timer *t)
{
    return t->config >> 4 & 0xff;
}

static unsigned sint_of(const struct timer *t)
{
    return t->config >> 16 & 15;
}

static bool is_direct(const struct timer *t)
{
    return (t->config & DIRECT) && !IS(direct_sends);
}

static bool has_target(const struct timer *t)
{
    if (IS(no_target_runs))
        return true;
    unsigned least = IS(vector_15_is_target) ? 15 : IS(vector_16_is_none) ? 17 : 16;
    if (is_direct(t))
        return vector_of(t) >= least && !(IS(direct_source_checked) && sint_of(t) == 0);
    if (IS(message_vector_checked) && vector_of(t) > 0 && vector_of(t) < 16)
        return false;
    return sint_of(t) != 0;
}

static void tell_expired(unsigned vp, unsigned index, wide deadline)
{
    char digits[40];
    char *at = digits + sizeof digits - 1;
    *at = '\0';
    do
        *--at = (char)('0' + (int)(deadline % 10));
    while ((deadline /= 10) != 0);
    peer_notice("expired %u %u %s", vp, index, at);
}

static void signal_timer(unsigned vp, unsigned index, uint64_t deadline)
{
    const struct timer *t = &board.vps[vp].timers[index];
    if (is_direct(t)) {
        unsigned sint = sint_of(t);
        if (!(IS(direct_needs_source) && (board.vps[vp].sint[sint] & MASKED)) && (vector_of(t) >= 16 || IS(low_vectors)))
            request(vp, vector_of(t));
        return;
    }
    unsigned sint = sint_of(t);
    if (IS(timer_raises_without)) {
        raise_source(vp, sint);
        return;
    }
    if (IS(periodic_dropped) && (t->config & PERIODIC) && !is_slot_empty(vp, sint))
        return;
    uint64_t numbers[3] = { index, IS(expiration_now) ? board.now : deadline, deadline };
    enqueue(vp, sint, FIRST_TIMER + index, 0x80000010u, (const uint8_t *)numbers, sizeof numbers);
    try_delivery(vp, sint);
}

/* How many messages of a timer are queued: also at sources that it named before. */
static unsigned queued_of(unsigned vp, unsigned index)
{
    unsigned count = 0;
    for (unsigned s = 0; s < SOURCES; s++)
        if (!IS(buffer_of_source) || s == sint_of(&board.vps[vp].timers[index]))
            count += queued_from(vp, s, FIRST_TIMER + index);
    return count;
}

static bool is_ready(unsigned vp, unsigned index)
{
    const struct timer *t = &board.vps[vp].timers[index];
    if (is_direct(t))
        return !IS(direct_needs_synic) || synic_on(vp);
    unsigned most = IS(timer_buffers) ? 2 : 1;
    if (IS(timer_needs_page) && !(board.vps[vp].simp & 1))
        return false;
    return synic_on(vp) && queued_of(vp, index) < most && are_tickets_left();
}

static void skip(unsigned vp, unsigned index, uint64_t count)
{
    if (count > 0)
        peer_notice("skipped %u %u %llu", vp, index, (unsigned long long)count);
}

static bool is_dropped(wide e, uint64_t p)
{
    if (IS(lazy_always))
        return false;
    return (IS(lazy_half) ? 2 : 4) * (e + p - board.now) <= p;
}

static void expire_once(unsigned vp, unsigned index)
{
    struct timer *t = &board.vps[vp].timers[index];
    uint64_t deadline = (uint64_t)t->deadline;
    tell_expired(vp, index, t->deadline);
    t->has_deadline = false;
    bool is_waiting = IS(enabled_until_delivered) && !is_direct(t);
    if (IS(one_shot_clears_count))
        t->count = 0;
    if (!IS(one_shot_repeats) && !is_waiting)
        t->config &= ~(uint64_t)ENABLED;
    bool is_lazy = (t->config & LAZY) && t->count > 0;
    uint64_t latest = is_lazy && board.now > deadline ? board.now - (board.now - deadline) % t->count : deadline;
    if (IS(lazy_one_shot_drops) && is_lazy && is_dropped(latest, t->count))
        return;
    signal_timer(vp, index, IS(lazy_one_shot_latest) ? latest : deadline);
}

static void expire_lazy(unsigned vp, unsigned index)
{
    struct timer *t = &board.vps[vp].timers[index];
    uint64_t p = t->count;
    uint64_t k = (uint64_t)((board.now - t->deadline) / p);
    wide e = t->deadline + (wide)k * p;
    wide told = IS(lazy_first) ? t->deadline : e;
    t->deadline = e + p;
    if (is_dropped(e, p)) {
        skip(vp, index, IS(skips_untold) ? 0 : k + 1);
        return;
    }
    tell_expired(vp, index, told);
    skip(vp, index, k);
    signal_timer(vp, index, (uint64_t)told);
}

static void expire_periodic(unsigned vp, unsigned index)
{
    struct timer *t = &board.vps[vp].timers[index];
    uint64_t p = t->count;
    uint64_t most = IS(catches_up_seven) ? CATCHES_UP - 1 : CATCHES_UP;
    wide d = t->deadline;
    uint64_t k = (uint64_t)((board.now - d) / p);
    uint64_t skipped = k > most ? k - most : 0;
    if (IS(late_once))
        skipped = k;
    t->deadline = d + (wide)p * (skipped + 1);
    if (IS(periodic_drifts))
        t->deadline = (wide)board.now + p;
    if (IS(deadline_wraps))
        t->deadline = (uint64_t)t->deadline;
    if (IS(periodic_once)) {
        t->has_deadline = false;
        t->config &= ~(uint64_t)ENABLED;
    }
    tell_expired(vp, index, d);
    skip(vp, index, skipped);
    signal_timer(vp, index, (uint64_t)d);
}

static bool is_due(unsigned vp, unsigned index)
{
    const struct timer *t = &board.vps[vp].timers[index];
    wide now = (wide)board.now + (IS(early_by_one) ? 1 : 0);
    wide deadline = t->deadline + (IS(late_by_one) ? 1 : 0);
    if (board.vps[vp].suspended && !IS(suspended_timers_run))
        return false;
    if (IS(last_processor_stopped) && vp == DENSE - 1)
        return false;
    if (IS(lazy_one_shot) && (t->config & LAZY) && !(t->config & PERIODIC))
        deadline += t->count / 4;
    return t->has_deadline && deadline <= now;
}

static void expire(unsigned vp, unsigned index)
{
    const struct timer *t = &board.vps[vp].timers[index];
    bool is_early = t->deadline > board.now;
    bool repeats = (t->config & PERIODIC) || (IS(lazy_one_shot_repeats) && (t->config & LAZY));
    if (!repeats)
        expire_once(vp, index);
    else if ((t->config & LAZY) && !IS(lazy_ignored) && !is_early)
        expire_lazy(vp, index);
    else if (!is_early)
        expire_periodic(vp, index);
}

/* Whether it was ready. */
static bool try_timer(unsigned vp, unsigned index)
{
    if (!is_ready(vp, index))
        return false;
    expire(vp, index);
    return true;
}

struct due {
    wide deadline;
    unsigned vp, index;
    bool was_ready;             /* before the tick tried any timer */
};

static int compare(const void *left, const void *right)
{
    const struct due *a = left;
    const struct due *b = right;
    if (a->deadline != b->deadline && !IS(timers_unordered))
        return a->deadline < b->deadline ? -1 : 1;
    if (a->index != b->index && board.is_sparse && IS(tick_by_index))
        return (int)a->index - (int)b->index;
    return (int)(a->vp * TIMERS + a->index) - (int)(b->vp * TIMERS + b->index);
}

static bool is_tried_again(unsigned vp, unsigned index)
{
    return (IS(catches_up_at_once) || (IS(others_catch_up) && index > 0)) && is_due(vp, index) && is_ready(vp, index);
}

/* Whether it expires. */
static bool try_at_its_turn(const struct due *due)
{
    if (IS(ready_once)) {
        if (due->was_ready)
            expire(due->vp, due->index);
        return due->was_ready;
    }
    if (IS(ready_at_first) && !due->was_ready)
        return false;
    bool has_expired = try_timer(due->vp, due->index);
    if (IS(tried_twice) && is_due(due->vp, due->index))
        try_timer(due->vp, due->index);
    while (is_tried_again(due->vp, due->index))
        try_timer(due->vp, due->index);
    return has_expired;
}

/* How many of the due timers of a tick are looked at, in their order: all, unless a fault ends it early. */
static size_t looked_at(size_t count)
{
    bool is_cut = IS(tick_by_number) || IS(unready_counts);
    return is_cut && count > MOST_EXPIRIES ? MOST_EXPIRIES : count;
}

/* What is left after the 32nd expiry stays due, unless a fault drops it. */
static void leave(const struct due *due, size_t count)
{
    for (size_t at = 0; at < count && IS(due_33rd_dropped); at++)
        board.vps[due[at].vp].timers[due[at].index].has_deadline = false;
}

void try_due(void)
{
    if (is_kvm) {
        kvm_try_due();
        return;
    }
    struct due list[PROCESSORS * TIMERS];
    size_t count = 0;
    for (unsigned vp = 0; vp < board.processors; vp++)
        for (unsigned index = 0; index < TIMERS; index++)
            if (is_due(vp, index))
                list[count++] = (struct due){ board.vps[vp].timers[index].deadline, vp, index, is_ready(vp, index) };
    /* by this fault, those with the least numbers are sorted */
    if (IS(tick_by_number))
        count = looked_at(count);
    qsort(list, count, sizeof *list, compare);
    size_t most = IS(tick_expires_all) ? count : IS(tick_expires_33) ? MOST_EXPIRIES + 1 : MOST_EXPIRIES;
    size_t expired = 0, at = 0;
    for (count = looked_at(count); at < count && expired < most; at++) {
        if (IS(tick_skips_index) && at > 0 && list[at].index == list[at - 1].index)
            continue;
        expired += try_at_its_turn(&list[at]);
        if (IS(one_timer))
            return;
    }
    leave(&list[at], count - at);
}

/* After a write. */
static void start(unsigned vp, unsigned index, bool was_running, bool is_count)
{
    struct timer *t = &board.vps[vp].timers[index];
    bool is_checked = !(IS(low_vector_by_count) && is_count && is_direct(t)) && !(IS(running_unchecked) && was_running);
    if (is_checked && !has_target(t))
        t->config &= ~(uint64_t)ENABLED;
    if (IS(write_drops_message))
        for (unsigned s = 0; s < SOURCES; s++)
            drop_queued(vp, s, FIRST_TIMER + index, false);
    bool runs = (t->config & ENABLED) && t->count > 0;
    if (runs && was_running && IS(running_write_ignored))
        return;
    if (!runs && was_running && t->count > 0 && IS(disable_ignored))
        return;
    t->has_deadline = runs;
    bool is_lazy_relative = IS(lazy_one_shot_relative) && (t->config & LAZY);
    bool is_relative = t->config & PERIODIC ? !IS(periodic_absolute) : IS(one_shot_relative) || is_lazy_relative;
    t->deadline = (is_relative ? (wide)board.now : 0) + t->count;
    if (IS(deadline_wraps))
        t->deadline = (uint64_t)t->deadline;
    bool is_free = !board.vps[vp].suspended || IS(suspended_write_tries);
    if (!runs || IS(past_not_tried) || !is_free || t->deadline > board.now)
        return;
    if (is_due(vp, index) || IS(suspended_write_tries))
        try_timer(vp, index);
}

void write_config(unsigned vp, unsigned index, uint64_t value)
{
    if (is_kvm) {
        kvm_write_config(vp, index, value);
        return;
    }
    struct timer *t = &board.vps[vp].timers[index];
    bool was_running = t->has_deadline;
    t->config = IS(config_keeps_bits) ? value : value & 0xf1fff;
    if (IS(auto_enable_on_config) && (value & AUTO_ENABLE) && t->count > 0)
        t->config |= ENABLED;
    start(vp, index, was_running, false);
}

void write_count(unsigned vp, unsigned index, uint64_t value)
{
    if (is_kvm) {
        kvm_write_count(vp, index, value);
        return;
    }
    struct timer *t = &board.vps[vp].timers[index];
    bool was_running = t->has_deadline;
    t->count = IS(count_of_32_bits) ? value & UINT32_MAX : value;
    if (value == 0 && !IS(zero_count_keeps))
        t->config &= ~(uint64_t)ENABLED;
    bool enables = (t->config & AUTO_ENABLE) && !IS(auto_enable_ignored);
    if ((value > 0 || IS(zero_count_enables)) && (enables || IS(count_enables)))
        t->config |= ENABLED;
    start(vp, index, was_running, true);
}

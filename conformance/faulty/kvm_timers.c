/* kvm_timers.c: KVM's timers, after arch/x86/kvm/hyperv.c of Linux 6.1.192. A timer holds its own message:
 * there is no queue, and no ticket. The names in comments are those of the kernel's functions. */
#include <string.h>

#include "board.h"

enum { TIMER_TYPE = 0x10, TIMER_LENGTH = 24, FLAG_BYTE = 5, IMAGE = 40 };

/* `deadline` is 0 if none was set since the last write. */
static struct kvm_timer {
    uint64_t deadline, armed_at;
    bool is_armed, is_marked, is_waiting;
} state[PROCESSORS][TIMERS];

static unsigned sint_of(const struct timer *t)
{
    return t->config >> 16 & 15;
}

/* stimer_cleanup */
static void clean_up(unsigned vp, unsigned index)
{
    state[vp][index] = (struct kvm_timer){ 0 };
}

void kvm_reset_timers(unsigned vp)
{
    for (unsigned index = 0; index < TIMERS; index++)
        clean_up(vp, index);
}

static void arm(struct kvm_timer *k, uint64_t deadline)
{
    k->is_armed = true;
    k->armed_at = deadline;
}

/* stimer_start: a late periodic timer continues on its grid after now. A deadline that wraps is not armed. */
static void start(unsigned vp, unsigned index)
{
    const struct timer *t = &board.vps[vp].timers[index];
    struct kvm_timer *k = &state[vp][index];
    if (t->config & PERIODIC) {
        if (k->deadline == 0)
            k->deadline = board.now + t->count;
        else if (board.now >= k->deadline)
            k->deadline = board.now + (t->count - (board.now - k->deadline) % t->count);
        if (k->deadline >= board.now)
            arm(k, k->deadline);
        return;
    }
    k->deadline = t->count;
    if (board.now >= t->count)
        k->is_marked = true;
    else
        arm(k, t->count);
}

/* synic_deliver_msg: whether the timer is done with its message. */
static bool deliver(unsigned vp, unsigned index)
{
    struct processor *p = &board.vps[vp];
    const struct timer *t = &p->timers[index];
    unsigned sint = sint_of(t);
    if (!(p->simp & 1) || p->simp >> 12 >= board.pages)
        return false;
    uint8_t *slot = board.guest[p->simp >> 12] + SLOT * sint;
    if (slot[0] | slot[1] | slot[2] | slot[3]) {
        if (!(t->config & PERIODIC))
            slot[FLAG_BYTE] = 1;
        return t->config & PERIODIC;
    }
    uint8_t image[IMAGE] = { TIMER_TYPE, 0, 0, 0x80, TIMER_LENGTH };
    image[16] = (uint8_t)index;
    memcpy(image + 24, &state[vp][index].deadline, 8);
    memcpy(image + 32, &board.now, 8);
    memcpy(slot, image, sizeof image);
    if (p->sint[sint] & MASKED)
        return false;
    request(vp, p->sint[sint] & 0xff);
    return true;
}

/* stimer_expiration */
static void expire(unsigned vp, unsigned index)
{
    struct timer *t = &board.vps[vp].timers[index];
    struct kvm_timer *k = &state[vp][index];
    bool is_direct = t->config & DIRECT;
    if (is_direct)
        request(vp, t->config >> 4 & 0xff);
    k->is_waiting = !is_direct && !deliver(vp, index);
    if (!k->is_waiting && !(t->config & PERIODIC))
        t->config &= ~(uint64_t)ENABLED;
}

static void process_timer(unsigned vp, unsigned index)
{
    struct timer *t = &board.vps[vp].timers[index];
    struct kvm_timer *k = &state[vp][index];
    k->is_marked = false;
    if (!(t->config & ENABLED))
        return;
    if (k->deadline != 0 && board.now >= k->deadline)
        expire(vp, index);
    if (!(t->config & ENABLED) || t->count == 0)
        clean_up(vp, index);
    else if (!k->is_waiting)
        start(vp, index);
}

/* kvm_hv_process_stimers: at the processor's next entry, and again while one is marked. */
static void process(unsigned vp)
{
    bool is_again = true;
    while (is_again) {
        is_again = false;
        for (unsigned index = 0; index < TIMERS; index++)
            if (state[vp][index].is_marked)
                process_timer(vp, index);
        for (unsigned index = 0; index < TIMERS; index++)
            is_again |= state[vp][index].is_marked;
    }
}

void kvm_try_due(void)
{
    for (unsigned vp = 0; vp < board.processors; vp++) {
        for (unsigned index = 0; index < TIMERS; index++) {
            struct kvm_timer *k = &state[vp][index];
            if (k->is_armed && k->armed_at <= board.now) {
                k->is_armed = false;
                k->is_marked = true;
            }
        }
        process(vp);
    }
}

/* kvm_hv_notify_acked_sint */
static void mark_waiting(unsigned vp, unsigned sint)
{
    for (unsigned index = 0; index < TIMERS; index++) {
        const struct timer *t = &board.vps[vp].timers[index];
        if (state[vp][index].is_waiting && (t->config & ENABLED) && !(t->config & DIRECT) && sint_of(t) == sint)
            state[vp][index].is_marked = true;
    }
}

void kvm_end_of_message(unsigned vp)
{
    for (unsigned sint = 0; sint < SOURCES; sint++)
        mark_waiting(vp, sint);
    process(vp);
}

/* kvm_hv_synic_send_eoi: the sources of the vector that ended, if they are not masked. */
void kvm_end_of_interrupt(unsigned vp, unsigned vector)
{
    for (unsigned sint = 0; sint < SOURCES; sint++)
        if (!(board.vps[vp].sint[sint] & MASKED) && (board.vps[vp].sint[sint] & 0xff) == vector)
            mark_waiting(vp, sint);
    process(vp);
}

/* stimer_set_config: a timer without a target stops only if it was enabled before. */
void kvm_write_config(unsigned vp, unsigned index, uint64_t value)
{
    struct timer *t = &board.vps[vp].timers[index];
    clean_up(vp, index);
    if ((t->config & ENABLED) && !(value & DIRECT) && (value >> 16 & 15) == 0)
        value &= ~(uint64_t)ENABLED;
    t->config = value;
    state[vp][index].is_marked = t->config & ENABLED;
    process(vp);
}

/* stimer_set_count */
void kvm_write_count(unsigned vp, unsigned index, uint64_t value)
{
    struct timer *t = &board.vps[vp].timers[index];
    clean_up(vp, index);
    t->count = value;
    if (value == 0)
        t->config &= ~(uint64_t)ENABLED;
    else if (t->config & AUTO_ENABLE)
        t->config |= ENABLED;
    state[vp][index].is_marked = t->config & ENABLED;
    process(vp);
}

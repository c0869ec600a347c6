/* What a host reads of the plain board, posted words, and the time. */
#include <stdatomic.h>
#include <string.h>

#include "board.h"
#include "shown.h"

typedef unsigned __int128 wide;

/* ---- Queries ---- */

/* By a take that is undone. */
uint8_t synicboard_next(const synicboard *held, uint8_t vp)
{
    struct processor before = board.vps[vp];
    int vector = take_next(vp);
    board.vps[vp] = before;
    return vector < 0 ? 0 : (uint8_t)vector;
}

uint64_t synicboard_moment(const synicboard *held)
{
    return board.now;
}

uint64_t synicboard_next_ticket(const synicboard *held)
{
    return board.next_ticket;
}

static int greatest_class(const uint64_t *set)
{
    for (int part = 3; part >= 0; part--)
        if (set[part] != 0)
            return (64 * part + 63 - __builtin_clzll(set[part])) & 0xf0;
    return 0;
}

synicboard_local_apic synicboard_lapic(const synicboard *held, uint8_t vp)
{
    const struct processor *p = &board.vps[vp];
    synicboard_local_apic lapic = { .task_priority = (uint8_t)p->tpr, .is_suspended = p->suspended };
    for (unsigned vector = 0; vector < VECTORS; vector++) {
        lapic.requested[vector / 64] |= (uint64_t)p->requested[vector] << vector % 64;
        lapic.in_service[vector / 64] |= (uint64_t)p->serving[vector] << vector % 64;
    }
    uint8_t class = (uint8_t)greatest_class(lapic.in_service);
    lapic.processor_priority = class > (lapic.task_priority & 0xf0) ? class : lapic.task_priority;
    return lapic;
}

/* Each guest writes EOI. */
bool synicboard_no_eoi_required(const synicboard *held, uint8_t vp)
{
    return false;
}

synicboard_page_owner synicboard_owner(const synicboard *held, uint64_t page)
{
    const uint8_t *seen = page_at(page);
    for (unsigned vp = 0; vp < board.processors; vp++) {
        if (seen == board.vps[vp].sim)
            return (synicboard_page_owner){ SYNICBOARD_OWNER_MESSAGES, (uint8_t)vp };
        if (seen == board.vps[vp].sief)
            return (synicboard_page_owner){ SYNICBOARD_OWNER_FLAGS, (uint8_t)vp };
    }
    return (synicboard_page_owner){ SYNICBOARD_OWNER_GUEST, 0 };
}

synicboard_overlay synicboard_next_overlay(const synicboard *held, uint64_t from)
{
    synicboard_overlay next = { { SYNICBOARD_OWNER_NOTHING, 0 }, UINT64_MAX };
    for (unsigned vp = 0; vp < board.processors; vp++) {
        const struct processor *p = &board.vps[vp];
        uint64_t values[] = { p->simp, p->siefp, p->old_simp, p->old_siefp };
        for (unsigned at = 0; at < 4; at++)
            if (values[at] >> 12 >= from && values[at] >> 12 < next.page && page_at(values[at] >> 12) != NULL)
                next.page = values[at] >> 12;
    }
    if (next.page != UINT64_MAX)
        next.owner = synicboard_owner(held, next.page);
    return next;
}

bool synicboard_message_page(const synicboard *held, uint8_t vp, const uint8_t **page)
{
    *page = shown[vp][0];
    return true;
}

bool synicboard_flag_page(const synicboard *held, uint8_t vp, const uint8_t **page)
{
    *page = shown[vp][1];
    return true;
}

synicboard_next_tick synicboard_alarm(const synicboard *held)
{
    synicboard_next_tick next = { false, UINT64_MAX };
    for (unsigned at = 0; at < board.processors * TIMERS; at++) {
        const struct processor *p = &board.vps[at / TIMERS];
        const struct timer *t = &p->timers[at % TIMERS];
        bool is_late = t->deadline <= board.now;
        wide moment = is_late ? (wide)board.now + 1 : t->deadline;
        if (t->has_deadline && !p->suspended && moment < next.moment && !(is_late && is_tried))
            next = (synicboard_next_tick){ true, (uint64_t)moment };
    }
    return next;
}

/* ---- Posted words: one set for the program ---- */

static _Atomic uint64_t words[MOST][4];

uint8_t synicboard_open_line(synicboard_line *line, uint8_t processors)
{
    line->is_open = true;
    return SYNICBOARD_OK;
}

uint8_t synicboard_split_line(synicboard_line *line, synicboard_line *other)
{
    *other = *line;
    return SYNICBOARD_OK;
}

uint8_t synicboard_raise(synicboard_line *line, uint8_t vp, uint8_t vector)
{
    uint64_t bit = (uint64_t)1 << vector % 64;
    return (atomic_fetch_or(&words[vp][vector / 64], bit) & bit) != 0 ? SYNICBOARD_ALREADY : SYNICBOARD_FRESH;
}

synicboard_reply synicboard_absorb_line(synicboard *held, synicboard_line *line, uint8_t vp, uint8_t part)
{
    synicboard_event event = { .kind = SYNICBOARD_ABSORB, .vp = vp, .part = part, .value = atomic_exchange(&words[vp][part], 0) };
    synicboard_reply reply = synicboard_perform(held, &event);
    reply.value = event.value;
    return reply;
}

/* ---- The reference TSC page ---- */

synicboard_tsc_page synicboard_tsc_page_at(uint64_t hz, uint64_t tsc, uint64_t time)
{
    return synicboard_tsc_page_moved((synicboard_tsc_page){ (uint64_t)(((wide)10000000 << 64) / hz), 0 }, tsc, time);
}

synicboard_tsc_page synicboard_tsc_page_moved(synicboard_tsc_page page, uint64_t tsc, uint64_t time)
{
    page.offset = time - (uint64_t)((wide)tsc * page.scale >> 64);
    return page;
}

uint64_t synicboard_tsc_time(synicboard_tsc_page page, uint64_t tsc)
{
    return (uint64_t)((wide)tsc * page.scale >> 64) + page.offset;
}

/* ---- Not used where pages trap and no trace is written ---- */

synicboard_reply synicboard_forward(synicboard *held, uint8_t vp, synicboard_forwarded *forwarded)
{
    memset(forwarded, 0, sizeof *forwarded);
    return (synicboard_reply){ .kind = SYNICBOARD_NOT_PERFORMED };
}

synicboard_end synicboard_save(synicboard *held, uint8_t *room, size_t length)
{
    return (synicboard_end){ .kind = SYNICBOARD_NO_MEMORY };
}

synicboard_end synicboard_restore(synicboard *held, const uint8_t *image, size_t length)
{
    return (synicboard_end){ .kind = SYNICBOARD_NO_MEMORY };
}

synicboard_end synicboard_format_entry(uint8_t actor, const synicboard_event *event, const synicboard_reply *reply, uint8_t *room, size_t length)
{
    return (synicboard_end){ .kind = SYNICBOARD_NO_MEMORY };
}

/* interrupts.c: requests, priorities, auto-EOI. */
#include <stdlib.h>

#include "board.h"

enum { FIRST_VECTOR = 16 };

static bool raises(uint64_t sint)
{
    if ((sint & MASKED) && !IS(masked_raises))
        return false;
    return !(sint & POLLING) || IS(polling_raises);
}

static bool is_auto_source(uint64_t sint, unsigned vector)
{
    if ((sint & 0xff) != vector)
        return false;
    if ((sint & MASKED) && !IS(auto_while_masked))
        return false;
    if ((sint & POLLING) && !IS(polling_raises))
        return false;
    return (sint & AUTO) || IS(auto_of_all);
}

static bool is_auto(unsigned vp, unsigned vector)
{
    const struct processor *p = &board.vps[vp];
    if (IS(auto_at_raise))
        return p->raised_auto[vector];
    for (unsigned s = 0; s < (IS(auto_of_first_five) ? 5 : SOURCES); s++) {
        if (is_auto_source(p->sint[s], vector))
            return true;
        if (IS(auto_of_first) && (p->sint[s] & 0xff) == vector)
            return false;
    }
    return false;
}

/* The processor, by a fault another one, whose requests and vectors in service these are. */
static struct processor *lapic_of(unsigned vp)
{
    return &board.vps[IS(lapics_of_32) ? vp % 32 : vp];
}

void request(unsigned vp, unsigned vector)
{
    struct processor *p = lapic_of(vp);
    if (IS(merge_while_serving) && p->serving[vector])
        return;
    if (p->requested[vector]) {
        p->repeats[vector]++;
        return;
    }
    p->requested[vector] = true;
    peer_notice("requested %u %02x", vp, vector);
    if (IS(auto_ends_at_request) && is_auto(vp, vector))
        p->requested[vector] = false;
}

void raise_source(unsigned vp, unsigned sint)
{
    struct processor *p = &board.vps[vp];
    uint64_t value = p->sint[sint];
    unsigned vector = value & 0xff;
    if (!raises(value))
        return;
    p->raised_auto[vector] = is_auto_source(value, vector);
    request(vp, vector);
}

/* The greatest or least vector of a set, or -1. */
static int end_of(const bool *set, bool is_greatest)
{
    for (int at = 0; at < VECTORS; at++) {
        int vector = is_greatest ? VECTORS - 1 - at : at;
        if (set[vector])
            return vector;
    }
    return -1;
}

static bool is_held_back(const struct processor *p, int vector)
{
    int serving = end_of(p->serving, true);
    int least = IS(service_ignored) ? -1 : serving;
    if (!IS(tpr_ignored)) {
        if (IS(tpr_by_vector) ? vector <= (int)(p->tpr & 0xff) : vector / 16 <= (int)(p->tpr & 0xff) / 16)
            return true;
    }
    if (least < 0)
        return vector < FIRST_VECTOR;
    return IS(class_ignored) ? vector <= least : vector / 16 <= least / 16;
}

int take_next(unsigned vp)
{
    struct processor *p = lapic_of(vp);
    int vector = end_of(p->requested, !IS(first_vector_wins));
    if (p->suspended && !IS(suspended_takes))
        return -1;
    if (vector < 0 || is_held_back(p, vector) || p->is_disabled)
        return -1;
    if (IS(ends) && vector == 0xff)
        abort();
    if (IS(queued_requests) && p->repeats[vector] > 0)
        p->repeats[vector]--;
    else if (!IS(take_keeps_request))
        p->requested[vector] = false;
    if (!is_auto(vp, (unsigned)vector) || IS(auto_enters_service))
        p->serving[vector] = true;
    return vector;
}

void end_of_interrupt(unsigned vp)
{
    struct processor *p = lapic_of(vp);
    int vector = end_of(p->serving, !IS(eoi_ends_least));
    if (vector >= 0)
        p->serving[vector] = false;
    if (is_kvm && vector >= 0)
        kvm_end_of_interrupt(vp, (unsigned)vector);
    if (IS(eoi_delivers))
        end_of_message(vp);
}

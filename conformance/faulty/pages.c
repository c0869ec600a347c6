/* pages.c: guest pages and overlays. */
#include <string.h>

#include "board.h"

static uint64_t page_of(uint64_t value)
{
    return value >> 12;
}

static bool lies_at(unsigned vp, uint64_t value, uint64_t page)
{
    if (IS(overlay_needs_synic) && !(board.vps[vp].scontrol & 1))
        return false;
    return ((value & 1) || (IS(overlay_ignores_enable) && page_of(value) > 0)) && page_of(value) == page;
}

/* Whether an overlay is at a page, or by a fault was there before its register was written. */
static bool is_at(unsigned vp, bool is_flags, uint64_t page)
{
    const struct processor *p = &board.vps[vp];
    bool is_old = IS(old_overlay_place) && board.is_sparse && lies_at(vp, is_flags ? p->old_siefp : p->old_simp, page);
    return is_old || lies_at(vp, is_flags ? p->siefp : p->simp, page);
}

/* The overlay that is visible at a page, or null. */
static uint8_t *overlay_at(uint64_t page)
{
    for (unsigned at = 0; at < 2 * board.processors; at++) {
        unsigned place = IS(overlay_order) ? 2 * board.processors - 1 - at : at;
        unsigned vp = place / 2;
        bool is_flags = (place % 2 == 1) != IS(flags_over_messages);
        struct processor *p = &board.vps[vp];
        if (is_at(vp, is_flags, page))
            return is_flags ? p->sief : p->sim;
    }
    return NULL;
}

/* What is visible at a page: null if it is elsewhere, in the memory of a sparse board's caller. */
uint8_t *page_at(uint64_t page)
{
    uint8_t *overlay = IS(no_overlays) ? NULL : overlay_at(page);
    if (overlay != NULL)
        return overlay;
    return board.is_sparse ? NULL : board.guest[page];
}

static bool is_held(uint64_t page)
{
    return !board.is_sparse && page < board.pages;
}

/* Where messages go: the overlay's own page, unless a fault says otherwise. */
uint8_t *message_page(unsigned vp)
{
    struct processor *p = &board.vps[vp];
    if (IS(no_overlays) && is_held(page_of(p->simp)))
        return board.guest[page_of(p->simp)];
    return p->sim;
}

uint8_t *flags_page(unsigned vp)
{
    struct processor *p = &board.vps[vp];
    if (IS(no_overlays) && is_held(page_of(p->siefp)))
        return board.guest[page_of(p->siefp)];
    if (IS(signal_writes_visible) && page_of(p->siefp) < board.pages && page_at(page_of(p->siefp)) != NULL)
        return page_at(page_of(p->siefp));
    return p->sief;
}

void page_register(unsigned vp, bool is_messages, uint64_t value)
{
    struct processor *p = &board.vps[vp];
    uint64_t *place = is_messages ? &p->simp : &p->siefp;
    bool is_moved = page_of(*place) != page_of(value);
    *(is_messages ? &p->old_simp : &p->old_siefp) = value & 1 ? *place : value;
    *place = IS(page_register_drops_bits) ? value & ~(uint64_t)0xffe : value;
    if (!(value & 1))
        return;
    if (IS(enabling_zeroes) || (IS(moved_is_zeroed) && is_moved))
        memset(is_messages ? message_page(vp) : flags_page(vp), 0, PAGE);
    if (IS(overlay_wipes) && is_held(page_of(value)))
        memset(board.guest[page_of(value)], 0, PAGE);
}

static unsigned refusal_of(uint64_t address, size_t length)
{
    bool is_outside = address / PAGE >= board.pages;
    bool is_crossing = address % PAGE + length > PAGE;
    if (IS(outside_first) && is_outside)
        return 11;
    if (IS(crossing_before_length) && is_crossing && !is_outside)
        return 12;
    if ((length == 0 && !IS(length_unchecked)) || length > 8)
        return 13;
    if (IS(crossing_before_page) && is_crossing)
        return 12;
    if (is_outside)
        return 11;
    if (is_crossing && (!IS(crossing_allowed) || address / PAGE + 1 >= board.pages))
        return 12;
    return page_at(address / PAGE) == NULL && !IS(elsewhere_is_zero) ? 17 : 0;
}

static uint8_t *byte_at(uint64_t address, bool is_store)
{
    static uint8_t elsewhere;
    bool is_below = IS(store_goes_below) && is_store && is_held(address / PAGE);
    uint8_t *page = is_below ? board.guest[address / PAGE] : page_at(address / PAGE);
    if (page != NULL)
        return &page[address % PAGE];
    elsewhere = 0;
    return &elsewhere;
}

/* The bytes of a page that a store wrote. */
struct written {
    const uint8_t *page;
    unsigned first, end;
};

static bool has_zero(const struct written *written, unsigned first, unsigned end)
{
    for (unsigned at = first > written->first ? first : written->first; at < end && at < written->end; at++)
        if (written->page[at] == 0)
            return true;
    return false;
}

static bool is_consumed(unsigned vp, unsigned s, const struct written *written)
{
    unsigned slot = SLOT * s, type_end = slot + 4;
    bool is_in_type = written->first < type_end && written->end > slot;
    if (IS(any_page_consumes) && is_in_type)
        return memcmp(written->page + slot, "\0\0\0\0", 4) == 0;
    if (IS(retyped_is_consumed) && is_in_type)
        return true;
    if (IS(type_part_consumes) && has_zero(written, slot, type_end))
        return true;
    if (IS(next_consumes) && s + 1 < SOURCES && board.vps[vp].sources[s + 1].has_ticket && is_slot_empty(vp, s + 1))
        return true;
    if (IS(consumed_by_start) && written->first != slot)
        return false;
    if (IS(consumed_by_first_slot) && written->first / SLOT != s)
        return false;
    return is_slot_empty(vp, s);
}

/* A slot of this page that was emptied loses its ticket. */
static void look_for_consumed(const struct written *written)
{
    for (unsigned vp = 0; vp < board.processors; vp++) {
        if (message_page(vp) != written->page && !IS(any_page_consumes))
            continue;
        for (unsigned s = 0; s < SOURCES; s++) {
            struct source *source = &board.vps[vp].sources[s];
            if (!source->has_ticket || !is_consumed(vp, s, written))
                continue;
            source->has_ticket = false;
            peer_notice("consumed %llu %u %u", (unsigned long long)source->ticket, vp, s);
            if (IS(store_delivers))
                try_delivery(vp, s);
        }
    }
}

struct peer_reply store_bytes(uint64_t address, const uint8_t *bytes, size_t length)
{
    unsigned why = refusal_of(address, length);
    if (why)
        return refused(why);
    if (IS(store_stops_at_slot) && length > SLOT - address % SLOT)
        length = SLOT - address % SLOT;
    if (IS(eighth_byte_lost) && length > 7)
        length = 7;
    for (size_t at = 0; at < length; at++)
        *byte_at(address + at, true) = bytes[at];
    if (page_at(address / PAGE) == NULL)
        return done();
    unsigned first = address % PAGE;
    look_for_consumed(&(struct written){ page_at(address / PAGE), first, first + (unsigned)length });
    return done();
}

struct peer_reply load_bytes(uint64_t address, unsigned length)
{
    unsigned why = refusal_of(address, length);
    if (why)
        return refused(why);
    struct peer_reply reply = { .kind = PEER_BYTES, .length = length };
    for (unsigned at = 0; at < length; at++)
        reply.bytes[at] = *byte_at(address + at, false);
    return reply;
}

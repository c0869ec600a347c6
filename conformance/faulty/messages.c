/* messages.c: queues, slots and attempts of delivery. */
#include <stdlib.h>
#include <string.h>

#include "board.h"

enum { TYPE = 0, TYPE_BYTES = 4, LENGTH = 4, FLAG_BYTE = 5, ORIGIN = 8, PAYLOAD = 16, DELIVERY = 32 };

bool synic_on(unsigned vp)
{
    return (board.vps[vp].scontrol & 1) || IS(synic_bit_ignored);
}

bool are_tickets_left(void)
{
    return board.next_ticket < UINT64_MAX - (IS(last_ticket_early) ? 1 : 0);
}

unsigned queued_from(unsigned vp, unsigned sint, unsigned sender)
{
    const struct source *source = &board.vps[vp].sources[sint];
    unsigned count = IS(buffers_until_emptied) && source->has_ticket && source->slot_sender == sender;
    for (const struct message *m = source->first; m != NULL; m = m->next)
        count += m->sender == sender;
    return count;
}

static void withdrawn(uint64_t ticket, unsigned vp, unsigned sint)
{
    peer_notice("withdrawn %llu %u %u", (unsigned long long)ticket, vp, sint);
}

/* Where the first message of a sender is linked, or by a fault the last; null if there is none. */
static struct message **queued_place(unsigned vp, unsigned sint, unsigned sender)
{
    struct message **found = NULL;
    for (struct message **at = &board.vps[vp].sources[sint].first; *at != NULL; at = &(*at)->next)
        if ((sender == UINT32_MAX || (*at)->sender == sender) && (found == NULL || IS(close_backwards)))
            found = at;
    return found;
}

/* Drops the messages of one sender, or of all where the sender is UINT32_MAX. */
void drop_queued(unsigned vp, unsigned sint, unsigned sender, bool is_told)
{
    unsigned untold = IS(close_reports_half) && sender < FIRST_TIMER ? queued_from(vp, sint, sender) / 2 : 0;
    for (struct message **at; (at = queued_place(vp, sint, sender)) != NULL;) {
        struct message *m = *at;
        if (untold > 0)
            untold--;
        else if (is_told)
            withdrawn(m->ticket, vp, sint);
        *at = m->next;
        free(m);
    }
}

/* What closing a port does to its slot, by a fault. */
void close_slot(unsigned vp, unsigned sint, unsigned sender)
{
    struct source *source = &board.vps[vp].sources[sint];
    if (IS(close_ends_slot) && source->has_ticket && source->slot_sender == sender) {
        withdrawn(source->ticket, vp, sint);
        source->has_ticket = false;
    }
    if (IS(close_clears_pending) && source->first == NULL)
        slot_of(vp, sint)[FLAG_BYTE] &= 0xfe;
    if (IS(close_tries))
        try_delivery(vp, sint);
}

static bool goes_before(const struct message *m, const struct message *other, bool is_slot_free)
{
    if (IS(overtakes))
        return is_slot_free;
    return IS(timers_by_index) && m->sender >= FIRST_TIMER && other->sender >= FIRST_TIMER && m->sender < other->sender;
}

uint64_t enqueue(unsigned vp, unsigned sint, unsigned sender, uint32_t type, const uint8_t *payload, size_t length)
{
    struct message *m = calloc(1, sizeof *m);
    if (m == NULL)
        abort();
    if (IS(payload_239) && length > 239)
        length = 239;
    *m = (struct message){ .sender = sender, .ticket = board.next_ticket, .type = type, .length = length };
    if (length > 0)
        memcpy(m->payload, payload, length);
    if (!IS(tickets_stay) && (!IS(timer_takes_none) || sender < FIRST_TIMER))
        board.next_ticket++;
    bool is_slot_free = is_slot_empty(vp, sint);
    struct message **at = &board.vps[vp].sources[sint].first;
    while (*at != NULL && !goes_before(m, *at, is_slot_free))
        at = &(*at)->next;
    m->next = *at;
    *at = m;
    peer_notice("accepted %llu %u %u", (unsigned long long)m->ticket, vp, sint);
    return m->ticket;
}

uint8_t *slot_of(unsigned vp, unsigned sint)
{
    return message_page(IS(queues_shared) ? 0 : vp) + (IS(slot_elsewhere) ? SLOT / 2 : SLOT) * sint;
}

bool is_slot_empty(unsigned vp, unsigned sint)
{
    const uint8_t *slot = slot_of(vp, sint);
    if (IS(pending_blocks) && (slot[FLAG_BYTE] & 1))
        return false;
    unsigned checked = IS(type_byte_alone) ? 1 : IS(type_two_bytes) ? 2 : IS(type_three_bytes) ? 3 : TYPE_BYTES;
    for (unsigned at = 0; at < checked; at++)
        if (slot[at] != 0)
            return false;
    return true;
}

static void put(uint8_t *at, uint64_t number, unsigned length)
{
    for (unsigned i = 0; i < length; i++)
        at[i] = (uint8_t)(number >> (8 * i));
}

/* Where a message is written: in its slot, unless a fault says otherwise. */
static uint8_t *image_place(unsigned vp, unsigned sint)
{
    uint64_t page = board.vps[vp].simp >> 12;
    if (IS(message_writes_visible) && page < board.pages && page_at(page) != NULL)
        return page_at(page) + SLOT * sint;
    return slot_of(vp, sint);
}

static void write_image(uint8_t *slot, const struct message *m, bool is_pending)
{
    memset(slot, 0, IS(short_image) || IS(slot_elsewhere) ? PAYLOAD : SLOT);
    put(slot + TYPE, m->type, TYPE_BYTES);
    slot[LENGTH] = (uint8_t)(IS(payload_length) ? 240 : m->length);
    slot[FLAG_BYTE] = is_pending;
    put(slot + ORIGIN, m->sender < FIRST_TIMER && !IS(port_number) ? m->sender : 0, 8);
    memcpy(slot + PAYLOAD, m->payload, IS(slot_elsewhere) && m->length > 112 ? 112 : m->length);
    if (m->sender >= FIRST_TIMER && !IS(delivery_deadline))
        put(slot + DELIVERY, board.now, 8);
}

static void place(unsigned vp, unsigned sint)
{
    struct source *source = &board.vps[vp].sources[sint];
    struct message *m = source->first;
    bool is_pending = (m->next != NULL || IS(pending_always)) && !IS(placed_not_pending);
    source->first = m->next;
    if (IS(hidden_not_written) && page_at(board.vps[vp].simp >> 12 < board.pages ? board.vps[vp].simp >> 12 : 0) != message_page(vp))
        is_pending = false;
    else
        write_image(image_place(vp, sint), m, is_pending);
    source->has_ticket = true;
    source->ticket = m->ticket;
    source->slot_sender = m->sender;
    peer_notice("placed %llu %u %u", (unsigned long long)m->ticket, vp, sint);
    if (is_pending)
        peer_notice("pending %u %u", vp, sint);
    raise_source(vp, sint);
    bool is_masked = board.vps[vp].sint[sint] & MASKED;
    if (m->sender >= FIRST_TIMER && IS(enabled_until_delivered) && !(board.vps[vp].timers[m->sender - FIRST_TIMER].config & PERIODIC))
        board.vps[vp].timers[m->sender - FIRST_TIMER].config &= ~(uint64_t)ENABLED;
    free(source->repeated);
    source->repeated = NULL;
    if (IS(masked_repeats) && is_masked && m->sender >= FIRST_TIMER)
        source->repeated = m;
    else
        free(m);
}

static void mark(unsigned vp, unsigned sint)
{
    uint8_t *flags = slot_of(vp, sint) + FLAG_BYTE;
    if (IS(pending_forgotten))
        return;
    if (IS(mark_drops_head)) {
        struct message *head = board.vps[vp].sources[sint].first;
        board.vps[vp].sources[sint].first = head->next;
        free(head);
    }
    bool was_clear = !(*flags & 1);
    *flags = IS(pending_is_whole_byte) ? 1 : *flags | 1;
    if (was_clear)
        peer_notice("pending %u %u", vp, sint);
}

void try_delivery(unsigned vp, unsigned sint)
{
    const struct processor *p = &board.vps[vp];
    if (!synic_on(vp) || !(p->simp & 1) || p->sources[sint].first == NULL)
        return;
    if (IS(absent_page_blocks) && p->simp >> 12 >= board.pages)
        return;
    if (is_slot_empty(vp, sint) || IS(slot_overwritten))
        place(vp, sint);
    else
        mark(vp, sint);
}

static void repeat(unsigned vp, unsigned sint)
{
    struct source *source = &board.vps[vp].sources[sint];
    if (source->repeated != NULL && source->first == NULL && is_slot_empty(vp, sint)) {
        source->first = source->repeated;
        source->first->next = NULL;
        source->repeated = NULL;
    }
}

void end_of_message(unsigned vp)
{
    if (is_kvm) {
        kvm_end_of_message(vp);
        return;
    }
    for (unsigned at = 0; at < SOURCES; at++) {
        unsigned s = IS(eom_backwards) ? SOURCES - 1 - at : at;
        if (s == 8 && IS(eom_first_eight))
            return;
        repeat(vp, s);
        bool is_tried = board.vps[vp].sources[s].first != NULL;
        if (s == 0 && IS(eom_skips_source_0))
            continue;
        try_delivery(vp, s);
        if (IS(eom_drains))
            drop_queued(vp, s, UINT32_MAX, true);
        if (IS(eom_first_only) && is_tried)
            return;
    }
}

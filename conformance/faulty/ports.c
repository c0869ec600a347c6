/* ports.c: ports, posts and signals. */
#include "board.h"

/* The fewest ports of a board, and the most buffers of a port and of all ports of a processor. */
enum { FEWEST_PORTS = 16, PORTS_OF_EACH = 4, MOST_BUFFERS = 16, ALL_BUFFERS = 256 };

/* A sparse board has four ports for each processor if these are more than 16. */
static unsigned port_count(void)
{
    unsigned count = PORTS_OF_EACH * board.processors;
    if (!board.is_sparse || IS(sixteen_ports))
        return FEWEST_PORTS;
    if (IS(always_256_ports))
        return PORTS;
    return count > FEWEST_PORTS ? count : FEWEST_PORTS;
}

static bool is_number(unsigned number)
{
    return number < port_count() || (IS(port_range) && number < PORTS);
}

/* A port, by a fault another one. */
struct port *port_at(unsigned number)
{
    return &board.ports[IS(port_of_four_bits) ? number % FEWEST_PORTS : number];
}

static unsigned buffers_of(const struct port *port)
{
    if (port->is_flags)
        return IS(flags_use_buffers) && port->is_open ? 1 : 0;
    return port->is_open ? port->buffers : port->kept;
}

/* Whether the processor has so many buffers left for one more port. */
static bool has_buffers(const struct port *port)
{
    unsigned used = port->is_flags ? IS(flags_use_buffers) : port->buffers;
    if (used == 0 || IS(buffers_unbounded) || IS(shape_unchecked))
        return true;
    for (unsigned at = 0; at < PORTS; at++)
        if (board.ports[at].vp == port->vp || IS(buffers_of_all))
            used += buffers_of(&board.ports[at]);
    return used <= ALL_BUFFERS;
}

static bool is_fitting(const struct port *port)
{
    if (port->vp >= board.processors || port->sint >= SOURCES)
        return false;
    if (IS(shape_unchecked))
        return port->is_flags || (port->buffers > 0 && port->buffers <= 255);
    if (port->is_flags)
        return port->count >= 1 && port->base + port->count <= FLAGS;
    return port->buffers >= 1 && port->buffers <= MOST_BUFFERS;
}

struct peer_reply open_port(unsigned number, struct port port)
{
    bool is_first = IS(shape_before_number) || (IS(shape_before_open) && is_number(number));
    if (is_first && !is_fitting(&port))
        return refused(4);
    if (!is_number(number))
        return refused(1);
    if (port_at(number)->is_open && !IS(open_replaces))
        return refused(2);
    if (!is_fitting(&port) || !has_buffers(&port))
        return refused(4);
    if (IS(one_buffer))
        port.buffers = 1;
    port.is_open = true;
    *port_at(number) = port;
    return done();
}

/* What closing a port does to its flags, by a fault. */
static void close_flags(const struct port *port)
{
    uint8_t *flags = flags_page(port->vp) + SLOT * port->sint;
    for (unsigned place = port->base; IS(close_clears_flags) && place < port->base + port->count; place++)
        flags[place / 8] &= (uint8_t)~(1 << place % 8);
}

struct peer_reply close_port(unsigned number)
{
    if (!is_number(number) || !port_at(number)->is_open)
        return IS(close_unchecked) ? done() : refused(1);
    struct port *port = port_at(number);
    port->is_open = false;
    port->kept = IS(buffers_kept) ? port->buffers : 0;
    if (port->is_flags) {
        close_flags(port);
        return done();
    }
    if (!IS(close_keeps))
        drop_queued(port->vp, port->sint, IS(close_drops_all) ? UINT32_MAX : number, true);
    close_slot(port->vp, port->sint, number);
    return done();
}

static unsigned target_refusal(unsigned number, bool is_flags)
{
    if (!is_number(number) || !port_at(number)->is_open)
        return 1;
    if (port_at(number)->is_flags != is_flags)
        return IS(kind_unchecked) ? 1 : 3;
    return 0;
}

static unsigned post_refusal(unsigned number, uint32_t type)
{
    bool is_type = IS(any_type) || (type != 0 && type >> 31 == 0);
    if (IS(type_before_port) && !is_type)
        return 5;
    unsigned why = target_refusal(number, false);
    if (why)
        return why;
    const struct port *port = port_at(number);
    bool is_off = !synic_on(port->vp) || (IS(suspended_refuses) && board.vps[port->vp].suspended);
    bool is_full = queued_from(port->vp, port->sint, number) >= port->buffers;
    bool is_spent = !are_tickets_left();
    if (IS(synic_before_type) && is_off)
        return 7;
    if (!is_type)
        return 5;
    if (IS(buffers_before_synic) && is_full)
        return 8;
    if (IS(tickets_before_synic) && is_spent)
        return 9;
    if (is_off)
        return 7;
    if (IS(tickets_before_buffers) && is_spent)
        return 9;
    return is_full ? 8 : is_spent ? 9 : 0;
}

struct peer_reply post(unsigned number, uint32_t type, const uint8_t *payload, size_t length)
{
    unsigned why = post_refusal(number, type);
    if (why) {
        if (IS(refused_counts) && board.next_ticket < UINT64_MAX)
            board.next_ticket++;
        return refused(why);
    }
    const struct port *port = port_at(number);
    bool was_empty = board.vps[port->vp].sources[port->sint].first == NULL;
    uint64_t ticket = enqueue(port->vp, port->sint, number, type, payload, length);
    if (was_empty || !IS(post_tries_nothing))
        try_delivery(port->vp, port->sint);
    return peer_reply(PEER_ACCEPTED, ticket);
}

static unsigned signal_refusal(unsigned number, unsigned flag)
{
    unsigned why = target_refusal(number, true);
    if (IS(flag_before_kind) && why == 3 && flag >= port_at(number)->count)
        return 6;
    if (why)
        return why;
    const struct port *port = port_at(number);
    bool is_on = (board.vps[port->vp].siefp & 1) || IS(signal_when_off);
    bool is_off = !synic_on(port->vp) || !is_on;
    if (IS(synic_before_flag) && is_off)
        return 7;
    if (flag >= (IS(flag_range) ? FLAGS - port->base : port->count))
        return 6;
    return is_off ? 7 : 0;
}

/* What is visible where SIEFP maps the flags, or the flags themselves outside the pages. */
static const uint8_t *visible_flags(unsigned vp)
{
    uint64_t page = board.vps[vp].siefp >> 12;
    const uint8_t *visible = page < board.pages ? page_at(page) : NULL;
    return visible != NULL ? visible : flags_page(vp);
}

struct peer_reply signal_flag(unsigned number, unsigned flag)
{
    unsigned why = signal_refusal(number, flag);
    if (why)
        return refused(why);
    const struct port *port = port_at(number);
    unsigned place = (flag + (IS(flag_base_ignored) ? 0 : port->base)) % FLAGS;
    unsigned bit = IS(flag_bytes_reversed) ? 7 - place % 8 : place % 8;
    uint8_t *byte = flags_page(port->vp) + SLOT * (IS(flags_of_first) ? 0 : port->sint) + place / 8;
    const uint8_t *looked_at = IS(flag_of_visible) ? visible_flags(port->vp) + SLOT * port->sint + place / 8 : byte;
    bool was_set = *looked_at >> bit & 1;
    bool is_masked = board.vps[port->vp].sint[port->sint] & MASKED;
    if (!(IS(flag_needs_mask_clear) && is_masked))
        *byte = (uint8_t)(*byte | 1 << bit);
    if (!was_set)
        peer_notice("flag %u %u %u", port->vp, port->sint, place);
    if ((!was_set && !IS(flag_never_raises)) || IS(flag_raises_again))
        raise_source(port->vp, port->sint);
    return peer_reply(was_set ? PEER_SET : PEER_CLEAR, 0);
}

/* QEMU's own VMBus (hw/hyperv) over the board's ports: a route posts messages or sets event flags at a source of a
 * processor. Each such pair has a port for messages and one for flags, which its routes share. */
#include "internal.h"
#include "block/aio.h"
#include "hw/hyperv/vmbus-bridge.h"
#include "hw/hyperv/hyperv-proto.h"
#include "routes.h"

enum { PORTS_OF_VP = 4, FLAGS = 2048, MOST_ROUTES = 512 };

/* What HvSintRoute is while there is a board. */
typedef struct SynicRoute {
    uint8_t vp, sint, port;     /* of messages; that of flags is the next one */
    unsigned references;
    HvSintMsgCb cb;
    void *cb_data;
    bool is_posted;             /* a message waits */
    unsigned watch;             /* of its messages, if it has a callback */
} SynicRoute;

static SynicRoute *routes[MOST_ROUTES];

/* ---- Ports ---- */

static synicboard_reply perform(synicboard_event event)
{
    return synic_perform(&event);
}

static bool shares(const SynicRoute *one, const SynicRoute *other)
{
    return one != NULL && one != other && one->vp == other->vp && one->sint == other->sint;
}

static bool is_shared(const SynicRoute *route)
{
    bool is_shared = false;
    for (unsigned at = 0; at < MOST_ROUTES; at++)
        is_shared = is_shared || shares(routes[at], route);
    return is_shared;
}

static void close_ports(const SynicRoute *route)
{
    perform((synicboard_event){ .kind = SYNICBOARD_CLOSE_PORT, .port = route->port });
    perform((synicboard_event){ .kind = SYNICBOARD_CLOSE_PORT, .port = route->port + 1 });
}

/* They are open in the image of a saved machine, whose messages VMBus posts again, so they are closed first. */
static void open_ports(const SynicRoute *route)
{
    close_ports(route);
    perform((synicboard_event){ .kind = SYNICBOARD_OPEN_MESSAGE_PORT, .port = route->port, .vp = route->vp, .sint = route->sint,
                                .buffers = 1 });
    perform((synicboard_event){ .kind = SYNICBOARD_OPEN_EVENT_PORT, .port = route->port + 1, .vp = route->vp, .sint = route->sint,
                                .count = FLAGS });
}

/* A processor has ports for two sources at a time. */
static int find_port(const SynicRoute *route)
{
    bool is_used[2] = { false, false };
    for (unsigned at = 0; at < MOST_ROUTES; at++) {
        if (shares(routes[at], route))
            return routes[at]->port;
        if (routes[at] != NULL && routes[at]->vp == route->vp)
            is_used[routes[at]->port % PORTS_OF_VP / 2] = true;
    }
    if (is_used[0] && is_used[1])
        return -1;
    return route->vp * PORTS_OF_VP + (is_used[0] ? 2 : 0);
}

/* ---- Routes ---- */

bool synic_is_open(void)
{
    return synic.is_open && (synic.offer.features & PARTITION_SYNIC) != 0;
}

bool synic_has_qemu_bus(void)
{
    return vmbus_bridge_find() != NULL;
}

/* A watch that no route has; SYNIC_WATCHES if there is none. */
static unsigned find_watch(void)
{
    uint64_t used = 0;
    for (unsigned at = 0; at < MOST_ROUTES; at++)
        if (routes[at] != NULL && routes[at]->cb != NULL)
            used |= 1ULL << routes[at]->watch;
    return used == UINT64_MAX ? SYNIC_WATCHES : ctz64(~used);
}

HvSintRoute *synic_route_new(uint32_t vp, uint32_t sint, HvSintMsgCb cb, void *cb_data)
{
    SynicRoute new = { .vp = vp, .sint = sint, .references = 1, .cb = cb, .cb_data = cb_data, .watch = find_watch() };
    unsigned at = 0;
    int port = vp < synic.offer.vps && sint < 16 ? find_port(&new) : -1;
    while (at < MOST_ROUTES && routes[at] != NULL)
        at++;
    if (port < 0 || at == MOST_ROUTES || (cb != NULL && new.watch == SYNIC_WATCHES))
        return NULL;
    new.port = port;
    routes[at] = g_memdup2(&new, sizeof(new));
    if (!is_shared(routes[at]))
        open_ports(routes[at]);
    return (HvSintRoute *)routes[at];
}

void synic_route_ref(HvSintRoute *opaque)
{
    ((SynicRoute *)opaque)->references++;
}

void synic_route_unref(HvSintRoute *opaque)
{
    SynicRoute *route = (SynicRoute *)opaque;
    if (route == NULL || --route->references != 0)
        return;
    if (!is_shared(route))
        close_ports(route);
    for (unsigned at = 0; at < MOST_ROUTES; at++)
        if (routes[at] == route)
            routes[at] = NULL;
    g_free(route);
}

int synic_route_post(HvSintRoute *opaque, struct hyperv_message *message)
{
    SynicRoute *route = (SynicRoute *)opaque;
    synicboard_event event = { .kind = SYNICBOARD_POST, .port = route->port, .message_type = message->header.message_type,
                               .length = message->header.payload_size };
    if (route->is_posted || route->cb == NULL)
        return -EAGAIN;
    memcpy(event.bytes, message->payload, MIN(sizeof(event.bytes), sizeof(message->payload)));
    route->is_posted = true;
    synicboard_reply reply = synic_post_watched(&event, route->watch);
    if (reply.kind == SYNICBOARD_ACCEPTED)
        return 0;
    route->is_posted = false;
    return reply.refusal == SYNICBOARD_NO_BUFFERS ? -EAGAIN : -ENXIO;
}

int synic_route_signal(HvSintRoute *opaque, unsigned flag)
{
    SynicRoute *route = (SynicRoute *)opaque;
    if (flag >= FLAGS)
        return -EINVAL;
    synicboard_reply reply = perform((synicboard_event){ .kind = SYNICBOARD_SIGNAL, .port = route->port + 1, .flag = flag });
    return reply.kind == SYNICBOARD_REFUSED ? -ENXIO : 0;
}

/* Requests the vector of the source, as a message or a flag would. */
int synic_route_raise(HvSintRoute *opaque)
{
    SynicRoute *route = (SynicRoute *)opaque;
    uint64_t sint = perform((synicboard_event){ .kind = SYNICBOARD_READ, .vp = route->vp,
                                                .msr = SYNICBOARD_MSR_SINT0 + route->sint }).value;
    bool is_masked = (sint >> 16 & 1) != 0, is_polling = (sint >> 18 & 1) != 0;
    if (!is_masked && !is_polling)
        synic_deliver(route->vp, sint & 0xff);
    return 0;
}

/* ---- Callbacks ---- */

static void call(void *opaque)
{
    SynicRoute *route = opaque;
    route->is_posted = false;
    if (route->cb != NULL)
        route->cb(route->cb_data, 0);
    synic_route_unref((HvSintRoute *)route);
}

/* VMBus may be in a call, so its callback comes from the main loop, at a place that a replay repeats. */
void synic_routes_placed(uint64_t watches)
{
    for (unsigned at = 0; at < MOST_ROUTES; at++)
        if (routes[at] != NULL && routes[at]->is_posted && (watches >> routes[at]->watch & 1) != 0) {
            routes[at]->references++;
            replay_bh_schedule_oneshot_event(qemu_get_aio_context(), call, routes[at]);
        }
}

void synic_routes_restored(void)
{
    for (unsigned at = 0; at < MOST_ROUTES; at++)
        if (routes[at] != NULL) {
            routes[at]->is_posted = false;
            open_ports(routes[at]);
        }
}

/* ---- Hypercalls ---- */

uint64_t synic_qemu_post(uint64_t input, bool is_fast)
{
    return hyperv_hcall_post_message(input, is_fast);
}

uint64_t synic_qemu_signal(uint64_t input, bool is_fast)
{
    return hyperv_hcall_signal_event(input, is_fast);
}

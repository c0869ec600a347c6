/* The integration services: heartbeat, time synchronisation and shutdown. */
#include <string.h>

#include "bus.h"

enum { MOST_WAIT = 50000000 };  /* in units of 100 ns */

struct head {
    struct vmpacket_descriptor descriptor;
    struct vmbuspipe_hdr pipe;
    struct icmsg_hdr ic;
} __attribute__((packed));

static const struct ic_version framework = { 3, 0 };
static const struct service {
    uint16_t type;
    struct ic_version version;
} services[CHANNELS] = {
    [HEARTBEAT] = { ICMSGTYPE_HEARTBEAT, { 3, 0 } },
    [TIMESYNC] = { ICMSGTYPE_TIMESYNC, { 4, 0 } },
    [SHUTDOWN] = { ICMSGTYPE_SHUTDOWN, { 3, 2 } },
};

/* ---- Requests ---- */

/* The number of a request on its channel is its transaction, which the answer repeats. */
static bool send(struct vmbus *bus, unsigned number, uint16_t type, const void *data, uint16_t length)
{
    uint8_t packet[(sizeof(struct head) + sizeof(struct shutdown_msg_data) + 7) & ~7U];
    struct channel *channel = &bus->channel[number];
    uint32_t total = (sizeof(struct head) + length + 7U) & ~7U;
    struct head head = {
        .descriptor = { VM_PKT_DATA_INBAND, sizeof head.descriptor / 8, (uint16_t)(total / 8), 0, channel->sent },
        .pipe = { 1, (uint32_t)sizeof head.ic + length },
        .ic = { .icverframe = framework, .icmsgtype = type, .icvermsg = services[number].version, .icmsgsize = length,
                .ictransaction_id = (uint8_t)channel->sent, .icflags = ICMSGHDRFLAG_TRANSACTION | ICMSGHDRFLAG_REQUEST },
    };
    memset(packet, 0, sizeof packet);
    memcpy(packet, &head, sizeof head);
    memcpy(packet + sizeof head, data, length);
    bool is_sent = channel_send(bus, number, packet, total);
    channel->sent += is_sent;
    return is_sent;
}

void service_opened(struct vmbus *bus, unsigned number)
{
    struct icmsg_negotiate data = { 1, 1, 0, framework, services[number].version };
    send(bus, number, ICMSGTYPE_NEGOTIATE, &data, sizeof data);
}

static bool send_heartbeat(struct vmbus *bus)
{
    struct heartbeat_msg_data data = { .seq_num = bus->channel[HEARTBEAT].sent };
    return send(bus, HEARTBEAT, ICMSGTYPE_HEARTBEAT, &data, sizeof data);
}

static bool send_time(struct vmbus *bus)
{
    bool is_first = bus->channel[TIMESYNC].sent == 1;
    struct ictimesync_ref_data data = {
        .parenttime = WLTIMEDELTA + bus->host->date(bus->opaque),
        .vmreferencetime = bus->host->time(bus->opaque),
        .flags = is_first ? ICTIMESYNCFLAG_SYNC : ICTIMESYNCFLAG_SAMPLE,
    };
    return send(bus, TIMESYNC, ICMSGTYPE_TIMESYNC, &data, sizeof data);
}

static bool send_shutdown(struct vmbus *bus)
{
    struct shutdown_msg_data data = { .flags = 0 };
    bus_log(bus, "shutdown: the guest is asked to turn off");
    return send(bus, SHUTDOWN, ICMSGTYPE_SHUTDOWN, &data, sizeof data);
}

static uint64_t time_of(const struct vmbus *bus)
{
    return bus->host->time(bus->opaque);
}

static bool is_past(struct vmbus *bus, uint32_t milliseconds)
{
    return milliseconds != 0 && time_of(bus) >= milliseconds * 10000ULL;
}

static bool is_answered(struct vmbus *bus, unsigned number)
{
    return bus->sent[number] == bus->answered[number];
}

/* Whether the request to shut down is sent now: when all others are answered, or have not been for long. */
static bool ends(struct vmbus *bus)
{
    uint64_t heartbeats = bus->options.heartbeats;
    if (bus->end == 0 && (is_past(bus, bus->options.shutdown_after) || (heartbeats != 0 && bus->answered[HEARTBEAT] >= heartbeats)))
        bus->end = time_of(bus);
    return bus->end != 0 && bus->sent[SHUTDOWN] == 0
        && ((is_answered(bus, HEARTBEAT) && is_answered(bus, TIMESYNC)) || time_of(bus) > bus->end + MOST_WAIT);
}

void vmbus_tick(struct vmbus *bus, enum vmbus_service number)
{
    bool is_ready = bus->channel[number].is_negotiated, is_sent = false;
    if (number == SHUTDOWN && is_past(bus, bus->options.rescind_after) && !bus->has_rescinded && bus->channel[TIMESYNC].is_negotiated) {
        bus->has_rescinded = true;
        channel_rescind(bus, TIMESYNC);
    }
    if (number == HEARTBEAT && is_ready && bus->end == 0)
        is_sent = (bus->options.heartbeats == 0 || bus->sent[HEARTBEAT] < bus->options.heartbeats) && send_heartbeat(bus);
    if (number == TIMESYNC && is_ready && bus->end == 0)
        is_sent = send_time(bus);
    if (number == SHUTDOWN && ends(bus) && is_ready)
        is_sent = send_shutdown(bus);
    bus->sent[number] += is_sent;
}

/* ---- Answers ---- */

/* Whether the data of an answer is right. A heartbeat returns the number that follows. */
static bool handle(struct vmbus *bus, unsigned number, const struct icmsg_hdr *ic, const uint8_t *data, uint32_t length)
{
    struct channel *channel = &bus->channel[number];
    if (ic->icmsgtype == ICMSGTYPE_NEGOTIATE) {
        struct icmsg_negotiate answer;
        if (length < sizeof answer)
            return false;
        memcpy(&answer, data, sizeof answer);
        channel->is_negotiated = answer.icframe_vercnt == 1 && answer.icmsg_vercnt == 1
            && memcmp(&answer.framework, &framework, sizeof framework) == 0
            && memcmp(&answer.service, &services[number].version, sizeof answer.service) == 0;
        bus_log(bus, "%s: version %u.%u %s", channel_names[number], answer.service.major, answer.service.minor,
               channel->is_negotiated ? "agreed" : "is not the one that was offered");
        return channel->is_negotiated;
    }
    uint64_t sequence = 0;
    memcpy(&sequence, data, length < sizeof sequence ? length : sizeof sequence);
    if (number == SHUTDOWN)
        bus_log(bus, "shutdown: answered with status %x", ic->status);
    return ic->status == 0 && (number != HEARTBEAT || sequence == channel->answered + 1);
}

/* Answers come in the order of the requests, each once, with the transaction and the kind of the request. */
void service_answer(struct vmbus *bus, unsigned number, const uint8_t packet[MOST_PACKET])
{
    struct channel *channel = &bus->channel[number];
    struct vmpacket_descriptor descriptor;
    struct icmsg_hdr ic;
    memcpy(&descriptor, packet, sizeof descriptor);
    uint32_t at = descriptor.offset8 * 8U + (uint32_t)sizeof(struct vmbuspipe_hdr), end = descriptor.len8 * 8U;
    if (at + sizeof ic > end || channel->answered == channel->sent) {
        bus->wrong[number]++;
        return;
    }
    memcpy(&ic, packet + at, sizeof ic);
    at += (uint32_t)sizeof ic;
    uint16_t type = channel->answered == 0 ? ICMSGTYPE_NEGOTIATE : services[number].type;
    bool is_right = descriptor.trans_id == channel->answered && ic.icmsgtype == type
        && (ic.icflags & ICMSGHDRFLAG_RESPONSE) != 0 && handle(bus, number, &ic, packet + at, end - at);
    bus->wrong[number] += !is_right;
    bus->answered[number] += is_right && channel->answered != 0;
    channel->answered++;
}

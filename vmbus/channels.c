/* The channels: offers, opening and closing, and the interrupts in both directions. */
#include <string.h>

#include "bus.h"

enum { MOST_AT_ONCE = 64 };     /* packets that are read before the host gets its turn */

static const uint8_t types[CHANNELS][16] = {
    [HEARTBEAT] = { 0x39, 0x4f, 0x16, 0x57, 0x15, 0x91, 0x78, 0x4e, 0xab, 0x55, 0x38, 0x2f, 0x3b, 0xd5, 0x42, 0x2d },
    [TIMESYNC] = { 0x30, 0xe6, 0x27, 0x95, 0xae, 0xd0, 0x7b, 0x49, 0xad, 0xce, 0xe8, 0x0a, 0xb0, 0x17, 0x5c, 0xaf },
    [SHUTDOWN] = { 0x31, 0x60, 0x0b, 0x0e, 0x13, 0x52, 0x34, 0x49, 0x81, 0x8b, 0x38, 0xd9, 0x0c, 0xed, 0x39, 0xdb },
};
const char *const channel_names[CHANNELS] = { [HEARTBEAT] = "heartbeat", [TIMESYNC] = "time sync", [SHUTDOWN] = "shutdown" };

static uint32_t relid_of(struct vmbus *bus, const struct channel *channel)
{
    return (uint32_t)(channel - bus->channel) + 1;
}

/* The channel of a relid, if the guest knows it. */
static struct channel *find(struct vmbus *bus, uint32_t relid)
{
    struct channel *channel = relid - 1 < CHANNELS ? &bus->channel[relid - 1] : NULL;
    return channel != NULL && channel->state != UNOFFERED ? channel : NULL;
}

/* ---- Offers ---- */

/* The instance is the relid, so a device is 00000001-0000-0000-0000-000000000000 in sysfs. */
static void offer(struct vmbus *bus, unsigned number)
{
    uint32_t relid = number + 1;
    struct vmbus_channel_offer_channel message = {
        .header.msgtype = CHANNELMSG_OFFERCHANNEL,
        .if_instance = { (uint8_t)relid },
        .chn_flags = VMBUS_CHANNEL_ENUMERATE_DEVICE_INTERFACE | VMBUS_CHANNEL_NAMED_PIPE_MODE,
        .pipe_mode = VMBUS_PIPE_TYPE_MESSAGE,
        .child_relid = relid,
        .is_dedicated_interrupt = 1,
        .connection_id = FIRST_EVENT_CONNECTION + relid,
    };
    memcpy(message.if_type, types[number], sizeof message.if_type);
    bus->channel[number] = (struct channel){ .state = OFFERED };
    message_post(bus, &message, sizeof message);
}

void channels_on_request(struct vmbus *bus, const struct posted *posted)
{
    vmbus_header all = { .msgtype = CHANNELMSG_ALLOFFERS_DELIVERED };
    (void)posted;
    for (unsigned number = 0; number < CHANNELS; number++)
        if (bus->channel[number].state == UNOFFERED)
            offer(bus, number);
    message_post(bus, &all, sizeof all);
}

/* What a channel has not answered when it ends is not expected any more. */
static void withdraw(struct vmbus *bus, unsigned number)
{
    bus->withdrawn += bus->sent[number] - bus->answered[number];
    bus->sent[number] = bus->answered[number];
}

void channel_rescind(struct vmbus *bus, unsigned number)
{
    struct channel *channel = &bus->channel[number];
    struct vmbus_channel_relid message = { { CHANNELMSG_RESCIND_CHANNELOFFER, 0 }, number + 1 };
    if (channel->state != OFFERED && channel->state != OPEN)
        return;
    channel->state = RESCINDED;
    channel->is_negotiated = false;
    withdraw(bus, number);
    bus_log(bus, "%s: rescinded", channel_names[number]);
    message_post(bus, &message, sizeof message);
}

/* The driver is done with a rescinded channel, which is offered again. */
void channel_on_released(struct vmbus *bus, const struct posted *posted)
{
    const struct vmbus_channel_relid *message = posted->bytes;
    struct channel *channel = find(bus, message->child_relid);
    if (channel == NULL || channel->state != RESCINDED) {
        bus->ignored++;
        return;
    }
    gpadl_release(bus, message->child_relid);
    bus_log(bus, "%s: released, and offered again", channel_names[message->child_relid - 1]);
    offer(bus, message->child_relid - 1);
}

/* ---- Opening and closing ---- */

/* The guest's ring comes first, and the host's begins at a page that the guest chooses. */
static bool set_rings(struct vmbus *bus, struct channel *channel, const struct vmbus_channel_open_channel *message)
{
    struct gpadl *gpadl = gpadl_find(bus, message->ringbuffer_gpadlhandle);
    uint32_t middle = message->downstream_ringbuffer_pageoffset;
    if (gpadl == NULL || gpadl->relid != message->child_relid || gpadl->listed != gpadl->pages)
        return false;
    if (middle < 2 || middle >= gpadl->pages || gpadl->pages - middle < 2)
        return false;
    uint32_t number = (uint32_t)(gpadl - bus->gpadl);
    channel->inbound = (struct ring){ number, 0, middle - 1, 0 };
    channel->outbound = (struct ring){ number, middle, gpadl->pages - middle - 1, 0 };
    return true;
}

void channel_on_open(struct vmbus *bus, const struct posted *posted)
{
    const struct vmbus_channel_open_channel *message = posted->bytes;
    struct channel *channel = find(bus, message->child_relid);
    struct vmbus_channel_open_result answer = { { CHANNELMSG_OPENCHANNEL_RESULT, 0 }, message->child_relid, message->openid, 0 };
    bool is_good = channel != NULL && channel->state == OFFERED && message->target_vp < bus->options.vps && set_rings(bus, channel, message);
    answer.status = is_good ? 0 : FAILED;
    message_post(bus, &answer, sizeof answer);
    if (!is_good)
        return;
    unsigned number = message->child_relid - 1;
    channel->state = OPEN;
    channel->target_vp = message->target_vp;
    channel->is_signalled = channel->has_more = channel->is_negotiated = false;
    channel->sent = channel->answered = 0;
    bus->opened[number]++;
    bus_log(bus, "%s: opened for processor %u, rings of %u and %u pages", channel_names[number], channel->target_vp,
           channel->inbound.data_pages, channel->outbound.data_pages);
    service_opened(bus, number);
}

static void close_channel(struct vmbus *bus, struct channel *channel)
{
    unsigned number = relid_of(bus, channel) - 1;
    channel->state = OFFERED;
    channel->is_negotiated = false;
    withdraw(bus, number);
    bus_log(bus, "%s: closed", channel_names[number]);
}

void channel_on_close(struct vmbus *bus, const struct posted *posted)
{
    const struct vmbus_channel_relid *message = posted->bytes;
    struct channel *channel = find(bus, message->child_relid);
    if (channel != NULL && channel->state == OPEN)
        close_channel(bus, channel);
    else
        bus->ignored += channel == NULL || channel->state != RESCINDED;
}

void channels_close(struct vmbus *bus, uint32_t gpadl)
{
    for (unsigned number = 0; number < CHANNELS; number++)
        if (bus->channel[number].state == OPEN && bus->channel[number].inbound.gpadl == gpadl)
            close_channel(bus, &bus->channel[number]);
}

void channels_forget(struct vmbus *bus)
{
    for (unsigned number = 0; number < CHANNELS; number++)
        withdraw(bus, number);
    memset(bus->channel, 0, sizeof bus->channel);
}

/* A guest of version 5.3 waits for the answer. */
void channel_on_modify(struct vmbus *bus, const struct posted *posted)
{
    const struct vmbus_channel_modifychannel *message = posted->bytes;
    struct channel *channel = find(bus, message->child_relid);
    bool is_good = channel != NULL && channel->state == OPEN && message->target_vp < bus->options.vps;
    struct vmbus_channel_modifychannel_response answer = {
        { CHANNELMSG_MODIFYCHANNEL_RESPONSE, 0 }, message->child_relid, is_good ? 0 : FAILED,
    };
    if (is_good)
        channel->target_vp = message->target_vp;
    if (bus->version >= VERSION_WIN10_V5_3)
        message_post(bus, &answer, sizeof answer);
}

/* ---- Interrupts ---- */

static void set_flag(struct vmbus *bus, struct channel *channel)
{
    bus->signals++;
    bus->host->perform(bus->opaque, &(synicboard_event){
        .kind = SYNICBOARD_SIGNAL, .port = (uint8_t)(FIRST_FLAG_PORT + channel->target_vp), .flag = (uint16_t)relid_of(bus, channel) });
}

/* Linux clears a flag by LOCK BTR. On a page that traps that is a load, and later a store that exits: a flag that
 * another thread sets in between is lost. So the host sets it there while the processor is not in the guest. */
static void interrupt(struct vmbus *bus, struct channel *channel)
{
    if (!bus->options.signals_in_turn) {
        set_flag(bus, channel);
        return;
    }
    channel->is_signalled = true;
    bus->host->kick(bus->opaque, channel->target_vp);
}

bool channel_send(struct vmbus *bus, unsigned number, const void *packet, uint32_t length)
{
    struct channel *channel = &bus->channel[number];
    if (channel->state != OPEN)
        return false;
    enum ring_result result = ring_write(bus, &channel->outbound, packet, length);
    if (result == RING_BROKEN)
        channel_rescind(bus, number);
    if (result == RING_FULL)
        bus->full[number]++;
    if (result == RING_SIGNAL)
        interrupt(bus, channel);
    return result == RING_SIGNAL || result == RING_DONE;
}

/* Reads until the ring is empty after its index was stored: a guest that then writes finds it empty, and signals. */
static void receive(struct vmbus *bus, struct channel *channel)
{
    uint8_t packet[MOST_PACKET];
    unsigned number = relid_of(bus, channel) - 1;
    unsigned packets = 0;
    enum ring_result result = RING_DONE;
    while (channel->state == OPEN && packets++ < MOST_AT_ONCE && (result = ring_read(bus, &channel->inbound, packet)) == RING_DONE)
        service_answer(bus, number, packet);
    if (result == RING_BROKEN)
        channel_rescind(bus, number);
    channel->has_more = channel->state == OPEN && result == RING_DONE;
    if (channel->has_more)
        bus->host->kick(bus->opaque, channel->target_vp);
}

uint64_t vmbus_signal_event(struct vmbus *bus, uint32_t connection, uint16_t flag)
{
    struct channel *channel = find(bus, connection - FIRST_EVENT_CONNECTION);
    if (channel == NULL)
        return HV_STATUS_INVALID_CONNECTION_ID;
    if (flag != 0)
        return HV_STATUS_INVALID_PARAMETER;
    bus->guest_signals++;
    receive(bus, channel);
    return HV_STATUS_SUCCESS;
}

bool vmbus_deliver(struct vmbus *bus, unsigned vp)
{
    bool has_more = false;
    messages_flush(bus);
    for (unsigned number = 0; number < CHANNELS; number++) {
        struct channel *channel = &bus->channel[number];
        if (channel->state != OPEN || channel->target_vp != vp)
            continue;
        if (channel->has_more)
            receive(bus, channel);
        has_more = has_more || channel->has_more;
        if (channel->is_signalled)
            set_flag(bus, channel);
        channel->is_signalled = false;
    }
    return has_more;
}

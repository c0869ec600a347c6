/* The messages of VMBus: what the guest posts is handled here, and each answer is a post on the board. A guest
 * that does not take its answers gets no more than MOST_REPLIES of them: its next post is refused, as TLFS says,
 * with HV_STATUS_INSUFFICIENT_BUFFERS, and its driver posts again later. */
#include <string.h>

#include "bus.h"

enum { BUFFERS = 16, FLAGS = 2048 };

/* ---- To the guest ---- */

/* Whether the message needs no buffer any more. One that the guest's SynIC cannot get is lost. */
static bool post(struct vmbus *bus, const struct reply *reply)
{
    synicboard_event event = { .kind = SYNICBOARD_POST, .port = MESSAGE_PORT, .message_type = CHANNEL_MESSAGE, .length = (uint8_t)reply->length };
    memcpy(event.bytes, reply->bytes, reply->length);
    synicboard_reply answer = bus->host->perform(bus->opaque, &event);
    if (answer.kind == SYNICBOARD_REFUSED && answer.refusal == SYNICBOARD_NO_BUFFERS)
        return false;
    bus->dropped += answer.kind != SYNICBOARD_ACCEPTED;
    return true;
}

void messages_flush(struct vmbus *bus)
{
    uint32_t posted = 0;
    while (posted < bus->replies && post(bus, &bus->reply[posted]))
        posted++;
    bus->replies -= posted;
    memmove(bus->reply, bus->reply + posted, bus->replies * sizeof bus->reply[0]);
}

void message_post(struct vmbus *bus, const void *bytes, uint32_t length)
{
    if (bus->replies == MOST_REPLIES) {
        bus->dropped++;
        return;
    }
    struct reply *reply = &bus->reply[bus->replies++];
    reply->length = length;
    memcpy(reply->bytes, bytes, length);
    messages_flush(bus);
}

/* ---- Contact ---- */

static bool is_known(struct vmbus *bus, uint32_t version)
{
    static const uint32_t versions[] = {
        VERSION_WIN8, VERSION_WIN8_1, VERSION_WIN10, VERSION_WIN10_V4_1, VERSION_WIN10_V5, VERSION_WIN10_V5_1,
        VERSION_WIN10_V5_2, VERSION_WIN10_V5_3,
    };
    bool is_listed = false;
    for (unsigned at = 0; at < sizeof versions / sizeof versions[0]; at++)
        is_listed = is_listed || versions[at] == version;
    return is_listed && version <= bus->options.newest;
}

static void disconnect(struct vmbus *bus)
{
    bus->version = 0;
    channels_forget(bus);
    gpadl_release(bus, 0);
}

static void close_ports(struct vmbus *bus)
{
    bus->replies = 0;
    bus->host->perform(bus->opaque, &(synicboard_event){ .kind = SYNICBOARD_CLOSE_PORT, .port = MESSAGE_PORT });
    for (uint8_t number = 0; number < bus->options.vps; number++)
        bus->host->perform(bus->opaque, &(synicboard_event){ .kind = SYNICBOARD_CLOSE_PORT, .port = FIRST_FLAG_PORT + number });
}

/* Ports survive the reset of a processor. */
void vmbus_reset(struct vmbus *bus)
{
    disconnect(bus);
    bus->connection = 0;
    close_ports(bus);
}

/* The guest names the processor, and from version 5.0 on the source, of its messages. Each processor has a port of
 * flags, since a channel may interrupt any of them. Ports of an earlier contact are closed. */
static bool open_ports(struct vmbus *bus, uint8_t vp, uint8_t sint)
{
    const struct vmbus_host *host = bus->host;
    close_ports(bus);
    for (uint8_t number = 0; number < bus->options.vps; number++)
        host->perform(bus->opaque, &(synicboard_event){
            .kind = SYNICBOARD_OPEN_EVENT_PORT, .port = FIRST_FLAG_PORT + number, .vp = number, .sint = sint, .count = FLAGS });
    return host->perform(bus->opaque, &(synicboard_event){
        .kind = SYNICBOARD_OPEN_MESSAGE_PORT, .port = MESSAGE_PORT, .vp = vp, .sint = sint, .buffers = BUFFERS }).kind == SYNICBOARD_DONE;
}

static void on_contact(struct vmbus *bus, const struct posted *posted)
{
    const struct vmbus_channel_initiate_contact *message = posted->bytes;
    uint32_t asked = message->vmbus_version_requested;
    uint8_t sint = asked >= VERSION_WIN10_V5 ? message->msg_sint : VMBUS_MESSAGE_SINT;
    struct vmbus_channel_version_response answer = { .header.msgtype = CHANNELMSG_VERSION_RESPONSE };
    disconnect(bus);
    if (message->target_vcpu >= bus->options.vps || !open_ports(bus, (uint8_t)message->target_vcpu, sint)) {
        bus->ignored++;
        return;
    }
    if (is_known(bus, asked)) {
        bus->version = asked;
        answer.version_supported = 1;
        answer.msg_conn_id = bus->connection;
    }
    bus_log(bus, "contact: version %u.%u %s, processor %u, source %u, connection %u", asked >> 16, asked & 0xffff,
           bus->version != 0 ? "accepted" : "refused", message->target_vcpu, sint, bus->connection);
    message_post(bus, &answer, sizeof answer);
}

static void on_unload(struct vmbus *bus, const struct posted *posted)
{
    vmbus_header answer = { .msgtype = CHANNELMSG_UNLOAD_RESPONSE };
    (void)posted;
    disconnect(bus);
    bus_log(bus, "unloaded");
    message_post(bus, &answer, sizeof answer);
}

/* ---- From the guest ---- */

/* Each message of a guest, with the least length of one. */
static const struct kind {
    uint32_t length;
    void (*handle)(struct vmbus *bus, const struct posted *posted);
} kinds[CHANNELMSG_COUNT] = {
    [CHANNELMSG_INITIATE_CONTACT] = { sizeof(struct vmbus_channel_initiate_contact), on_contact },
    [CHANNELMSG_REQUESTOFFERS] = { sizeof(vmbus_header), channels_on_request },
    [CHANNELMSG_OPENCHANNEL] = { sizeof(struct vmbus_channel_open_channel), channel_on_open },
    [CHANNELMSG_CLOSECHANNEL] = { sizeof(struct vmbus_channel_relid), channel_on_close },
    [CHANNELMSG_RELID_RELEASED] = { sizeof(struct vmbus_channel_relid), channel_on_released },
    [CHANNELMSG_MODIFYCHANNEL] = { sizeof(struct vmbus_channel_modifychannel), channel_on_modify },
    [CHANNELMSG_GPADL_HEADER] = { sizeof(struct vmbus_channel_gpadl_header), gpadl_on_header },
    [CHANNELMSG_GPADL_BODY] = { sizeof(struct vmbus_channel_gpadl_body), gpadl_on_body },
    [CHANNELMSG_GPADL_TEARDOWN] = { sizeof(struct vmbus_channel_gpadl_teardown), gpadl_on_teardown },
    [CHANNELMSG_UNLOAD] = { sizeof(vmbus_header), on_unload },
};

/* Null unless VMBus has such a message, of this length or longer. */
static const struct kind *find_kind(uint32_t type, uint32_t length)
{
    const struct kind *kind = &kinds[type < CHANNELMSG_COUNT ? type : 0];
    return kind->handle != NULL && length >= kind->length ? kind : NULL;
}

/* The connection of a guest's messages is 4 for a host of version 5.0 or later, and 1 for all versions before; both
 * exist until contact, so that a guest may try either. */
static bool has_connection(struct vmbus *bus, uint32_t connection, const struct kind *kind, const void *message)
{
    const struct vmbus_channel_initiate_contact *contact = message;
    if (connection == VMBUS_MESSAGE_CONNECTION_ID_4 && bus->options.newest < VERSION_WIN10_V5)
        return false;
    if (connection != VMBUS_MESSAGE_CONNECTION_ID && connection != VMBUS_MESSAGE_CONNECTION_ID_4)
        return false;
    if (kind == &kinds[CHANNELMSG_INITIATE_CONTACT])
        return (connection == VMBUS_MESSAGE_CONNECTION_ID_4) == (contact->vmbus_version_requested >= VERSION_WIN10_V5);
    return bus->version == 0 || connection == bus->connection;
}

uint64_t vmbus_post_message(struct vmbus *bus, uint32_t connection, uint32_t message_type, const void *payload, uint32_t length)
{
    const vmbus_header *header = payload;
    const struct kind *kind = length >= sizeof *header ? find_kind(header->msgtype, length) : NULL;
    if (!has_connection(bus, connection, kind, payload))
        return HV_STATUS_INVALID_CONNECTION_ID;
    bool is_contact = kind == &kinds[CHANNELMSG_INITIATE_CONTACT], is_unload = kind == &kinds[CHANNELMSG_UNLOAD];
    messages_flush(bus);
    if (bus->replies != 0 && !is_contact)
        return HV_STATUS_INSUFFICIENT_BUFFERS;
    bus->messages++;
    if (message_type != CHANNEL_MESSAGE || kind == NULL || (bus->version == 0 && !is_contact && !is_unload)) {
        bus->ignored++;
        return HV_STATUS_SUCCESS;
    }
    if (is_contact)
        bus->connection = connection;
    kind->handle(bus, &(struct posted){ payload, length });
    return HV_STATUS_SUCCESS;
}

/* The whole protocol of VMBus as a guest plays it, once in each version, with what must come of it; then what a guest
 * must not do. Ends the program if something else happens. */
#include "vmbus.h"

enum { PAGES = 40, IN_HEADER = 26, MIDDLE = 20 };       /* of the list for two rings */

static void expect(uint32_t type, void *message)
{
    REQUIRE(guest_take(message) != 0);
    REQUIRE(((vmbus_header *)message)->msgtype == type);
}

static uint32_t contact(uint32_t version)
{
    struct vmbus_channel_version_response answer;
    struct vmbus_channel_initiate_contact message = {
        .header.msgtype = CHANNELMSG_INITIATE_CONTACT, .vmbus_version_requested = version, .msg_sint = VMBUS_MESSAGE_SINT,
    };
    uint32_t right = version >= VERSION_WIN10_V5 ? VMBUS_MESSAGE_CONNECTION_ID_4 : VMBUS_MESSAGE_CONNECTION_ID;
    REQUIRE(guest_post(right ^ VMBUS_MESSAGE_CONNECTION_ID ^ VMBUS_MESSAGE_CONNECTION_ID_4, &message, sizeof message) == HV_STATUS_INVALID_CONNECTION_ID);
    REQUIRE(guest_post(right, &message, sizeof message) == HV_STATUS_SUCCESS);
    expect(CHANNELMSG_VERSION_RESPONSE, &answer);
    REQUIRE(!answer.version_supported || answer.msg_conn_id == right);
    return answer.version_supported ? right : 0;
}

static uint32_t try_open(uint32_t connection, struct vmbus_channel_open_channel message)
{
    struct vmbus_channel_open_result result;
    message.header.msgtype = CHANNELMSG_OPENCHANNEL;
    message.openid = message.child_relid + 100;
    REQUIRE(guest_post(connection, &message, sizeof message) == HV_STATUS_SUCCESS);
    expect(CHANNELMSG_OPENCHANNEL_RESULT, &result);
    REQUIRE(result.child_relid == message.child_relid && result.openid == message.openid);
    return result.status;
}

/* The list needs a header with 26 pages and a body with the rest. */
static void make_gpadl(uint32_t connection, uint32_t relid, uint32_t handle)
{
    struct { struct vmbus_channel_gpadl_header head; uint64_t pfn[IN_HEADER]; } __attribute__((packed)) header = {
        { { CHANNELMSG_GPADL_HEADER, 0 }, relid, handle, 8 + PAGES * 8, 1, PAGES * PAGE, 0 }, { 0 },
    };
    struct { struct vmbus_channel_gpadl_body head; uint64_t pfn[PAGES - IN_HEADER]; } __attribute__((packed)) body = {
        { { CHANNELMSG_GPADL_BODY, 0 }, 0, handle }, { 0 },
    };
    struct vmbus_channel_gpadl_created created;
    for (unsigned at = 0; at < IN_HEADER; at++)
        header.pfn[at] = RINGS + at;
    for (unsigned at = IN_HEADER; at < PAGES; at++)
        body.pfn[at - IN_HEADER] = RINGS + at;
    memset(vm.ram + RINGS * PAGE, 0, PAGES * PAGE);
    REQUIRE(guest_post(connection, &header, sizeof header) == HV_STATUS_SUCCESS && guest_take(&created) == 0);
    REQUIRE(try_open(connection, (struct vmbus_channel_open_channel){
        .child_relid = relid, .ringbuffer_gpadlhandle = handle, .downstream_ringbuffer_pageoffset = MIDDLE }) != 0);
    REQUIRE(guest_post(connection, &body, sizeof body) == HV_STATUS_SUCCESS);
    expect(CHANNELMSG_GPADL_CREATED, &created);
    REQUIRE(created.gpadl == handle && created.child_relid == relid && created.creation_status == 0);
}

static void open_channel(uint32_t connection, uint32_t relid, uint32_t handle)
{
    struct vmbus_channel_open_channel message = {
        .child_relid = relid, .ringbuffer_gpadlhandle = handle, .downstream_ringbuffer_pageoffset = MIDDLE,
    };
    REQUIRE(try_open(connection, message) == 0);
}

static void beat(uint64_t count)
{
    for (uint64_t done = 0; done < count; done++) {
        vmbus_tick(bus, HEARTBEAT);
        bus_deliver(&vm.vp[0]);
        REQUIRE(guest_answer(HEARTBEAT, 0, 0));
    }
}

static void take_offers(uint32_t connection)
{
    struct vmbus_channel_offer_channel offer;
    vmbus_header request = { CHANNELMSG_REQUESTOFFERS, 0 };
    REQUIRE(guest_post(connection, &request, sizeof request) == HV_STATUS_SUCCESS);
    for (uint32_t relid = 1; relid <= CHANNELS; relid++) {
        expect(CHANNELMSG_OFFERCHANNEL, &offer);
        REQUIRE(offer.child_relid == relid && offer.connection_id == FIRST_EVENT_CONNECTION + relid);
    }
    expect(CHANNELMSG_ALLOFFERS_DELIVERED, &offer);
}

static void end_channel(uint32_t connection, uint32_t relid, uint32_t handle, uint32_t how)
{
    uint8_t answer[HV_MESSAGE_PAYLOAD_BYTE_COUNT];
    struct vmbus_channel_relid closing = { { CHANNELMSG_CLOSECHANNEL, 0 }, relid }, released = { { CHANNELMSG_RELID_RELEASED, 0 }, relid };
    struct vmbus_channel_gpadl_teardown teardown = { { CHANNELMSG_GPADL_TEARDOWN, 0 }, relid, handle };
    if (how == CHANNELMSG_RESCIND_CHANNELOFFER) {
        channel_rescind(bus, relid - 1);
        expect(CHANNELMSG_RESCIND_CHANNELOFFER, answer);
        guest_post(connection, &closing, sizeof closing);
        guest_post(connection, &released, sizeof released);
        expect(CHANNELMSG_OFFERCHANNEL, answer);
    } else {
        if (how == CHANNELMSG_CLOSECHANNEL)
            guest_post(connection, &closing, sizeof closing);
        guest_post(connection, &teardown, sizeof teardown);     /* alone it closes the channel too */
        expect(CHANNELMSG_GPADL_TORNDOWN, answer);
    }
    REQUIRE(bus->channel[relid - 1].state == OFFERED && gpadl_find(bus, handle) == NULL);
    REQUIRE(bus->sent[relid - 1] == bus->answered[relid - 1] && !bus->channel[relid - 1].is_negotiated);
}

/* A guest that takes no answers is refused, and gets them all later. */
static void withhold(uint32_t connection)
{
    uint8_t answer[HV_MESSAGE_PAYLOAD_BYTE_COUNT];
    vmbus_header request = { CHANNELMSG_REQUESTOFFERS, 0 };
    unsigned posted = 0, taken = 0;
    while (guest_post(connection, &request, sizeof request) == HV_STATUS_SUCCESS)
        posted++;
    REQUIRE(posted > 8 && posted < 32);
    REQUIRE(guest_post(connection, &request, sizeof request) == HV_STATUS_INSUFFICIENT_BUFFERS);
    while (guest_take(answer) != 0)
        taken++;
    REQUIRE(taken == posted && bus->replies == 0 && bus->dropped == 0);
}

/* The status of each wrong hypercall. */
static void check_statuses(void)
{
    enum { POST = 0x5c, SIGNAL = 0x5d, FAST = 1 << 16, INPUT = 2 * PAGE };
    struct { uint32_t connection, reserved, type, length; uint8_t payload[240]; } good = { 4, 0, 1, 8, { 0 } }, input = good;
    struct { const char *what; uint64_t control, address; uint32_t connection, reserved, type, length; uint64_t status; } cases[] = {
        { "no such call", 0x1234, INPUT, 4, 0, 1, 8, HV_STATUS_INVALID_HYPERCALL_CODE },
        { "a reserved bit", POST | 1ULL << 27, INPUT, 4, 0, 1, 8, HV_STATUS_INVALID_HYPERCALL_INPUT },
        { "a rep count", POST | 1ULL << 32, INPUT, 4, 0, 1, 8, HV_STATUS_INVALID_HYPERCALL_INPUT },
        { "a rep start", POST | 1ULL << 48, INPUT, 4, 0, 1, 8, HV_STATUS_INVALID_HYPERCALL_INPUT },
        { "a variable header", POST | 1ULL << 17, INPUT, 4, 0, 1, 8, HV_STATUS_INVALID_HYPERCALL_INPUT },
        { "a message in registers", POST | FAST, INPUT, 4, 0, 1, 8, HV_STATUS_INVALID_HYPERCALL_INPUT },
        { "not aligned", POST, INPUT + 4, 4, 0, 1, 8, HV_STATUS_INVALID_ALIGNMENT },
        { "over the end of a page", POST, INPUT + PAGE - 248, 4, 0, 1, 8, HV_STATUS_INVALID_ALIGNMENT },
        { "outside memory", POST, RAM_PAGES * PAGE, 4, 0, 1, 8, HV_STATUS_INVALID_ALIGNMENT },
        { "a field that must be 0", POST, INPUT, 4, 1, 1, 8, HV_STATUS_INVALID_HYPERCALL_INPUT },
        { "type 0", POST, INPUT, 4, 0, 0, 8, HV_STATUS_INVALID_PARAMETER },
        { "a type of the hypervisor", POST, INPUT, 4, 0, 0x80000001, 8, HV_STATUS_INVALID_PARAMETER },
        { "241 bytes", POST, INPUT, 4, 0, 1, 241, HV_STATUS_INVALID_PARAMETER },
        { "no such connection", POST, INPUT, 7, 0, 1, 8, HV_STATUS_INVALID_CONNECTION_ID },
        { "240 bytes", POST, INPUT + PAGE - 256, 4, 0, 1, 240, HV_STATUS_SUCCESS },
        { "a connection for signals that is not there", SIGNAL, INPUT, 0x10001, 0, 0, 0, HV_STATUS_INVALID_CONNECTION_ID },
        { "a signal with a reserved bit", SIGNAL, INPUT, 0x10001, 1 << 16, 0, 0, HV_STATUS_INVALID_HYPERCALL_INPUT },
        { "a signal, not aligned", SIGNAL, INPUT + 1, 0x10001, 0, 0, 0, HV_STATUS_INVALID_ALIGNMENT },
    };
    for (unsigned at = 0; at < sizeof cases / sizeof cases[0]; at++) {
        input = good;
        input.connection = cases[at].connection, input.reserved = cases[at].reserved;
        input.type = cases[at].type, input.length = cases[at].length;
        uint64_t status = guest_call(cases[at].control, cases[at].address, &input, sizeof input);
        if (status != cases[at].status)
            guest_fail((int)status, cases[at].what);
    }
    REQUIRE(hypercall_handle(SIGNAL | FAST, 0x10001, 0) == HV_STATUS_INVALID_CONNECTION_ID);
    vm.vmbus.is_on = false;
    REQUIRE(guest_call(POST, INPUT, &good, sizeof good) == HV_STATUS_ACCESS_DENIED && hypercall_handle(SIGNAL | FAST, 0x10001, 0) == HV_STATUS_ACCESS_DENIED);
    vm.vmbus.is_on = true;
    bus->ignored = 0;
}

/* A host before version 5.0 has no connection 4, and refuses what it does not know. */
static void check_old_host(void)
{
    struct vmbus_channel_initiate_contact message = {
        .header.msgtype = CHANNELMSG_INITIATE_CONTACT, .vmbus_version_requested = VERSION_WIN10_V5, .msg_sint = VMBUS_MESSAGE_SINT,
    };
    bus->options.newest = VERSION_WIN10_V4_1;
    REQUIRE(guest_post(VMBUS_MESSAGE_CONNECTION_ID_4, &message, sizeof message) == HV_STATUS_INVALID_CONNECTION_ID);
    REQUIRE(contact(VERSION_WIN10_V4_1) == VMBUS_MESSAGE_CONNECTION_ID);
    bus->options.newest = VERSION_WIN10;
    REQUIRE(contact(VERSION_WIN10_V4_1) == 0 && bus->version == 0 && contact(VERSION_WIN10) != 0);
    bus->options.newest = VERSION_WIN10_V5_3;
}

/* With an open channel. */
static void check_signals(void)
{
    enum { SIGNAL = 0x5d, FAST = 1 << 16, INPUT = 2 * PAGE };
    uint64_t good = FIRST_EVENT_CONNECTION + HEARTBEAT + 1, flag = good | 1ULL << 32;
    REQUIRE(hypercall_handle(SIGNAL | FAST, good, 0) == HV_STATUS_SUCCESS);
    REQUIRE(guest_call(SIGNAL, INPUT + 8, &good, sizeof good) == HV_STATUS_SUCCESS);
    REQUIRE(hypercall_handle(SIGNAL | FAST, flag, 0) == HV_STATUS_INVALID_PARAMETER);
}

/* ---- What a guest must not do ---- */

/* Lists of pages that are refused. */
static void check_lists(uint32_t connection)
{
    static const struct { const char *what; uint32_t relid, bytes, offset; uint16_t length, ranges; uint32_t listed; uint64_t first; } cases[] = {
        { "no such channel", 0, 2 * PAGE, 0, 24, 1, 2, RINGS }, { "no such channel", CHANNELS + 1, 2 * PAGE, 0, 24, 1, 2, RINGS },
        { "no page", 1, 0, 0, 8, 1, 0, RINGS }, { "no range", 1, 2 * PAGE, 0, 24, 0, 2, RINGS }, { "two ranges", 1, 2 * PAGE, 0, 24, 2, 2, RINGS },
        { "an offset of a page", 1, 2 * PAGE, PAGE, 24, 1, 2, RINGS }, { "another length", 1, 2 * PAGE, 0, 32, 1, 2, RINGS },
        { "more pages than it says", 1, 2 * PAGE, 0, 24, 1, 3, RINGS }, { "the first page after memory", 1, 2 * PAGE, 0, 24, 1, 2, RAM_PAGES - 1 },
        { "a page far away", 1, 2 * PAGE, 0, 24, 1, 2, UINT64_MAX - 1 },
        { "too many pages", 1, (MOST_PAGES + 1) * PAGE, 0, 8 + (MOST_PAGES + 1) * 8, 1, 26, RINGS },
    };
    for (unsigned at = 0; at < sizeof cases / sizeof cases[0]; at++) {
        struct { struct vmbus_channel_gpadl_header head; uint64_t pfn[26]; } __attribute__((packed)) header = {
            { { CHANNELMSG_GPADL_HEADER, 0 }, cases[at].relid, 7, cases[at].length, cases[at].ranges, cases[at].bytes, cases[at].offset }, { 0 },
        };
        struct vmbus_channel_gpadl_created created;
        for (uint32_t page = 0; page < cases[at].listed; page++)
            header.pfn[page] = cases[at].first + page;
        guest_post(connection, &header, (uint32_t)sizeof header.head + cases[at].listed * 8);
        expect(CHANNELMSG_GPADL_CREATED, &created);
        if (created.creation_status == 0 || created.gpadl != 7 || gpadl_find(bus, 7) != NULL)
            guest_fail((int)at, cases[at].what);
    }
}

/* Channels that are not opened. */
static void check_opens(uint32_t connection)
{
    static const struct { const char *what; uint32_t relid, handle, vp, middle; } cases[] = {
        { "no such channel", 0, 8, 0, MIDDLE }, { "no such channel", CHANNELS + 1, 8, 0, MIDDLE }, { "no such list", 1, 9, 0, MIDDLE },
        { "the list of another channel", 2, 8, 0, MIDDLE }, { "no such processor", 1, 8, VPS, MIDDLE }, { "no ring", 1, 8, 0, 0 },
        { "a ring without data", 1, 8, 0, 1 }, { "the other without data", 1, 8, 0, PAGES - 1 }, { "no other ring", 1, 8, 0, PAGES },
        { "beyond the list", 1, 8, 0, UINT32_MAX },
    };
    make_gpadl(connection, 1, 8);
    for (unsigned at = 0; at < sizeof cases / sizeof cases[0]; at++) {
        struct vmbus_channel_open_channel message = {
            .child_relid = cases[at].relid, .ringbuffer_gpadlhandle = cases[at].handle, .target_vp = cases[at].vp,
            .downstream_ringbuffer_pageoffset = cases[at].middle,
        };
        if (try_open(connection, message) == 0)
            guest_fail((int)at, cases[at].what);
    }
    open_channel(connection, 1, 8);
    REQUIRE(try_open(connection, (struct vmbus_channel_open_channel){
        .child_relid = 1, .ringbuffer_gpadlhandle = 8, .downstream_ringbuffer_pageoffset = MIDDLE }) != 0);
    end_channel(connection, 1, 8, CHANNELMSG_CLOSECHANNEL);
}

/* A ring is never full, so that it does not look empty; the first packet after an empty ring signals, unless the guest
 * has masked that. */
static void check_full(uint32_t connection)
{
    enum { SIZE = (PAGES - MIDDLE - 1) * PAGE, NEGOTIATION = 72, STEP = 128, REST = (SIZE - NEGOTIATION) % STEP };
    static const uint64_t packet[STEP / 8];
    unsigned sent = 0;
    uint64_t signals = bus->signals, full = bus->full[HEARTBEAT];
    make_gpadl(connection, 1, 11);
    open_channel(connection, 1, 11);
    REQUIRE(bus->signals == signals + 1 && ring_unread(bus, &bus->channel[HEARTBEAT].outbound) == NEGOTIATION);
    REQUIRE(!bus->channel[HEARTBEAT].is_signalled && channel_send(bus, HEARTBEAT, packet, REST - VMBUS_PKT_TRAILER));
    while (channel_send(bus, HEARTBEAT, packet, STEP - VMBUS_PKT_TRAILER))
        sent++;
    REQUIRE(sent == (SIZE - NEGOTIATION) / STEP - 1 && bus->full[HEARTBEAT] == full + 1 && !bus->channel[HEARTBEAT].is_signalled);
    *guest_ring_word(&bus->channel[HEARTBEAT].outbound, READ_INDEX) = bus->channel[HEARTBEAT].outbound.index;
    *guest_ring_word(&bus->channel[HEARTBEAT].outbound, INTERRUPT_MASK) = 1;
    REQUIRE(channel_send(bus, HEARTBEAT, packet, STEP - VMBUS_PKT_TRAILER) && !bus->channel[HEARTBEAT].is_signalled);
    end_channel(connection, 1, 11, CHANNELMSG_GPADL_TEARDOWN);
}

/* Rings that end the channel. */
static void check_rings(uint32_t connection)
{
    enum { RING = (MIDDLE - 1) * PAGE };
    static const struct { const char *what; uint16_t length8, offset8; uint32_t write, read; } cases[] = {
        { "a packet of length 0", 0, 2, 64, 0 }, { "data inside the descriptor", 3, 1, 64, 0 }, { "data after the end", 3, 4, 64, 0 },
        { "too long a packet", MOST_PACKET / 8 + 1, 2, 2 * PAGE, 0 }, { "longer than what was written", 8, 2, 64, 0 },
        { "an index beyond the ring", 3, 2, RING, 0 }, { "an index between two words", 3, 2, 36, 0 }, { "less than a packet", 3, 2, 16, 0 },
        { "the guest has read beyond the ring", 0, 0, 0, RING }, { "the guest has read half a word", 0, 0, 0, 4 },
    };
    for (unsigned at = 0; at < sizeof cases / sizeof cases[0]; at++) {
        struct channel *channel = &bus->channel[HEARTBEAT];
        struct vmpacket_descriptor descriptor = { VM_PKT_DATA_INBAND, cases[at].offset8, cases[at].length8, 0, 0 };
        make_gpadl(connection, HEARTBEAT + 1, 10);
        open_channel(connection, HEARTBEAT + 1, 10);
        memcpy(guest_ring_byte(&channel->inbound, 0), &descriptor, sizeof descriptor);
        *guest_ring_word(&channel->inbound, WRITE_INDEX) = cases[at].write;
        *guest_ring_word(&channel->outbound, READ_INDEX) = cases[at].read;
        vmbus_signal_event(bus, FIRST_EVENT_CONNECTION + HEARTBEAT + 1, 0);
        REQUIRE(cases[at].read == 0 || !channel_send(bus, HEARTBEAT, &(uint64_t[3]){ 0 }, 24));
        if (channel->state != RESCINDED)
            guest_fail((int)at, cases[at].what);
        end_channel(connection, HEARTBEAT + 1, 10, CHANNELMSG_RESCIND_CHANNELOFFER);
    }
}

void guest_scenario(void)
{
    static const uint32_t versions[] = { 2 << 16 | 4, 3 << 16, 4 << 16, 4 << 16 | 1, 5 << 16, 5 << 16 | 1, 5 << 16 | 2, 5 << 16 | 3 };
    uint8_t answer[HV_MESSAGE_PAYLOAD_BYTE_COUNT];
    guest_open();
    check_statuses();
    check_old_host();
    for (unsigned at = 0; at < sizeof versions / sizeof versions[0]; at++) {
        vmbus_header unload = { CHANNELMSG_UNLOAD, 0 };
        REQUIRE(contact(versions[at] + 16) == 0);
        uint32_t connection = contact(versions[at]);
        REQUIRE(connection != 0);
        take_offers(connection);
        make_gpadl(connection, HEARTBEAT + 1, 0xe1e10);
        open_channel(connection, HEARTBEAT + 1, 0xe1e10);
        REQUIRE(guest_answer(HEARTBEAT, 0, 0) && bus->channel[HEARTBEAT].is_negotiated);
        check_signals();
        beat(2000);
        end_channel(connection, HEARTBEAT + 1, 0xe1e10, CHANNELMSG_CLOSECHANNEL);
        make_gpadl(connection, HEARTBEAT + 1, 0xe1e11);
        open_channel(connection, HEARTBEAT + 1, 0xe1e11);
        REQUIRE(guest_answer(HEARTBEAT, 0, 0));
        beat(10);
        vmbus_tick(bus, HEARTBEAT);        /* this one is withdrawn */
        end_channel(connection, HEARTBEAT + 1, 0xe1e11, CHANNELMSG_RESCIND_CHANNELOFFER);
        check_lists(connection);
        check_opens(connection);
        check_full(connection);
        check_rings(connection);
        withhold(connection);
        REQUIRE(guest_post(connection, &unload, sizeof unload) == HV_STATUS_SUCCESS);
        expect(CHANNELMSG_UNLOAD_RESPONSE, answer);
        guest_check();
    }
    REQUIRE(bus->answered[HEARTBEAT] == 2010 * 8 && bus->wrong[HEARTBEAT] == 0);
    guest_close();
}

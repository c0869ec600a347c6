/* A fuzz target for vmbus/ and the hypercalls of partition/, as examples/kvm uses them: a guest that posts, signals and
 * writes its rings as an input says.
 * Nothing may crash or run without end, and the state stays sound: guest_check. Its message and event flags pages are
 * live, and an input stores any words there. Before the first input, a guest that keeps the rules plays the whole
 * protocol.
 *
 * An input is a list of actions: a byte, modulo 16, and numbers. A number is its length in bytes, modulo 9, and
 * these bytes, lowest first. A byte that is missing is 0. */
#include "vmbus.h"

struct input {
    const uint8_t *at, *end;
};

static uint8_t read_byte(struct input *input)
{
    return input->at < input->end ? *input->at++ : 0;
}

static uint64_t read_number(struct input *input)
{
    unsigned length = read_byte(input) % 9;
    uint64_t number = 0;
    for (unsigned at = 0; at < length; at++)
        number |= (uint64_t)read_byte(input) << 8 * at;
    return number;
}

/* The connection that VMBus uses, or any. */
static uint32_t read_connection(struct input *input)
{
    uint8_t byte = read_byte(input);
    return byte % 4 != 0 ? bus->connection : byte / 4;
}

/* A hypercall, whose input may be anywhere. */
static void call(struct input *input)
{
    uint64_t control = 0x5c + read_byte(input) % 2 + read_number(input) * 0x10000, address = read_number(input) * 8;
    uint8_t bytes[256] = { 0 };
    for (unsigned at = 0, length = read_byte(input); at < length; at++)
        bytes[at] = read_byte(input);
    guest_call(control, address % (RAM_PAGES * PAGE) + (control >> 62), bytes, sizeof bytes);
}

/* A message of 32-bit words, each a number. */
static void post(struct input *input)
{
    uint8_t payload[HV_MESSAGE_PAYLOAD_BYTE_COUNT] __attribute__((aligned(8))) = { 0 };
    uint32_t connection = read_connection(input), length = read_byte(input) % (sizeof payload + 1), type = read_byte(input);
    for (uint32_t at = 0; at + 4 <= length; at += 4) {
        uint32_t word = (uint32_t)read_number(input);
        memcpy(payload + at, &word, sizeof word);
    }
    vmbus_post_message(bus, connection, type % 8 == 0 ? type : CHANNEL_MESSAGE, payload, length);
}

/* A message that makes contact, asks for offers, lists pages or opens a channel, so that inputs get far. */
static void post_good(struct input *input)
{
    uint32_t relid = 1 + read_byte(input) % CHANNELS, pages = 4 + read_byte(input) % 23, version = (uint32_t)read_number(input);
    struct vmbus_channel_initiate_contact contact = {
        { CHANNELMSG_INITIATE_CONTACT, 0 }, version != 0 ? version : VERSION_WIN10_V5_3, version % 2, VMBUS_MESSAGE_SINT, { 0 }, 0, 0,
    };
    struct { struct vmbus_channel_gpadl_header head; uint64_t pfn[26]; } __attribute__((packed)) header = {
        { { CHANNELMSG_GPADL_HEADER, 0 }, relid, relid, (uint16_t)(8 + pages * 8), 1, pages * PAGE, 0 }, { 0 },
    };
    struct vmbus_channel_open_channel opening = { { CHANNELMSG_OPENCHANNEL, 0 }, relid, relid, relid, version % 3, pages / 2, { 0 } };
    for (uint32_t at = 0; at < pages; at++)
        header.pfn[at] = RINGS + (relid - 1) * 16 + at;
    switch (read_byte(input) % 4) {
    case 0:
        guest_post(contact.vmbus_version_requested >= VERSION_WIN10_V5 ? VMBUS_MESSAGE_CONNECTION_ID_4 : VMBUS_MESSAGE_CONNECTION_ID, &contact, sizeof contact);
        break;
    case 1: guest_post(bus->connection, &(vmbus_header){ CHANNELMSG_REQUESTOFFERS, 0 }, 8); break;
    case 2: guest_post(bus->connection, &header, (uint32_t)sizeof header.head + pages * 8); break;
    case 3: guest_post(bus->connection, &opening, sizeof opening); break;
    }
}

/* Words of the guest's memory: often those of a ring's first page. */
static void store(struct input *input)
{
    uint64_t page = read_number(input) % RAM_PAGES, word = read_number(input) % (PAGE / 4);
    uint32_t value = (uint32_t)read_number(input);
    memcpy(vm.ram + page * PAGE + word * 4, &value, sizeof value);
}

/* Eight bytes of a message or an event flags page, which the guest sees and may destroy. */
static void store_live(struct input *input)
{
    uint8_t which = read_byte(input);
    synicboard_page_owner owner = { which % 2 != 0 ? SYNICBOARD_OWNER_FLAGS : SYNICBOARD_OWNER_MESSAGES, which / 2 % VPS };
    uint64_t word = read_number(input) % (PAGE / 8), value = read_number(input);
    memcpy(board_live_page(owner) + word * 8, &value, sizeof value);
}

static void act(struct input *input)
{
    uint8_t message[HV_MESSAGE_PAYLOAD_BYTE_COUNT];
    uint8_t action = read_byte(input) % 16;
    switch (action) {
    case 0: call(input); break;
    case 1: case 2: post(input); break;
    case 3: case 4: post_good(input); break;
    case 5: store(input); break;
    case 6: store_live(input); break;
    case 7: vmbus_signal_event(bus, FIRST_EVENT_CONNECTION + read_byte(input) % 5, read_byte(input) % 16 == 15); break;
    case 8: bus_deliver(&vm.vp[read_byte(input) % VPS]); break;
    case 9: vmbus_tick(bus, read_byte(input) % CHANNELS); break;
    case 10: guest_take(message); break;
    case 11: case 12: guest_answer(read_byte(input) % CHANNELS, (uint32_t)read_number(input), (uint32_t)read_number(input)); break;
    case 13: channel_rescind(bus, read_byte(input) % CHANNELS); break;
    case 14: board_write(&vm.vp[read_byte(input) % VPS], SYNICBOARD_MSR_SCONTROL + read_byte(input) % 32, read_number(input)); break;
    case 15:
        guest_time += read_number(input) % 100000000;
        bus->options.heartbeats = read_byte(input) % 8;
        break;
    }
}

int LLVMFuzzerInitialize(int *count, char ***words);
int LLVMFuzzerInitialize(int *count, char ***words)
{
    (void)count;
    (void)words;
    guest_scenario();
    return 0;
}

int LLVMFuzzerTestOneInput(const uint8_t *data, size_t size);
int LLVMFuzzerTestOneInput(const uint8_t *data, size_t size)
{
    struct input input = { data, data + size };
    guest_open();
    while (input.at < input.end) {
        act(&input);
        guest_check();
    }
    guest_close();
    return 0;
}

/* Where the compiler has no libFuzzer: random inputs for so many seconds. */
#ifdef PLAIN
#include <time.h>

int main(int count, char **words)
{
    time_t end = time(NULL) + (count > 1 ? atoi(words[1]) : 60);
    unsigned long inputs = 0;
    static uint8_t data[4096];
    srandom(1);
    for (LLVMFuzzerInitialize(&count, &words); time(NULL) < end; inputs++) {
        size_t size = (size_t)random() % sizeof data;
        for (size_t at = 0; at < size; at++)
            data[at] = (uint8_t)(random() % 4 == 0 ? random() : random() % 16);
        LLVMFuzzerTestOneInput(data, size);
    }
    printf("number_of_executed_units: %lu\n", inputs);
}
#endif

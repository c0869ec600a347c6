/* A fuzz target for live pages: a board with live pages next to one whose pages trap. Both get the same events, and the
 * same stores of a guest: on one board these go to the live page, on the other each is an event. The replies must be the same, the
 * notices too except for CONSUMED, which comes later with live pages, and at the end, when all words have been looked
 * at, the images. Host and guest take turns here, so the board never performs an EOM itself.
 *
 * An input is a list of actions, each of a byte and the bytes that it takes. A byte that is missing is 0. */
#include <stdbool.h>
#include <stdint.h>
#include <stdio.h>
#include <stdlib.h>
#include <string.h>

#include "synicboard.h"

enum { VPS = 2, PAGES = 8, SLOTS = 16, SLOT = 256, PAGE = 4096, MOST_IMAGE = 1 << 20 };

static synicboard trapped = SYNICBOARD_CLOSED, live = SYNICBOARD_CLOSED;
static uint8_t *live_pages[2 * VPS];
static bool is_unseen[VPS][SLOTS];      /* the guest stored into the header of the slot, and the board has not looked */
static uint64_t consumed[2];            /* of the trapped board, and of the live one */
static uint64_t moment;

struct input {
    const uint8_t *at, *end;
};

#define REQUIRE(holds) do { if (!(holds)) { fprintf(stderr, "live.c:%d: %s\n", __LINE__, #holds); abort(); } } while (0)

static uint8_t read_byte(struct input *input)
{
    return input->at < input->end ? *input->at++ : 0;
}

static uint64_t read_word(struct input *input)
{
    uint64_t word = 0;
    for (unsigned at = 0; at < 8; at++)
        word |= (uint64_t)read_byte(input) << 8 * at;
    return word;
}

/* The notices of the last event except for CONSUMED, which are counted. */
static size_t notices_of(const synicboard *board, uint64_t *count, synicboard_notice *room)
{
    static synicboard_notice all[SYNICBOARD_MOST_LIVE_NOTICES];
    size_t length = synicboard_notices(board, all, SYNICBOARD_MOST_LIVE_NOTICES), kept = 0;
    for (size_t at = 0; at < length; at++) {
        if (all[at].kind == SYNICBOARD_NOTICE_CONSUMED)
            ++*count;
        else
            room[kept++] = all[at];
    }
    return kept;
}

static void compare_notices(void)
{
    static synicboard_notice first[SYNICBOARD_MOST_LIVE_NOTICES], second[SYNICBOARD_MOST_LIVE_NOTICES];
    size_t length = notices_of(&trapped, &consumed[0], first);
    REQUIRE(notices_of(&live, &consumed[1], second) == length);
    for (size_t at = 0; at < length; at++)
        REQUIRE(first[at].kind == second[at].kind && first[at].vp == second[at].vp && first[at].sint == second[at].sint && first[at].vector == second[at].vector
                && first[at].timer == second[at].timer && first[at].flag == second[at].flag && first[at].ticket == second[at].ticket
                && first[at].due == second[at].due && first[at].count == second[at].count);
}

static void perform(const synicboard_event *event)
{
    synicboard_reply reply = synicboard_perform(&trapped, event);
    synicboard_reply other = synicboard_perform(&live, event);
    REQUIRE(synicboard_eoms(&live) == 0);
    REQUIRE(reply.kind == other.kind && reply.fault == other.fault && reply.refusal == other.refusal && reply.vector == other.vector
            && reply.value == other.value && reply.ticket == other.ticket);
    compare_notices();
}

/* Only the live board has something to look for. */
static void observe(uint8_t vp, bool is_all)
{
    static synicboard_notice room[SYNICBOARD_MOST_LIVE_NOTICES];
    synicboard_reply reply = is_all ? synicboard_observe_all(&live, vp) : synicboard_observe(&live, vp);
    REQUIRE(reply.kind == SYNICBOARD_DONE);
    REQUIRE(notices_of(&live, &consumed[1], room) == 0);
    memset(is_unseen[vp], 0, sizeof is_unseen[vp]);
}

/* What the guest stores: in a message page within the header of a slot, since what it stores beyond a message stays there until
 * the board looks, where a board whose pages trap clears it. A second store into a header would hide the first, so the
 * board looks before it. */
static void store_bytes(uint64_t number, uint64_t place, unsigned first, const uint8_t *bytes, unsigned length)
{
    static synicboard_notice room[SYNICBOARD_MOST_LIVE_NOTICES];
    synicboard_page_owner owner = synicboard_owner(&trapped, number), same = synicboard_owner(&live, number);
    bool is_message = owner.kind == SYNICBOARD_OWNER_MESSAGES;
    uint64_t offset = (is_message ? place % SLOTS * SLOT : place % 256 * 16) + first;
    REQUIRE(owner.kind == same.kind && owner.vp == same.vp);
    if (!is_message && owner.kind != SYNICBOARD_OWNER_FLAGS)
        return;
    if (is_message && is_unseen[owner.vp][place % SLOTS])
        observe(owner.vp, false);
    if (is_message)
        is_unseen[owner.vp][place % SLOTS] = true;
    synicboard_store(&trapped, number * PAGE + offset, bytes, length);
    notices_of(&trapped, &consumed[0], room);
    memcpy(live_pages[2 * owner.vp + !is_message] + offset, bytes, length);
}

static const uint8_t sources[2] = { 2, 15 };

/* The guest consumes the message of a slot that a port has. */
static void consume(uint8_t byte)
{
    static const uint8_t none[4];
    store_bytes(2 * (byte % VPS) + 1, sources[byte / VPS % 2], 0, none, sizeof none);
}

/* One to eight bytes anywhere. */
static void store(struct input *input)
{
    uint64_t number = read_byte(input) % PAGES, place = read_byte(input);
    uint8_t bytes[8], length = (uint8_t)(1 + read_byte(input) % 8), first = read_byte(input) % 8;
    for (unsigned at = 0; at < sizeof bytes; at++)
        bytes[at] = read_byte(input);
    store_bytes(number, place, first + length > 8 ? 8u - length : first, bytes, length);
}

static uint32_t register_number(uint8_t byte)
{
    static const uint32_t others[] = { SYNICBOARD_MSR_EOI, SYNICBOARD_MSR_TPR, SYNICBOARD_MSR_SCONTROL, SYNICBOARD_MSR_SIMP, SYNICBOARD_MSR_SIEFP };
    if (byte % 8 == 0)
        return SYNICBOARD_MSR_SINT0 + byte / 8 % 16;
    if (byte % 8 == 1)
        return others[byte / 8 % 5];
    return byte % 8 < 4 ? SYNICBOARD_MSR_STIMER0_CONFIG + byte / 8 % 8 : SYNICBOARD_MSR_EOM;
}

/* A value that often does something: few bits, a page of the board, a time that comes soon. */
static uint64_t value_of(struct input *input, uint32_t number)
{
    uint8_t byte = read_byte(input);
    if (number == SYNICBOARD_MSR_SIMP || number == SYNICBOARD_MSR_SIEFP)
        return (uint64_t)(byte / 4 % PAGES) * PAGE + (byte % 4 != 0);
    if (number >= SYNICBOARD_MSR_STIMER0_CONFIG && number < SYNICBOARD_MSR_STIMER0_CONFIG + 8)
        return number % 2 == 0 ? (uint64_t)(byte % 16) + ((uint64_t)(byte / 16) << 16) + ((uint64_t)(read_byte(input) % 2) << 12) + (0x40 << 4) : moment / 2 + byte;
    if (number >= SYNICBOARD_MSR_SINT0 && number < SYNICBOARD_MSR_SINT0 + 16)
        return 0x30 + byte % 64 + ((uint64_t)(byte / 64) << 16);
    return byte % 16 == 15 ? read_word(input) : byte % 16 != 0;
}

static void write_register(struct input *input)
{
    synicboard_event event = { .kind = SYNICBOARD_WRITE, .vp = read_byte(input) % VPS, .msr = register_number(read_byte(input)) };
    event.value = value_of(input, event.msr);
    /* The board learns what is in a page that the guest sees no longer only when it sees it again. */
    if (event.msr == SYNICBOARD_MSR_SIMP || event.msr == SYNICBOARD_MSR_SIEFP)
        for (uint8_t vp = 0; vp < VPS; vp++)
            observe(vp, true);
    perform(&event);
}

static void post(struct input *input)
{
    synicboard_event event = { .kind = SYNICBOARD_POST, .port = read_byte(input) % 4, .message_type = read_byte(input) % 4, .length = read_byte(input) % 33 };
    for (unsigned at = 0; at < event.length; at++)
        event.bytes[at] = (uint8_t)(event.message_type + at);
    perform(&event);
}

static void act(struct input *input)
{
    uint8_t byte = read_byte(input), vp = byte / 16 % VPS;
    switch (byte % 16) {
    case 0: store(input); break;
    case 1: case 2: consume(byte / 16); break;
    case 3: case 4: post(input); break;
    case 5: perform(&(synicboard_event){ .kind = SYNICBOARD_SIGNAL, .port = (uint8_t)(4 + read_byte(input) % 4), .flag = read_byte(input) }); break;
    case 6: case 7: case 8: write_register(input); break;
    case 9: case 10: perform(&(synicboard_event){ .kind = SYNICBOARD_TICK, .moment = moment += read_byte(input) }); break;
    case 11: perform(&(synicboard_event){ .kind = SYNICBOARD_TAKE, .vp = vp }); break;
    case 12: perform(&(synicboard_event){ .kind = byte / 32 % 2 != 0 ? SYNICBOARD_SUSPEND : SYNICBOARD_RESUME, .vp = vp }); break;
    case 13: perform(&(synicboard_event){ .kind = byte / 32 % 4 == 0 ? SYNICBOARD_RESET : SYNICBOARD_TAKE, .vp = vp }); break;
    case 14: observe(vp, byte / 32 % 2 != 0); break;
    case 15:
        perform(&(synicboard_event){ .kind = SYNICBOARD_OPEN_MESSAGE_PORT, .port = byte / 32 % 4, .vp = vp, .sint = read_byte(input) % SLOTS, .buffers = 2 });
        perform(&(synicboard_event){ .kind = SYNICBOARD_CLOSE_PORT, .port = read_byte(input) % 8 });
        break;
    }
}

/* Ports 0 to 3 take messages, 4 to 7 flags; SIMP and SIEFP of both processors are enabled. */
static void open_boards(void)
{
    REQUIRE(synicboard_open(&trapped, VPS, PAGES, 0) == SYNICBOARD_OK && synicboard_open(&live, VPS, PAGES, 0) == SYNICBOARD_OK);
    REQUIRE(synicboard_make_live(&live, live_pages) == SYNICBOARD_OK);
    moment = 0;
    memset(is_unseen, 0, sizeof is_unseen);
    memset(consumed, 0, sizeof consumed);
    for (uint8_t vp = 0; vp < VPS; vp++) {
        perform(&(synicboard_event){ .kind = SYNICBOARD_WRITE, .vp = vp, .msr = SYNICBOARD_MSR_SCONTROL, .value = 1 });
        perform(&(synicboard_event){ .kind = SYNICBOARD_WRITE, .vp = vp, .msr = SYNICBOARD_MSR_SIMP, .value = (2 * vp + 1) * PAGE + 1 });
        perform(&(synicboard_event){ .kind = SYNICBOARD_WRITE, .vp = vp, .msr = SYNICBOARD_MSR_SIEFP, .value = (2 * vp + 2) * PAGE + 1 });
    }
    for (uint8_t port = 0; port < 4; port++) {
        perform(&(synicboard_event){ .kind = SYNICBOARD_OPEN_MESSAGE_PORT, .port = port, .vp = port % VPS, .sint = sources[port / 2], .buffers = 2 });
        perform(&(synicboard_event){ .kind = SYNICBOARD_OPEN_EVENT_PORT, .port = (uint8_t)(port + 4), .vp = port % VPS, .sint = (uint8_t)(port / 2 * 15), .count = 256 });
    }
}

static void compare_images(void)
{
    static uint8_t first[MOST_IMAGE], second[MOST_IMAGE];
    for (uint8_t vp = 0; vp < VPS; vp++)
        observe(vp, true);
    REQUIRE(consumed[0] == consumed[1]);
    synicboard_end one = synicboard_save(&trapped, first, sizeof first), two = synicboard_save(&live, second, sizeof second);
    REQUIRE(one.length <= sizeof first && one.length == two.length && memcmp(first, second, one.length) == 0);
}

int LLVMFuzzerTestOneInput(const uint8_t *data, size_t size);
int LLVMFuzzerTestOneInput(const uint8_t *data, size_t size)
{
    struct input input = { data, data + size };
    open_boards();
    while (input.at < input.end)
        act(&input);
    compare_images();
    synicboard_close(&trapped);
    synicboard_close(&live);
    return 0;
}

/* Where the compiler has no libFuzzer: random inputs for so many seconds. */
#ifdef PLAIN
#include <time.h>

int main(int count, char **words)
{
    time_t end = time(NULL) + (count > 1 ? atoi(words[1]) : 60);
    unsigned long inputs = 0;
    static uint8_t data[4096];
    for (srandom(1); time(NULL) < end; inputs++) {
        size_t size = (size_t)random() % sizeof data;
        for (size_t at = 0; at < size; at++)
            data[at] = (uint8_t)random();
        LLVMFuzzerTestOneInput(data, size);
    }
    printf("number_of_executed_units: %lu\n", inputs);
}
#endif

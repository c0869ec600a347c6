/* Restoring boards from images: the restored board answers like the saved one, and an image that
 * was cut, changed or forged is refused at its first wrong line, or is the image of another board. */
#include <stdbool.h>
#include <stddef.h>
#include <stdint.h>
#include <stdio.h>
#include <string.h>

#include "checks.h"
#include "synicboard.h"

enum { ROOM = 1 << 20, MUTATIONS = 50000 };

static uint8_t first[ROOM], second[ROOM];
static struct text one, other;

static size_t save(synicboard *board, uint8_t *room)
{
    synicboard_end end = synicboard_save(board, room, ROOM);
    CHECK_NUMBER(end.kind, SYNICBOARD_OK);
    CHECK(end.length <= ROOM);
    return end.length;
}

/* In the middle of a message storm: occupied slots, full queues, a hidden overlay, timers that are late,
 * periodic and stopped, nested interrupts, and a suspended processor. */
static void open_busy(synicboard *board)
{
    synicboard_open(board, 3, 8, 100);
    for (uint8_t vp = 0; vp < 3; vp++) {
        synicboard_write(board, vp, SCONTROL, 1);
        synicboard_write(board, vp, SIMP, 0x2001 + 0x1000 * (uint64_t)(vp / 2));
        synicboard_write(board, vp, SIEFP, 0x5001);
        for (unsigned sint = 0; sint < 16; sint++)
            synicboard_write(board, vp, SINT0 + sint, 0x40 + 8 * sint + (sint % 3 == 0 ? 0x20000u : 0));
        synicboard_write(board, vp, SYNICBOARD_MSR_TPR, 0x10 * vp);
    }
    for (uint8_t port = 0; port < 14; port++)
        synicboard_open_message_port(board, port, port % 3, port, (uint8_t)(port + 1));
    synicboard_open_event_port(board, 14, 1, 5, 3, 40);
    for (uint8_t port = 0; port < 14; port++)
        for (uint8_t count = 0; count < port + 3; count++)
            synicboard_post(board, port, 1 + port, (const uint8_t *)"a message of some length", count);
    synicboard_signal(board, 14, 17);
    for (uint8_t vp = 0; vp < 3; vp++)
        for (uint32_t timer = 0; timer < 4; timer++) {
            synicboard_write(board, vp, STIMER0_CONFIG + 2 * timer, timer % 2 == 0 ? 0x1000b + 0x10000 * timer : 0x1481 + 0x10 * timer);
            synicboard_write(board, vp, STIMER0_COUNT + 2 * timer, 1000 * (timer + 1) + vp);
        }
    synicboard_tick(board, 1500);
    synicboard_take(board, 1);
    synicboard_assert(board, 1, 0xf1);
    synicboard_take(board, 1);
    synicboard_store(board, 0x7123, (const uint8_t *)"guest", 5);
    synicboard_store(board, 0x2305, (const uint8_t *)"\1", 1);
    synicboard_suspend(board, 2);
    synicboard_tick(board, 9000);
}

/* The same events on both boards have the same answers. */
static void go_on(synicboard *board, synicboard *restored)
{
    static const uint8_t zeros[8] = { 0 };
    for (unsigned turn = 0; turn < 400; turn++) {
        uint8_t vp = turn % 3;
        synicboard_event event = { .kind = SYNICBOARD_TICK, .value = 9000 + 700 * (uint64_t)turn };
        if (turn % 7 == 1)
            event = (synicboard_event){ .kind = SYNICBOARD_TAKE, .vp = vp };
        if (turn % 7 == 2)
            event = (synicboard_event){ .kind = SYNICBOARD_WRITE, .vp = vp, .msr = EOI };
        if (turn % 7 == 3) {
            event = (synicboard_event){ .kind = SYNICBOARD_STORE, .address = 0x2000 + 0x100 * (uint64_t)(turn % 16), .length = 4 };
            memcpy(event.bytes, zeros, 4);
        }
        if (turn % 7 == 4)
            event = (synicboard_event){ .kind = SYNICBOARD_WRITE, .vp = vp, .msr = EOM };
        if (turn == 100)
            event = (synicboard_event){ .kind = SYNICBOARD_RESUME, .vp = 2 };
        if (turn == 200)
            event = (synicboard_event){ .kind = SYNICBOARD_RESET, .vp = 1 };
        synicboard_notice notices[2][SYNICBOARD_MOST_NOTICES];
        synicboard_reply replies[2] = { synicboard_perform(board, &event), synicboard_perform(restored, &event) };
        size_t counts[2] = { synicboard_notices(board, notices[0], SYNICBOARD_MOST_NOTICES),
                             synicboard_notices(restored, notices[1], SYNICBOARD_MOST_NOTICES) };
        CHECK(memcmp(&replies[0], &replies[1], sizeof *replies) == 0);
        CHECK_NUMBER(counts[1], counts[0]);
        CHECK(memcmp(notices[0], notices[1], counts[0] * sizeof **notices) == 0);
    }
}

static void test_round_trip(void)
{
    synicboard board = SYNICBOARD_CLOSED, restored = SYNICBOARD_CLOSED;
    open_busy(&board);
    size_t length = save(&board, first);
    CHECK(length > 5000);
    synicboard_end end = synicboard_restore(&restored, first, length);
    CHECK_NUMBER(end.kind, SYNICBOARD_OK);
    CHECK_NUMBER(end.line, 0);
    CHECK_NUMBER(end.length, 0);
    CHECK_NUMBER(synicboard_notices(&restored, NULL, 0), 0);
    CHECK_REFUSAL(synicboard_tick(&board, 0), SYNICBOARD_CLOCK_BACK); /* it has no notices then either */
    describe(&board, &one);
    describe(&restored, &other);
    CHECK_SAME(&one, &other);
    CHECK_NUMBER(save(&restored, second), length);
    CHECK(memcmp(first, second, length) == 0);
    go_on(&board, &restored);
    describe(&board, &one);
    describe(&restored, &other);
    CHECK_SAME(&one, &other);
    length = save(&board, first);
    CHECK_NUMBER(save(&restored, second), length);
    CHECK(memcmp(first, second, length) == 0);
    end = synicboard_restore(&restored, first, length);
    CHECK_NUMBER(end.kind, SYNICBOARD_IS_OPEN);
    CHECK_NUMBER(end.line, 0);
    CHECK_NUMBER(save(&restored, second), length);
    synicboard_close(&board);
    synicboard_close(&restored);
    CHECK_NUMBER(blocks_out, 0);
}

/* An image that ends early lacks the line after its last whole one. */
static void test_cuts(void)
{
    synicboard board = SYNICBOARD_CLOSED, restored = SYNICBOARD_CLOSED;
    open_busy(&board);
    size_t length = save(&board, first), line = 1;
    for (size_t at = 0; at < length; at++) {
        if (at < 600 || at % 97 == 0 || at > length - 300) {
            synicboard_end end = synicboard_restore(&restored, first, at);
            CHECK_NUMBER(end.kind, SYNICBOARD_WRONG_LINE);
            CHECK_NUMBER(end.line, line);
            CHECK(!restored.is_open);
        }
        line += first[at] == '\n';
    }
    memcpy(first + length, "end\n", 4);
    CHECK_NUMBER(synicboard_restore(&restored, first, length + 4).line, line);
    CHECK_NUMBER(synicboard_restore(&restored, first, length + 1).line, line);
    synicboard_close(&board);
    CHECK_NUMBER(blocks_out, 0);
}

struct forgery {
    const char *what, *body;
    uint64_t line; /* the first wrong one, after the title and the board line; 0 if there is none */
};

#define IDLE "lapic 0 0 0 0 0 0 0 0 0 0 running\n"
#define SLOT "own 0 sim 0 "
#define PORT "open 3 message 0 2 16\n"
#define TWO_PORTS PORT "open 4 message 0 3 16\n"
#define ZEROS "0000000000000000000000000000000000000000000000000000000000000000"
#define BLOCK ZEROS ZEROS ZEROS ZEROS ZEROS ZEROS ZEROS ZEROS
#define TYPED "01" ZEROS ZEROS ZEROS ZEROS ZEROS ZEROS ZEROS "00000000000000000000000000000000000000000000000000000000000000"

/* Images of a board with one processor and two pages, whose next ticket is 5. */
static const struct forgery forgeries[] = {
    { "the opened board", IDLE "end\n", 0 },
    { "no local APIC", "end\n", 1 },
    { "a local APIC twice", IDLE IDLE "end\n", 2 },
    { "a local APIC of no processor", IDLE "lapic 1 0 0 0 0 0 0 0 0 0 running\nend\n", 2 },
    { "the time after a local APIC", IDLE "moment 7\nend\n", 2 },
    { "a time of 0", "moment 0\n" IDLE "end\n", 1 },
    { "the time twice", "moment 7\nmoment 8\n" IDLE "end\n", 2 },
    { "a leading zero", "moment 07\n" IDLE "end\n", 1 },
    { "an upper-case digit", "lapic 0 A0000 0 0 0 0 0 0 0 0 running\nend\n", 1 },
    { "two spaces", "moment  7\n" IDLE "end\n", 1 },
    { "a carriage return", "moment 7\r\n" IDLE "end\n", 1 },
    { "vector 15", "lapic 0 8000 0 0 0 0 0 0 0 0 running\nend\n", 1 },
    { "vector 16", "lapic 0 10000 0 0 0 0 0 0 0 0 running\nend\n", 0 },
    { "a task priority of 256", "lapic 0 0 0 0 0 0 0 0 0 100 running\nend\n", 1 },
    { "an unknown status", "lapic 0 0 0 0 0 0 0 0 0 0 asleep\nend\n", 1 },
    { "a register of 0", IDLE "register 0 simp 0\nend\n", 2 },
    { "a masked source", IDLE "register 0 sint2 10000\nend\n", 2 },
    { "a source with vector 15", IDLE "register 0 sint2 f\nend\n", 2 },
    { "source 16", IDLE "register 0 sint16 50\nend\n", 2 },
    { "registers in another order", IDLE "register 0 simp 1001\nregister 0 siefp 1\nend\n", 3 },
    { "a register twice", IDLE "register 0 simp 1001\nregister 0 simp 1001\nend\n", 3 },
    { "a block of zeros", IDLE "page 0 0 " BLOCK "\nend\n", 2 },
    { "a block", IDLE "page 0 100 " TYPED "\nend\n", 0 },
    { "a block at an odd place", IDLE "page 0 80 " TYPED "\nend\n", 2 },
    { "a block of no page", IDLE "page 2 0 " TYPED "\nend\n", 2 },
    { "a block behind the page", IDLE "page 0 1000 " TYPED "\nend\n", 2 },
    { "blocks in another order", IDLE "page 0 100 " TYPED "\npage 0 0 " TYPED "\nend\n", 3 },
    { "a guest page after an own page", IDLE SLOT TYPED "\npage 0 0 " TYPED "\nend\n", 3 },
    { "the flags page before the message page", IDLE "own 0 sief 0 " TYPED "\nown 0 sim 0 " TYPED "\nend\n", 3 },
    { "a port", IDLE "open 15 message 0 2 16\nend\n", 0 },
    { "port 16", IDLE "open 16 message 0 2 16\nend\n", 2 },
    { "a port of no processor", IDLE "open 3 message 1 2 16\nend\n", 2 },
    { "a port with 17 buffers", IDLE "open 3 message 0 2 17\nend\n", 2 },
    { "a port twice", IDLE "open 3 message 0 2 1\nopen 3 message 0 2 1\nend\n", 3 },
    { "flags beyond the page", IDLE "open 3 event 0 2 2040 9\nend\n", 2 },
    { "an event in place of a piece", IDLE "assert 0 60\nend\n", 2 },
    { "a timer that is idle", IDLE "timer 0 0 0 0 stopped\nend\n", 2 },
    { "a timer that is stopped", IDLE "timer 0 0 0 7 stopped\nend\n", 0 },
    { "timer 4", IDLE "timer 0 4 0 7 stopped\nend\n", 2 },
    { "a deadline of a disabled timer", IDLE "timer 0 0 0 7 due 0 7\nend\n", 2 },
    { "bits that no write stores", IDLE "timer 0 0 ffff000000000000 0 stopped\nend\n", 2 },
    { "bit 13 of a configuration", IDLE "timer 0 0 2000 7 stopped\nend\n", 2 },
    { "bit 20 of a configuration", IDLE "timer 0 0 100000 7 stopped\nend\n", 2 },
    { "all bits that a write stores, but Enabled", IDLE "timer 0 0 f1ffe 7 stopped\nend\n", 0 },
    { "an enabled timer without a count", IDLE "timer 0 0 10001 0 stopped\nend\n", 0 },
    { "an enabled timer with a count that is stopped", IDLE "timer 0 0 10001 7 stopped\nend\n", 2 },
    { "a one-shot that is due at its count", IDLE "timer 0 0 10001 7 due 0 7\nend\n", 0 },
    { "a one-shot that is due before its count", IDLE "timer 0 0 10001 7 due 0 6\nend\n", 2 },
    { "a one-shot that is due after its count", IDLE "timer 0 0 10001 7 due 0 8\nend\n", 2 },
    { "a one-shot that is due after 2^64", IDLE "timer 0 0 10001 7 due 1 7\nend\n", 2 },
    { "a periodic timer", IDLE "timer 0 0 10003 7 due 0 7\nend\n", 0 },
    { "a periodic timer before its first period", IDLE "timer 0 0 10003 7 due 0 6\nend\n", 2 },
    { "a queued message", IDLE PORT "message 0 2 4 port 3 1 0a\nend\n", 0 },
    { "a message of a port that is not open", IDLE "message 0 2 4 port 3 1 0a\nend\n", 2 },
    { "a message of a port for event flags", IDLE "open 3 event 0 2 0 8\nmessage 0 2 4 port 3 1 0a\nend\n", 3 },
    { "a message at another source than its port's", IDLE PORT "message 0 3 4 port 3 1 0a\nend\n", 3 },
    { "as many messages as the port has buffers", IDLE "open 3 message 0 2 1\nmessage 0 2 4 port 3 1 0a\nend\n", 0 },
    { "more messages than the port has buffers", IDLE "open 3 message 0 2 1\nmessage 0 2 4 port 3 1 -\nmessage 0 2 3 port 3 1 -\nend\n", 4 },
    { "a message twice", IDLE PORT "message 0 2 4 port 3 1 0a\nmessage 0 2 4 port 3 1 0a\nend\n", 4 },
    { "a ticket twice, in two queues", IDLE TWO_PORTS "message 0 2 4 port 3 1 0a\nmessage 0 3 4 port 4 1 0a\nend\n", 5 },
    { "a ticket twice, not side by side", IDLE TWO_PORTS "message 0 2 3 port 3 1 -\nmessage 0 2 4 port 3 1 -\nmessage 0 3 3 port 4 1 -\nend\n", 6 },
    { "a ticket less than one before it in its queue", IDLE PORT "message 0 2 4 port 3 1 -\nmessage 0 2 3 port 3 1 -\nend\n", 4 },
    { "a ticket less than one of another queue", IDLE TWO_PORTS "message 0 2 4 port 3 1 -\nmessage 0 3 3 port 4 1 -\nend\n", 0 },
    { "a ticket that was not given", IDLE PORT "message 0 2 5 port 3 1 0a\nend\n", 3 },
    { "a message of type 0", IDLE PORT "message 0 2 4 port 3 0 0a\nend\n", 3 },
    { "the greatest type of a post", IDLE PORT "message 0 2 4 port 3 7fffffff 0a\nend\n", 0 },
    { "a message of the hypervisor's type", IDLE PORT "message 0 2 4 port 3 80000000 0a\nend\n", 3 },
    { "a message of port 16", IDLE "message 0 2 4 port 16 1 0a\nend\n", 2 },
    { "a message of another processor's timer", IDLE "message 0 2 4 timer 1 0 7\nend\n", 2 },
    { "a message of a timer", "moment 1\n" IDLE "message 0 2 4 timer 0 1 1\nend\n", 0 },
    { "two messages of a timer", "moment 1\n" IDLE "message 0 2 3 timer 0 1 1\nmessage 0 2 4 timer 0 1 1\nend\n", 4 },
    { "a timer's message of time 0", IDLE "message 0 2 4 timer 0 1 0\nend\n", 2 },
    { "a timer's message of the future", IDLE "message 0 2 4 timer 0 1 1\nend\n", 2 },
    { "a timer's message at SINT0", "moment 1\n" IDLE "message 0 0 4 timer 0 1 1\nend\n", 3 },
    { "a periodic timer due a count after the present", IDLE "timer 0 0 20003 64 due 0 64\nend\n", 0 },
    { "a periodic timer due later than that", IDLE "timer 0 0 20003 64 due 0 65\nend\n", 2 },
    { "queues in another order", IDLE TWO_PORTS "message 0 3 4 port 4 1 0a\nmessage 0 2 3 port 3 1 0a\nend\n", 5 },
    { "a ticket of an empty slot", IDLE "slot 0 0 4\nend\n", 2 },
    { "a ticket of an occupied slot", IDLE SLOT TYPED "\nslot 0 0 4\nend\n", 0 },
    { "a ticket of a queued message in a slot", IDLE SLOT TYPED "\n" PORT "message 0 2 4 port 3 1 -\nslot 0 0 4\nend\n", 5 },
    { "a ticket of a slot before its queue", IDLE "own 0 sim 200 " TYPED "\n" PORT "message 0 2 4 port 3 1 -\nslot 0 2 3\nend\n", 0 },
    { "a ticket of a slot after its queue", IDLE "own 0 sim 200 " TYPED "\n" PORT "message 0 2 3 port 3 1 -\nslot 0 2 4\nend\n", 5 },
    { "two tickets of a slot", IDLE SLOT TYPED "\nslot 0 0 4\nslot 0 0 3\nend\n", 4 },
    { "a slot before a queue", IDLE SLOT TYPED "\n" PORT "slot 0 0 4\nmessage 0 2 3 port 3 1 -\nend\n", 5 },
    { "a line after the end", IDLE "end\nend\n", 3 },
    { "an empty line", IDLE "\nend\n", 2 },
    { "a comment", IDLE "# all is well\nend\n", 2 },
};

static void test_forgeries(void)
{
    static char text[4096];
    for (size_t i = 0; i < sizeof forgeries / sizeof *forgeries; i++) {
        const struct forgery *forged = &forgeries[i];
        synicboard board = SYNICBOARD_CLOSED;
        size_t length = (size_t)snprintf(text, sizeof text, "image 1\nboard 1 2 5\n%s", forged->body);
        synicboard_end end = synicboard_restore(&board, (const uint8_t *)text, length);
        check_number(end.kind, forged->line == 0 ? SYNICBOARD_OK : SYNICBOARD_WRONG_LINE, forged->what, __LINE__);
        check_number(end.line, forged->line == 0 ? 0 : 2 + forged->line, forged->what, __LINE__);
        if (end.kind == SYNICBOARD_OK)
            check(save(&board, first) == length && memcmp(first, text, length) == 0, forged->what, __LINE__);
        synicboard_close(&board);
    }
    CHECK_NUMBER(blocks_out, 0);
}

static void test_first_lines(void)
{
    static const struct { const char *text; uint64_t line; } texts[] = {
        { "", 1 }, { "\n", 1 }, { "image 2\n", 1 }, { "image 1 \n", 1 }, { "image 1\n", 2 }, { "image 1\nboard 0 1 0\n", 2 },
        { "image 1\nboard 9 1 0\n", 2 }, { "image 1\nboard 1 65 0\n", 2 }, { "image 1\nboard 1 1\n", 2 },
        { "image 1\nboard 1 1 0 0\n", 2 }, { "image 1\nboard 1 1 18446744073709551616\n", 2 }, { "image 1\ntrace 1\n", 2 },
    };
    for (size_t i = 0; i < sizeof texts / sizeof *texts; i++) {
        synicboard board = SYNICBOARD_CLOSED;
        synicboard_end end = synicboard_restore(&board, (const uint8_t *)texts[i].text, strlen(texts[i].text));
        CHECK_NUMBER(end.kind, SYNICBOARD_WRONG_LINE);
        check_number(end.line, texts[i].line, texts[i].text, __LINE__);
        CHECK(!board.is_open);
    }
    CHECK_NUMBER(blocks_out, 0);
}

static uint64_t seed = 0x9e3779b97f4a7c15u;

static size_t below(size_t bound)
{
    seed ^= seed << 13;
    seed ^= seed >> 7;
    seed ^= seed << 17;
    return (size_t)(seed % bound);
}

/* Changes, inserts or removes a byte, or exchanges two lines' worth of bytes. */
static size_t mutate(uint8_t *text, size_t length)
{
    static const char bytes[] = "0123456789abcdef \n-glow";
    size_t at = below(length);
    uint8_t byte = (uint8_t)bytes[below(sizeof bytes - 1)];
    switch (below(4)) {
    case 0:
        memmove(text + at + 1, text + at, length - at);
        text[at] = byte;
        return length + 1;
    case 1:
        memmove(text + at, text + at + 1, length - at - 1);
        return length - 1;
    default:
        text[at] = byte;
        return length;
    }
}

/* Whatever the bytes: refused, or the image of a board, which saves the same bytes and takes events. */
static void test_mutations(void)
{
    synicboard board = SYNICBOARD_CLOSED;
    size_t restored = 0, refused = 0;
    open_busy(&board);
    size_t length = save(&board, first);
    synicboard_close(&board);
    for (unsigned turn = 0; turn < MUTATIONS; turn++) {
        static uint8_t text[ROOM];
        size_t mutated = length;
        memcpy(text, first, length);
        for (size_t edits = 1 + below(2); edits > 0; edits--)
            mutated = mutate(text, mutated);
        synicboard_end end = synicboard_restore(&board, text, mutated);
        if (end.kind == SYNICBOARD_OK) {
            restored++;
            bool same = save(&board, second) == mutated && memcmp(second, text, mutated) == 0;
            check(same, "a restored board saves the same bytes", __LINE__);
            CHECK(synicboard_tick(&board, UINT64_MAX).kind == SYNICBOARD_DONE);
            synicboard_close(&board);
        } else {
            refused++;
            if (end.kind != SYNICBOARD_WRONG_LINE || end.line == 0)
                CHECK_NUMBER(end.kind, SYNICBOARD_WRONG_LINE);
        }
    }
    CHECK(restored > MUTATIONS / 100 && refused > MUTATIONS / 100);
    CHECK_NUMBER(blocks_out, 0);
}

/* A shared board is saved while its lock is held. */
static void test_shared_board(void)
{
    synicboard_shared shared = SYNICBOARD_SHARED_CLOSED;
    synicboard restored = SYNICBOARD_CLOSED;
    synicboard_event event = { .kind = SYNICBOARD_ASSERT, .vp = 1, .vector = 0x61 };
    synicboard_open_recorded(&shared, 2, 1, 0);
    CHECK_REPLY(synicboard_act(&shared, 3, &event, NULL, 0), SYNICBOARD_DONE);
    size_t length = save(synicboard_hold(&shared), first);
    synicboard_release(&shared);
    CHECK_NUMBER(synicboard_restore(&restored, first, length).kind, SYNICBOARD_OK);
    CHECK_NUMBER(synicboard_next(&restored, 1), 0x61);
    synicboard_close(&restored);
    synicboard_close_shared(&shared);
    CHECK_NUMBER(blocks_out, 0);
}

static void test_refused_memory(void)
{
    synicboard board = SYNICBOARD_CLOSED, restored = SYNICBOARD_CLOSED;
    synicboard_end end;
    size_t number = 1;
    open_busy(&board);
    size_t length = save(&board, first), before = blocks_out;
    refuse(number);
    while ((end = synicboard_restore(&restored, first, length)).kind == SYNICBOARD_NO_MEMORY) {
        CHECK_NUMBER(end.line, 0);
        CHECK_NUMBER(blocks_out, before);
        refuse(++number);
    }
    CHECK_NUMBER(end.kind, SYNICBOARD_OK);
    CHECK_NUMBER(requests, number - 1);
    CHECK(number > 10);
    refuse(0);
    CHECK_NUMBER(save(&restored, second), length);
    synicboard_close(&restored);
    synicboard_close(&board);
    CHECK_NUMBER(blocks_out, 0);
}

static const struct test tests[] = {
    { "a board is saved and restored", test_round_trip },
    { "images that end early", test_cuts },
    { "forged images", test_forgeries },
    { "the first lines", test_first_lines },
    { "mutated images", test_mutations },
    { "a shared board is saved", test_shared_board },
    { "refused memory of a restore", test_refused_memory },
};

int main(void)
{
    return run_tests(tests, sizeof tests / sizeof *tests);
}

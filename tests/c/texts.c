/* The text calls beyond what scripts show: wrong traces, texts that are too long, numbers that
 * encode no entry, and refused memory.
 *
 *   texts RECORDED_TRACE     (examples/recorded.trace) */
#define _DEFAULT_SOURCE /* for MAP_ANONYMOUS */
#include <stdbool.h>
#include <stddef.h>
#include <stdint.h>
#include <stdio.h>
#include <string.h>
#include <sys/mman.h>

#include "checks.h"
#include "synicboard.h"

/* ---- Traces ---- */

static char trace[4096];
static const char *trace_path;

static void read_trace(void)
{
    FILE *file = fopen(trace_path, "rb");
    size_t length = file == NULL ? 0 : fread(trace, 1, sizeof trace - 1, file);
    trace[length] = '\0';
    if (file != NULL)
        fclose(file);
    CHECK(length > 0);
}

static void check_verdict(size_t length, uint8_t kind, uint64_t entries, uint64_t wrong, int line)
{
    synicboard_verdict verdict = synicboard_check((const uint8_t *)trace, length);
    check_number(verdict.kind, kind, "the kind of a verdict", line);
    check_number(verdict.entries, entries, "the entries of a verdict", line);
    check_number(verdict.line, wrong, "the line of a verdict", line);
}

#define CHECK_VERDICT(length, kind, entries, wrong) check_verdict((length), (kind), (entries), (wrong), __LINE__)

static void replace(const char *old, const char *new)
{
    char *place = strstr(trace, old);
    CHECK(place != NULL);
    if (place != NULL)
        memcpy(place, new, strlen(new));
}

/* The trace has ten entries; line 12 is the reply to its post, and line 23 its last. */
static void test_check(void)
{
    size_t blocks = blocks_out;
    read_trace();
    size_t length = strlen(trace);
    CHECK_VERDICT(length, SYNICBOARD_OK, 10, 0);
    CHECK_VERDICT(length - 1, SYNICBOARD_WRONG_LINE, 0, 23);
    CHECK_VERDICT(length - strlen("end 10\n"), SYNICBOARD_WRONG_LINE, 0, 23);
    replace("accepted 0", "accepted 7");
    CHECK_VERDICT(length, SYNICBOARD_WRONG_LINE, 0, 12);
    replace("accepted 7", "accepted 0");
    replace("end 10", "end 11");
    CHECK_VERDICT(length, SYNICBOARD_WRONG_LINE, 0, 23);
    replace("end 11\n", "end 10 1\n");
    CHECK_VERDICT(length + 2, SYNICBOARD_WRONG_LINE, 0, 23);
    replace("trace 1", "trace 2");
    CHECK_VERDICT(length + 2, SYNICBOARD_OK, 10, 0);
    replace("end 10 1", "end 10 2");
    CHECK_VERDICT(length + 2, SYNICBOARD_WRONG_LINE, 0, 23);
    replace("board 1 4", "board 9 4");
    CHECK_VERDICT(length + 2, SYNICBOARD_WRONG_LINE, 0, 2);
    CHECK_NUMBER(blocks_out, blocks);
}

enum { PIECE = 1 << 20, PIECES = 1024 };

/* A text of comments, PIECE * PIECES bytes and one more: a piece of a file, mapped again and again. */
static uint8_t *map_comments(void)
{
    static char piece[PIECE];
    memset(piece, 'x', sizeof piece);
    for (size_t at = 0; at < PIECE; at += 512) {
        piece[at] = '#';
        piece[at + 511] = '\n';
    }
    FILE *file = tmpfile();
    if (file == NULL || fwrite(piece, 1, PIECE, file) != PIECE || fflush(file) != 0)
        return NULL;
    size_t length = (size_t)PIECE * (PIECES + 1);
    char *text = mmap(NULL, length, PROT_READ, MAP_PRIVATE | MAP_ANONYMOUS | MAP_NORESERVE, -1, 0);
    for (size_t at = 0; text != MAP_FAILED && at < length; at += PIECE)
        if (mmap(text + at, PIECE, PROT_READ, MAP_SHARED | MAP_FIXED, fileno(file), 0) == MAP_FAILED)
            return NULL;
    fclose(file);
    return text == MAP_FAILED ? NULL : (uint8_t *)text;
}

/* A text of the greatest length is read whole, and has no board line; one byte more is too long. */
static void test_long_texts(void)
{
    const size_t most = 1073741824;
    uint8_t *text = map_comments();
    uint8_t room[40];
    CHECK(text != NULL);
    if (text == NULL)
        return;
    synicboard_end end = synicboard_replay(text, most, room, sizeof room);
    CHECK_NUMBER(end.kind, SYNICBOARD_WRONG_LINE);
    CHECK_NUMBER(end.line, most / 512 + 1);
    end = synicboard_replay(text, most + 1, room, sizeof room);
    CHECK_NUMBER(end.kind, SYNICBOARD_TOO_LONG);
    munmap(text, (size_t)PIECE * (PIECES + 1));
}

/* ---- Entries ---- */

enum { FILLER = 0xee };

static void check_told(synicboard_event event, synicboard_reply reply, uint64_t wrong, const char *text, int line)
{
    uint8_t room[600];
    memset(room, FILLER, sizeof room);
    synicboard_end end = synicboard_format_entry(9, &event, &reply, room, sizeof room);
    check_number(end.kind, wrong == 0 ? SYNICBOARD_OK : SYNICBOARD_WRONG_LINE, "the kind of an entry's end", line);
    check_number(end.line, wrong, "the line of an entry's end", line);
    check_number(end.length, strlen(text), "the length of an entry", line);
    check(memcmp(room, text, strlen(text)) == 0, "an entry has its text", line);
    check(room[strlen(text)] == FILLER, "nothing is written behind an entry", line);
}

#define CHECK_TOLD(event, reply, wrong, text) check_told((event), (reply), (wrong), (text), __LINE__)
#define EVENT(...) ((synicboard_event){ __VA_ARGS__ })
#define REPLY(...) ((synicboard_reply){ __VA_ARGS__ })

static void test_entries(void)
{
    const synicboard_event take = { .kind = SYNICBOARD_TAKE, .vp = 255 };
    const synicboard_reply done = { .kind = SYNICBOARD_DONE };
    CHECK_TOLD(take, REPLY(.kind = SYNICBOARD_NONE_TAKEN), 0, "9 take 255\n= taken none\n");
    CHECK_TOLD(take, REPLY(.kind = SYNICBOARD_TAKEN, .vector = 16), 0, "9 take 255\n= taken 10\n");
    CHECK_TOLD(take, REPLY(.kind = SYNICBOARD_TAKEN, .vector = 15), 2, "");
    CHECK_TOLD(take, REPLY(.kind = SYNICBOARD_BYTES, .length = 8, .bytes = { 1 }), 0, "9 take 255\n= bytes 0100000000000000\n");
    CHECK_TOLD(take, REPLY(.kind = SYNICBOARD_BYTES, .length = 9), 2, "");
    CHECK_TOLD(take, REPLY(.kind = SYNICBOARD_BYTES), 0, "9 take 255\n= bytes -\n");
    CHECK_TOLD(EVENT(.kind = SYNICBOARD_POST, .port = 15, .message_type = 0x7fffffff, .length = 3, .bytes = { 0, 0xfe }),
        REPLY(.kind = SYNICBOARD_ACCEPTED, .ticket = UINT64_MAX),
        0, "9 post 15 7fffffff 00fe00\n= accepted 18446744073709551615\n");
    CHECK_TOLD(take, REPLY(.kind = SYNICBOARD_VALUE, .value = 0xfed0), 0, "9 take 255\n= value fed0\n");
    /* a reply's fields are ignored unless its kind uses them, such as the bits of an absorb */
    CHECK_TOLD(EVENT(.kind = SYNICBOARD_ABSORB, .part = 1, .value = UINT64_MAX), REPLY(.kind = SYNICBOARD_DONE, .value = UINT64_MAX),
        0, "9 absorb 0 1 ffffffffffffffff\n= done\n");
    CHECK_TOLD(EVENT(.kind = SYNICBOARD_SEND, .vector = 255, .value = UINT64_MAX), REPLY(.kind = SYNICBOARD_REFUSED, .refusal = 14),
        0, "9 send ff ffffffffffffffff\n= refused 14\n");
    for (unsigned kind = 0; kind <= UINT8_MAX; kind++) {
        bool is_told = kind >= SYNICBOARD_DONE && kind <= SYNICBOARD_REFUSED;
        const synicboard_reply reply = { .kind = (uint8_t)kind, .refusal = 1, .vector = 16 };
        uint8_t room[80];
        synicboard_end end = synicboard_format_entry(0, &take, &reply, room, sizeof room);
        CHECK_NUMBER(end.line, is_told ? 0 : 2);
    }
    for (unsigned refusal = 0; refusal <= UINT8_MAX; refusal++) {
        bool is_told = refusal >= SYNICBOARD_UNKNOWN_PORT && refusal <= SYNICBOARD_ELSEWHERE;
        char text[60];
        snprintf(text, sizeof text, "9 take 255\n= refused %u\n", refusal);
        CHECK_TOLD(take, REPLY(.kind = SYNICBOARD_REFUSED, .refusal = (uint8_t)refusal), is_told ? 0 : 2, is_told ? text : "");
    }
    /* an invalid event is reported before an invalid reply */
    CHECK_TOLD(EVENT(.kind = 0), REPLY(.kind = 0), 1, "");
    CHECK_TOLD(EVENT(.kind = SYNICBOARD_SEND + 1), done, 1, "");
    CHECK_TOLD(EVENT(.kind = SYNICBOARD_ASSERT, .vector = 15), done, 1, "");
    CHECK_TOLD(EVENT(.kind = SYNICBOARD_SEND, .vector = 15), done, 1, "");
    CHECK_TOLD(EVENT(.kind = SYNICBOARD_STORE, .length = 9), done, 1, "");
    CHECK_TOLD(EVENT(.kind = SYNICBOARD_POST, .length = 241), done, 1, "");
}

/* The longest entry has as many bytes as the header says. */
static void test_longest_entry(void)
{
    const synicboard_event event = { .kind = SYNICBOARD_POST, .port = 255, .message_type = UINT32_MAX, .length = 240 };
    const synicboard_reply reply = { .kind = SYNICBOARD_ACCEPTED, .ticket = UINT64_MAX };
    char text[600];
    uint8_t room[600];
    snprintf(text, sizeof text, "255 post 255 ffffffff %0480d\n= accepted 18446744073709551615\n", 0);
    synicboard_end end = synicboard_format_entry(255, &event, &reply, room, sizeof room);
    CHECK_NUMBER(strlen(text), 535);
    CHECK_NUMBER(end.kind, SYNICBOARD_OK);
    CHECK_NUMBER(end.length, strlen(text));
    CHECK(memcmp(room, text, strlen(text)) == 0);
}

/* ---- Images ---- */

static const char *const image = "image 1\nboard 1 1 5\nmoment 10\nlapic 0 0 2 0 0 0 0 0 0 20 suspended\nend\n";

/* A board with that image: a vector is requested, the task priority is 20, and the processor is suspended. */
static void open_saved(synicboard *board)
{
    synicboard_open(board, 1, 1, 5);
    synicboard_tick(board, 10);
    synicboard_assert(board, 0, 0x41);
    synicboard_write(board, 0, SYNICBOARD_MSR_TPR, 0x20);
    synicboard_suspend(board, 0);
}

static void test_images(void)
{
    synicboard board = SYNICBOARD_CLOSED;
    uint8_t room[100];
    synicboard_end end = synicboard_save(&board, room, sizeof room);
    CHECK_NUMBER(end.kind, SYNICBOARD_IS_CLOSED);
    CHECK_NUMBER(end.length, 0);
    open_saved(&board);
    for (size_t size = 0; size < sizeof room; size++) {
        size_t filled = size < strlen(image) ? size : strlen(image);
        memset(room, FILLER, sizeof room);
        end = synicboard_save(&board, room, size);
        CHECK_NUMBER(end.kind, SYNICBOARD_OK);
        CHECK_NUMBER(end.line, 0);
        CHECK_NUMBER(end.length, strlen(image));
        CHECK(memcmp(room, image, filled) == 0);
        CHECK(room[filled] == FILLER);
    }
    /* an event that is refused leaves the image unchanged */
    CHECK_NUMBER(synicboard_tick(&board, 9).refusal, SYNICBOARD_CLOCK_BACK);
    end = synicboard_save(&board, room, sizeof room);
    CHECK(end.length == strlen(image) && memcmp(room, image, strlen(image)) == 0);
    synicboard_close(&board);
    CHECK_NUMBER(blocks_out, 0);
}

/* ---- Refused memory ---- */

/* The text grows many times, so allocations happen at many points of it. */
static void test_refused_replay(void)
{
    static char script[20000];
    static uint8_t room[10000];
    synicboard_end end;
    size_t number = 1, length = (size_t)sprintf(script, "board 8 64 0\n");
    for (int line = 0; line < 1000; line++)
        length += (size_t)sprintf(script + length, "assert %d 60\n", line % 8);
    refuse(number);
    while ((end = synicboard_replay((uint8_t *)script, length, room, sizeof room)).kind == SYNICBOARD_NO_MEMORY) {
        CHECK_NUMBER(end.line, 0);
        CHECK_NUMBER(end.length, 0);
        CHECK_NUMBER(blocks_out, 0);
        refuse(++number);
    }
    CHECK_NUMBER(end.kind, SYNICBOARD_OK);
    CHECK_NUMBER(requests, number - 1);
    CHECK(number > 1);
    refuse(0);
    CHECK_NUMBER(end.length, 1000 * strlen("= done\n") + 8 * strlen(". requested 0 60\n"));
}

static void test_refused_check(void)
{
    synicboard_verdict verdict;
    size_t number = 1;
    read_trace();
    refuse(number);
    while ((verdict = synicboard_check((uint8_t *)trace, strlen(trace))).kind == SYNICBOARD_NO_MEMORY) {
        CHECK_NUMBER(verdict.entries, 0);
        CHECK_NUMBER(verdict.line, 0);
        CHECK_NUMBER(blocks_out, 0);
        refuse(++number);
    }
    CHECK_NUMBER(verdict.kind, SYNICBOARD_OK);
    CHECK_NUMBER(verdict.entries, 10);
    CHECK_NUMBER(requests, number - 1);
    CHECK(number > 1);
    refuse(0);
}

static void test_refused_entry(void)
{
    const synicboard_event event = { .kind = SYNICBOARD_POST, .length = 240 };
    const synicboard_reply reply = { .kind = SYNICBOARD_ACCEPTED };
    uint8_t room[600] = { FILLER };
    synicboard_end end;
    size_t number = 1;
    refuse(number);
    while ((end = synicboard_format_entry(0, &event, &reply, room, sizeof room)).kind == SYNICBOARD_NO_MEMORY) {
        CHECK_NUMBER(end.line, 0);
        CHECK_NUMBER(end.length, 0);
        CHECK_NUMBER(room[0], FILLER);
        CHECK_NUMBER(blocks_out, 0);
        refuse(++number);
    }
    CHECK_NUMBER(end.kind, SYNICBOARD_OK);
    CHECK_NUMBER(requests, number - 1);
    CHECK(number > 1);
    refuse(0);
    CHECK_NUMBER(room[0], '0');
}

static void test_refused_save(void)
{
    synicboard board = SYNICBOARD_CLOSED;
    uint8_t room[100] = { FILLER };
    synicboard_end end;
    size_t number = 1;
    open_saved(&board);
    refuse(number);
    while ((end = synicboard_save(&board, room, sizeof room)).kind == SYNICBOARD_NO_MEMORY) {
        CHECK_NUMBER(end.line, 0);
        CHECK_NUMBER(end.length, 0);
        CHECK_NUMBER(room[0], FILLER);
        refuse(++number);
    }
    CHECK_NUMBER(end.kind, SYNICBOARD_OK);
    CHECK_NUMBER(requests, number - 1);
    CHECK(number > 1);
    refuse(0);
    CHECK_NUMBER(end.length, strlen(image));
    synicboard_close(&board);
    CHECK_NUMBER(blocks_out, 0);
}

static const struct test tests[] = {
    { "traces", test_check },
    { "texts that are too long", test_long_texts },
    { "entries", test_entries },
    { "the longest entry", test_longest_entry },
    { "images", test_images },
    { "refused memory of a replay", test_refused_replay },
    { "refused memory of a check", test_refused_check },
    { "refused memory of an entry", test_refused_entry },
    { "refused memory of a save", test_refused_save },
};

int main(int count, char **words)
{
    if (count != 2) {
        fprintf(stderr, "texts RECORDED_TRACE\n");
        return 2;
    }
    trace_path = words[1];
    return run_tests(tests, sizeof tests / sizeof *tests);
}

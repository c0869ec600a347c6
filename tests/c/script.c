/* Performs a script through the C calls, and writes what `synicboard replay` writes for it.
 *
 *   script --calls FILE      each event by its own call
 *   script --structs FILE    each event by synicboard_perform
 *   script --sparse FILE     each event by synicboard_perform, on a sparse board with the guest's memory here
 *   script --batches FILE    up to seven events at a time by synicboard_perform_all
 *   script --text FILE       the whole script by synicboard_replay, into buffers of several sizes
 *
 * With --calls, --structs and --sparse, synicboard_format_entry also records a trace, which is then checked:
 * that of the sparse board as one of an ordinary board.
 *
 * Exit status: 0; 1 after a wrong line; 2 for a wrong command line; 3 if the library did not do
 * what its header says; 4 if a file could not be read or an allocation failed. */
#define _POSIX_C_SOURCE 200809L /* for open_memstream */
#include <inttypes.h>
#include <stdbool.h>
#include <stddef.h>
#include <stdint.h>
#include <stdio.h>
#include <stdlib.h>
#include <string.h>

#include "by_call.h"
#include "by_sparse.h"
#include "synicboard.h"

enum { LONGEST_LINE = 640, MOST_STORED = 8, SOURCES = 16, FIRST_VECTOR = 16 };
enum { WRONG_SCRIPT = 1, WRONG_USAGE = 2, WRONG_LIBRARY = 3, NO_FILE = 4 };
enum { FILLER = 0xee };

static _Noreturn void give_up(int status, const char *why)
{
    fflush(stdout);
    fprintf(stderr, "script: %s\n", why);
    exit(status);
}

/* Ends the program unless the library did what its header says. */
static void demand(bool holds, const char *what)
{
    if (!holds)
        give_up(WRONG_LIBRARY, what);
}

static void *room_of(size_t size)
{
    void *room = malloc(size);
    if (room == NULL)
        give_up(NO_FILE, "out of memory");
    return room;
}

/* ---- The fields of a line ---- */

/* The rest of a line. */
struct cursor {
    const char *at;
    const char *end;
};

enum form { DECIMAL, HEXADECIMAL, TWO_DIGITS, BYTES };

/* How a field is written, and where its number is stored in an event. */
struct field {
    const char *name;
    enum form form;
    size_t place;
    size_t size; /* of the number; for BYTES the greatest count */
};

#define FIELD(name, form, member) \
    { name, form, offsetof(synicboard_event, member), sizeof(((synicboard_event *)0)->member) }

static const struct field fields[] = {
    FIELD("<port>", DECIMAL, port),
    FIELD("<vp>", DECIMAL, vp),
    FIELD("<sint>", DECIMAL, sint),
    FIELD("<buffers>", DECIMAL, buffers),
    FIELD("<part>", DECIMAL, part),
    FIELD("<length>", DECIMAL, length),
    FIELD("<flag>", DECIMAL, flag),
    FIELD("<base>", DECIMAL, flag),
    FIELD("<count>", DECIMAL, count),
    FIELD("<moment>", DECIMAL, moment),
    FIELD("<register>", HEXADECIMAL, msr),
    FIELD("<type>", HEXADECIMAL, message_type),
    FIELD("<value>", HEXADECIMAL, value),
    FIELD("<bits>", HEXADECIMAL, value),
    FIELD("<mask>", HEXADECIMAL, value),
    FIELD("<address>", HEXADECIMAL, address),
    FIELD("<vector>", TWO_DIGITS, vector),
    FIELD("<payload>", BYTES, bytes),
    { "<bytes>", BYTES, offsetof(synicboard_event, bytes), MOST_STORED },
};

/* The lines of events, as docs/FORMATS.md has them. */
static const struct {
    uint8_t kind;
    const char *line;
} lines[] = {
    { SYNICBOARD_OPEN_MESSAGE_PORT, "open <port> message <vp> <sint> <buffers>" },
    { SYNICBOARD_OPEN_EVENT_PORT, "open <port> event <vp> <sint> <base> <count>" },
    { SYNICBOARD_CLOSE_PORT, "close <port>" },
    { SYNICBOARD_WRITE, "write <vp> <register> <value>" },
    { SYNICBOARD_READ, "read <vp> <register>" },
    { SYNICBOARD_POST, "post <port> <type> <payload>" },
    { SYNICBOARD_SIGNAL, "signal <port> <flag>" },
    { SYNICBOARD_ASSERT, "assert <vp> <vector>" },
    { SYNICBOARD_ABSORB, "absorb <vp> <part> <bits>" },
    { SYNICBOARD_STORE, "store <address> <bytes>" },
    { SYNICBOARD_LOAD, "load <address> <length>" },
    { SYNICBOARD_TICK, "tick <moment>" },
    { SYNICBOARD_TAKE, "take <vp>" },
    { SYNICBOARD_SUSPEND, "suspend <vp>" },
    { SYNICBOARD_RESUME, "resume <vp>" },
    { SYNICBOARD_RESET, "reset <vp>" },
    { SYNICBOARD_SEND, "send <vector> <mask>" },
};

/* 16 where a character is no digit. */
static unsigned digit_of(char character)
{
    if (character >= '0' && character <= '9')
        return (unsigned)(character - '0');
    if (character >= 'a' && character <= 'f')
        return (unsigned)(character - 'a') + 10;
    return 16;
}

static bool read_text(struct cursor *cursor, const char *text, size_t length)
{
    if ((size_t)(cursor->end - cursor->at) < length || memcmp(cursor->at, text, length) != 0)
        return false;
    cursor->at += length;
    return true;
}

/* A number up to `most` without a leading zero. */
static bool read_number(struct cursor *cursor, unsigned base, uint64_t most, uint64_t *number)
{
    const char *first = cursor->at;
    for (*number = 0; cursor->at < cursor->end; cursor->at++) {
        unsigned digit = digit_of(*cursor->at);
        if (digit >= base)
            break;
        if (*number > (most - digit) / base)
            return false;
        *number = *number * base + digit;
    }
    return cursor->at != first && (*first != '0' || cursor->at == first + 1);
}

static bool read_two_digits(struct cursor *cursor, uint8_t *byte)
{
    if (cursor->end - cursor->at < 2)
        return false;
    unsigned high = digit_of(cursor->at[0]);
    unsigned low = digit_of(cursor->at[1]);
    *byte = (uint8_t)(16 * high + low);
    cursor->at += 2;
    return high < 16 && low < 16;
}

/* Two digits for each byte, or `-` for none. */
static bool read_bytes(struct cursor *cursor, size_t most, synicboard_event *event)
{
    event->length = 0;
    if (read_text(cursor, "-", 1))
        return true;
    while (cursor->at < cursor->end && *cursor->at != ' ') {
        if (event->length == most || !read_two_digits(cursor, &event->bytes[event->length]))
            return false;
        event->length++;
    }
    return event->length > 0;
}

static void put_number(synicboard_event *event, const struct field *field, uint64_t number)
{
    unsigned char *place = (unsigned char *)event + field->place;
    uint8_t one = (uint8_t)number;
    uint16_t two = (uint16_t)number;
    uint32_t four = (uint32_t)number;
    switch (field->size) {
    case 1: memcpy(place, &one, 1); break;
    case 2: memcpy(place, &two, 2); break;
    case 4: memcpy(place, &four, 4); break;
    default: memcpy(place, &number, 8); break;
    }
}

static bool read_field(struct cursor *cursor, const struct field *field, synicboard_event *event)
{
    if (field->form == BYTES)
        return read_bytes(cursor, field->size, event);
    if (field->form == TWO_DIGITS)
        return read_two_digits(cursor, &event->vector) && event->vector >= FIRST_VECTOR;
    uint64_t most = UINT64_MAX >> (64 - 8 * field->size);
    uint64_t number;
    if (!read_number(cursor, field->form == DECIMAL ? 10 : 16, most, &number))
        return false;
    put_number(event, field, number);
    return true;
}

static const struct field *field_named(const char *name, size_t length)
{
    for (size_t at = 0; at < sizeof fields / sizeof *fields; at++)
        if (strlen(fields[at].name) == length && memcmp(fields[at].name, name, length) == 0)
            return &fields[at];
    return NULL;
}

/* Whether a line has this form. */
static bool read_line(struct cursor cursor, const char *form, synicboard_event *event)
{
    while (*form != '\0') {
        size_t length = *form == '<' ? strcspn(form, ">") + 1 : strcspn(form, "<");
        const struct field *field = field_named(form, length);
        bool is_read = field != NULL ? read_field(&cursor, field, event) : read_text(&cursor, form, length);
        if (!is_read)
            return false;
        form += length;
    }
    return cursor.at == cursor.end;
}

/* Fields that an event does not use are filled with a value that would show if they were read. */
static bool read_event(struct cursor line, synicboard_event *event)
{
    for (size_t at = 0; at < sizeof lines / sizeof *lines; at++) {
        memset(event, 0xa5, sizeof *event);
        event->kind = lines[at].kind;
        if (read_line(line, lines[at].line, event))
            return true;
    }
    return false;
}

/* ---- Output ---- */

static void print_bytes(const uint8_t *bytes, size_t length)
{
    for (size_t at = 0; at < length; at++)
        printf("%02x", bytes[at]);
}

static void print_reply(const synicboard_reply *reply)
{
    switch (reply->kind) {
    case SYNICBOARD_DONE: printf("= done\n"); break;
    case SYNICBOARD_VALUE: printf("= value %" PRIx64 "\n", reply->value); break;
    case SYNICBOARD_BYTES:
        demand(reply->length <= sizeof reply->bytes, "a reply has more bytes than there are");
        printf("= bytes ");
        print_bytes(reply->bytes, reply->length);
        printf("\n");
        break;
    case SYNICBOARD_TAKEN: printf("= taken %02x\n", reply->vector); break;
    case SYNICBOARD_NONE_TAKEN: printf("= taken none\n"); break;
    case SYNICBOARD_ACCEPTED: printf("= accepted %" PRIu64 "\n", reply->ticket); break;
    case SYNICBOARD_FLAG_WAS_CLEAR: printf("= clear\n"); break;
    case SYNICBOARD_FLAG_WAS_SET: printf("= set\n"); break;
    case SYNICBOARD_GENERAL_PROTECTION: printf("= general protection\n"); break;
    case SYNICBOARD_REFUSED: printf("= refused %u\n", reply->refusal); break;
    default: give_up(WRONG_LIBRARY, "an event of the script was not performed");
    }
}

/* Fields that the kind of a reply does not use must be 0. */
static void judge_reply(synicboard_reply reply)
{
    switch (reply.kind) {
    case SYNICBOARD_VALUE: reply.value = 0; break;
    case SYNICBOARD_TAKEN: reply.vector = 0; break;
    case SYNICBOARD_ACCEPTED: reply.ticket = 0; break;
    case SYNICBOARD_REFUSED: reply.refusal = 0; break;
    case SYNICBOARD_BYTES:
        memset(reply.bytes, 0, reply.length);
        reply.length = 0;
        break;
    }
    bool is_used = reply.fault || reply.refusal || reply.vector || reply.length || reply.value || reply.ticket;
    for (size_t at = 0; at < sizeof reply.bytes; at++)
        is_used = is_used || reply.bytes[at];
    demand(!is_used, "a field that the reply does not use is not 0");
}

static void print_ticket(const char *word, const synicboard_notice *notice)
{
    printf(". %s %" PRIu64 " %u %u\n", word, notice->ticket, notice->vp, notice->sint);
}

static void print_notice(const synicboard_notice *notice)
{
    unsigned vp = notice->vp;
    switch (notice->kind) {
    case SYNICBOARD_NOTICE_ACCEPTED: print_ticket("accepted", notice); break;
    case SYNICBOARD_NOTICE_PLACED: print_ticket("placed", notice); break;
    case SYNICBOARD_NOTICE_CONSUMED: print_ticket("consumed", notice); break;
    case SYNICBOARD_NOTICE_WITHDRAWN: print_ticket("withdrawn", notice); break;
    case SYNICBOARD_NOTICE_PENDING: printf(". pending %u %u\n", vp, notice->sint); break;
    case SYNICBOARD_NOTICE_REQUESTED: printf(". requested %u %02x\n", vp, notice->vector); break;
    case SYNICBOARD_NOTICE_FLAG: printf(". flag %u %u %u\n", vp, notice->sint, notice->flag); break;
    case SYNICBOARD_NOTICE_EXPIRED: printf(". expired %u %u %" PRIu64 "\n", vp, notice->timer, notice->due); break;
    case SYNICBOARD_NOTICE_SKIPPED: printf(". skipped %u %u %" PRIu64 "\n", vp, notice->timer, notice->count); break;
    default: give_up(WRONG_LIBRARY, "a notice of no kind");
    }
}

/* Fields that the kind of a notice does not use must be 0. */
static void judge_notice(synicboard_notice notice)
{
    switch (notice.kind) {
    case SYNICBOARD_NOTICE_REQUESTED: notice.vector = 0; break;
    case SYNICBOARD_NOTICE_PENDING: notice.sint = 0; break;
    case SYNICBOARD_NOTICE_FLAG: notice.sint = 0, notice.flag = 0; break;
    case SYNICBOARD_NOTICE_EXPIRED: notice.timer = 0, notice.due = 0; break;
    case SYNICBOARD_NOTICE_SKIPPED: notice.timer = 0, notice.count = 0; break;
    default: notice.sint = 0, notice.ticket = 0; break;
    }
    bool is_used = notice.sint || notice.vector || notice.timer || notice.flag;
    is_used = is_used || notice.ticket || notice.due || notice.count;
    demand(!is_used, "a field that the notice does not use is not 0");
}

/* Prints a reply, and as many notices as it counts. */
static void print_told(const synicboard_reply *reply, const synicboard_notice *notices)
{
    print_reply(reply);
    judge_reply(*reply);
    for (size_t at = 0; at < reply->notices; at++) {
        print_notice(&notices[at]);
        judge_notice(notices[at]);
    }
}

static void print_answer(synicboard *board, const synicboard_reply *reply)
{
    static synicboard_notice notices[SYNICBOARD_MOST_NOTICES];
    size_t count = synicboard_notices(board, notices, SYNICBOARD_MOST_NOTICES);
    demand(count <= SYNICBOARD_MOST_NOTICES, "an event gave more notices than there are");
    demand(count == reply->notices, "a reply counts other notices than there are");
    print_told(reply, notices);
}

/* ---- The summary ---- */

static void print_next(synicboard *board, uint8_t vp)
{
    uint8_t vector = synicboard_next(board, vp);
    if (vector == 0)
        printf(": next %u none\n", vp);
    else
        printf(": next %u %02x\n", vp, vector);
}

static void print_auto(synicboard *board, uint8_t vp)
{
    bool is_begun = false;
    for (unsigned vector = 0; vector < 256; vector++) {
        if (!synicboard_is_auto(board, vp, (uint8_t)vector))
            continue;
        if (!is_begun)
            printf(": auto %u", vp);
        is_begun = true;
        printf(" %02x", vector);
    }
    if (is_begun)
        printf("\n");
}

/* Prints a 128-bit number in decimal, which printf cannot do: divides by ten, 32 bits at a time. */
static void print_long(uint64_t high, uint64_t low)
{
    uint64_t words[4] = { high >> 32, high & UINT32_MAX, low >> 32, low & UINT32_MAX };
    char digits[40];
    char *first = &digits[sizeof digits - 1];
    *first = '\0';
    do {
        uint64_t rest = 0;
        for (int at = 0; at < 4; at++) {
            uint64_t part = rest << 32 | words[at];
            words[at] = part / 10;
            rest = part % 10;
        }
        *--first = (char)('0' + rest);
    } while (words[0] || words[1] || words[2] || words[3]);
    printf("%s", first);
}

static void print_timer(synicboard *board)
{
    synicboard_due due = synicboard_earliest(board);
    if (!due.is_due) {
        demand(!due.vp && !due.timer && !due.low && !due.high, "no timer is due, and yet one is told");
        printf(": timer none\n");
        return;
    }
    printf(": timer ");
    print_long(due.high, due.low);
    printf(" %u %u\n", due.vp, due.timer);
}

static void print_page(synicboard *board, uint64_t page)
{
    synicboard_page_owner owner = synicboard_owner(board, page);
    demand(owner.kind >= SYNICBOARD_OWNER_GUEST && owner.kind <= SYNICBOARD_OWNER_FLAGS, "a page of no owner");
    if (owner.kind == SYNICBOARD_OWNER_GUEST)
        demand(owner.vp == 0, "a guest page of a processor");
    else
        printf(": page %" PRIu64 " %s %u\n", page, owner.kind == SYNICBOARD_OWNER_FLAGS ? "sief" : "sim", owner.vp);
}

static void print_queue(synicboard *board, uint8_t vp, uint8_t sint)
{
    uint16_t length = synicboard_queued(board, vp, sint);
    if (length > 0)
        printf(": queue %u %u %u\n", vp, sint, length);
}

/* ---- A sparse board ---- */

enum { PAGE = 4096, MOST_PAGES = 64, MOST_PROCESSORS = 8 };

/* The guest's memory. */
static uint8_t memory[MOST_PAGES * PAGE];
static uint64_t memory_pages;

/* The board stays the script's: it is moved to the memory and back. */
static synicboard_reply perform_sparse(synicboard *board, const synicboard_event *event)
{
    struct sparse sparse = { *board, memory, memory_pages };
    synicboard_reply reply = perform_on_sparse(&sparse, event);
    *board = sparse.board;
    return reply;
}

/* The overlays that a guest sees are those of the owners, in ascending order. */
static void check_overlays(synicboard *board, uint64_t pages)
{
    uint64_t from = 0;
    for (uint64_t page = 0; page < pages; page++) {
        synicboard_page_owner owner = synicboard_owner(board, page);
        if (owner.kind == SYNICBOARD_OWNER_GUEST)
            continue;
        synicboard_overlay next = synicboard_next_overlay(board, from);
        demand(next.owner.kind == owner.kind && next.owner.vp == owner.vp && next.page == page, "another overlay is next");
        from = page + 1;
    }
    synicboard_overlay next = synicboard_next_overlay(board, from);
    demand(next.owner.kind == SYNICBOARD_OWNER_NOTHING || next.page >= pages, "an overlay without an owner");
}

/* ---- The script ---- */

typedef synicboard_reply perform_function(synicboard *board, const synicboard_event *event);

enum { MOST_WAITING = 7, MORE_NOTICES = 3 };

/* A script being read, the current line, counted from 1, and the board. If `perform` is null,
 * events wait for a batch. */
struct script {
    const char *at;
    const char *end;
    uint64_t line;
    perform_function *perform;
    synicboard board;
    uint8_t processors;
    uint8_t pages;
    synicboard_event waiting[MOST_WAITING]; /* for the next batch */
    size_t count;
    FILE *trace; /* the recorded trace; its bytes are valid once it is closed */
    char *trace_bytes;
    size_t trace_length;
    uint64_t entries;
};

static void print_summary(struct script *script)
{
    synicboard *board = &script->board;
    for (uint8_t vp = 0; vp < script->processors; vp++)
        print_next(board, vp);
    for (uint8_t vp = 0; vp < script->processors; vp++)
        print_auto(board, vp);
    print_timer(board);
    for (uint8_t page = 0; page < script->pages; page++)
        print_page(board, page);
    check_overlays(board, script->pages);
    for (uint8_t vp = 0; vp < script->processors; vp++)
        for (uint8_t sint = 0; sint < SOURCES; sint++)
            print_queue(board, vp, sint);
}

/* Advances to the next significant line; after the last one `line->at` is null. Returns null, or
 * the fault of the current line. */
static const char *next_line(struct script *script, struct cursor *line)
{
    line->at = NULL;
    while (script->at < script->end) {
        size_t left = (size_t)(script->end - script->at);
        size_t seen = left > LONGEST_LINE ? LONGEST_LINE + 1 : left;
        const char *feed = memchr(script->at, '\n', seen);
        script->line++;
        if (feed == NULL)
            return seen > LONGEST_LINE ? "long" : "cut";
        const char *first = script->at;
        script->at = feed + 1;
        if (first < feed && *first != '#') {
            line->at = first;
            line->end = feed;
            return NULL;
        }
    }
    return NULL;
}

static bool read_board_line(struct cursor line, uint64_t sizes[2], uint64_t *ticket)
{
    return read_text(&line, "board ", 6) && read_number(&line, 10, UINT8_MAX, &sizes[0])
        && read_text(&line, " ", 1) && read_number(&line, 10, UINT8_MAX, &sizes[1])
        && read_text(&line, " ", 1) && read_number(&line, 10, UINT64_MAX, ticket)
        && line.at == line.end;
}

static void open_trace(struct script *script, uint64_t ticket)
{
    script->trace = open_memstream(&script->trace_bytes, &script->trace_length);
    if (script->trace == NULL)
        give_up(NO_FILE, "out of memory");
    /* the format that has a line for each event */
    fprintf(script->trace, "trace 3\nboard %u %u %" PRIu64 "\n", script->processors, script->pages, ticket);
}

static uint8_t open_sized(struct script *script, uint64_t ticket)
{
    if (script->perform != perform_sparse)
        return synicboard_open(&script->board, script->processors, script->pages, ticket);
    /* the sizes of the board that the script opens */
    if (script->processors > MOST_PROCESSORS || script->pages < 1 || script->pages > MOST_PAGES)
        return SYNICBOARD_BAD_SIZE;
    memory_pages = script->pages;
    return synicboard_open_sparse(&script->board, script->processors, ticket);
}

static const char *open_board(struct script *script)
{
    struct cursor line;
    const char *fault = next_line(script, &line);
    if (fault != NULL)
        return fault;
    uint64_t sizes[2], ticket;
    if (line.at == NULL)
        script->line++;
    if (line.at == NULL || !read_board_line(line, sizes, &ticket))
        return "first";
    script->processors = (uint8_t)sizes[0];
    script->pages = (uint8_t)sizes[1];
    switch (open_sized(script, ticket)) {
    case SYNICBOARD_OK:
        if (script->perform != NULL)
            open_trace(script, ticket);
        return NULL;
    case SYNICBOARD_BAD_SIZE: return "size";
    case SYNICBOARD_NO_MEMORY: give_up(NO_FILE, "out of memory");
    }
    give_up(WRONG_LIBRARY, "a closed handle is not opened");
}

/* Performs the waiting events in as few batches as the buffers allow, and prints their replies and
 * notices. */
static void perform_waiting(struct script *script)
{
    static synicboard_reply replies[MOST_WAITING];
    static synicboard_notice notices[SYNICBOARD_MOST_NOTICES + MORE_NOTICES];
    size_t room = SYNICBOARD_MOST_NOTICES + MORE_NOTICES;
    for (size_t first = 0; first < script->count;) {
        size_t left = script->count - first;
        synicboard_batch batch = synicboard_perform_all(
            &script->board, script->waiting + first, left, replies, MOST_WAITING, notices, room);
        demand(batch.done > 0 && batch.done <= left, "a batch with room performed nothing");
        demand(batch.end == (batch.done == left ? SYNICBOARD_OK : SYNICBOARD_NO_ROOM), "a batch ended");
        demand(batch.done == left || batch.emitted > MORE_NOTICES, "a batch ended with room");
        size_t told = 0;
        for (size_t at = 0; at < batch.done; at++) {
            print_told(&replies[at], notices + told);
            told += replies[at].notices;
        }
        demand(told == batch.emitted, "a batch told of other notices than its replies");
        first += batch.done;
    }
    script->count = 0;
}

/* Appends an event and its reply to the trace. The first line equals the script's line after the
 * actor's number. Tried with a buffer that is just large enough, and with smaller ones. */
static void tell(struct script *script, struct cursor line, const synicboard_event *event, const synicboard_reply *reply)
{
    static uint8_t room[LONGEST_LINE], less[LONGEST_LINE];
    uint8_t actor = (uint8_t)script->entries;
    char wanted[LONGEST_LINE + 8];
    int size = snprintf(wanted, sizeof wanted, "%u %.*s\n= ", actor, (int)(line.end - line.at), line.at);
    synicboard_end end = synicboard_format_entry(actor, event, reply, room, sizeof room);
    demand(end.kind == SYNICBOARD_OK && end.line == 0, "an entry is not told");
    demand(end.length > (size_t)size && end.length <= sizeof room, "an entry of another length is told");
    demand(memcmp(room, wanted, (size_t)size) == 0 && room[end.length - 1] == '\n', "another event is told");
    size_t fitting = script->entries % end.length;
    memset(less, FILLER, sizeof less);
    synicboard_end again = synicboard_format_entry(actor, event, reply, less, fitting);
    demand(again.kind == end.kind && again.length == end.length, "another room has another end");
    demand(memcmp(less, room, fitting) == 0 && less[fitting] == FILLER, "another room has another text");
    fwrite(room, 1, end.length, script->trace);
    script->entries++;
}

/* Checks that the trace is that of a legal history. */
static void close_trace(struct script *script)
{
    if (script->trace == NULL)
        return;
    fprintf(script->trace, "end %" PRIu64 " %" PRIu64 "\n", script->entries, synicboard_next_ticket(&script->board));
    if (fclose(script->trace) != 0)
        give_up(NO_FILE, "out of memory");
    synicboard_verdict verdict = synicboard_check((const uint8_t *)script->trace_bytes, script->trace_length);
    demand(verdict.kind == SYNICBOARD_OK && verdict.entries == script->entries, "what was told is no legal trace");
    free(script->trace_bytes);
}

static void perform_line(struct script *script, struct cursor line, const synicboard_event *event)
{
    if (script->perform != NULL) {
        synicboard_reply reply = script->perform(&script->board, event);
        print_answer(&script->board, &reply);
        tell(script, line, event, &reply);
        return;
    }
    script->waiting[script->count++] = *event;
    if (script->count == MOST_WAITING)
        perform_waiting(script);
}

static const char *perform_lines(struct script *script)
{
    struct cursor line;
    synicboard_event event;
    const char *fault;
    while ((fault = next_line(script, &line)) == NULL && line.at != NULL) {
        if (read_line(line, "summary", &event)) {
            perform_waiting(script);
            print_summary(script);
        } else if (read_event(line, &event)) {
            perform_line(script, line, &event);
        } else {
            return "form";
        }
    }
    return fault;
}

static int perform_script(const char *text, size_t length, perform_function *perform)
{
    struct script script = { .at = text, .end = text + length, .perform = perform, .board = SYNICBOARD_CLOSED };
    const char *fault = open_board(&script);
    if (fault == NULL)
        fault = perform_lines(&script);
    perform_waiting(&script);
    close_trace(&script);
    synicboard_close(&script.board);
    if (fault == NULL)
        return 0;
    printf("! %" PRIu64 " %s\n", script.line, fault);
    return WRONG_SCRIPT;
}

/* ---- The script as one text ---- */

enum { GUARD = 64 };

/* Replays a script into a new buffer of this size. Nothing is written past the text or the buffer. */
static uint8_t *replayed(const char *text, size_t length, size_t size, synicboard_end *end)
{
    uint8_t *room = room_of(size + GUARD);
    memset(room, FILLER, size + GUARD);
    *end = synicboard_replay((const uint8_t *)text, length, room, size);
    if (end->kind == SYNICBOARD_NO_MEMORY)
        give_up(NO_FILE, "out of memory");
    size_t written = end->length < size ? end->length : size;
    for (size_t at = written; at < size + GUARD; at++)
        demand(room[at] == FILLER, "a replay wrote behind its text or its room");
    return room;
}

/* The last line names the line that the result names. */
static void judge_fault(const uint8_t *text, size_t length, uint64_t line)
{
    char wanted[40];
    size_t size = (size_t)snprintf(wanted, sizeof wanted, "! %" PRIu64 " ", line);
    size_t first = length > 0 ? length - 1 : 0;
    while (first > 0 && text[first - 1] != '\n')
        first--;
    demand(length - first > size && memcmp(text + first, wanted, size) == 0, "another line is wrong than is told");
}

/* Each buffer has the same text, as much as fits. */
static int replay_text(const char *text, size_t length)
{
    synicboard_end end, again;
    free(replayed(text, length, 0, &end));
    uint8_t *whole = replayed(text, length, end.length, &end);
    size_t sizes[] = { 0, end.length > 0, end.length / 2, end.length - (end.length > 0), end.length + 100 };
    for (size_t at = 0; at < sizeof sizes / sizeof *sizes; at++) {
        uint8_t *part = replayed(text, length, sizes[at], &again);
        size_t both = sizes[at] < end.length ? sizes[at] : end.length;
        demand(again.kind == end.kind && again.line == end.line, "another room has another end");
        demand(again.length == end.length, "another room has a text of another length");
        demand(memcmp(part, whole, both) == 0, "another room has another text");
        free(part);
    }
    fwrite(whole, 1, end.length, stdout);
    if (end.kind == SYNICBOARD_WRONG_LINE)
        judge_fault(whole, end.length, end.line);
    else
        demand(end.kind == SYNICBOARD_OK && end.line == 0, "a replay with an end of no kind");
    free(whole);
    return end.kind == SYNICBOARD_WRONG_LINE ? WRONG_SCRIPT : 0;
}

static char *read_file(const char *path, size_t *length)
{
    FILE *file = fopen(path, "rb");
    if (file == NULL || fseek(file, 0, SEEK_END) != 0)
        give_up(NO_FILE, "no such file");
    long size = ftell(file);
    if (size < 0)
        give_up(NO_FILE, "a file without a length");
    *length = (size_t)size;
    char *text = room_of(*length + 1);
    rewind(file);
    if (fread(text, 1, *length, file) != *length)
        give_up(NO_FILE, "a file could not be read");
    fclose(file);
    return text;
}

int main(int count, char **words)
{
    if (count != 3)
        give_up(WRONG_USAGE, "script --calls|--structs|--sparse|--batches|--text FILE");
    size_t length;
    char *text = read_file(words[2], &length);
    int status = WRONG_USAGE;
    if (strcmp(words[1], "--calls") == 0)
        status = perform_script(text, length, perform_by_call);
    else if (strcmp(words[1], "--structs") == 0)
        status = perform_script(text, length, synicboard_perform);
    else if (strcmp(words[1], "--sparse") == 0)
        status = perform_script(text, length, perform_sparse);
    else if (strcmp(words[1], "--batches") == 0)
        status = perform_script(text, length, NULL);
    else if (strcmp(words[1], "--text") == 0)
        status = replay_text(text, length);
    free(text);
    return status;
}

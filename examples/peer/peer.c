/* peer.c: reads the lines of a script, has a `struct peer` answer them, and writes the answers. */
#define _POSIX_C_SOURCE 200809L
#include "peer.h"

#include <inttypes.h>
#include <stdarg.h>
#include <stdbool.h>
#include <stdio.h>
#include <stdlib.h>
#include <string.h>
#include <unistd.h>

enum { MOST_WORDS = 8, LONGEST_LINE = 640, MOST_NOTICES = 320, MOST_PAYLOAD = 240 };

static char notices[MOST_NOTICES * 80];
static size_t noticed;

struct peer_reply peer_reply(enum peer_kind kind, uint64_t number)
{
    return (struct peer_reply){ .kind = kind, .number = number };
}

void peer_notice(const char *format, ...)
{
    va_list values;
    size_t left = sizeof notices - noticed;
    va_start(values, format);
    int length = vsnprintf(notices + noticed, left, format, values);
    va_end(values);
    if (length < 0 || (size_t)length + 4 > left)
        return;
    memmove(notices + noticed + 2, notices + noticed, (size_t)length);
    memcpy(notices + noticed, ". ", 2);
    noticed += (size_t)length + 2;
    notices[noticed++] = '\n';
}

static void write_reply(struct peer_reply reply)
{
    switch (reply.kind) {
    case PEER_DONE: printf("= done\n"); break;
    case PEER_VALUE: printf("= value %" PRIx64 "\n", reply.number); break;
    case PEER_BYTES:
        printf("= bytes ");
        for (size_t at = 0; at < reply.length; at++)
            printf("%02x", reply.bytes[at]);
        printf("\n");
        break;
    case PEER_TAKEN: printf("= taken %02" PRIx64 "\n", reply.number); break;
    case PEER_NONE_TAKEN: printf("= taken none\n"); break;
    case PEER_ACCEPTED: printf("= accepted %" PRIu64 "\n", reply.number); break;
    case PEER_CLEAR: printf("= clear\n"); break;
    case PEER_SET: printf("= set\n"); break;
    case PEER_GENERAL_PROTECTION: printf("= general protection\n"); break;
    case PEER_REFUSED: printf("= refused %" PRIu64 "\n", reply.number); break;
    case PEER_UNSUPPORTED: printf("= unsupported\n"); break;
    }
}

/* ---- The fields of a line ---- */

static unsigned decimal(const char *word)
{
    return (unsigned)strtoul(word, NULL, 10);
}

static uint64_t hexadecimal(const char *word)
{
    return strtoull(word, NULL, 16);
}

static uint8_t digit(char character)
{
    return (uint8_t)(character <= '9' ? character - '0' : character - 'a' + 10);
}

/* Two digits for each byte, or `-` for none. */
static size_t bytes_of(const char *word, uint8_t *bytes)
{
    size_t length = 0;
    if (*word == '-')
        return 0;
    for (; word[0] && word[1] && length < MOST_PAYLOAD; word += 2)
        bytes[length++] = (uint8_t)(digit(word[0]) << 4 | digit(word[1]));
    return length;
}

/* ---- The lines ---- */

#define CALL(name, ...) (peer->name ? peer->name(__VA_ARGS__) : peer_reply(PEER_UNSUPPORTED, 0))

static struct peer_reply bytes_answer(const struct peer *peer, char **words)
{
    uint8_t bytes[MOST_PAYLOAD];
    if (words[0][0] == 'p') {
        size_t length = bytes_of(words[3], bytes);
        return CALL(post_message, decimal(words[1]), (uint32_t)hexadecimal(words[2]), bytes, length);
    }
    size_t length = bytes_of(words[2], bytes);
    return CALL(guest_store, hexadecimal(words[1]), bytes, length);
}

static struct peer_reply port_answer(const struct peer *peer, char **words, int count)
{
    if (words[0][0] == 'c')
        return CALL(close_port, decimal(words[1]));
    unsigned port = decimal(words[1]);
    unsigned vp = decimal(words[3]);
    unsigned sint = decimal(words[4]);
    if (count == 6)
        return CALL(open_message_port, port, vp, sint, decimal(words[5]));
    return CALL(open_event_port, port, vp, sint, decimal(words[5]), decimal(words[6]));
}

static struct peer_reply answer(const struct peer *peer, char **words, int count)
{
    const char *name = words[0];
    if (strcmp(name, "open") == 0 || strcmp(name, "close") == 0)
        return port_answer(peer, words, count);
    if (strcmp(name, "post") == 0 || strcmp(name, "store") == 0)
        return bytes_answer(peer, words);
    if (strcmp(name, "write") == 0)
        return CALL(write_msr, decimal(words[1]), (uint32_t)hexadecimal(words[2]), hexadecimal(words[3]));
    if (strcmp(name, "read") == 0)
        return CALL(read_msr, decimal(words[1]), (uint32_t)hexadecimal(words[2]));
    if (strcmp(name, "signal") == 0)
        return CALL(signal_event, decimal(words[1]), decimal(words[2]));
    if (strcmp(name, "assert") == 0)
        return CALL(assert_irq, decimal(words[1]), (unsigned)hexadecimal(words[2]));
    if (strcmp(name, "absorb") == 0)
        return CALL(absorb_posted, decimal(words[1]), decimal(words[2]), hexadecimal(words[3]));
    if (strcmp(name, "load") == 0)
        return CALL(guest_load, hexadecimal(words[1]), decimal(words[2]));
    if (strcmp(name, "tick") == 0)
        return CALL(advance_time, strtoull(words[1], NULL, 10));
    if (strcmp(name, "take") == 0)
        return CALL(take_interrupt, decimal(words[1]));
    if (strcmp(name, "suspend") == 0)
        return CALL(suspend, decimal(words[1]));
    if (strcmp(name, "resume") == 0)
        return CALL(resume, decimal(words[1]));
    if (strcmp(name, "reset") == 0)
        return CALL(reset, decimal(words[1]));
    if (strcmp(name, "send") == 0)
        return CALL(send_interrupt, (unsigned)hexadecimal(words[1]), hexadecimal(words[2]));
    return peer_reply(PEER_UNSUPPORTED, 0);
}

/* Whether there is a board of the size that the last board line has. */
static bool is_open;

static bool open_board(const struct peer *peer, char **words)
{
    uint64_t ticket = strtoull(words[3], NULL, 10);
    if (strcmp(words[2], "sparse") != 0)
        return peer->open_board(decimal(words[1]), decimal(words[2]), ticket) != 0;
    return peer->open_sparse_board != NULL && peer->open_sparse_board(decimal(words[1]), ticket) != 0;
}

static void perform(const struct peer *peer, char *line)
{
    char *words[MOST_WORDS + 1] = { 0 };
    int count = 0;
    for (char *word = strtok(line, " "); word != NULL && count < MOST_WORDS; word = strtok(NULL, " "))
        words[count++] = word;
    for (int at = count; at < MOST_WORDS; at++)
        words[at] = line + strlen(line);
    if (count == 0 || words[0][0] == '#')
        return;
    if (strcmp(words[0], "board") == 0) {
        is_open = open_board(peer, words);
        return;
    }
    if (strcmp(words[0], "sync") == 0) {
        printf("= sync\n");
        return;
    }
    noticed = 0;
    write_reply(is_open ? answer(peer, words, count) : peer_reply(PEER_UNSUPPORTED, 0));
    fwrite(notices, 1, noticed, stdout);
}

/* Answers whole lines of what has been read, and returns how many bytes they had. */
static size_t perform_lines(const struct peer *peer, char *text, size_t length)
{
    size_t done = 0;
    for (char *end; (end = memchr(text + done, '\n', length - done)) != NULL;) {
        *end = '\0';
        perform(peer, text + done);
        done = (size_t)(end - text) + 1;
    }
    return done;
}

int peer_main(const struct peer *peer)
{
    static char text[1 << 16];
    size_t length = 0;
    for (ssize_t got; (got = read(STDIN_FILENO, text + length, sizeof text - length)) > 0;) {
        length += (size_t)got;
        size_t done = perform_lines(peer, text, length);
        length -= done;
        memmove(text, text + done, length);
        /* The peer on the other side may wait for these answers before it sends more. */
        fflush(stdout);
        if (length > LONGEST_LINE)
            return 1;
    }
    return 0;
}

/* What live pages cost: events on a board whose pages trap, and the same on one with live pages.
 *
 *   live [EVENTS]
 *
 * prints, for each event, the nanoseconds on either board, over that many events (1,000,000). The time of a post is
 * without that of the clock.
 *
 *   cc -std=c11 -O2 -Iinclude -pthread -o live bench/c/live.c build/libsynicboard.a */
#define _POSIX_C_SOURCE 200809L
#include <stdbool.h>
#include <stdio.h>
#include <stdlib.h>
#include <string.h>
#include <time.h>

#include "synicboard.h"

enum { SINT = 2, SLOT = 256, MESSAGE_PORT = 0, FLAG_PORT = 1, SIMP_PAGE = 0x2000, SIEFP_PAGE = 0x3000, AUTO_EOI = 1 << 17 };

static unsigned long events = 1000000;
static synicboard board = SYNICBOARD_CLOSED;
static uint8_t *pages[2];

static double now(void)
{
    struct timespec time;
    clock_gettime(CLOCK_MONOTONIC, &time);
    return (double)time.tv_sec * 1e9 + (double)time.tv_nsec;
}

static void write_register(uint32_t msr, uint64_t value)
{
    synicboard_write(&board, 0, msr, value);
}

static void open_board(bool is_live)
{
    if (synicboard_open(&board, 1, 4, 0) != SYNICBOARD_OK)
        exit(1);
    write_register(SYNICBOARD_MSR_SCONTROL, 1);
    write_register(SYNICBOARD_MSR_SIMP, SIMP_PAGE | 1);
    write_register(SYNICBOARD_MSR_SIEFP, SIEFP_PAGE | 1);
    write_register(SYNICBOARD_MSR_SINT0 + SINT, 0x50 | AUTO_EOI);
    synicboard_open_message_port(&board, MESSAGE_PORT, 0, SINT, 4);
    synicboard_open_event_port(&board, FLAG_PORT, 0, SINT, 0, 64);
    if (is_live && synicboard_make_live(&board, pages) != SYNICBOARD_OK)
        exit(1);
}

static double measure(const synicboard_event *event)
{
    double begin = now();
    for (unsigned long count = 0; count < events; count++)
        synicboard_perform(&board, event);
    return (now() - begin) / (double)events;
}

/* Of a post alone, whose slot is emptied each time. */
static double measure_post(bool is_live)
{
    synicboard_event post = { .kind = SYNICBOARD_POST, .port = MESSAGE_PORT, .message_type = 1, .length = 40 };
    synicboard_event empty = { .kind = SYNICBOARD_STORE, .address = SIMP_PAGE + SINT * SLOT, .length = 4 };
    double sum = 0, begin = now();
    for (unsigned long count = 0; count < events; count++)
        now();
    double of_clock = now() - begin;
    for (unsigned long count = 0; count < events; count++) {
        begin = now();
        synicboard_perform(&board, &post);
        sum += now() - begin;
        if (is_live)
            memset(pages[0] + SINT * SLOT, 0, 4);
        else
            synicboard_perform(&board, &empty);
    }
    return (sum - of_clock) / (double)events;
}

int main(int count, char **words)
{
    static const synicboard_event signal = { .kind = SYNICBOARD_SIGNAL, .port = FLAG_PORT }, take = { .kind = SYNICBOARD_TAKE },
        end_message = { .kind = SYNICBOARD_WRITE, .msr = SYNICBOARD_MSR_EOM };
    if (count > 1)
        events = strtoul(words[1], NULL, 10);
    for (int is_live = 0; is_live <= 1; is_live++) {
        open_board(is_live);
        printf("%s: signal %.1f ns", is_live ? "live pages" : "trapped pages", measure(&signal));
        printf(", EOM with nothing queued %.1f", measure(&end_message));
        printf(", take %.1f", measure(&take));
        printf(", post of 40 bytes into an empty slot %.1f\n", measure_post(is_live));
        synicboard_close(&board);
    }
}

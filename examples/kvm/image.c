/* The board saved as an image, and restored from it: in the file of a saved guest, or to replace the board
 * while the guest runs. In the latter case the processors, the guest's memory, and what devices have raised and
 * no processor has absorbed stay in place. */
#define _GNU_SOURCE
#include <errno.h>
#include <stdio.h>
#include <stdlib.h>
#include <time.h>

#include "vmm.h"

enum { MOST_LENGTH = 1 << 20 };         /* of a board of eight processors at most; docs/EMBEDDING.md has the largest */

static uint8_t *image;
static size_t length, room, longest;
static uint64_t restored;

static void reserve(size_t needed)
{
    if (needed <= room)
        return;
    room = 2 * needed;
    if ((image = realloc(image, room)) == NULL)
        fail("the image of the board");
}

void image_save(void)
{
    board_observe();
    do {
        reserve(length);
        synicboard_end end = synicboard_save(board, image, room);
        if (end.kind != SYNICBOARD_OK)
            fail("synicboard_save");
        length = end.length;
    } while (length > room);
}

/* The overlays are mapped again, since the pages of the new board are at other addresses. */
bool image_restore(void)
{
    synicboard_close(board);
    if (synicboard_restore(board, image, length).kind != SYNICBOARD_OK)
        return false;
    board_make_live(board);
    overlay_set();
    return true;
}

void image_trace(void)
{
    trace_begin(image, length);
}

void image_transfer(void)
{
    saved_transfer(&length, sizeof length);
    if (length > MOST_LENGTH)
        saved_refuse("the board of the saved guest is too large");
    reserve(length);
    saved_transfer(image, length);
}

static void replace_board(void)
{
    vp_pause_others();
    image_save();
    if (!image_restore())
        fail("synicboard_restore");
    vp_resume_others();
    restored++;
    longest = length > longest ? length : longest;
}

static void *run_replacing(void *unused)
{
    struct timespec period = { .tv_sec = vm.restore_every / 1000, .tv_nsec = vm.restore_every % 1000 * 1000000L };
    (void)unused;
    lock_acquire();
    while (!vm.is_stopping) {
        lock_release();
        nanosleep(&period, NULL);
        lock_acquire();
        replace_board();
    }
    lock_release();
    return NULL;
}

void image_start(void)
{
    pthread_t thread;
    if (vm.restore_every == 0)
        return;
    if ((errno = pthread_create(&thread, NULL, run_replacing, NULL)) != 0)
        fail("the thread that replaces the board");
    pthread_detach(thread);
}

void image_report(void)
{
    if (vm.restore_every != 0)
        fprintf(stderr, "vmm: restored the board %lu times, from images of at most %zu bytes\n", restored, longest);
}

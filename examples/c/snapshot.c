/* Saves a board in the middle of a message storm, while a timer is late, and continues in another
 * process, as a hypervisor does that moves a guest to another host.
 *
 *   snapshot             opens a board, saves it, and starts `snapshot restore` on its image
 *   snapshot restore     restores the board of the image on standard input, and runs its guest */
#define _POSIX_C_SOURCE 200809L
#include <inttypes.h>
#include <stdio.h>
#include <stdlib.h>
#include <string.h>
#include <sys/wait.h>
#include <unistd.h>

#include "synicboard.h"

enum { PORT = 3, SINT = 2, SLOT = 0x2000 + 0x100 * SINT, IMAGE = 1 << 20 };

static uint8_t image[IMAGE];

static void fail(const char *what)
{
    fprintf(stderr, "snapshot: %s\n", what);
    exit(1);
}

/* The guest has three messages, of which one is in the slot, and a timer that was due 200 units ago. */
static void storm(synicboard *board)
{
    if (synicboard_open(board, 1, 4, 0) != SYNICBOARD_OK)
        fail("no board");
    synicboard_write(board, 0, SYNICBOARD_MSR_SCONTROL, 1);
    synicboard_write(board, 0, SYNICBOARD_MSR_SIMP, 0x2001);
    synicboard_write(board, 0, SYNICBOARD_MSR_SINT0 + SINT, 0x50);
    synicboard_open_message_port(board, PORT, 0, SINT, 4);
    for (uint8_t letter = 'a'; letter <= 'c'; letter++)
        synicboard_post(board, PORT, 1, &letter, 1);
    synicboard_write(board, 0, SYNICBOARD_MSR_STIMER0_COUNT, 1000);
    synicboard_write(board, 0, SYNICBOARD_MSR_STIMER0_CONFIG, 0x20000 | 1);
    synicboard_suspend(board, 0); /* its timer is tried when it is resumed and the clock moves */
    synicboard_tick(board, 1200);
}

/* The guest reads the message in its slot, empties the slot, and ends the interrupt and the message. */
static void receive(synicboard *board)
{
    const uint8_t *page;
    static const uint8_t empty[4] = { 0 };
    if (!synicboard_message_page(board, 0, &page))
        fail("no message page");
    const uint8_t *slot = page + SLOT - 0x2000;
    if (slot[3] == 0x80)
        printf("timer %d, due at %d\n", slot[16], slot[24] + 256 * slot[25]);
    else
        printf("message %c\n", slot[16]);
    synicboard_take(board, 0);
    synicboard_store(board, SLOT, empty, sizeof empty);
    synicboard_write(board, 0, SYNICBOARD_MSR_EOM, 0);
    synicboard_write(board, 0, SYNICBOARD_MSR_EOI, 0);
}

static void go_on(void)
{
    synicboard board = SYNICBOARD_CLOSED;
    size_t length = fread(image, 1, sizeof image, stdin);
    synicboard_end end = synicboard_restore(&board, image, length);
    if (end.kind != SYNICBOARD_OK) {
        fprintf(stderr, "snapshot: line %" PRIu64 " of the image is wrong\n", end.line);
        exit(1);
    }
    printf("restored, with %d messages queued\n", synicboard_queued(&board, 0, SINT));
    synicboard_resume(&board, 0);
    synicboard_tick(&board, 1300);
    while (synicboard_next(&board, 0) != 0)
        receive(&board);
    synicboard_close(&board);
}

static void move(const char *program)
{
    synicboard board = SYNICBOARD_CLOSED;
    int ends[2];
    storm(&board);
    synicboard_end end = synicboard_save(&board, image, sizeof image);
    synicboard_close(&board);
    if (end.kind != SYNICBOARD_OK || end.length > sizeof image || pipe(ends) != 0)
        fail("no image");
    pid_t other = fork();
    if (other == 0) {
        dup2(ends[0], STDIN_FILENO);
        close(ends[0]);
        close(ends[1]);
        execl(program, program, "restore", (char *)NULL);
        fail("no other process");
    }
    close(ends[0]);
    if (other < 0 || write(ends[1], image, end.length) != (ssize_t)end.length)
        fail("no other process");
    close(ends[1]);
    int status;
    if (waitpid(other, &status, 0) != other || status != 0)
        fail("the other process failed");
}

int main(int count, char **words)
{
    if (count == 2 && strcmp(words[1], "restore") == 0)
        go_on();
    else
        move(words[0]);
    return 0;
}

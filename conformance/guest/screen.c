/* The screen: that of text, or a framebuffer, such as UEFI has. It may be absent. */
#include "guest.h"

enum { COLUMNS = 80, ROWS = 25, CELLS = COLUMNS * ROWS, WIDTH = 8, HEIGHT = 16, WHITE = 0x0700, COLOURS = 1 };

static volatile uint16_t *const text = (volatile uint16_t *)0xb8000;
static char shown[CELLS];
static unsigned row, column;

/* Of a framebuffer; 0 bytes a pixel if there is none. */
static volatile uint8_t *pixels;
static uint32_t pitch, bytes;

/* White is all ones in each order of the colours. */
static void draw(unsigned cell, char c)
{
    const uint8_t *rows = font[c < ' ' || c > '~' ? '?' - ' ' : c - ' '];
    volatile uint8_t *to = pixels + cell / COLUMNS * HEIGHT * pitch + cell % COLUMNS * WIDTH * bytes;
    for (unsigned y = 0; y < HEIGHT; y++, to += pitch)
        for (unsigned x = 0; x < WIDTH * bytes; x++)
            to[x] = (rows[y / 2] << x / bytes & 0x80) != 0 ? 0xff : 0;
}

/* Writes of a screen are slow where a hypervisor emulates them. */
static void set(unsigned cell, char c)
{
    if (shown[cell] == c)
        return;
    shown[cell] = c;
    if (bytes != 0)
        draw(cell, c);
    else
        text[cell] = WHITE | (uint8_t)c;
}

/* The page tables have the first 4 GB. */
void screen_open(void)
{
    const struct framebuffer *frame = boot_framebuffer();
    if (frame != NULL && frame->kind == COLOURS && frame->width >= COLUMNS * WIDTH && frame->height >= ROWS * HEIGHT
        && frame->address + (uint64_t)frame->pitch * frame->height <= 1ull << 32) {
        pixels = (volatile uint8_t *)(uintptr_t)frame->address;
        pitch = frame->pitch;
        bytes = (frame->bits + 7u) / 8;
    }
    for (unsigned cell = 0; cell < CELLS; cell++)
        set(cell, ' ');
}

/* By half a screen. */
static void scroll(void)
{
    row = ROWS / 2;
    for (unsigned cell = 0; cell < CELLS; cell++)
        set(cell, cell < row * COLUMNS ? shown[cell + (ROWS - row) * COLUMNS] : ' ');
}

void screen_put(char c)
{
    if (row == ROWS)
        scroll();
    if (c == '\n') {
        column = 0;
        row++;
    } else if (column < COLUMNS)
        set(row * COLUMNS + column++, c);
}

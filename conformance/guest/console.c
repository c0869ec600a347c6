/* The first serial port, which may be absent, and the screen. */
#include "guest.h"

enum { SERIAL = 0x3f8 };

static bool has_serial;

/* 115200 baud, 8 bits, no parity. A port that is absent reads as ones. */
void console_open(void)
{
    static const struct { uint8_t offset, value; } setup[] = {
        { 1, 0 }, { 3, 0x80 }, { 0, 1 }, { 1, 0 }, { 3, 3 }, { 2, 7 }, { 4, 3 },
    };
    has_serial = in(SERIAL + 5) != 0xff;
    for (unsigned at = 0; has_serial && at < sizeof setup / sizeof setup[0]; at++)
        out(SERIAL + setup[at].offset, setup[at].value);
    screen_open();
}

static void put(char c)
{
    screen_put(c);
    while (has_serial && (in(SERIAL + 5) & 0x20) == 0)
        pause_some(20);
    if (has_serial)
        out(SERIAL, (uint8_t)c);
}

void print(const char *text)
{
    while (*text != 0)
        put(*text++);
}

/* Without its end. */
void print_line(const char *line)
{
    while (*line != 0 && *line != '\n')
        put(*line++);
}

void show(const char *what, uint64_t value, unsigned radix, const char *end)
{
    char digits[24];
    print(what);
    put_number(digits, value, radix);
    print(digits);
    print(end);
}

bool console_has_input(void)
{
    return (in(SERIAL + 5) & 1) != 0;
}

char console_read(void)
{
    return (char)in(SERIAL);
}

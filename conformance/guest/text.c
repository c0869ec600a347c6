/* Lines, words and numbers. */
#include "guest.h"

bool begins(const char *text, const char *word)
{
    while (*word != 0)
        if (*text++ != *word++)
            return false;
    return true;
}

static unsigned digit_of(char c)
{
    if (c >= '0' && c <= '9')
        return (unsigned)(c - '0');
    return c >= 'a' && c <= 'f' ? (unsigned)(c - 'a' + 10) : 99;
}

/* The number at *at, after spaces; *at is moved to its end. */
uint64_t parse(const char **at, unsigned radix)
{
    uint64_t number = 0;
    while (**at == ' ')
        ++*at;
    for (unsigned digit; (digit = digit_of(**at)) < radix; ++*at)
        number = number * radix + digit;
    return number;
}

const char *next_line(const char *at)
{
    while (*at != 0 && *at != '\n')
        at++;
    return *at == 0 ? at : at + 1;
}

const char *second_word(const char *line)
{
    while (*line > ' ')
        line++;
    return line;
}

/* Both return the end, where a zero is. */
char *put_text(char *to, const char *text)
{
    while (*text != 0)
        *to++ = *text++;
    *to = 0;
    return to;
}

char *put_number(char *to, uint64_t number, unsigned radix)
{
    char digits[24], *at = digits + sizeof digits - 1;
    *at = 0;
    do
        *--at = "0123456789abcdef"[number % radix];
    while ((number /= radix) != 0);
    return put_text(to, at);
}

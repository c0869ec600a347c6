/* The guest as a peer of tools/conform: scripts come at the serial port. A script is answered when its last line, a
 * read of SVERSION or `sync`, is there, and is run again, before it is answered, if it came too late. */
#include "guest.h"

enum { TEXT = 1 << 16, LINE = 160, TURNS = 4, LONGER = 3, MOST_TIME = 20000 };

static char text[TEXT], answers[TEXT];
static char *answers_end;
static bool is_open;

/* The answer to what a guest cannot do; NULL if it can. */
static const char *refusal(const char *at)
{
    static const char *const own[] = { "write ", "read ", "take ", "load ", "store ", "tick ", "assert " };
    const char *word = second_word(at);
    bool is_own = false;
    for (unsigned i = 0; i < sizeof own / sizeof own[0]; i++)
        is_own |= begins(at, own[i]);
    if (!is_open || !is_own)
        return "= unsupported";
    if (begins(at, "tick "))
        return parse(&word, 10) > MOST_TIME ? "= unsupported" : NULL;
    if (begins(at, "load ") || begins(at, "store "))
        return parse(&word, 16) / PAGE >= board_pages ? "= refused 11" : NULL;
    if (parse(&word, 10) >= board_cpus)
        return "= refused 14";
    return turns_over(at) ? "= unsupported" : NULL;
}

static void open_script(const char *at)
{
    const char *word = second_word(at);
    uint64_t cpus_wanted = parse(&word, 10), pages_wanted = parse(&word, 10);
    is_open = cpus_wanted != 0 && cpus_wanted <= started && pages_wanted != 0 && pages_wanted <= PAGES;
    if (is_open)
        open_board(at);
}

static void answer(const char *at)
{
    char found[LINE];
    const char *refused = begins(at, "sync") ? "= sync" : refusal(at);
    if (refused == NULL)
        refused = perform_event(at, found) ? found : "= done";
    if (answers_end < answers + TEXT - LINE - 2)
        answers_end = put_text(put_text(answers_end, refused), "\n");
}

/* Returns whether it was in time. */
static bool answer_all(void)
{
    bool has_time = false;
    answers_end = answers;
    for (const char *at = text; *at != 0; at = next_line(at)) {
        bool is_tick = begins(at, "tick ");
        if (is_tick && is_open && has_time && is_late())
            return false;
        has_time |= is_tick;
        if (begins(at, "board "))
            open_script(at);
        else
            answer(at);
    }
    return !has_time || !is_open || !is_late();
}

/* A part of a script, which has no board line, changes the board, and so is not run again. */
static void answer_script(void)
{
    uint64_t usual = unit;
    for (unsigned turn = 0; turn < TURNS && !answer_all() && begins(text, "board "); turn++)
        unit *= LONGER;
    unit = usual;
    *answers_end = 0;
    print(answers);
}

void serve(void)
{
    processors_start();
    print("serving\n");
    for (unsigned length = 0, line = 0;;) {
        while (!console_has_input())
            pause_some(20000);
        text[length++] = console_read();
        if (text[length - 1] != '\n' && length < sizeof text - 1)
            continue;
        text[length] = 0;
        const char *at = text + line;
        bool is_last = begins(at, "read 0 40000081\n") || begins(at, "sync\n");
        length = *at == '\n' ? line : length;
        line = length;
        if (!is_last)
            continue;
        answer_script();
        length = line = 0;
    }
}

/* Running the cases, and the report, which `conform read` compares with the stored answers. */
#include "guest.h"

enum verdict { PASSED, DIFFERS, LATE, SKIPPED, VERDICTS };
enum { LINE = 160, TURNS = 4, LONGER = 3, ANSWERS = 1 << 15 };

static const char *const names[VERDICTS] = { "passed", "differs", "late", "skipped" };

/* The answers of the case that runs, a line each: a serial port takes time. */
static char answers[ANSWERS];
static char *answers_end;

/* FNV-1a, by which the report names the suite, and the answers of a case that passed. */
static uint32_t sum_of(const char *text, const char *end)
{
    uint32_t sum = 2166136261u;
    while (text < end)
        sum = (sum ^ (uint8_t)*text++) * 16777619u;
    return sum;
}

static const char *next_case(const char *at)
{
    while (*at != 0 && !begins(at, "case "))
        at = next_line(at);
    return at;
}

static bool same(const char *answer, const char *line)
{
    while (*answer != 0 && *answer == *line)
        answer++, line++;
    return *answer == 0 && (*line == 0 || *line == '\n');
}

/* Runs the lines after the board line. */
static enum verdict run(const char *board)
{
    enum verdict verdict = PASSED;
    bool has_time = false;
    open_board(board);
    answers_end = answers;
    for (const char *at = next_line(board); *at != 0 && !begins(at, "case "); at = next_line(at)) {
        char answer[LINE];
        if (*at == '=')
            continue;
        if (begins(at, "tick ") && has_time && is_late())
            return LATE;
        has_time |= begins(at, "tick ");
        if (!perform_event(at, answer))
            continue;
        if (!same(answer, next_line(at)))
            verdict = DIFFERS;
        if (answers_end < answers + ANSWERS - LINE - 2)
            answers_end = put_text(put_text(answers_end, answer), "\n");
    }
    return has_time && is_late() ? LATE : verdict;
}

/* A case that came too late runs again with a longer unit. One that differs runs again too, and takes wait longer. One
 * that passes at any turn has passed. */
static enum verdict run_often(const char *board, unsigned *turns)
{
    uint64_t usual_unit = unit, usual_settle = settle;
    enum verdict verdict = LATE;
    for (*turns = 0; *turns < TURNS && verdict != PASSED; ++*turns) {
        verdict = run(board);
        unit *= verdict == LATE ? LONGER : 2;       /* longer takes need a longer unit */
        settle *= verdict == DIFFERS ? 2 : 1;
    }
    unit = usual_unit;
    settle = usual_settle;
    return verdict;
}

/* With the sum of the answers that were seen, or, before those that differ, that of the script. */
static void report(const char *name, enum verdict verdict, unsigned turns, uint64_t time)
{
    const char *board = next_line(name);
    print(names[verdict]);
    print(" ");
    print_line(name);
    if (verdict == PASSED)
        show(" ", sum_of(answers, answers_end), 16, "");
    else if (verdict == DIFFERS)
        show(" ", sum_of(board, next_case(board)), 16, "");
    show(" # ", time / 10000, 10, " ms");
    if (turns > 1)
        show(", turns ", turns, 10, "");
    print("\n");
    if (verdict != DIFFERS)
        return;
    *answers_end = 0;
    print(answers);
}

/* The other processors start when a case needs them. */
static bool has_processors(uint64_t count)
{
    static bool have_started;
    if (count > 1 && !have_started) {
        have_started = true;
        processors_start();
        show("processors ", started, 10, "\n");
    }
    return count <= started;
}

static const char *why_skipped(const char *board)
{
    const char *word = second_word(board), *why = not_offered(next_line(board));
    return why != NULL || has_processors(parse(&word, 10)) ? why : "more processors";
}

static void skip(const char *name, const char *why)
{
    print("skipped ");
    print_line(name);
    print(": ");
    print(why);
    print("\n");
}

/* Whether a name begins as one of a list, which ends at a space. */
static bool is_listed(const char *name, const char *list)
{
    while (*list > ' ') {
        const char *at = name;
        while (*list > ' ' && *list != ',' && *at == *list)
            at++, list++;
        if (*list <= ' ' || *list == ',')
            return true;
        while (*list > ' ' && *list != ',')
            list++;
        list += *list == ',';
    }
    return false;
}

static bool is_wanted(const char *name)
{
    if (boot_without != NULL && is_listed(name, boot_without))
        return false;
    return boot_only == NULL || is_listed(name, boot_only);
}

static enum verdict run_case(const char *name, const char *board)
{
    const char *why = is_wanted(name) ? why_skipped(board) : "not wanted";
    if (why != NULL) {
        skip(name, why);
        return SKIPPED;
    }
    uint64_t from = counter();
    unsigned turns;
    enum verdict verdict = run_often(board, &turns);
    report(name, verdict, turns, counter() - from);
    return verdict;
}

void run_all(void)
{
    unsigned counts[VERDICTS] = { 0 };
    uint64_t from = counter();
    const char *end = suite;
    while (*end != 0)
        end++;
    show("suite ", sum_of(suite, end), 16, "\n");
    for (const char *at = next_case(suite), *board; *at != 0; at = next_case(board)) {
        board = next_line(at);
        counts[run_case(second_word(at) + 1, board)]++;
    }
    for (unsigned verdict = 0; verdict < VERDICTS; verdict++) {
        show(verdict == 0 ? "end: " : ", ", counts[verdict], 10, " ");
        print(names[verdict]);
    }
    show(" # ", (counter() - from) / 10000, 10, " ms\n");
}

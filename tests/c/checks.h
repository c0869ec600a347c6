/* What the programs of this folder except script.c share: counted checks, memory that can be refused, and a
 * text of everything that can be queried of a board. */
#ifndef CHECKS_H
#define CHECKS_H

#include <stdbool.h>
#include <stddef.h>
#include <stdint.h>

#include "synicboard.h"

enum { PAGE = 4096, SOURCES = 16, PROCESSORS = 8, MOST_PROCESSORS = 64 /* of a sparse board */, PAGES = 64 };

/* The first register of each group. */
enum {
    REFERENCE_COUNTER = SYNICBOARD_MSR_TIME_REF_COUNT,
    EOI = SYNICBOARD_MSR_EOI,
    SCONTROL = SYNICBOARD_MSR_SCONTROL,
    SIEFP = SYNICBOARD_MSR_SIEFP,
    SIMP = SYNICBOARD_MSR_SIMP,
    EOM = SYNICBOARD_MSR_EOM,
    SINT0 = SYNICBOARD_MSR_SINT0,
    STIMER0_CONFIG = SYNICBOARD_MSR_STIMER0_CONFIG,
    STIMER0_COUNT = SYNICBOARD_MSR_STIMER0_COUNT
};

/* ---- Checks ---- */

extern unsigned checks_passed, checks_failed;

struct test {
    const char *name;
    void (*run)(void);
};

/* Runs tests, each of which must free all memory. Prints each failed check, and counts them in the
 * last line. Returns the exit status of the program: 1 if one failed. */
int run_tests(const struct test *tests, size_t count);

void check(bool holds, const char *what, int line);
void check_number(uint64_t number, uint64_t wanted, const char *what, int line);

/* Checks that a reply has this kind; or is a refusal for this reason; or that no event was
 * performed for this reason, and all other fields are 0. */
void check_reply(synicboard_reply reply, uint8_t kind, const char *what, int line);
void check_refusal(synicboard_reply reply, uint8_t refusal, const char *what, int line);
void check_fault(synicboard_reply reply, uint8_t fault, const char *what, int line);

#define CHECK(condition) check((condition), #condition, __LINE__)
#define CHECK_NUMBER(number, wanted) check_number((number), (wanted), #number, __LINE__)
#define CHECK_REPLY(reply, kind) check_reply((reply), (kind), #reply, __LINE__)
#define CHECK_REFUSAL(reply, refusal) check_refusal((reply), (refusal), #reply, __LINE__)
#define CHECK_FAULT(reply, fault) check_fault((reply), (fault), #reply, __LINE__)

/* ---- Memory: the linker sends malloc, calloc, realloc and free here (--wrap) ---- */

/* How often memory was allocated and freed since the last `refuse`, and how many blocks are
 * allocated now. */
extern _Atomic size_t requests, returns, blocks_out;

/* Restarts the count, and refuses the allocation of that number, counted from 1; none for 0. */
void refuse(size_t number);

/* ---- Boards as texts ---- */

struct text {
    char bytes[1 << 18];
    size_t length;
};

/* Writes everything that can be queried of a board, including processors, sources and pages that do
 * not exist. */
void describe(synicboard *board, struct text *text);

/* Checks that two texts are the same; if not, prints the first lines that differ. */
void check_same(const struct text *one, const struct text *other, int line);

#define CHECK_SAME(one, other) check_same((one), (other), __LINE__)

#endif

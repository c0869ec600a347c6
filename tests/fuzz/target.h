/* What the two files of the fuzz target share: the boards of one input, and the calls that check
 * them. */
#ifndef TARGET_H
#define TARGET_H

#include <stdbool.h>
#include <stddef.h>
#include <stdint.h>
#include <stdio.h>
#include <stdlib.h>
#include <string.h>

#include "../c/by_sparse.h"
#include "synicboard.h"

enum { LINES = 4 };

/* Boards with the same history, the posted words of one of them, and the trace of all. */
struct fuzz {
    synicboard by_struct, by_call;
    struct sparse sparse;       /* with the guest's memory, unless the two boards are sparse */
    synicboard_shared shared;   /* open if the input asks for it */
    uint8_t processors, pages;  /* no pages if the two boards are sparse */
    synicboard_line lines[LINES];
    uint64_t posted[64][4];     /* the bits of the posted words */
    synicboard_wide_view view;  /* of `by_struct` */
    char *trace;
    size_t length, capacity;
    uint64_t entries;
    uint8_t last_notice;        /* its kind, for the features */
};

struct fuzz *fuzz_open(uint8_t processors, uint8_t pages, uint64_t ticket, bool is_shared);
struct fuzz *fuzz_open_sparse(uint8_t processors, uint64_t ticket);
void fuzz_close(struct fuzz *fuzz);
void fuzz_event(struct fuzz *fuzz, const synicboard_event *event);
void fuzz_batch(struct fuzz *fuzz, const synicboard_event *events, size_t count, size_t spare);
void fuzz_raise(struct fuzz *fuzz, uint8_t line, uint8_t vp, uint8_t vector);
void fuzz_absorb(struct fuzz *fuzz, uint8_t line, uint8_t vp, uint8_t part);
void fuzz_split(struct fuzz *fuzz, uint8_t line);
void fuzz_compare_queries(struct fuzz *fuzz);
void fuzz_short_notices(struct fuzz *fuzz, uint8_t length);
void fuzz_no_kind(struct fuzz *fuzz, uint8_t kind);
void fuzz_pages(struct fuzz *fuzz, uint8_t number);
void fuzz_text(const uint8_t *text, size_t length);

#endif

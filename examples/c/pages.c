/* Pages that can be mapped into a guest directly. Each page of a board is a whole page of the host,
 * which KVM, for example, accepts as a read-only memory slot (docs/EMBEDDING.md says when a guest may
 * read it).
 *
 *   cc -I include examples/c/pages.c build/libsynicboard.a -o pages */
#define _DEFAULT_SOURCE /* for mprotect */
#include <stdint.h>
#include <stdio.h>
#include <sys/mman.h>

#include "synicboard.h"

enum { PAGE = 4096, PROCESSORS = 8, PAGES = 64 };

/* Whether the bytes are exactly one page of the host: its protection can be changed and restored.
 * The guest's mapping is read-only; the board writes through its own. */
static bool is_mappable(const uint8_t *page)
{
    return (uintptr_t)page % PAGE == 0 && mprotect((void *)page, PAGE, PROT_READ) == 0
        && mprotect((void *)page, PAGE, PROT_READ | PROT_WRITE) == 0;
}

int main(void)
{
    synicboard board = SYNICBOARD_CLOSED;
    unsigned mappable = 0;
    const uint8_t *page;
    if (synicboard_open(&board, PROCESSORS, PAGES, 0) != SYNICBOARD_OK)
        return 1;
    for (uint64_t number = 0; number < PAGES; number++)
        mappable += synicboard_guest_page(&board, number, &page) && is_mappable(page);
    for (uint8_t vp = 0; vp < PROCESSORS; vp++) {
        mappable += synicboard_message_page(&board, vp, &page) && is_mappable(page);
        mappable += synicboard_flag_page(&board, vp, &page) && is_mappable(page);
    }
    synicboard_close(&board);
    printf("%u of %u pages can be mapped\n", mappable, PAGES + 2 * PROCESSORS);
    return 0;
}

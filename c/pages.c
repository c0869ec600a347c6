/* The pages of a board are pages of the host, so that they can be mapped. The proved code allocates
 * each by a malloc of its size, and `./library` redirects its calls of malloc and free to this file. Live
 * pages may lie in memory of the caller's, which is then not freed. */
#include <pthread.h>
#include <stdlib.h>
#include "nulls.h"

enum { PAGE = 4096, MOST = 128 };

/* The blocks of a page's size that a thread allocates in a call of make_live: how many there were, the last of
 * them, and where those from `first` on lie, if that is given. */
struct blocks { uint8_t *last[MOST]; unsigned count; unsigned first; uint8_t *const *given; };

/* Those of a call in this thread; null outside of it. */
static _Thread_local struct blocks *seen;

/* Pages of callers that boards use. */
struct borrowed { struct borrowed *next; unsigned left; unsigned count; uint8_t *pages[]; };

static struct borrowed *all_borrowed;
static pthread_mutex_t borrowed_lock = PTHREAD_MUTEX_INITIALIZER;

void *page_malloc(size_t size);
void page_free(void *block);
uint8_t proved_synicboard_make_live(synicboard *board);

void *page_malloc(size_t size)
{
    if (size != PAGE)
        return malloc(size);
    if (seen == NULL)
        return aligned_alloc(PAGE, PAGE);
    unsigned number = seen->count++;
    uint8_t *block = seen->given != NULL && number >= seen->first ? seen->given[number - seen->first] : aligned_alloc(PAGE, PAGE);
    seen->last[number % MOST] = block;
    return block;
}

/* The pages of the board that has a page, and the page's number there; null if no board has it. */
static struct borrowed **find(const uint8_t *page, unsigned *number)
{
    for (struct borrowed **at = &all_borrowed; *at != NULL; at = &(*at)->next)
        for (*number = 0; *number < (*at)->count; ++*number)
            if ((*at)->pages[*number] == page)
                return at;
    return NULL;
}

/* Whether a page of the host was borrowed. It is given back, and a board of which no page is left is forgotten. */
static bool was_borrowed(const uint8_t *page)
{
    unsigned number;
    struct borrowed **at = find(page, &number);
    if (at == NULL)
        return false;
    struct borrowed *borrowed = *at;
    borrowed->pages[number] = NULL;
    if (--borrowed->left == 0) {
        *at = borrowed->next;
        free(borrowed);
    }
    return true;
}

void page_free(void *block)
{
    bool is_borrowed = false;
    if (block != NULL && (uintptr_t)block % PAGE == 0) {
        pthread_mutex_lock(&borrowed_lock);
        is_borrowed = was_borrowed(block);
        pthread_mutex_unlock(&borrowed_lock);
    }
    if (!is_borrowed)
        free(block);
}

/* How many pages the processors have, two each. */
static unsigned count_pages(const synicboard *board)
{
    const uint8_t *page = NULL;
    uint8_t processors = 0;
    while (synicboard_message_page(board, processors, &page))
        processors++;
    return 2U * processors;
}

static uint8_t make_live(synicboard *board, struct blocks *blocks)
{
    seen = blocks;
    uint8_t answer = proved_synicboard_make_live(board);
    seen = NULL;
    return answer;
}

/* The proved call allocates the live pages last, in their order, each as one block. */
uint8_t synicboard_make_live(synicboard *board, uint8_t **pages)
{
    if (pages == NULL)
        return SYNICBOARD_NO_HANDLE;
    BOARD(board)
    struct blocks blocks = { .count = 0 };
    uint8_t answer = make_live(board, &blocks);
    if (answer != SYNICBOARD_OK)
        return answer;
    unsigned count = count_pages(board);
    for (unsigned number = 0; number < count; number++)
        pages[number] = blocks.last[(blocks.count - count + number) % MOST];
    return SYNICBOARD_OK;
}

/* How many blocks the call allocates before the live pages: tried on a board of as many processors. */
static uint8_t count_before(unsigned count, unsigned *before)
{
    synicboard board = SYNICBOARD_CLOSED;
    struct blocks blocks = { .count = 0 };
    uint8_t answer = synicboard_open_sparse(&board, (uint8_t)(count / 2), 0);
    if (answer == SYNICBOARD_OK)
        answer = make_live(&board, &blocks);
    synicboard_close(&board);
    *before = blocks.count - count;
    return answer;
}

/* Borrows pages, which page_free does not free then, unless another board has one of them. */
static uint8_t borrow(uint8_t *const *pages, unsigned count)
{
    struct borrowed *borrowed = malloc(sizeof *borrowed + count * sizeof *borrowed->pages);
    if (borrowed == NULL)
        return SYNICBOARD_NO_MEMORY;
    bool is_borrowed = false;
    unsigned found;
    borrowed->left = borrowed->count = count;
    pthread_mutex_lock(&borrowed_lock);
    for (unsigned number = 0; number < count; number++) {
        borrowed->pages[number] = pages[number];
        is_borrowed = is_borrowed || find(pages[number], &found) != NULL;
    }
    if (!is_borrowed) {
        borrowed->next = all_borrowed;
        all_borrowed = borrowed;
    }
    pthread_mutex_unlock(&borrowed_lock);
    if (is_borrowed)
        free(borrowed);
    return is_borrowed ? SYNICBOARD_BAD_PAGE : SYNICBOARD_OK;
}

static void take_back(uint8_t *const *pages, unsigned from, unsigned count)
{
    pthread_mutex_lock(&borrowed_lock);
    for (unsigned number = from; number < count; number++)
        was_borrowed(pages[number]);
    pthread_mutex_unlock(&borrowed_lock);
}

/* Whether each is a page, and none is there twice. */
static bool are_pages(uint8_t *const *pages, unsigned count)
{
    for (unsigned number = 0; number < count; number++) {
        if (pages[number] == NULL || (uintptr_t)pages[number] % PAGE != 0)
            return false;
        for (unsigned other = 0; other < number; other++)
            if (pages[other] == pages[number])
                return false;
    }
    return true;
}

uint8_t synicboard_make_live_in(synicboard *board, uint8_t *const *pages)
{
    if (pages == NULL)
        return SYNICBOARD_NO_HANDLE;
    BOARD(board)
    if (!board->is_open || synicboard_is_live(board))
        return board->is_open ? SYNICBOARD_IS_LIVE : SYNICBOARD_IS_CLOSED;
    unsigned count = count_pages(board);
    struct blocks blocks = { .given = pages };
    if (!are_pages(pages, count))
        return SYNICBOARD_BAD_PAGE;
    uint8_t answer = count_before(count, &blocks.first);
    if (answer != SYNICBOARD_OK)
        return answer;
    if ((answer = borrow(pages, count)) != SYNICBOARD_OK)
        return answer;
    answer = make_live(board, &blocks);
    unsigned used = blocks.count < blocks.first ? 0 : blocks.count - blocks.first;
    take_back(pages, answer == SYNICBOARD_OK ? count : used, count);
    return answer;
}

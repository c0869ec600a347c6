/* Shared boards: a lock around each proved call. A closed handle is a closed board. */
#include <pthread.h>
#include <stdlib.h>
#include "nulls.h"
#include "recorded.h"

/* What the handle of a shared board points to. A board that is not recorded has no history. */
struct shared { pthread_mutex_t lock; bool is_recorded; recorded recorded; };

/* What is under the lock of a handle, which this acquires; null, and why, if the handle is closed or this thread
 * has the lock. */
static struct shared *locked(synicboard_shared *handle, uint8_t *outcome)
{
    *outcome = SYNICBOARD_IS_CLOSED;
    if (handle == NULL || !handle->is_open)
        return NULL;
    struct shared *shared = handle->at;
    *outcome = pthread_mutex_lock(&shared->lock) == 0 ? SYNICBOARD_OK : SYNICBOARD_IS_HELD;
    return *outcome == SYNICBOARD_OK ? shared : NULL;
}

/* A lock that says so if its own thread acquires it again, or another releases it. */
static int init_lock(pthread_mutex_t *lock)
{
    pthread_mutexattr_t attributes;
    if (pthread_mutexattr_init(&attributes) != 0)
        return 1;
    int failed = pthread_mutexattr_settype(&attributes, PTHREAD_MUTEX_ERRORCHECK) || pthread_mutex_init(lock, &attributes);
    pthread_mutexattr_destroy(&attributes);
    return failed;
}

/* Puts an open board under a lock. */
static uint8_t share(synicboard_shared *handle, recorded opened, bool is_recorded)
{
    struct shared *shared = malloc(sizeof *shared);
    if (shared == NULL || init_lock(&shared->lock) != 0) {
        free(shared);
        return SYNICBOARD_NO_MEMORY;
    }
    shared->is_recorded = is_recorded;
    shared->recorded = opened;
    *handle = (synicboard_shared){ shared, true };
    return SYNICBOARD_OK;
}

/* Whether a shared board may be opened in a handle. */
static uint8_t is_free(const synicboard_shared *handle)
{
    if (handle == NULL)
        return SYNICBOARD_NO_HANDLE;
    return handle->is_open ? SYNICBOARD_IS_OPEN : SYNICBOARD_OK;
}

uint8_t synicboard_open_recorded(synicboard_shared *handle, uint8_t processors, uint8_t pages, uint64_t first_ticket)
{
    recorded opened = { 0 };
    uint8_t answer = is_free(handle);
    if (answer == SYNICBOARD_OK)
        answer = proved_synicboard_recorded_open(&opened, processors, pages, first_ticket);
    if (answer == SYNICBOARD_OK && (answer = share(handle, opened, true)) != SYNICBOARD_OK)
        proved_synicboard_recorded_close(&opened);
    return answer;
}

uint8_t synicboard_open_shared(synicboard_shared *handle, uint8_t processors, uint8_t pages, uint64_t first_ticket)
{
    synicboard board = SYNICBOARD_CLOSED;
    uint8_t answer = is_free(handle);
    if (answer == SYNICBOARD_OK)
        answer = synicboard_open(&board, processors, pages, first_ticket);
    if (answer == SYNICBOARD_OK && (answer = synicboard_share(handle, &board)) != SYNICBOARD_OK)
        synicboard_close(&board);
    return answer;
}

uint8_t synicboard_share(synicboard_shared *handle, synicboard *board)
{
    uint8_t answer = is_free(handle);
    if (answer != SYNICBOARD_OK)
        return answer;
    if (board == NULL || !board->is_open)
        return SYNICBOARD_IS_CLOSED;
    answer = share(handle, (recorded){ .board = *board }, false);
    if (answer == SYNICBOARD_OK)
        *board = (synicboard)SYNICBOARD_CLOSED;
    return answer;
}

uint8_t synicboard_unshare(synicboard_shared *handle, synicboard *board)
{
    if (board == NULL)
        return SYNICBOARD_NO_HANDLE;
    if (board->is_open)
        return SYNICBOARD_IS_OPEN;
    if (handle == NULL || !handle->is_open)
        return SYNICBOARD_IS_CLOSED;
    struct shared *shared = handle->at;
    *board = shared->recorded.board;
    shared->recorded.board = (synicboard)SYNICBOARD_CLOSED;
    synicboard_close_shared(handle);
    return SYNICBOARD_OK;
}

void synicboard_close_shared(synicboard_shared *handle)
{
    if (handle == NULL || !handle->is_open)
        return;
    struct shared *shared = handle->at;
    pthread_mutex_destroy(&shared->lock);
    if (shared->is_recorded)
        proved_synicboard_recorded_close(&shared->recorded);
    else
        synicboard_close(&shared->recorded.board);
    free(shared);
    *handle = (synicboard_shared)SYNICBOARD_SHARED_CLOSED;
}

synicboard *synicboard_hold(synicboard_shared *handle)
{
    uint8_t outcome;
    struct shared *shared = locked(handle, &outcome);
    return shared != NULL ? &shared->recorded.board : NULL;
}

uint8_t synicboard_release(synicboard_shared *handle)
{
    if (handle == NULL || !handle->is_open)
        return SYNICBOARD_IS_CLOSED;
    struct shared *shared = handle->at;
    return pthread_mutex_unlock(&shared->lock) == 0 ? SYNICBOARD_OK : SYNICBOARD_NOT_HELD;
}

/* The reply of a call that a thread makes while it holds the board. */
static synicboard_reply held_already(void)
{
    return (synicboard_reply){ .kind = SYNICBOARD_NOT_PERFORMED, .fault = SYNICBOARD_IS_HELD };
}

/* The reply of a board that is not recorded, with the notices of its event. */
static synicboard_reply with_notices(const synicboard *board, synicboard_reply reply, synicboard_notice *notices, size_t room)
{
    if (reply.notices != 0)
        synicboard_notices(board, notices, room);
    return reply;
}

synicboard_reply synicboard_act(synicboard_shared *handle, uint8_t actor, const synicboard_event *event, synicboard_notice *notices, size_t room)
{
    EVENT(event) ROOM(notices, room, synicboard_notice)
    uint8_t outcome;
    struct shared *shared = locked(handle, &outcome);
    if (outcome == SYNICBOARD_IS_HELD)
        return held_already();
    recorded *history = shared != NULL ? &shared->recorded : &(struct recorded){ 0 };
    synicboard_reply reply = shared != NULL && !shared->is_recorded
        ? with_notices(&history->board, synicboard_perform(&history->board, event), notices, room)
        : proved_synicboard_recorded_act(history, actor, event, notices, room);
    synicboard_release(handle);
    return reply;
}

synicboard_reply synicboard_act_absorb(synicboard_shared *handle, uint8_t actor, synicboard_line *line, uint8_t vp, uint8_t part, synicboard_notice *notices, size_t room)
{
    LINE(line) ROOM(notices, room, synicboard_notice)
    uint8_t outcome;
    struct shared *shared = locked(handle, &outcome);
    if (outcome == SYNICBOARD_IS_HELD)
        return held_already();
    recorded *history = shared != NULL ? &shared->recorded : &(struct recorded){ 0 };
    synicboard_reply reply = shared != NULL && !shared->is_recorded
        ? with_notices(&history->board, synicboard_absorb_line(&history->board, line, vp, part), notices, room)
        : proved_synicboard_recorded_absorb(history, actor, line, vp, part, notices, room);
    synicboard_release(handle);
    return reply;
}

synicboard_settled synicboard_settle(synicboard_shared *handle, uint8_t *room, size_t length)
{
    ROOM(room, length, uint8_t)
    uint8_t outcome;
    struct shared *shared = locked(handle, &outcome);
    if (outcome == SYNICBOARD_IS_HELD)
        return (synicboard_settled){ .kind = outcome };
    synicboard_settled settled = { .kind = SYNICBOARD_NOT_RECORDED };
    if (shared == NULL || shared->is_recorded)
        settled = proved_synicboard_recorded_settle(shared != NULL ? &shared->recorded : &(recorded){ 0 }, room, length);
    synicboard_release(handle);
    return settled;
}

/* What numbers mean, in words, and the version. The texts are those of the comments of synicboard.h (tests/c/run). */
#include <stddef.h>

#include "synicboard.h"

static const char *const outcomes[] = {
    [SYNICBOARD_OK] = "ok",
    [SYNICBOARD_BAD_SIZE] = "not 1 to 8 processors, or not 1 to 64 pages; sparse: not 1 to 64 processors",
    [SYNICBOARD_NO_MEMORY] = "an allocation failed",
    [SYNICBOARD_IS_OPEN] = "the handle to open is already open",
    [SYNICBOARD_IS_CLOSED] = "the handle is closed",
    [SYNICBOARD_NO_MORE_LINES] = "the line has no lines left to split off",
    [SYNICBOARD_NO_HANDLE] = "the pointer to the handle to open is null",
    [SYNICBOARD_NO_LINE] = "the handle of the line is closed, and that of the board is not",
    [SYNICBOARD_NO_EVENT] = "a vector below 16, too many bytes, or an unknown kind",
    [SYNICBOARD_NO_ROOM] = "one more reply, or SYNICBOARD_MOST_NOTICES more notices, might not fit",
    [SYNICBOARD_WRONG_LINE] = "a line of the text is wrong; `line` is the first, from 1",
    [SYNICBOARD_TOO_LONG] = "more than 1,073,741,824 bytes, and no line of these is wrong",
    [SYNICBOARD_NO_TEXT] = "the text is null, and its length is not 0",
    [SYNICBOARD_NOT_RECORDED] = "the shared board has no history",
    [SYNICBOARD_IS_LIVE] = "the board has live pages, and the call serves only others",
    [SYNICBOARD_NOT_LIVE] = "the board has no live pages",
    [SYNICBOARD_IS_HELD] = "the thread holds the shared board already",
    [SYNICBOARD_NOT_HELD] = "the thread does not hold the shared board",
    [SYNICBOARD_BAD_PAGE] = "a page is null, not at a multiple of 4096, there twice, or another board's",
};

static const char *const refusals[] = {
    [SYNICBOARD_UNKNOWN_PORT] = "the port is not open, or the board has none of that number",
    [SYNICBOARD_PORT_OPEN] = "the port to open is already open",
    [SYNICBOARD_WRONG_KIND] = "a post to a flag port, or a signal to a message port",
    [SYNICBOARD_BAD_TARGET] = "the target or shape of a port to open, or a part, is out of range",
    [SYNICBOARD_BAD_TYPE] = "the message type is 0 or has bit 31 set",
    [SYNICBOARD_BAD_FLAG] = "the flag is not below the port's count",
    [SYNICBOARD_SYNIC_OFF] = "the target's SynIC or event flags page is disabled",
    [SYNICBOARD_NO_BUFFERS] = "all buffers of the port are in use",
    [SYNICBOARD_TICKETS_SPENT] = "no ticket is left",
    [SYNICBOARD_CLOCK_BACK] = "the time is before the present one",
    [SYNICBOARD_OUTSIDE_SPACE] = "the first byte is in no page",
    [SYNICBOARD_CROSSES_PAGE] = "the last byte is in another page than the first",
    [SYNICBOARD_BAD_LENGTH] = "the length is 0 or above 8",
    [SYNICBOARD_NO_SUCH_PROCESSOR] = "the processor is not on the board",
    [SYNICBOARD_ALREADY_SUSPENDED] = "the processor is suspended",
    [SYNICBOARD_NOT_SUSPENDED] = "the processor is not suspended",
    [SYNICBOARD_ELSEWHERE] = "of a sparse board: the page is in the caller's memory",
};

static const char *const notices[] = {
    [SYNICBOARD_NOTICE_ACCEPTED] = "accepted",
    [SYNICBOARD_NOTICE_PLACED] = "placed",
    [SYNICBOARD_NOTICE_PENDING] = "pending",
    [SYNICBOARD_NOTICE_REQUESTED] = "requested",
    [SYNICBOARD_NOTICE_FLAG] = "flag",
    [SYNICBOARD_NOTICE_CONSUMED] = "consumed",
    [SYNICBOARD_NOTICE_WITHDRAWN] = "withdrawn",
    [SYNICBOARD_NOTICE_EXPIRED] = "expired",
    [SYNICBOARD_NOTICE_SKIPPED] = "skipped",
};

#define TEXT(texts, number) ((number) < sizeof (texts) / sizeof *(texts) ? (texts)[number] : NULL)

const char *synicboard_outcome_text(uint8_t outcome)
{
    return TEXT(outcomes, outcome);
}

const char *synicboard_refusal_text(uint8_t refusal)
{
    return TEXT(refusals, refusal);
}

const char *synicboard_notice_text(uint8_t kind)
{
    return TEXT(notices, kind);
}

uint32_t synicboard_version(void)
{
    return SYNICBOARD_VERSION;
}

/* What is written about the board: a trace, which `synicboard check` checks if the pages trap, and the notices with the
 * board's time, by which two runs are compared. Both are written under the lock of the board. */
#include "internal.h"
#include "qemu/error-report.h"

struct synic_log_options synic_log_options;

static struct partition_trace trace;
static FILE *notices;

static FILE *open_file(const char *path)
{
    FILE *file = fopen(path, "w");
    if (file == NULL) {
        error_report("synicboard: %s: %s", path, strerror(errno));
        exit(1);
    }
    return file;
}

void synic_log_begin(const synicboard *board, const uint8_t *image, size_t length)
{
    if (trace.file != NULL && !partition_trace_end(&trace, board))
        warn_report("synicboard: the trace is not whole");
    if (synic_log_options.trace != NULL)
        partition_trace_begin(&trace, open_file(synic_log_options.trace), synic.offer.vps, image, length);
    if (synic_log_options.notices != NULL && notices == NULL)
        notices = open_file(synic_log_options.notices);
}

void synic_log_event(const synicboard_event *event, const synicboard_reply *reply)
{
    partition_trace_event(&trace, event, reply);
}

void synic_log_forwarded(uint8_t vp, const synicboard_forwarded *forwarded)
{
    partition_trace_forwarded(&trace, vp, forwarded);
}

void synic_log_eoms(uint64_t eoms)
{
    partition_trace_eoms(&trace, eoms);
}

void synic_log_notice(uint64_t time, const synicboard_notice *notice)
{
    if (notices != NULL)
        fprintf(notices, "%" PRIu64 " %s %u %u %u %u %u %" PRIu64 " %" PRIu64 " %" PRIu64 "\n", time,
                synicboard_notice_text(notice->kind), notice->vp, notice->sint, notice->vector, notice->timer, notice->flag,
                notice->ticket, notice->due, notice->count);
}

void synic_log_end(const synicboard *board)
{
    if (!partition_trace_end(&trace, board))
        warn_report("synicboard: the trace is not whole");
    if (notices != NULL)
        fclose(notices);
    notices = NULL;
}

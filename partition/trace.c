/* Traces: each event of the board with its reply, and what a board does in one call as the events of a trace. */
#include "partition.h"

enum { MOST_ENTRY = 535 };      /* bytes of the two lines of an event and its reply */

/* The trace of a sparse board, with the sends of its guest, is of format 3, after a board line or an image. */
void partition_trace_begin(struct partition_trace *trace, FILE *file, unsigned vps, const void *image, size_t length)
{
    *trace = (struct partition_trace){ .file = file };
    if (image == NULL)
        fprintf(file, "trace 3\nboard %u sparse 0\n", vps);
    else
        fprintf(file, "trace 3\n%.*s", (int)length, (const char *)image);
}

/* All are the events of one actor: who holds the lock performs them. */
void partition_trace_event(struct partition_trace *trace, const synicboard_event *event, const synicboard_reply *reply)
{
    uint8_t lines[MOST_ENTRY];
    if (trace->file == NULL)
        return;
    synicboard_end end = synicboard_format_entry(0, event, reply, lines, sizeof lines);
    if (end.kind != SYNICBOARD_OK || fwrite(lines, 1, end.length, trace->file) != end.length)
        trace->has_failed = true;
    trace->entries++;
}

static void trace_write(struct partition_trace *trace, uint8_t vp, uint32_t msr)
{
    static const synicboard_reply done = { .kind = SYNICBOARD_DONE };
    partition_trace_event(trace, &(synicboard_event){ .kind = SYNICBOARD_WRITE, .vp = vp, .msr = msr }, &done);
}

void partition_trace_eoms(struct partition_trace *trace, uint64_t eoms)
{
    for (uint8_t vp = 0; vp < 64 && eoms >> vp != 0; vp++)
        if (eoms >> vp & 1)
            trace_write(trace, vp, SYNICBOARD_MSR_EOM);
}

static bool has(const uint64_t words[4], unsigned vector)
{
    return (words[vector / 64] >> vector % 64 & 1) != 0;
}

void partition_trace_forwarded(struct partition_trace *trace, uint8_t vp, const synicboard_forwarded *forwarded)
{
    for (unsigned vector = 255; vector >= 16; vector--) {
        synicboard_reply taken = { .kind = SYNICBOARD_TAKEN, .vector = (uint8_t)vector };
        if (!has(forwarded->vectors, vector))
            continue;
        partition_trace_event(trace, &(synicboard_event){ .kind = SYNICBOARD_TAKE, .vp = vp }, &taken);
        if (!has(forwarded->auto_eoi, vector))
            trace_write(trace, vp, SYNICBOARD_MSR_EOI);
    }
}

bool partition_trace_end(struct partition_trace *trace, const synicboard *board)
{
    bool is_good = true;
    if (trace->file != NULL) {
        fprintf(trace->file, "end %llu %llu\n", (unsigned long long)trace->entries, (unsigned long long)synicboard_next_ticket(board));
        is_good = fclose(trace->file) == 0 && !trace->has_failed;
    }
    trace->file = NULL;
    return is_good;
}

/* The trace of a run, which `synicboard check` checks: each event of the board with its reply. */
#include "vmm.h"

static struct partition_trace trace;

void trace_begin(const void *image, size_t length)
{
    FILE *file;
    if (vm.trace == NULL)
        return;
    if ((file = fopen(vm.trace, "w")) == NULL)
        fail(vm.trace);
    partition_trace_begin(&trace, file, vm.vps, image, length);
}

void trace_entry(const synicboard_event *event, const synicboard_reply *reply)
{
    partition_trace_event(&trace, event, reply);
}

void trace_eoms(uint64_t eoms)
{
    partition_trace_eoms(&trace, eoms);
}

void trace_forwarded(uint8_t vp, const synicboard_forwarded *forwarded)
{
    partition_trace_forwarded(&trace, vp, forwarded);
}

void trace_end(void)
{
    if (!partition_trace_end(&trace, board))
        fail(vm.trace);
}

/* The hypercalls that a guest has here: HvCallSetVpRegisters, which suspends a processor, HvCallSendSyntheticClusterIpi,
 * HvCallPostMessage and HvCallSignalEvent. The library of the partition checks their inputs. */
#include "../../partition/status.h"
#include "vmm.h"

static void set_suspended(struct vp *vp, bool is_suspended)
{
    if (vp->waits_for_sipi || vp->is_suspended == is_suspended)
        return;
    vp->is_suspended = is_suspended;
    if (is_suspended)
        board_suspend(vp);
    else
        board_resume(vp);
    vp_kick(vp);
}

static uint64_t perform(const struct partition_request *request)
{
    switch (request->call) {
    case PARTITION_POST:
        return vmbus_post_message(bus, request->post.connection, request->post.type, request->post.payload, request->post.length);
    case PARTITION_SIGNAL: return vmbus_signal_event(bus, request->signal.connection, request->signal.flag);
    case PARTITION_SEND: board_send(request->send.vector, request->send.vps); break;
    case PARTITION_SET_SUSPENDED: set_suspended(&vm.vp[request->suspend.vp], request->suspend.is_suspended); break;
    }
    return HV_STATUS_SUCCESS;
}

/* The guest may change its memory meanwhile, so the input is copied once. */
uint64_t hypercall_handle(uint64_t control, uint64_t input, uint64_t second)
{
    struct partition_offer offer = hyperv_offer();
    struct partition_request request;
    size_t length = partition_input_length(control);
    const void *bytes = length != 0 ? vm_memory(input, length) : NULL;
    uint64_t status = partition_decode(&offer, control, input, second, bytes, &request);
    return status == HV_STATUS_SUCCESS ? partition_result(&request, perform(&request)) : status;
}

/* Hypercalls: the code in the guest's page calls by OUT to a port, which every processor of QEMU can do, and for which QEMU
 * ends the translation block. */
#include "internal.h"

enum { CALL_PORT = 0xe8 };

uint16_t synic_call_port(void)
{
    return CALL_PORT;
}

static uint64_t perform(CPUX86State *env, const struct partition_request *request)
{
    switch (request->call) {
    case PARTITION_POST: return synic_bus_post(request);
    case PARTITION_SIGNAL: return synic_bus_signal(request);
    case PARTITION_SEND:
        for (unsigned vp = 0; vp < synic.offer.vps; vp++)
            if (request->send.vps >> vp & 1)
                synic_deliver(vp, request->send.vector);
        return HV_STATUS_SUCCESS;
    default: return HV_STATUS_INVALID_HYPERCALL_CODE;
    }
}

/* QEMU's VMBus reads the inputs of its calls itself. */
static uint64_t call(CPUX86State *env, uint64_t control, uint64_t input, uint64_t second)
{
    struct partition_request request;
    uint8_t bytes[PARTITION_PAGE];
    size_t length = partition_input_length(control);
    bool is_fast = (control >> 16 & 1) != 0, has_bytes = false;
    if (synic_has_qemu_bus() && (control & 0xffff) == 0x5c)
        return synic_qemu_post(input, is_fast);
    if (synic_has_qemu_bus() && (control & 0xffff) == 0x5d)
        return synic_qemu_signal(input, is_fast);
    if (length != 0 && length <= sizeof(bytes))
        has_bytes = address_space_read(&address_space_memory, input, MEMTXATTRS_UNSPECIFIED, bytes, length) == MEMTX_OK;
    uint64_t status = partition_decode(&synic.offer, control, input, second, has_bytes ? bytes : NULL, &request);
    return status == HV_STATUS_SUCCESS ? partition_result(&request, perform(env, &request)) : status;
}

static uint64_t pair(const CPUX86State *env, unsigned high, unsigned low)
{
    return (uint64_t)(uint32_t)env->regs[high] << 32 | (uint32_t)env->regs[low];
}

/* TLFS, "Hypercall Inputs": RCX, RDX and R8, and RAX; on a processor in 32-bit mode pairs of registers. */
static void on_call(void *opaque, hwaddr port, uint64_t value, unsigned size)
{
    CPUX86State *env = &X86_CPU(current_cpu)->env;
    if (env->hflags & HF_CS64_MASK) {
        env->regs[R_EAX] = call(env, env->regs[R_ECX], env->regs[R_EDX], env->regs[8]);
    } else {
        uint64_t status = call(env, pair(env, R_EDX, R_EAX), pair(env, R_EBX, R_ECX), pair(env, R_EDI, R_ESI));
        env->regs[R_EAX] = (uint32_t)status;
        env->regs[R_EDX] = (uint32_t)(status >> 32);
    }
}

static uint64_t on_read(void *opaque, hwaddr port, unsigned size)
{
    return UINT64_MAX;
}

static const MemoryRegionOps ops = {
    .read = on_read,
    .write = on_call,
    .endianness = DEVICE_LITTLE_ENDIAN,
    .valid = { .min_access_size = 4, .max_access_size = 4 },
    .impl = { .min_access_size = 4, .max_access_size = 4 },
};

void synic_open_calls(void)
{
    static MemoryRegion region;
    memory_region_init_io(&region, NULL, &ops, NULL, "synicboard-hypercalls", 4);
    memory_region_add_subregion(get_system_io(), CALL_PORT, &region);
}

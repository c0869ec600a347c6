/* The inputs of hypercalls: HvCallPostMessage, HvCallSignalEvent, HvCallSendSyntheticClusterIpi, and
 * HvCallSetVpRegisters, which suspends a processor. Names, checks and statuses are those of the TLFS. */
#include <string.h>

#include "partition.h"
#include "status.h"

enum { SEND_CLUSTER_IPI = 0x0b, SET_VP_REGISTERS = 0x51, POST_MESSAGE = 0x5c, SIGNAL_EVENT = 0x5d };
enum { EXPLICIT_SUSPEND = 0, MOST_PAYLOAD = 240 };

/* TLFS, "Hypercall Inputs". */
enum { IS_FAST = 1 << 16 };
#define VARIABLE_HEADER_SIZE 0x07fe0000ULL
#define REP_COUNT 0x00000fff00000000ULL
#define REP_START 0x0fff000000000000ULL
#define RESERVED 0xf000f000f8000000ULL
#define ONE_DONE (1ULL << 32)

struct set_vp_registers {
    uint64_t partition;
    uint32_t vp_index, target_vtl;
    uint32_t name, reserved[3];
    uint64_t value[2];
};

struct send_cluster_ipi {
    uint32_t vector, target_vtl;
    uint64_t vps;
};

struct post_message {
    uint32_t connection, reserved, type, length;
    uint8_t payload[MOST_PAYLOAD];
};

union input {
    struct set_vp_registers registers;
    struct send_cluster_ipi ipi;
    struct post_message message;
    uint64_t event, words[2];
};

/* ---- Each call ---- */

static uint64_t decode_registers(const struct partition_offer *offer, const struct set_vp_registers *input, struct partition_request *request)
{
    if (input->vp_index >= offer->vps)
        return HV_STATUS_INVALID_VP_INDEX;
    if (input->name != EXPLICIT_SUSPEND)
        return HV_STATUS_INVALID_PARAMETER;
    request->call = PARTITION_SET_SUSPENDED;
    request->suspend.vp = (uint8_t)input->vp_index;
    request->suspend.is_suspended = (input->value[0] & 1) != 0;
    return HV_STATUS_SUCCESS;
}

/* There is one trust level. A processor that is not there is no destination; the board would refuse all of them. */
static uint64_t decode_send(const struct partition_offer *offer, const struct send_cluster_ipi *input, struct partition_request *request)
{
    if (input->target_vtl != 0 || input->vector < 16 || input->vector > 255)
        return HV_STATUS_INVALID_PARAMETER;
    request->call = PARTITION_SEND;
    request->send.vector = (uint8_t)input->vector;
    request->send.vps = offer->vps >= 64 ? input->vps : input->vps & ((1ULL << offer->vps) - 1);
    return HV_STATUS_SUCCESS;
}

/* The high bit of a type is the hypervisor's, and 0 is no type: the rule that the board has for a post. */
static uint64_t decode_post(const struct partition_offer *offer, const struct post_message *input, struct partition_request *request)
{
    if ((offer->features & PARTITION_CONNECTIONS) == 0)
        return HV_STATUS_ACCESS_DENIED;
    if (input->reserved != 0)
        return HV_STATUS_INVALID_HYPERCALL_INPUT;
    if (input->type == 0 || input->type >> 31 != 0 || input->length > MOST_PAYLOAD)
        return HV_STATUS_INVALID_PARAMETER;
    request->call = PARTITION_POST;
    request->post.connection = input->connection;
    request->post.type = input->type;
    request->post.length = input->length;
    memcpy(request->post.payload, input->payload, MOST_PAYLOAD);
    return HV_STATUS_SUCCESS;
}

/* The connection, the number of the flag in its port, and reserved bits. */
static uint64_t decode_signal(const struct partition_offer *offer, uint64_t input, struct partition_request *request)
{
    if ((offer->features & PARTITION_CONNECTIONS) == 0)
        return HV_STATUS_ACCESS_DENIED;
    if (input >> 48 != 0)
        return HV_STATUS_INVALID_HYPERCALL_INPUT;
    request->call = PARTITION_SIGNAL;
    request->signal.connection = (uint32_t)input;
    request->signal.flag = (uint16_t)(input >> 32);
    return HV_STATUS_SUCCESS;
}

/* ---- The calling convention ---- */

/* 0 if there is no such hypercall. */
static size_t length_of(uint16_t code)
{
    switch (code) {
    case SET_VP_REGISTERS: return sizeof(struct set_vp_registers);
    case SEND_CLUSTER_IPI: return sizeof(struct send_cluster_ipi);
    case POST_MESSAGE: return sizeof(struct post_message);
    case SIGNAL_EVENT: return sizeof(uint64_t);
    default: return 0;
    }
}

static bool is_well_formed(uint64_t control)
{
    bool is_rep = (uint16_t)control == SET_VP_REGISTERS;
    bool has_rep = is_rep ? (control & REP_COUNT) == ONE_DONE : (control & REP_COUNT) == 0;
    bool is_fast = (control & IS_FAST) != 0;
    return has_rep && (control & (RESERVED | REP_START | VARIABLE_HEADER_SIZE)) == 0
        && (!is_fast || length_of((uint16_t)control) <= 2 * sizeof(uint64_t));
}

size_t partition_input_length(uint64_t control)
{
    return (control & IS_FAST) == 0 && is_well_formed(control) ? length_of((uint16_t)control) : 0;
}

static bool is_offered(const struct partition_offer *offer, uint16_t code)
{
    return length_of(code) != 0 && (code != SET_VP_REGISTERS || (offer->features & PARTITION_SUSPEND) != 0);
}

uint64_t partition_decode(const struct partition_offer *offer, uint64_t control, uint64_t input, uint64_t second, const void *bytes,
                          struct partition_request *request)
{
    uint16_t code = (uint16_t)control;
    size_t length = partition_input_length(control);
    union input in;
    if (!is_offered(offer, code))
        return HV_STATUS_INVALID_HYPERCALL_CODE;
    if (!is_well_formed(control))
        return HV_STATUS_INVALID_HYPERCALL_INPUT;
    if (length != 0 && (bytes == NULL || input % 8 != 0 || input % PARTITION_PAGE + length > PARTITION_PAGE))
        return HV_STATUS_INVALID_ALIGNMENT;
    in.words[0] = input;
    in.words[1] = second;
    if (length != 0)
        memcpy(&in, bytes, length);
    switch (code) {
    case SET_VP_REGISTERS: return decode_registers(offer, &in.registers, request);
    case SEND_CLUSTER_IPI: return decode_send(offer, &in.ipi, request);
    case POST_MESSAGE: return decode_post(offer, &in.message, request);
    default: return decode_signal(offer, in.event, request);
    }
}

uint64_t partition_result(const struct partition_request *request, uint64_t status)
{
    return status == HV_STATUS_SUCCESS && request->call == PARTITION_SET_SUSPENDED ? status | ONE_DONE : status;
}

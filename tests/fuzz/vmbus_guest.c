/* The guest's side of VMBus for the fuzz target, as a driver that keeps the rules, and the hypervisor around the
 * files of vmbus/: the board is real, and nothing runs at the same time. */
#include "vmbus.h"

synicboard *board;
struct vm vm = { .vps = VPS, .ram_size = RAM_PAGES * PAGE };
uint64_t guest_time = 1;
static uint8_t ram[RAM_PAGES * PAGE] __attribute__((aligned(PAGE)));
static synicboard_shared shared = SYNICBOARD_SHARED_CLOSED;
static struct kvm_run runs[VPS];
static uint32_t read_at[CHANNELS], write_at[CHANNELS];  /* the driver's own indices */

/* ---- The hypervisor ---- */

void guest_fail(int line, const char *what)
{
    fprintf(stderr, "tests/fuzz: line %d: %s\n", line, what);
    abort();
}

void fail(const char *what) { guest_fail(0, what); }
void saved_refuse(const char *why) { guest_fail(0, why); }
void saved_transfer(void *bytes, size_t length) { (void)bytes; (void)length; }
struct partition_offer hyperv_offer(void)
{
    return (struct partition_offer){ .features = PARTITION_HYPERCALLS | PARTITION_SUSPEND | (vm.vmbus.is_on ? PARTITION_CONNECTIONS : 0), .vps = VPS };
}
uint8_t *vm_memory(uint64_t address, uint64_t length)
{
    return address < vm.ram_size && length <= vm.ram_size - address ? vm.ram + address : NULL;
}
void vp_kick(struct vp *vp) { (void)vp; }
void lock_share(synicboard *opened)
{
    REQUIRE(synicboard_share(&shared, opened) == SYNICBOARD_OK);
    board = synicboard_hold(&shared);
}
void lock_acquire(void) {}
void lock_release(void) {}
void lock_wait(struct condition *condition) { (void)condition; }
void lock_signal(struct condition *condition) { (void)condition; }
void lock_interrupt(const struct vp *vp) { (void)vp; }
uint64_t clock_now(void) { return guest_time; }
void clock_want(uint64_t time) { (void)time; }
void overlay_set(void) {}
void vp_pause_others(void) {}
void vp_resume_others(void) {}
void vm_log(const char *format, ...) { (void)format; }
void trace_entry(const synicboard_event *event, const synicboard_reply *reply) { (void)event; (void)reply; }
void trace_eoms(uint64_t eoms) { (void)eoms; }
void trace_forwarded(uint8_t vp, const synicboard_forwarded *forwarded) { (void)vp; (void)forwarded; }

void guest_open(void)
{
    memset(ram, 0, sizeof ram);
    vm.ram = ram;
    for (uint8_t number = 0; number < VPS; number++) {
        vm.vp[number] = (struct vp){ .number = number, .run = &runs[number] };
        runs[number].immediate_exit = 0;
    }
    vm.vmbus = (struct bus_options){ .is_on = true, .options.newest = VMBUS_NEWEST };
    board_open();
    bus_open();
    board_write(&vm.vp[0], SYNICBOARD_MSR_SCONTROL, 1);
    board_write(&vm.vp[0], SYNICBOARD_MSR_SIMP, MESSAGES * PAGE | 1);
    board_write(&vm.vp[0], SYNICBOARD_MSR_SIEFP, FLAGS * PAGE | 1);
    board_write(&vm.vp[0], SYNICBOARD_MSR_SINT0 + VMBUS_MESSAGE_SINT, 0xf3);
}

void guest_close(void)
{
    for (unsigned number = 0; number < VPS; number++)
        synicboard_close_line(&vm.vp[number].line);
    vmbus_close(bus);
    synicboard_release(&shared);
    synicboard_close_shared(&shared);
}

/* ---- The guest ---- */

uint64_t guest_post(uint32_t connection, const void *message, uint32_t length)
{
    uint8_t payload[HV_MESSAGE_PAYLOAD_BYTE_COUNT] = { 0 };
    memcpy(payload, message, length);
    return vmbus_post_message(bus, connection, CHANNEL_MESSAGE, payload, length);
}

uint32_t guest_take(void *message)
{
    uint8_t *slot = board_live_page((synicboard_page_owner){ SYNICBOARD_OWNER_MESSAGES, 0 }) + VMBUS_MESSAGE_SINT * SLOT;
    if (slot[0] == 0)
        return 0;
    uint32_t length = slot[4];
    if (length < 8 || length > HV_MESSAGE_PAYLOAD_BYTE_COUNT)
        length = 0;     /* an input has destroyed the slot */
    memcpy(message, slot + 16, length);
    memset(slot, 0, 4);
    board_write(&vm.vp[0], SYNICBOARD_MSR_EOM, 0);
    bus_deliver(&vm.vp[0]);
    return length;
}

uint64_t guest_call(uint64_t control, uint64_t address, const void *input, size_t length)
{
    uint8_t *memory = vm_memory(address, length);
    if (memory != NULL)
        memcpy(memory, input, length);
    return hypercall_handle(control, address, 0);
}

uint8_t *guest_ring_byte(const struct ring *ring, uint32_t at)
{
    return ram + bus->gpadl[ring->gpadl].pfn[ring->first + 1 + at / PAGE] * PAGE + at % PAGE;
}

uint32_t *guest_ring_word(const struct ring *ring, unsigned word)
{
    return (uint32_t *)(void *)(ram + bus->gpadl[ring->gpadl].pfn[ring->first] * PAGE) + word;
}

bool guest_answer(unsigned number, uint32_t skew, uint32_t value)
{
    const struct channel *channel = &bus->channel[number];
    uint32_t words[MOST_PACKET / 4] = { 0 };
    uint8_t *packet = (uint8_t *)words;
    if (channel->state != OPEN)
        return false;
    uint32_t size = channel->outbound.data_pages * PAGE, answer_size = channel->inbound.data_pages * PAGE;
    uint32_t *read = &read_at[number], *write = &write_at[number];
    if (channel->answered == 0)
        *read = *write = 0;
    if (*read == *guest_ring_word(&channel->outbound, WRITE_INDEX) || *read >= size || *write >= answer_size)
        return false;
    for (unsigned at = 0; at < sizeof(struct vmpacket_descriptor); at++)
        packet[at] = *guest_ring_byte(&channel->outbound, (*read + at) % size);
    uint32_t length = ((struct vmpacket_descriptor *)packet)->len8 * 8U;
    for (unsigned at = 0; at < length && at < MOST_PACKET; at++)
        packet[at] = *guest_ring_byte(&channel->outbound, (*read + at) % size);
    *read = (*read + length + VMBUS_PKT_TRAILER) % size;
    *guest_ring_word(&channel->outbound, READ_INDEX) = *read;
    struct icmsg_hdr *ic = (void *)(packet + sizeof(struct vmpacket_descriptor) + sizeof(struct vmbuspipe_hdr));
    ic->icflags = ICMSGHDRFLAG_TRANSACTION | ICMSGHDRFLAG_RESPONSE;
    if (ic->icmsgtype == ICMSGTYPE_HEARTBEAT)
        ((struct heartbeat_msg_data *)(void *)(ic + 1))->seq_num++;
    words[skew % (MOST_PACKET / 4)] += value;
    for (unsigned at = 0; at < length && at < MOST_PACKET; at++)
        *guest_ring_byte(&channel->inbound, (*write + at) % answer_size) = packet[at];
    *write = (*write + length + VMBUS_PKT_TRAILER) % answer_size;
    *guest_ring_word(&channel->inbound, WRITE_INDEX) = *write;
    vmbus_signal_event(bus, FIRST_EVENT_CONNECTION + number + 1, 0);
    return true;
}

void guest_check(void)
{
    REQUIRE(vmbus_is_sound(bus));
    for (unsigned at = 0; at < MOST_GPADLS; at++)
        REQUIRE(!bus->gpadl[at].is_used || gpadl_find(bus, bus->gpadl[at].handle) == &bus->gpadl[at]);
    for (unsigned at = 0; at < CHANNELS; at++)
        REQUIRE(bus->answered[at] <= bus->sent[at] && (bus->version != 0 || bus->channel[at].state == UNOFFERED));
}

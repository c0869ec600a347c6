/* The board: each event with what its reply and its notices ask of the hypervisor. */
#include <stdio.h>
#include <string.h>

#include "vmm.h"

atomic_uint board_fresh;
uint64_t board_absorbed;
static struct condition has_buffer;
static uint64_t events, notices_seen, ticks, placed, consumed, withdrawn, expired, skipped;
static uint64_t flags_set, flags_cleared;
static uint8_t *live_pages[2 * MOST_VPS];       /* two for each processor; not used where pages trap */

void board_make_live(synicboard *opened)
{
    if (!vm.pages_trap && synicboard_make_live(opened, live_pages) != SYNICBOARD_OK)
        fail("synicboard_make_live");
}

/* The guest's memory is the hypervisor's, of any size. */
void board_open(void)
{
    synicboard opened = SYNICBOARD_CLOSED;
    if (synicboard_open_sparse(&opened, vm.vps, 0) != SYNICBOARD_OK)
        fail("synicboard_open_sparse");
    board_make_live(&opened);
    lock_share(&opened);
    if (synicboard_open_line(&vm.vp[0].line, vm.vps) != SYNICBOARD_OK)
        fail("synicboard_open_line");
    for (unsigned number = 1; number < vm.vps; number++)
        board_split_line(&vm.vp[number].line);
}

/* Only the first line of the words can split off others. */
void board_split_line(synicboard_line *line)
{
    if (synicboard_split_line(&vm.vp[0].line, line) != SYNICBOARD_OK)
        fail("synicboard_split_line");
}

static void handle_request(uint8_t vp)
{
    if (vm.has_irqchip)
        irqchip_mark(vp);
    else
        vp_kick(&vm.vp[vp]);
}

static void handle_notice(const synicboard_notice *notice)
{
    switch (notice->kind) {
    case SYNICBOARD_NOTICE_REQUESTED: handle_request(notice->vp); break;
    case SYNICBOARD_NOTICE_PLACED: placed++; lock_signal(&has_buffer); break;
    case SYNICBOARD_NOTICE_WITHDRAWN: withdrawn++; lock_signal(&has_buffer); break;
    case SYNICBOARD_NOTICE_CONSUMED: consumed++; break;
    case SYNICBOARD_NOTICE_EXPIRED: expired++; break;
    case SYNICBOARD_NOTICE_SKIPPED: skipped += notice->count; break;
    }
}

static void handle_notices(void)
{
    static synicboard_notice notices[SYNICBOARD_MOST_LIVE_NOTICES];
    size_t count = synicboard_notices(board, notices, SYNICBOARD_MOST_LIVE_NOTICES);
    notices_seen += count;
    for (size_t at = 0; at < count; at++)
        handle_notice(&notices[at]);
}

/* Records an event, handles its notices, and returns its reply. */
static synicboard_reply answer(const synicboard_event *event, synicboard_reply reply)
{
    events++;
    trace_entry(event, &reply);
    if (reply.notices != 0)
        handle_notices();
    return reply;
}

static synicboard_reply perform(const synicboard_event *event)
{
    synicboard_reply reply = synicboard_perform(board, event);
    uint64_t eoms = synicboard_eoms(board);
    answer(event, reply);
    trace_eoms(eoms);
    irqchip_collect();
    return reply;
}

static void observe(uint8_t vp)
{
    if (!vm.pages_trap && synicboard_observe_all(board, vp).notices != 0)
        handle_notices();
}

/* Before the board is saved, while no processor is in the guest. */
void board_observe(void)
{
    for (uint8_t vp = 0; vp < vm.vps; vp++)
        observe(vp);
}

/* ---- Time ---- */

/* Moves the board's clock to the present. The TSC of another host processor may be a little lower. */
static void tick(uint64_t at_least)
{
    uint64_t now = clock_now();
    ticks++;
    perform(&(synicboard_event){ .kind = SYNICBOARD_TICK, .moment = now > at_least ? now : at_least });
}

/* Ticks if a timer can expire. One that is late by several periods has its next alarm at once, so the host's timer
 * goes off again. One that is not ready has none until an event makes it ready, after which the board is advanced. */
void board_advance(void)
{
    synicboard_next_tick next = synicboard_alarm(board);
    if (next.is_set && next.moment <= clock_now()) {
        tick(next.moment);
        next = synicboard_alarm(board);
    }
    clock_want(next.is_set ? next.moment : UINT64_MAX);
}

/* ---- What a guest does ---- */

/* The board learns what is in a page before the guest sees it no longer. */
static synicboard_reply move_overlay(const synicboard_event *write)
{
    vp_pause_others();
    observe(write->vp);
    synicboard_reply reply = perform(write);
    overlay_set();
    vp_resume_others();
    return reply;
}

synicboard_reply board_write(struct vp *vp, uint32_t msr, uint64_t value)
{
    synicboard_event write = { .kind = SYNICBOARD_WRITE, .vp = vp->number, .msr = msr, .value = value };
    if (msr == SYNICBOARD_MSR_SIMP || msr == SYNICBOARD_MSR_SIEFP)
        return move_overlay(&write);
    if (partition_needs_time(msr))
        tick(synicboard_moment(board));
    synicboard_reply reply = perform(&write);
    if (reply.kind == SYNICBOARD_DONE && msr == SYNICBOARD_MSR_TPR)
        vp->tpr = (uint8_t)value;
    return reply;
}

synicboard_reply board_read(struct vp *vp, uint32_t msr)
{
    if (partition_needs_time(msr))
        tick(synicboard_moment(board));
    return perform(&(synicboard_event){ .kind = SYNICBOARD_READ, .vp = vp->number, .msr = msr });
}

/* How many event flags a store clears. */
static uint64_t cleared(uint64_t address, const uint8_t *bytes, size_t length)
{
    synicboard_page_owner owner = synicboard_owner(board, address / PAGE);
    const uint8_t *page;
    uint64_t count = 0;
    if (owner.kind == SYNICBOARD_OWNER_FLAGS && synicboard_flag_page(board, owner.vp, &page))
        for (size_t at = 0; at < length && address % PAGE + at < PAGE; at++)
            count += (uint64_t)__builtin_popcount(page[address % PAGE + at] & ~(unsigned)bytes[at]);
    return count;
}

uint8_t *board_live_page(synicboard_page_owner owner)
{
    return live_pages[2 * owner.vp + (owner.kind == SYNICBOARD_OWNER_FLAGS)];
}

/* The memory that a guest sees where the board has no page that traps. */
static uint8_t *memory_at(uint64_t address, size_t length)
{
    synicboard_page_owner owner = synicboard_owner(board, address / PAGE);
    bool is_live = owner.kind == SYNICBOARD_OWNER_MESSAGES || owner.kind == SYNICBOARD_OWNER_FLAGS;
    return is_live ? board_live_page(owner) + address % PAGE : vm_memory(address, length);
}

/* If the overlay moved after the exit, the store goes to the guest's memory. KVM passes a store that crosses
 * a page as two. */
void board_store(uint64_t address, const uint8_t *bytes, size_t length)
{
    synicboard_event event = { .kind = SYNICBOARD_STORE, .address = address, .length = (uint8_t)length };
    memcpy(event.bytes, bytes, length);
    flags_cleared += cleared(address, bytes, length);
    synicboard_reply reply = perform(&event);
    uint8_t *memory = memory_at(address, length);
    if (reply.kind == SYNICBOARD_REFUSED && reply.refusal == SYNICBOARD_ELSEWHERE && memory != NULL)
        memcpy(memory, bytes, length);
}

uint8_t board_take(struct vp *vp)
{
    synicboard_reply reply = perform(&(synicboard_event){ .kind = SYNICBOARD_TAKE, .vp = vp->number });
    return reply.kind == SYNICBOARD_TAKEN ? reply.vector : 0;
}

void board_suspend(struct vp *vp)
{
    perform(&(synicboard_event){ .kind = SYNICBOARD_SUSPEND, .vp = vp->number });
}

/* Timers whose deadlines passed meanwhile are tried by a later tick, which its thread makes. A suspended processor
 * forwards nothing, so what was requested meanwhile is forwarded now. */
void board_resume(struct vp *vp)
{
    if (vm.has_irqchip)
        irqchip_mark(vp->number);
    perform(&(synicboard_event){ .kind = SYNICBOARD_RESUME, .vp = vp->number });
    vp_kick(vp);
}

/* A reset leaves posted bits set, and INIT drops requested interrupts, so they are absorbed
 * first. */
void board_reset(struct vp *vp)
{
    board_absorb(vp);
    perform(&(synicboard_event){ .kind = SYNICBOARD_RESET, .vp = vp->number });
    vp->tpr = 0;
}

/* ---- What devices do ---- */

/* Bit n of `vps` is processor n. */
void board_send(uint8_t vector, uint64_t vps)
{
    if (!vm.has_irqchip)
        perform(&(synicboard_event){ .kind = SYNICBOARD_SEND, .vector = vector, .value = vps });
    else
        for (uint8_t vp = 0; vp < vm.vps; vp++)
            if (vps >> vp & 1)
                irqchip_request(vp, vector);
}

/* A port, a post or a signal. */
synicboard_reply board_act(const synicboard_event *event)
{
    synicboard_reply reply = perform(event);
    flags_set += reply.kind == SYNICBOARD_FLAG_WAS_CLEAR;
    return reply;
}

synicboard_reply board_open_message_port(uint8_t port, uint8_t vp, uint8_t sint, uint8_t buffers)
{
    return perform(&(synicboard_event){
        .kind = SYNICBOARD_OPEN_MESSAGE_PORT, .port = port, .vp = vp, .sint = sint, .buffers = buffers,
    });
}

synicboard_reply board_open_event_port(uint8_t port, uint8_t vp, uint8_t sint, uint16_t base, uint16_t count)
{
    return perform(&(synicboard_event){
        .kind = SYNICBOARD_OPEN_EVENT_PORT, .port = port, .vp = vp, .sint = sint, .flag = base, .count = count,
    });
}

synicboard_reply board_post(uint8_t port, uint32_t type, const void *payload, size_t length)
{
    synicboard_event event = { .kind = SYNICBOARD_POST, .port = port, .message_type = type, .length = (uint8_t)length };
    memcpy(event.bytes, payload, length);
    return perform(&event);
}

synicboard_reply board_signal(uint8_t port, uint16_t flag)
{
    return board_act(&(synicboard_event){ .kind = SYNICBOARD_SIGNAL, .port = port, .flag = flag });
}

void board_wait_for_buffer(void)
{
    lock_wait(&has_buffer);
}

void board_end_waiting(void)
{
    lock_signal(&has_buffer);
}

/* If the bit was set already, whoever set it makes the processor absorb it. The part is marked
 * after the raise, and the processor clears the mark before it sweeps, so a marked part is swept
 * after its raise. KVM's local APICs need none of that. */
void board_raise(synicboard_line *line, struct vp *vp, uint8_t vector)
{
    if (vm.has_irqchip) {
        irqchip_request(vp->number, vector);
        return;
    }
    if (synicboard_raise(line, vp->number, vector) != SYNICBOARD_FRESH)
        return;
    atomic_fetch_add(&board_fresh, 1);
    atomic_fetch_or(&vp->posted_parts, 1u << vector / 64);
    lock_acquire();
    vp_kick(vp);
    lock_release();
}

void board_absorb(struct vp *vp)
{
    unsigned parts = atomic_exchange(&vp->posted_parts, 0);
    for (uint8_t part = 0; part < 4; part++) {
        if ((parts >> part & 1) == 0)
            continue;
        synicboard_reply reply = synicboard_absorb_line(board, &vp->line, vp->number, part);
        answer(&(synicboard_event){ .kind = SYNICBOARD_ABSORB, .vp = vp->number, .part = part, .value = reply.value }, reply);
        board_absorbed += (uint64_t)__builtin_popcountll(reply.value);
    }
}

/* What the flat guest compares at its end. The board is in its image. */
void board_transfer(void)
{
    uint32_t fresh = board_fresh;
    saved_transfer(&fresh, sizeof fresh);
    saved_transfer(&board_absorbed, sizeof board_absorbed);
    board_fresh = fresh;
}

/* The flags that are set in the live pages. */
static uint64_t flags_left(void)
{
    uint64_t count = 0;
    for (unsigned vp = 0; !vm.pages_trap && vp < vm.vps; vp++)
        for (unsigned at = 0; at < PAGE; at++)
            count += (uint64_t)__builtin_popcount(live_pages[2 * vp + 1][at]);
    return count;
}

void board_report(void)
{
    if (!vm.pages_trap)
        flags_cleared = flags_set - flags_left();
    fprintf(stderr, "vmm: board: %lu events, %lu notices, %lu ticks\n", events, notices_seen, ticks);
    fprintf(stderr, "vmm: messages: %lu placed, %lu consumed, %lu withdrawn; timers: %lu periods expired, %lu skipped\n",
            placed, consumed, withdrawn, expired, skipped);
    fprintf(stderr, "vmm: event flags: %lu set, %lu cleared\n", flags_set, flags_cleared);
}

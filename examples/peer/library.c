/* library.c: the peer filled in with libsynicboard.a, as its own test and as an example.
 *
 *   cc -Iinclude examples/peer/peer.c examples/peer/library.c build/libsynicboard.a -o peer
 *   tools/conform run --see host -- ./peer */
#include <inttypes.h>
#include <string.h>

#include "peer.h"
#include "synicboard.h"

static synicboard board = SYNICBOARD_CLOSED;

static void tell_ticket(const char *what, const synicboard_notice *notice)
{
    peer_notice("%s %" PRIu64 " %u %u", what, notice->ticket, notice->vp, notice->sint);
}

static void tell(const synicboard_notice *notice)
{
    unsigned vp = notice->vp;
    switch (notice->kind) {
    case SYNICBOARD_NOTICE_ACCEPTED: tell_ticket("accepted", notice); break;
    case SYNICBOARD_NOTICE_PLACED: tell_ticket("placed", notice); break;
    case SYNICBOARD_NOTICE_CONSUMED: tell_ticket("consumed", notice); break;
    case SYNICBOARD_NOTICE_WITHDRAWN: tell_ticket("withdrawn", notice); break;
    case SYNICBOARD_NOTICE_PENDING: peer_notice("pending %u %u", vp, notice->sint); break;
    case SYNICBOARD_NOTICE_REQUESTED: peer_notice("requested %u %02x", vp, notice->vector); break;
    case SYNICBOARD_NOTICE_FLAG: peer_notice("flag %u %u %u", vp, notice->sint, notice->flag); break;
    case SYNICBOARD_NOTICE_EXPIRED: peer_notice("expired %u %u %" PRIu64, vp, notice->timer, notice->due); break;
    case SYNICBOARD_NOTICE_SKIPPED: peer_notice("skipped %u %u %" PRIu64, vp, notice->timer, notice->count); break;
    }
}

static struct peer_reply told(synicboard_reply reply)
{
    static synicboard_notice notices[SYNICBOARD_MOST_NOTICES];
    for (size_t at = 0; at < synicboard_notices(&board, notices, SYNICBOARD_MOST_NOTICES); at++)
        tell(&notices[at]);
    switch (reply.kind) {
    case SYNICBOARD_DONE: return peer_reply(PEER_DONE, 0);
    case SYNICBOARD_VALUE: return peer_reply(PEER_VALUE, reply.value);
    case SYNICBOARD_TAKEN: return peer_reply(PEER_TAKEN, reply.vector);
    case SYNICBOARD_NONE_TAKEN: return peer_reply(PEER_NONE_TAKEN, 0);
    case SYNICBOARD_ACCEPTED: return peer_reply(PEER_ACCEPTED, reply.ticket);
    case SYNICBOARD_FLAG_WAS_CLEAR: return peer_reply(PEER_CLEAR, 0);
    case SYNICBOARD_FLAG_WAS_SET: return peer_reply(PEER_SET, 0);
    case SYNICBOARD_GENERAL_PROTECTION: return peer_reply(PEER_GENERAL_PROTECTION, 0);
    case SYNICBOARD_REFUSED: return peer_reply(PEER_REFUSED, reply.refusal);
    case SYNICBOARD_BYTES: {
        struct peer_reply loaded = { .kind = PEER_BYTES, .length = reply.length };
        memcpy(loaded.bytes, reply.bytes, sizeof loaded.bytes);
        return loaded;
    }
    }
    return peer_reply(PEER_UNSUPPORTED, 0);
}

static int open_board(unsigned processors, unsigned pages, uint64_t ticket)
{
    synicboard_close(&board);
    return synicboard_open(&board, (uint8_t)processors, (uint8_t)pages, ticket) == SYNICBOARD_OK;
}

static int open_sparse_board(unsigned processors, uint64_t ticket)
{
    synicboard_close(&board);
    return synicboard_open_sparse(&board, (uint8_t)processors, ticket) == SYNICBOARD_OK;
}

static struct peer_reply open_message_port(unsigned port, unsigned vp, unsigned sint, unsigned buffers)
{
    return told(synicboard_open_message_port(&board, (uint8_t)port, (uint8_t)vp, (uint8_t)sint, (uint8_t)buffers));
}

static struct peer_reply open_event_port(unsigned port, unsigned vp, unsigned sint, unsigned base, unsigned count)
{
    return told(synicboard_open_event_port(&board, (uint8_t)port, (uint8_t)vp, (uint8_t)sint, (uint16_t)base, (uint16_t)count));
}

static struct peer_reply close_port(unsigned port)
{
    return told(synicboard_close_port(&board, (uint8_t)port));
}

static struct peer_reply write_msr(unsigned vp, uint32_t msr, uint64_t value)
{
    return told(synicboard_write(&board, (uint8_t)vp, msr, value));
}

static struct peer_reply read_msr(unsigned vp, uint32_t msr)
{
    return told(synicboard_read(&board, (uint8_t)vp, msr));
}

static struct peer_reply post_message(unsigned port, uint32_t type, const uint8_t *payload, size_t length)
{
    return told(synicboard_post(&board, (uint8_t)port, type, payload, length));
}

static struct peer_reply signal_event(unsigned port, unsigned flag)
{
    return told(synicboard_signal(&board, (uint8_t)port, (uint16_t)flag));
}

static struct peer_reply assert_irq(unsigned vp, unsigned vector)
{
    return told(synicboard_assert(&board, (uint8_t)vp, (uint8_t)vector));
}

static struct peer_reply absorb_posted(unsigned vp, unsigned part, uint64_t bits)
{
    return told(synicboard_absorb(&board, (uint8_t)vp, (uint8_t)part, bits));
}

static struct peer_reply guest_store(uint64_t address, const uint8_t *bytes, size_t length)
{
    return told(synicboard_store(&board, address, bytes, length));
}

static struct peer_reply guest_load(uint64_t address, unsigned length)
{
    return told(synicboard_load(&board, address, (uint8_t)length));
}

static struct peer_reply advance_time(uint64_t time)
{
    return told(synicboard_tick(&board, time));
}

static struct peer_reply take_interrupt(unsigned vp)
{
    return told(synicboard_take(&board, (uint8_t)vp));
}

static struct peer_reply suspend(unsigned vp)
{
    return told(synicboard_suspend(&board, (uint8_t)vp));
}

static struct peer_reply resume(unsigned vp)
{
    return told(synicboard_resume(&board, (uint8_t)vp));
}

static struct peer_reply reset(unsigned vp)
{
    return told(synicboard_reset(&board, (uint8_t)vp));
}

static struct peer_reply send_interrupt(unsigned vector, uint64_t mask)
{
    return told(synicboard_send(&board, (uint8_t)vector, mask));
}

int main(void)
{
    static const struct peer peer = {
        .open_board = open_board, .open_message_port = open_message_port, .open_event_port = open_event_port,
        .close_port = close_port, .write_msr = write_msr, .read_msr = read_msr, .post_message = post_message,
        .signal_event = signal_event, .assert_irq = assert_irq, .absorb_posted = absorb_posted,
        .guest_store = guest_store, .guest_load = guest_load, .advance_time = advance_time,
        .take_interrupt = take_interrupt, .suspend = suspend, .resume = resume, .reset = reset,
        .send_interrupt = send_interrupt, .open_sparse_board = open_sparse_board,
    };
    int status = peer_main(&peer);
    synicboard_close(&board);
    return status;
}

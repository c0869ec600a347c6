/* ports.c: what KVM leaves to user space, in the manner of QEMU's hw/hyperv/hyperv.c: messages and event
 * flags are written into the guest's pages, and the source is raised through a route of its own. */
#include "vm.h"

#include <string.h>
#include <sys/eventfd.h>
#include <sys/ioctl.h>
#include <unistd.h>

enum { FIRST_GSI = 24, FLAGS = 2048, FLAG_BYTE = 5, ORIGIN = 8, PAYLOAD = 16, TIMES = 24 };

/* The page that a page register enables, or null. */
static uint8_t *guest_page(uint64_t page_register)
{
    uint64_t page = page_register >> 12;
    return (page_register & 1) && page < vm.pages ? vm.memory + page * PAGE : NULL;
}

static unsigned route_of(const struct port *port)
{
    return SINTS * port->vp + port->sint;
}

static void make_route(unsigned at)
{
    struct route *route = &vm.routes[at];
    if (route->ack != 0)
        return;
    route->ack = checked(eventfd(0, EFD_NONBLOCK | EFD_CLOEXEC), "eventfd");
    route->irq = checked(eventfd(0, EFD_NONBLOCK | EFD_CLOEXEC), "eventfd");
    vm.table.entries[vm.table.head.nr++] = (struct kvm_irq_routing_entry){
        .gsi = FIRST_GSI + at, .type = KVM_IRQ_ROUTING_HV_SINT, .u.hv_sint = { .vcpu = at / SINTS, .sint = at % SINTS },
    };
    checked(ioctl(vm.fd, KVM_SET_GSI_ROUTING, &vm.table), "KVM_SET_GSI_ROUTING");
    struct kvm_irqfd irqfd = {
        .fd = (uint32_t)route->irq, .gsi = FIRST_GSI + at, .flags = KVM_IRQFD_FLAG_RESAMPLE, .resamplefd = (uint32_t)route->ack,
    };
    checked(ioctl(vm.fd, KVM_IRQFD, &irqfd), "KVM_IRQFD");
}

void raise_source(const struct port *port)
{
    ioctl(vm.fd, KVM_IRQ_LINE_STATUS, &(struct kvm_irq_level){ .irq = FIRST_GSI + route_of(port), .level = 1 });
}

/* The head of the port's queue goes into its slot, or sets MessagePending there. */
static void try_delivery(struct port *port)
{
    const struct processor *p = &vm.vps[port->vp];
    uint8_t *page = guest_page(p->simp);
    if (port->queued == 0 || !(p->scontrol & 1) || page == NULL)
        return;
    uint8_t *slot = page + SLOT * port->sint;
    if (memcmp(slot, (uint8_t[4]){ 0 }, 4) != 0) {
        slot[FLAG_BYTE] |= 1;
        return;
    }
    memcpy(slot, port->queue[0], SLOT);
    memmove(port->queue[0], port->queue[1], --port->queued * SLOT);
    raise_source(port);
}

static void serve_acks(void)
{
    uint64_t count;
    for (unsigned at = 0; at < ROUTES; at++) {
        int ack = vm.routes[at].ack;
        bool is_acked = ack != 0 && read(ack, &count, sizeof count) == sizeof count;
        for (unsigned port = 0; is_acked && port < PORTS; port++)
            if (route_of(&vm.ports[port]) == at)
                try_delivery(&vm.ports[port]);
    }
}

/* A timer's message has two times of KVM's clock: makes them times of the script. */
static void scale_times(uint8_t *slot)
{
    static const uint8_t timer_message[4] = { 0x10, 0, 0, 0x80 };
    uint64_t times[2];
    memcpy(times, slot + TIMES, sizeof times);
    /* Below one unit they are scaled already. */
    if (memcmp(slot, timer_message, sizeof timer_message) != 0 || times[0] < UNIT)
        return;
    times[0] /= UNIT;
    times[1] /= UNIT;
    memcpy(slot + TIMES, times, sizeof times);
}

/* The reply to an event, once user space has done its part. */
struct peer_reply finished(struct peer_reply reply)
{
    for (unsigned vp = 0; vp < vm.processors; vp++) {
        uint8_t *page = guest_page(vm.vps[vp].simp);
        for (unsigned sint = 0; sint < SINTS && page != NULL; sint++)
            scale_times(page + SLOT * sint);
    }
    serve_acks();
    return reply;
}

static bool has_shape(const struct port *port)
{
    if (port->vp >= vm.processors || port->sint >= SINTS)
        return false;
    return port->is_event ? port->count >= 1 && port->base + port->count <= FLAGS : port->buffers >= 1 && port->buffers <= BUFFERS;
}

static struct peer_reply open_port(unsigned number, struct port port)
{
    if (number >= PORTS)
        return refused(1);
    if (vm.ports[number].is_open)
        return refused(2);
    if (!has_shape(&port))
        return refused(4);
    port.is_open = true;
    vm.ports[number] = port;
    make_route(route_of(&port));
    /* A route takes some milliseconds. */
    set_clock_to_time();
    return done();
}

struct peer_reply open_message_port(unsigned port, unsigned vp, unsigned sint, unsigned buffers)
{
    return open_port(port, (struct port){ .vp = vp, .sint = sint, .buffers = buffers });
}

struct peer_reply open_event_port(unsigned port, unsigned vp, unsigned sint, unsigned base, unsigned count)
{
    return open_port(port, (struct port){ .is_event = true, .vp = vp, .sint = sint, .base = base, .count = count });
}

struct peer_reply close_port(unsigned number)
{
    if (number >= PORTS || !vm.ports[number].is_open)
        return refused(1);
    vm.ports[number] = (struct port){ 0 };
    return done();
}

static unsigned refusal_of(unsigned number, bool is_event)
{
    if (number >= PORTS || !vm.ports[number].is_open)
        return 1;
    return vm.ports[number].is_event != is_event ? 3 : 0;
}

struct peer_reply post_message(unsigned number, uint32_t type, const uint8_t *payload, size_t length)
{
    unsigned why = refusal_of(number, false);
    if (why)
        return refused(why);
    struct port *port = &vm.ports[number];
    if (type == 0 || type >> 31)
        return refused(5);
    if (!(vm.vps[port->vp].scontrol & 1))
        return refused(7);
    if (port->queued == port->buffers)
        return refused(8);
    uint8_t *message = memset(port->queue[port->queued++], 0, SLOT);
    memcpy(message, &type, sizeof type);
    message[4] = (uint8_t)length;
    message[ORIGIN] = (uint8_t)number;
    memcpy(message + PAYLOAD, payload, length);
    try_delivery(port);
    return finished(peer_reply(PEER_ACCEPTED, 0));
}

struct peer_reply signal_event(unsigned number, unsigned flag)
{
    unsigned why = refusal_of(number, true);
    if (why)
        return refused(why);
    const struct port *port = &vm.ports[number];
    uint8_t *page = guest_page(vm.vps[port->vp].siefp);
    if (flag >= port->count)
        return refused(6);
    if (!(vm.vps[port->vp].scontrol & 1) || page == NULL)
        return refused(7);
    unsigned bit = port->base + flag;
    uint8_t *byte = page + SLOT * port->sint + bit / 8, mask = (uint8_t)(1 << bit % 8);
    bool was_set = *byte & mask;
    *byte |= mask;
    if (!was_set)
        raise_source(port);
    return finished(peer_reply(was_set ? PEER_SET : PEER_CLEAR, 0));
}

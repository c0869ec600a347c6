/* A ring in the guest's memory. The guest may write any of it at any time, so the host reads each index and each
 * byte once, and keeps its own index itself. */
#include <string.h>

#include "bus.h"

static uint8_t *page(struct vmbus *bus, const struct ring *ring, uint32_t number, bool is_stored)
{
    return bus->host->page(bus->opaque, bus->gpadl[ring->gpadl].pfn[ring->first + number], is_stored);
}

static uint32_t load(struct vmbus *bus, const struct ring *ring, unsigned word)
{
    return __atomic_load_n((const uint32_t *)page(bus, ring, 0, false) + word, __ATOMIC_SEQ_CST);
}

static void store(struct vmbus *bus, const struct ring *ring, unsigned word, uint32_t value)
{
    __atomic_store_n((uint32_t *)page(bus, ring, 0, true) + word, value, __ATOMIC_SEQ_CST);
}

static uint32_t size_of(const struct ring *ring)
{
    return ring->data_pages * PAGE_BYTES;
}

static bool is_index(const struct ring *ring, uint32_t index)
{
    return index < size_of(ring) && index % 8 == 0;
}

/* The bytes from one index to another. */
static uint32_t distance(const struct ring *ring, uint32_t from, uint32_t to)
{
    return to >= from ? to - from : size_of(ring) - from + to;
}

enum direction { FROM_RING, TO_RING };

static void copy(struct vmbus *bus, const struct ring *ring, uint32_t index, void *bytes, uint32_t length, enum direction direction)
{
    uint8_t *at = bytes;
    while (length != 0) {
        uint32_t offset = index % size_of(ring), left = PAGE_BYTES - offset % PAGE_BYTES, part = length < left ? length : left;
        uint8_t *there = page(bus, ring, 1 + offset / PAGE_BYTES, direction == TO_RING) + offset % PAGE_BYTES;
        memcpy(direction == TO_RING ? there : at, direction == TO_RING ? at : there, part);
        index = offset + part;
        at += part;
        length -= part;
    }
}

bool ring_is_sound(struct vmbus *bus, const struct ring *ring)
{
    return ring->gpadl < MOST_GPADLS && bus->gpadl[ring->gpadl].is_used && ring->data_pages >= 1
        && (uint64_t)ring->first + 1 + ring->data_pages <= bus->gpadl[ring->gpadl].listed && is_index(ring, ring->index);
}

/* hv_ringbuffer_write of the drivers: a ring that would be full counts as empty, so a byte stays free; and a reader
 * that had read everything needs a signal, unless it has masked it. The index is stored before the other's is
 * loaded. */
enum ring_result ring_write(struct vmbus *bus, struct ring *ring, const void *packet, uint32_t length)
{
    uint32_t read = load(bus, ring, READ_INDEX), old = ring->index;
    uint64_t trailer = (uint64_t)old << 32;
    if (!is_index(ring, read))
        return RING_BROKEN;
    if (size_of(ring) - distance(ring, read, old) <= length + VMBUS_PKT_TRAILER)
        return RING_FULL;
    copy(bus, ring, old, (void *)(uintptr_t)packet, length, TO_RING);
    copy(bus, ring, old + length, &trailer, sizeof trailer, TO_RING);
    ring->index = (old + length + VMBUS_PKT_TRAILER) % size_of(ring);
    store(bus, ring, WRITE_INDEX, ring->index);
    return load(bus, ring, INTERRUPT_MASK) == 0 && load(bus, ring, READ_INDEX) == old ? RING_SIGNAL : RING_DONE;
}

/* What the descriptor says is checked on the copy, which the guest cannot change. */
enum ring_result ring_read(struct vmbus *bus, struct ring *ring, uint8_t packet[MOST_PACKET])
{
    uint32_t write = load(bus, ring, WRITE_INDEX), available;
    struct vmpacket_descriptor descriptor;
    if (!is_index(ring, write))
        return RING_BROKEN;
    if ((available = distance(ring, ring->index, write)) == 0)
        return RING_EMPTY;
    copy(bus, ring, ring->index, &descriptor, sizeof descriptor, FROM_RING);
    uint32_t length = descriptor.len8 * 8U, offset = descriptor.offset8 * 8U;
    if (offset < sizeof descriptor || offset > length || length > MOST_PACKET || length + VMBUS_PKT_TRAILER > available)
        return RING_BROKEN;
    memcpy(packet, &descriptor, sizeof descriptor);
    copy(bus, ring, ring->index + sizeof descriptor, packet + sizeof descriptor, length - (uint32_t)sizeof descriptor, FROM_RING);
    ring->index = (ring->index + length + VMBUS_PKT_TRAILER) % size_of(ring);
    store(bus, ring, READ_INDEX, ring->index);
    return RING_DONE;
}

uint32_t ring_unread(struct vmbus *bus, const struct ring *outbound)
{
    uint32_t read = load(bus, outbound, READ_INDEX);
    return is_index(outbound, read) ? distance(outbound, read, outbound->index) : UINT32_MAX;
}

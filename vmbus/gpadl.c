/* GPADLs: lists of the guest's pages, which it sends in a header and, if that has no room, in bodies. */
#include <string.h>

#include "bus.h"

struct gpadl *gpadl_find(struct vmbus *bus, uint32_t handle)
{
    for (unsigned at = 0; at < MOST_GPADLS; at++)
        if (bus->gpadl[at].is_used && bus->gpadl[at].handle == handle)
            return &bus->gpadl[at];
    return NULL;
}

bool gpadl_is_sound(struct vmbus *bus, const struct gpadl *gpadl)
{
    bool is_sound = !gpadl->is_used || (gpadl->pages <= MOST_PAGES && gpadl->listed <= gpadl->pages);
    for (uint32_t at = 0; is_sound && gpadl->is_used && at < gpadl->listed; at++)
        is_sound = bus->host->page(bus->opaque, gpadl->pfn[at], false) != NULL;
    return is_sound;
}

static void answer(struct vmbus *bus, uint32_t relid, uint32_t handle, uint32_t status)
{
    struct vmbus_channel_gpadl_created created = { { CHANNELMSG_GPADL_CREATED, 0 }, relid, handle, status };
    message_post(bus, &created, sizeof created);
}

/* Adds the page numbers after the head of a message, and answers when the list is complete. A list with a page outside the guest's memory, or with
 * more pages than its header says, is refused as a whole. */
static void add(struct vmbus *bus, struct gpadl *gpadl, const struct posted *posted, uint32_t after)
{
    const uint8_t *bytes = (const uint8_t *)posted->bytes + after;
    uint32_t length = posted->length - after;
    bool is_bad = length % sizeof(uint64_t) != 0 || length / sizeof(uint64_t) > gpadl->pages - gpadl->listed;
    for (; !is_bad && length != 0; bytes += sizeof(uint64_t), length -= sizeof(uint64_t)) {
        uint64_t pfn;
        memcpy(&pfn, bytes, sizeof pfn);
        is_bad = bus->host->page(bus->opaque, pfn, false) == NULL;
        gpadl->pfn[gpadl->listed] = pfn;
        gpadl->listed += !is_bad;
    }
    if (is_bad)
        gpadl->is_used = false;
    if (is_bad || gpadl->listed == gpadl->pages)
        answer(bus, gpadl->relid, gpadl->handle, is_bad ? FAILED : 0);
}

void gpadl_on_header(struct vmbus *bus, const struct posted *posted)
{
    const struct vmbus_channel_gpadl_header *message = posted->bytes;
    uint64_t pages = ((uint64_t)message->byte_offset + message->byte_count + PAGE_BYTES - 1) / PAGE_BYTES;
    struct gpadl *gpadl = NULL;
    for (unsigned at = 0; gpadl == NULL && at < MOST_GPADLS; at++)
        if (!bus->gpadl[at].is_used)
            gpadl = &bus->gpadl[at];
    bool is_good = message->rangecount == 1 && message->byte_offset < PAGE_BYTES && pages >= 1 && pages <= MOST_PAGES
        && message->range_buflen == 8 + pages * sizeof(uint64_t) && message->child_relid - 1 < CHANNELS
        && bus->channel[message->child_relid - 1].state != UNOFFERED;
    if (gpadl == NULL || !is_good || gpadl_find(bus, message->gpadl) != NULL) {
        answer(bus, message->child_relid, message->gpadl, FAILED);
        return;
    }
    *gpadl = (struct gpadl){ .is_used = true, .handle = message->gpadl, .relid = message->child_relid, .pages = (uint32_t)pages };
    add(bus, gpadl, posted, sizeof *message);
}

void gpadl_on_body(struct vmbus *bus, const struct posted *posted)
{
    const struct vmbus_channel_gpadl_body *message = posted->bytes;
    struct gpadl *gpadl = gpadl_find(bus, message->gpadl);
    if (gpadl == NULL || gpadl->listed == gpadl->pages)
        bus->ignored++;
    else
        add(bus, gpadl, posted, sizeof *message);
}

/* A channel whose rings are in these pages is closed first. */
void gpadl_on_teardown(struct vmbus *bus, const struct posted *posted)
{
    const struct vmbus_channel_gpadl_teardown *message = posted->bytes;
    struct gpadl *gpadl = gpadl_find(bus, message->gpadl);
    struct vmbus_channel_gpadl_torndown torndown = { { CHANNELMSG_GPADL_TORNDOWN, 0 }, message->gpadl };
    if (gpadl == NULL || gpadl->relid != message->child_relid) {
        bus->ignored++;
        return;
    }
    channels_close(bus, (uint32_t)(gpadl - bus->gpadl));
    gpadl->is_used = false;
    message_post(bus, &torndown, sizeof torndown);
}

void gpadl_release(struct vmbus *bus, uint32_t relid)
{
    for (unsigned at = 0; at < MOST_GPADLS; at++)
        if (relid == 0 || bus->gpadl[at].relid == relid)
            bus->gpadl[at].is_used = false;
}

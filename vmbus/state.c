/* Opening, reset, the state in a saved guest, and what is printed at the end. */
#include <stdarg.h>
#include <stdio.h>
#include <stdlib.h>

#include "bus.h"

struct vmbus *vmbus_open(const struct vmbus_host *host, void *opaque, const struct vmbus_options *options)
{
    struct vmbus *bus = calloc(1, sizeof *bus);
    if (bus != NULL)
        *bus = (struct vmbus){ .host = host, .opaque = opaque, .options = *options };
    return bus;
}

void vmbus_close(struct vmbus *bus)
{
    free(bus);
}

void *vmbus_state(struct vmbus *bus, size_t *length)
{
    *length = sizeof *bus - offsetof(struct vmbus, version);
    return &bus->version;
}

bool vmbus_is_sound(struct vmbus *bus)
{
    bool is_sound = bus->replies <= MOST_REPLIES;
    for (unsigned at = 0; is_sound && at < bus->replies; at++)
        is_sound = bus->reply[at].length <= HV_MESSAGE_PAYLOAD_BYTE_COUNT;
    for (unsigned at = 0; is_sound && at < MOST_GPADLS; at++)
        is_sound = gpadl_is_sound(bus, &bus->gpadl[at]);
    for (unsigned at = 0; is_sound && at < CHANNELS; at++) {
        const struct channel *channel = &bus->channel[at];
        is_sound = channel->state <= RESCINDED && channel->target_vp < bus->options.vps && channel->answered <= channel->sent;
        if (is_sound && channel->state == OPEN)
            is_sound = ring_is_sound(bus, &channel->inbound) && ring_is_sound(bus, &channel->outbound);
    }
    return is_sound;
}

bool vmbus_is_answered(const struct vmbus *bus)
{
    bool is_answered = true;
    for (unsigned at = 0; at < CHANNELS; at++)
        is_answered = is_answered && bus->sent[at] == bus->answered[at] && bus->wrong[at] == 0;
    return is_answered && (bus->options.heartbeats == 0 || bus->answered[HEARTBEAT] >= bus->options.heartbeats);
}

void bus_log(const struct vmbus *bus, const char *format, ...)
{
    char line[128];
    va_list words;
    va_start(words, format);
    vsnprintf(line, sizeof line, format, words);
    va_end(words);
    bus->host->log(bus->opaque, line);
}

void vmbus_report(struct vmbus *bus)
{
    for (unsigned at = 0; at < CHANNELS; at++) {
        const struct channel *channel = &bus->channel[at];
        fprintf(stderr, "vmbus: %s: %lu sent, %lu answered, %lu wrong; the ring was full %lu times; opened %lu times",
                channel_names[at], bus->sent[at], bus->answered[at], bus->wrong[at], bus->full[at], bus->opened[at]);
        if (channel->state == OPEN)
            fprintf(stderr, "; %u bytes not read", ring_unread(bus, &channel->outbound));
        fputc('\n', stderr);
    }
    fprintf(stderr, "vmbus: %lu messages of the guest, %lu of them ignored; %lu answers dropped, %u wait\n",
            bus->messages, bus->ignored, bus->dropped, bus->replies);
    fprintf(stderr, "vmbus: %lu signals to the guest, %lu from it; %lu requests withdrawn\n", bus->signals,
            bus->guest_signals, bus->withdrawn);
}

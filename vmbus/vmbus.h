/* A host of VMBus: contact, channels, rings, and the services heartbeat, time synchronisation and shutdown, for a guest
 * whose message and event flags pages are those of a board. It has no threads, no clock and no globals: its host
 * calls it, one call at a time, and it calls the host's functions. Tested, not proved (docs/TESTING.md). */
#ifndef VMBUS_H
#define VMBUS_H

#include <stdbool.h>
#include <stddef.h>
#include <stdint.h>

#include "synicboard.h"

enum vmbus_service { HEARTBEAT, TIMESYNC, SHUTDOWN, CHANNELS };         /* the channel of relid N is number N - 1 */

/* What the host does for it. */
struct vmbus_host {
    /* The guest's page of 4096 bytes with this number, null if it is no memory. If `is_stored` the caller may store in
     * it before it returns to the host. */
    uint8_t *(*page)(void *opaque, uint64_t number, bool is_stored);
    synicboard_reply (*perform)(void *opaque, const synicboard_event *event);   /* on the board: ports, posts, signals */
    uint64_t (*time)(void *opaque);         /* the board's time, in units of 100 ns */
    uint64_t (*date)(void *opaque);         /* since 1970, in units of 100 ns */
    void (*kick)(void *opaque, unsigned vp);    /* call vmbus_deliver for this processor soon, not from here */
    void (*log)(void *opaque, const char *line);
};

struct vmbus_options {
    unsigned vps;
    uint32_t newest;            /* the newest version that the host accepts: the major number times 65536, and the minor */
    uint32_t shutdown_after, rescind_after;     /* milliseconds of the board's time; 0 for never */
    uint64_t heartbeats;        /* the guest is shut down after so many answers; 0 for never */
    bool signals_in_turn;       /* only vmbus_deliver signals, since pages trap (docs/EMBEDDING.md) */
};

/* The newest version that this host has. */
enum { VMBUS_NEWEST = 5 << 16 | 3 };

struct vmbus;

/* A bus without contact, on a board with all ports of it closed; null if there is no memory. `host` stays valid until
 * the bus is closed. */
struct vmbus *vmbus_open(const struct vmbus_host *host, void *opaque, const struct vmbus_options *options);
void vmbus_close(struct vmbus *bus);

/* The hypercalls HvCallPostMessage and HvCallSignalEvent. Each returns the status. `payload` is aligned to 4 bytes. */
uint64_t vmbus_post_message(struct vmbus *bus, uint32_t connection, uint32_t message_type, const void *payload, uint32_t length);
uint64_t vmbus_signal_event(struct vmbus *bus, uint32_t connection, uint16_t flag);

/* What waits for a processor: after a message of the guest was consumed, and after a kick. With signals_in_turn the
 * processor is not in the guest. Returns whether it is to be called again. */
bool vmbus_deliver(struct vmbus *bus, unsigned vp);

/* Sends a heartbeat, a time sample, or what is due once. The host calls it for each service at times of its own. */
void vmbus_tick(struct vmbus *bus, enum vmbus_service service);

/* The machine is reset: as after opening, and the ports are closed. A ring that is open is memory of the guest before. */
void vmbus_reset(struct vmbus *bus);

/* The state, for a saved guest: it has no pointers, and a length that only the version changes. */
void *vmbus_state(struct vmbus *bus, size_t *length);
bool vmbus_is_sound(struct vmbus *bus);     /* of a state that was read from a file; if not, close the bus */

bool vmbus_is_answered(const struct vmbus *bus);    /* whether each request was answered */
void vmbus_report(struct vmbus *bus);       /* on standard error */

#endif

/* What the files of the bus share. From `version` on, the state has no pointers, so a saved guest contains a copy. */
#ifndef BUS_H
#define BUS_H

#include "../partition/status.h"
#include "protocol.h"
#include "vmbus.h"

enum { PAGE_BYTES = 4096 };
enum { MOST_GPADLS = 8, MOST_PAGES = 512, MOST_REPLIES = 8, MOST_PACKET = 4096 };
enum { MESSAGE_PORT = 0, FIRST_FLAG_PORT = 8 };         /* of the board; a port of event flags for each processor */
enum { FIRST_EVENT_CONNECTION = 0x10000 };              /* plus the relid: what the guest signals */
enum { FAILED = 1 };                                    /* a status that is no success */

/* Pages of the guest, as a list (GPA descriptor list). */
struct gpadl {
    bool is_used;
    uint32_t handle, relid;
    uint32_t pages, listed;     /* all are listed when it is complete */
    uint64_t pfn[MOST_PAGES];   /* each in the guest's memory */
};

/* A ring in the pages of a GPADL: a page of control, then data. */
struct ring {
    uint32_t gpadl;             /* its number here, not its handle */
    uint32_t first, data_pages;
    uint32_t index;             /* the host's own: where it reads, or writes, next */
};

enum channel_state { UNOFFERED, OFFERED, OPEN, RESCINDED };

struct channel {
    enum channel_state state;
    uint32_t target_vp;
    bool is_signalled;          /* vmbus_deliver sets its flag */
    bool has_more;              /* and reads the ring again */
    struct ring inbound, outbound;      /* from the guest, and to it */
    bool is_negotiated;
    uint64_t sent, answered;    /* packets since it was opened; an answer to each comes in order */
};

struct reply { uint32_t length; uint8_t bytes[HV_MESSAGE_PAYLOAD_BYTE_COUNT]; };

struct vmbus {
    const struct vmbus_host *host;
    void *opaque;
    struct vmbus_options options;
    uint32_t version;           /* 0: the guest has not made contact, or has unloaded */
    uint32_t connection;        /* the connection of the guest's messages */
    uint32_t replies;           /* messages that found no buffer, in order */
    struct reply reply[MOST_REPLIES];
    struct gpadl gpadl[MOST_GPADLS];
    struct channel channel[CHANNELS];
    uint64_t messages, ignored, dropped;
    uint64_t signals, guest_signals;
    uint64_t sent[CHANNELS], answered[CHANNELS];        /* requests, without the negotiation after opening */
    uint64_t wrong[CHANNELS], full[CHANNELS], opened[CHANNELS], withdrawn;
    uint64_t end;               /* the time at which the guest is to be shut down, or 0; nothing else is sent then */
    bool has_rescinded;
};

/* A message of the guest, as long as its kind is at least. */
struct posted { const void *bytes; uint32_t length; };

/* messages.c */
void message_post(struct vmbus *bus, const void *bytes, uint32_t length);  /* at most MOST_REPLIES while the guest's message is handled */
void messages_flush(struct vmbus *bus);                              /* posts the replies that found no buffer */

/* gpadl.c */
void gpadl_on_header(struct vmbus *bus, const struct posted *posted);
void gpadl_on_body(struct vmbus *bus, const struct posted *posted);
void gpadl_on_teardown(struct vmbus *bus, const struct posted *posted);
void gpadl_release(struct vmbus *bus, uint32_t relid);                     /* all of a channel; 0 for all */
struct gpadl *gpadl_find(struct vmbus *bus, uint32_t handle);              /* null if there is none */
bool gpadl_is_sound(struct vmbus *bus, const struct gpadl *gpadl);

/* ring.c */
enum ring_result { RING_DONE, RING_SIGNAL, RING_EMPTY, RING_FULL, RING_BROKEN };
enum ring_result ring_write(struct vmbus *bus, struct ring *ring, const void *packet, uint32_t length);   /* of a multiple of 8 bytes */
enum ring_result ring_read(struct vmbus *bus, struct ring *ring, uint8_t packet[MOST_PACKET]);     /* one; its descriptor has been checked */
bool ring_is_sound(struct vmbus *bus, const struct ring *ring);
uint32_t ring_unread(struct vmbus *bus, const struct ring *outbound);      /* bytes that the guest has not read; for a report */

/* channels.c */
extern const char *const channel_names[CHANNELS];
void channels_on_request(struct vmbus *bus, const struct posted *posted);
void channel_on_open(struct vmbus *bus, const struct posted *posted);
void channel_on_close(struct vmbus *bus, const struct posted *posted);
void channel_on_released(struct vmbus *bus, const struct posted *posted);
void channel_on_modify(struct vmbus *bus, const struct posted *posted);
void channel_rescind(struct vmbus *bus, unsigned number);
void channels_close(struct vmbus *bus, uint32_t gpadl);                    /* those whose rings are in this GPADL */
void channels_forget(struct vmbus *bus);                             /* as before the first offer */
bool channel_send(struct vmbus *bus, unsigned number, const void *packet, uint32_t length);        /* false if the ring is full, or not open */

/* services.c */
void service_opened(struct vmbus *bus, unsigned number);
void service_answer(struct vmbus *bus, unsigned number, const uint8_t packet[MOST_PACKET]);        /* whose descriptor has been checked */

/* state.c */
void bus_log(const struct vmbus *bus, const char *format, ...) __attribute__((format(printf, 2, 3)));

#endif

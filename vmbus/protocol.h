/* What VMBus drivers and a host of VMBus exchange, with the names of Linux's include/linux/hyperv.h. */
#ifndef PROTOCOL_H
#define PROTOCOL_H

#include <stdint.h>

/* ---- Messages ---- */

enum { HV_MESSAGE_PAYLOAD_BYTE_COUNT = 240, CHANNEL_MESSAGE = 1 };      /* the type of all messages of VMBus */
enum { VMBUS_MESSAGE_CONNECTION_ID = 1, VMBUS_MESSAGE_CONNECTION_ID_4 = 4, VMBUS_MESSAGE_SINT = 2 };

enum {
    VERSION_WIN8 = 2 << 16 | 4, VERSION_WIN8_1 = 3 << 16, VERSION_WIN10 = 4 << 16, VERSION_WIN10_V4_1 = 4 << 16 | 1,
    VERSION_WIN10_V5 = 5 << 16, VERSION_WIN10_V5_1 = 5 << 16 | 1, VERSION_WIN10_V5_2 = 5 << 16 | 2,
    VERSION_WIN10_V5_3 = 5 << 16 | 3,
};

enum {
    CHANNELMSG_OFFERCHANNEL = 1, CHANNELMSG_RESCIND_CHANNELOFFER = 2, CHANNELMSG_REQUESTOFFERS = 3,
    CHANNELMSG_ALLOFFERS_DELIVERED = 4, CHANNELMSG_OPENCHANNEL = 5, CHANNELMSG_OPENCHANNEL_RESULT = 6,
    CHANNELMSG_CLOSECHANNEL = 7, CHANNELMSG_GPADL_HEADER = 8, CHANNELMSG_GPADL_BODY = 9, CHANNELMSG_GPADL_CREATED = 10,
    CHANNELMSG_GPADL_TEARDOWN = 11, CHANNELMSG_GPADL_TORNDOWN = 12, CHANNELMSG_RELID_RELEASED = 13,
    CHANNELMSG_INITIATE_CONTACT = 14, CHANNELMSG_VERSION_RESPONSE = 15, CHANNELMSG_UNLOAD = 16,
    CHANNELMSG_UNLOAD_RESPONSE = 17, CHANNELMSG_MODIFYCHANNEL = 22, CHANNELMSG_MODIFYCHANNEL_RESPONSE = 24, CHANNELMSG_COUNT = 25,
};

enum { VMBUS_CHANNEL_ENUMERATE_DEVICE_INTERFACE = 1, VMBUS_CHANNEL_NAMED_PIPE_MODE = 0x10, VMBUS_PIPE_TYPE_MESSAGE = 4 };

#pragma pack(push, 1)

typedef struct vmbus_channel_message_header { uint32_t msgtype, padding; } vmbus_header;

struct vmbus_channel_initiate_contact {
    vmbus_header header;
    uint32_t vmbus_version_requested, target_vcpu;
    uint8_t msg_sint, padding[7];       /* before version 5.0, the address of a page that this host does not use */
    uint64_t monitor_page1, monitor_page2;
};

struct vmbus_channel_version_response {
    vmbus_header header;
    uint8_t version_supported, connection_state, padding[2];
    uint32_t msg_conn_id;
};

struct vmbus_channel_offer_channel {
    vmbus_header header;
    uint8_t if_type[16], if_instance[16];
    uint64_t reserved1, reserved2;
    uint16_t chn_flags, mmio_megabytes;
    uint32_t pipe_mode;
    uint8_t user_def[116];
    uint16_t sub_channel_index, reserved3;
    uint32_t child_relid;
    uint8_t monitorid, monitor_allocated;
    uint16_t is_dedicated_interrupt;
    uint32_t connection_id;
};

struct vmbus_channel_gpadl_header {
    vmbus_header header;
    uint32_t child_relid, gpadl;
    uint16_t range_buflen, rangecount;
    uint32_t byte_count, byte_offset;   /* of the first range; its page numbers follow */
};

/* More page numbers follow. */
struct vmbus_channel_gpadl_body { vmbus_header header; uint32_t msgnumber, gpadl; };
struct vmbus_channel_gpadl_created { vmbus_header header; uint32_t child_relid, gpadl, creation_status; };
struct vmbus_channel_gpadl_teardown { vmbus_header header; uint32_t child_relid, gpadl; };
struct vmbus_channel_gpadl_torndown { vmbus_header header; uint32_t gpadl; };

struct vmbus_channel_open_channel {
    vmbus_header header;
    uint32_t child_relid, openid, ringbuffer_gpadlhandle, target_vp, downstream_ringbuffer_pageoffset;
    uint8_t userdata[120];
};
struct vmbus_channel_open_result { vmbus_header header; uint32_t child_relid, openid, status; };

/* Close, rescind, and "relid released". */
struct vmbus_channel_relid { vmbus_header header; uint32_t child_relid; };
struct vmbus_channel_modifychannel { vmbus_header header; uint32_t child_relid, target_vp; };
struct vmbus_channel_modifychannel_response { vmbus_header header; uint32_t child_relid, status; };

/* ---- Packets in a ring ---- */

/* Word numbers of a ring's first page (struct hv_ring_buffer). */
enum { WRITE_INDEX = 0, READ_INDEX = 1, INTERRUPT_MASK = 2 };
enum { VM_PKT_DATA_INBAND = 6, VMBUS_PKT_TRAILER = 8 };

struct vmpacket_descriptor { uint16_t type, offset8, len8, flags; uint64_t trans_id; };

struct vmbuspipe_hdr { uint32_t flags, msgsize; };

struct ic_version { uint16_t major, minor; };

struct icmsg_hdr {
    struct ic_version icverframe;
    uint16_t icmsgtype;
    struct ic_version icvermsg;
    uint16_t icmsgsize;
    uint32_t status;
    uint8_t ictransaction_id, icflags, reserved[2];
};

enum { ICMSGTYPE_NEGOTIATE = 0, ICMSGTYPE_HEARTBEAT = 1, ICMSGTYPE_SHUTDOWN = 3, ICMSGTYPE_TIMESYNC = 4 };
enum { ICMSGHDRFLAG_TRANSACTION = 1, ICMSGHDRFLAG_REQUEST = 2, ICMSGHDRFLAG_RESPONSE = 4 };

struct icmsg_negotiate {
    uint16_t icframe_vercnt, icmsg_vercnt;
    uint32_t reserved;
    struct ic_version framework, service;       /* one of each is offered, and at most one of each is accepted */
};

struct heartbeat_msg_data { uint64_t seq_num; uint32_t reserved[8]; };

enum { ICTIMESYNCFLAG_SYNC = 1, ICTIMESYNCFLAG_SAMPLE = 2 };
#define WLTIMEDELTA 116444736000000000  /* from 1601 to 1970, in units of 100 ns */

struct ictimesync_ref_data { uint64_t parenttime, vmreferencetime; uint8_t flags, leapflags, stratum, reserved[3]; };

struct shutdown_msg_data {
    uint32_t reason_code, timeout_seconds, flags;       /* flags 0: turn off */
    uint8_t display_message[2048];
};

#pragma pack(pop)

#endif

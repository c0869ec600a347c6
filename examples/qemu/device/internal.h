/* What the files of the emulator's SynIC share.
 *
 * The lock of board.c protects the board and what its notices ask for. Under it nothing is called but the library, and
 * stdio if a log is written. What an event asks for is noted there, and done after the lock is released, under QEMU's
 * lock (BQL): vectors for the local APICs, the host's timer, callbacks of routes. So the lock may be taken with the BQL
 * or without, and the BQL never under the lock. Everything else here is protected by the BQL. */
#ifndef SYNIC_INTERNAL_H
#define SYNIC_INTERNAL_H

#include "qemu/osdep.h"
#include "cpu.h"
#include "hw/qdev-core.h"
#include "versions.h"
#include "../partition/partition.h"
#include "../vmbus/vmbus.h"
#include "synicboard.h"

enum { SYNIC_TSC_HZ = 1000000000 };     /* of the TSC, which is the virtual clock, and of the local APICs' timers */
#define SYNIC_NEVER UINT64_MAX

/* The board and the partition of the machine: there is one. */
struct synic {
    bool is_open, is_ready;             /* it is ready when its overlays have their pages */
    struct partition_offer offer;
    struct partition partition;
};
extern struct synic synic;

/* board.c. Without its lock. */
void synic_open_board(void);
void synic_make_ready(void);            /* before the processors run: live pages, logs */
synicboard_reply synic_perform(const synicboard_event *event);     /* at the present time, and does what it asks for */
void synic_tick(void);                  /* if a timer is due */
void synic_settle(void);                /* does what events asked for; takes the BQL if there is anything */
bool synic_is_auto(uint8_t vp, uint8_t vector);
enum { SYNIC_WATCHES = 64 };
/* Posts a message; when it is placed, synic_routes_placed is called. */
synicboard_reply synic_post_watched(const synicboard_event *event, unsigned watch);
void synic_list_overlays(uint64_t pages[2 * PARTITION_VPS]);        /* the address of each overlay, or SYNIC_NEVER */
uint8_t *synic_live_page(unsigned number);      /* 2 * vp for messages, 2 * vp + 1 for flags */
uint8_t *synic_save_image(size_t *length);
bool synic_restore_image(const uint8_t *image, size_t length, Error **errp);
void synic_report(void);

/* clock.c */
uint64_t synic_now(void);               /* the board's time */
uint64_t synic_date(void);              /* since 1970, in units of 100 ns */
void synic_fill_tsc_page(struct partition_tsc_page *page);
void synic_open_timer(void);
void synic_arm(uint64_t time);          /* under the BQL; SYNIC_NEVER for none */
bool synic_take_bql(void);              /* false if the thread had it */
void synic_release_bql(bool is_taken);

/* apic.c. Under the BQL. */
void synic_deliver(uint8_t vp, uint8_t vector);
void synic_deliver_all(uint8_t vp, const uint64_t vectors[4]);
bool synic_apic_read(X86CPU *cpu, uint32_t msr, uint64_t *value);
bool synic_apic_write(X86CPU *cpu, uint32_t msr, uint64_t value);

/* overlay.c. Under the BQL. */
void synic_make_regions(void);
void synic_map_overlays(void);
/* A write of SIMP or SIEFP, while no processor runs. Without the BQL. */
void synic_move_overlay(X86CPU *cpu, uint32_t msr, uint64_t value);

uint8_t *synic_find_page(uint64_t number, bool is_stored);     /* of the guest's memory; null if it is none */

/* assist.c. Under the BQL. */
extern uint8_t synic_assisted[PARTITION_VPS];   /* the vector in service for which the bit was set, or 0; for a saved machine */
void synic_assist_leave(X86CPU *cpu);
uint64_t synic_assist_count(void);      /* interrupts that ended without a write of EOI */

/* offer.c */
bool synic_make_offer(X86CPU *cpu, struct partition_offer *offer, Error **errp);

/* hypercalls.c */
void synic_open_calls(void);
uint16_t synic_call_port(void);

/* state.c */
void synic_open_state(void);

/* log.c. Under the lock of the board. */
struct synic_log_options {
    char *trace, *notices;              /* files, or null */
    bool traps;                         /* message and event flags pages trap */
};
extern struct synic_log_options synic_log_options;
void synic_log_begin(const synicboard *board, const uint8_t *image, size_t length);
void synic_log_event(const synicboard_event *event, const synicboard_reply *reply);
void synic_log_forwarded(uint8_t vp, const synicboard_forwarded *forwarded);
void synic_log_eoms(uint64_t eoms);
void synic_log_notice(uint64_t time, const synicboard_notice *notice);
void synic_log_end(const synicboard *board);

/* bus.c: the small VMBus. Under the BQL. */
bool synic_has_bus(void);
uint64_t synic_bus_post(const struct partition_request *request);
uint64_t synic_bus_signal(const struct partition_request *request);
void synic_bus_consumed(void);          /* a buffer may be free */
void synic_bus_reset(void);

/* routes.c: QEMU's VMBus. Under the BQL. */
bool synic_has_qemu_bus(void);
uint64_t synic_qemu_post(uint64_t input, bool is_fast);
uint64_t synic_qemu_signal(uint64_t input, bool is_fast);
void synic_routes_placed(uint64_t watches);     /* the messages of these watches, a bit each */
void synic_routes_restored(void);

#endif

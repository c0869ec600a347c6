/* A small hypervisor over /dev/kvm. KVM runs the processors and nothing else: a synicboard is
 * their SynIC, their synthetic timers and their local APICs, and KVM's own interrupt controllers
 * and Hyper-V support are unused. With --irqchip the local APICs are KVM's. */
#ifndef VMM_H
#define VMM_H

#include <linux/kvm.h>
#include <pthread.h>
#include <stdatomic.h>
#include <stdbool.h>
#include <stddef.h>
#include <stdint.h>

#include "../../partition/partition.h"
#include "../../vmbus/vmbus.h"
#include "synicboard.h"

enum { PAGE = 4096, MOST_VPS = 8 };

/* What threads wait for. Each signal is counted, so that none is missed between a look at the count and the wait
 * for another one. */
struct condition {
    atomic_uint signals, waiting;
};

/* A virtual processor. The lock protects every field except `posted_parts`. */
struct vp {
    uint8_t number;
    int fd;
    struct kvm_run *run;
    pthread_t thread;
    int thread_id;              /* for signals */
    struct condition kicked;
    struct kvm_regs reset_regs;
    struct kvm_sregs reset_sregs;
    bool is_in_guest;           /* its thread is in KVM_RUN, or enters it without looking at anything else */
    bool is_halted;
    bool is_suspended;          /* by the guest, with HvRegisterExplicitSuspend */
    bool waits_for_sipi;
    bool has_init, has_sipi;    /* sent, and not accepted yet by its thread */
    uint8_t sipi_page;
    uint8_t tpr;                /* equals the TPR of the board, for CR8 */
    bool is_assisted;           /* "No EOI required" was set for the vector in service */
    synicboard_line line;       /* its thread absorbs through it */
    atomic_uint posted_parts;   /* a bit for each part of the posted words that may have vectors to absorb */
    uint64_t injected, ended_without, exits[64];
};

/* What the command line says about VMBus. */
struct bus_options {
    bool is_on;
    bool signals_from_threads;  /* by whichever thread has a packet, which loses flags where pages trap (docs/EMBEDDING.md) */
    struct vmbus_options options;
    uint64_t every[CHANNELS];   /* microseconds between two turns of a service */
};

/* The partition. The lock protects what changes after the start. */
struct vm {
    int kvm, fd;
    uint8_t *ram;
    uint64_t ram_size;
    unsigned vps;
    struct vp vp[MOST_VPS];
    bool is_stopping;
    bool is_saving;             /* it is stopping to be saved */
    int status;                 /* the exit status of the program */
    uint32_t load;              /* how many interrupts the flat guest asks of its devices */
    uint32_t restore_every;     /* milliseconds from one replacement of the board to the next; 0 for none */
    uint32_t save_after;        /* milliseconds until the guest is saved, if save_to is not null */
    const char *save_to;
    const char *trace;          /* the file that gets the trace of the board; null for none */
    bool pages_trap;            /* the guest's stores to message and event flags pages exit */
    bool has_irqchip;           /* the local APICs are KVM's */
    bool misses_wakes;          /* KVM's local APICs do not always wake a processor (irqchip.c) */
    struct bus_options vmbus;
    uint64_t tsc_hz;
    uint64_t slot_changes, emulated;
};

extern struct vm vm;
extern synicboard *board;               /* the shared board, while the lock is held */

/* Unless it says otherwise, a function of this header is called with the lock held: that of the shared board,
 * which protects everything else that threads share, too. */

/* lock.c */
void lock_share(synicboard *opened);        /* shares a board, and acquires its lock */
void lock_acquire(void);                    /* without the lock */
void lock_release(void);                    /* then signals threads and arms the host's timer, without the lock */
void lock_wait(struct condition *condition);    /* releases it meanwhile; may return early */
void lock_signal(struct condition *condition);  /* wakes all that wait for it; needs no lock */
void lock_interrupt(const struct vp *vp);   /* a signal to its thread, after the lock is released */
void lock_wake(const struct vp *vp);        /* wakes its thread, if it waits, after the lock is released */

/* main.c */
_Noreturn void fail(const char *what);      /* prints errno's text and ends the program; needs no lock */
void vm_log(const char *format, ...) __attribute__((format(printf, 1, 2)));     /* on standard error, with the time */
void vm_stop(int status);

/* vm.c: before the threads start */
void vm_open(void);                         /* without the lock, which it acquires */
uint8_t *vm_memory(uint64_t address, uint64_t length);  /* null outside the guest's memory */
bool vm_has_valid_size(void);               /* of its processors and its memory */

/* vp.c */
void vp_open(unsigned number);
void vp_start(struct vp *vp);               /* starts its thread */
void vp_kick(struct vp *vp);                /* makes its thread look at the board again */
void vp_send_init(struct vp *vp);
void vp_send_sipi(struct vp *vp, uint8_t page);
void vp_pause_others(void);                 /* returns when no processor is in the guest */
void vp_resume_others(void);
void vp_complete(struct vp *vp);            /* completes the instruction of its last exit; its thread has ended */

/* saved.c. Without the lock: saved_open before vm_open, saved_read before the threads start, saved_write after
 * those of the processors have ended. The functions X_transfer write a state to the file, or read it from there. */
void saved_open(const char *path);          /* reads what vm_open needs */
void saved_read(void);
void saved_start(void);                     /* starts the thread that stops the guest, if it is to be saved */
void saved_write(void);                     /* saves it, if it was stopped for that */
void saved_transfer(void *bytes, size_t length);
_Noreturn void saved_refuse(const char *why);   /* ends the program, because of what it has read */
void vp_transfer(struct vp *vp);
void state_transfer(struct vp *vp);
void board_transfer(void);
void image_transfer(void);
void clock_transfer(void);
void apic_transfer(void);
void hyperv_transfer(void);
void devices_transfer(void);
void load_transfer(void);
void bus_transfer(void);

/* irqchip.c: the local APICs of KVM */
struct vectors { uint64_t words[4]; };
void irqchip_open(void);                    /* before the processors are made */
void irqchip_mark(uint8_t vp);              /* it has requests that it may forward */
void irqchip_collect(void);                 /* those that are marked forward what is requested */
bool irqchip_take(struct vectors vectors[MOST_VPS]);    /* what they forwarded; whether there is anything */
void irqchip_inject(const struct vectors vectors[MOST_VPS]);    /* injects that, without the lock */
void irqchip_request(uint8_t vp, uint8_t vector);   /* needs no lock */
void irqchip_wait(void);                    /* until all that was taken is injected */
enum { IRQCHIP_WAKE = 200000 };             /* 20 ms */
void irqchip_wake(void);                    /* processors whose interrupt KVM may have missed */

/* state.c */
void state_get(struct vp *vp);
void state_set(struct vp *vp);
uint64_t state_set_tsc_offset(struct vp *vp, uint64_t offset);      /* returns the offset that KVM uses then */

/* cpuid.c: before the threads start, without the lock */
void cpuid_set(struct vp *vp);

/* emulate.c */
void emulate(struct vp *vp);                /* an instruction that KVM's emulator does not know */

/* clock.c */
void clock_open(void);
uint64_t clock_now(void);                   /* the time, in units of 100 ns; needs no lock */
void clock_want(uint64_t time);             /* when the host's timer is to expire; UINT64_MAX for never */
void clock_arm(void);                       /* arms the host's timer; without the lock */
void clock_fill_page(void *page);           /* the reference TSC page */
void clock_stop(void);                      /* time stops until another run has called clock_continue */
void clock_continue(void);
uint64_t clock_stopped(void);               /* the time at which it was stopped */
uint64_t clock_tsc_offset(void);            /* the guest's TSC minus that of the host */

/* board.c */
void board_open(void);
void board_make_live(synicboard *opened);   /* unless pages trap */
void board_observe(void);                   /* makes the board's pages equal to the live ones, while no processor runs */
uint8_t *board_live_page(synicboard_page_owner owner);
void board_advance(void);                   /* ticks if a timer is due, and arms the host's timer */
void board_absorb(struct vp *vp);
uint8_t board_take(struct vp *vp);
synicboard_reply board_write(struct vp *vp, uint32_t msr, uint64_t value);
synicboard_reply board_read(struct vp *vp, uint32_t msr);
void board_send(uint8_t vector, uint64_t vps);  /* an interrupt to each of these processors */
void board_store(uint64_t address, const uint8_t *bytes, size_t length);
void board_suspend(struct vp *vp);
void board_resume(struct vp *vp);
void board_reset(struct vp *vp);
synicboard_reply board_open_message_port(uint8_t port, uint8_t vp, uint8_t sint, uint8_t buffers);
synicboard_reply board_open_event_port(uint8_t port, uint8_t vp, uint8_t sint, uint16_t base, uint16_t count);
synicboard_reply board_act(const synicboard_event *event);   /* a port, a post or a signal */
synicboard_reply board_post(uint8_t port, uint32_t type, const void *payload, size_t length);
synicboard_reply board_signal(uint8_t port, uint16_t flag);
void board_wait_for_buffer(void);           /* waits until a message leaves a queue, or board_end_waiting */
void board_end_waiting(void);
void board_split_line(synicboard_line *line);
void board_raise(synicboard_line *line, struct vp *vp, uint8_t vector);  /* without the lock */
void board_report(void);
extern atomic_uint board_fresh;             /* raises that were fresh */
extern uint64_t board_absorbed;             /* bits that were absorbed */

/* trace.c */
void trace_begin(const void *image, size_t length);     /* of a board that is opened now, if the image is null */
void trace_entry(const synicboard_event *event, const synicboard_reply *reply);
void trace_eoms(uint64_t eoms);             /* those that the board performed itself */
void trace_forwarded(uint8_t vp, const synicboard_forwarded *forwarded);
void trace_end(void);

/* overlay.c */
void overlay_map(void);                     /* maps the overlays that the board shows now */
void overlay_set(void);                     /* the same, while no processor is in the guest */

/* image.c */
void image_save(void);                      /* saves the board as an image */
bool image_restore(void);                   /* replaces the board by that of the image; false if there is none */
void image_trace(void);                     /* begins a trace with the image */
void image_start(void);                     /* starts the thread that replaces the board, if that was asked for */
void image_report(void);

/* assist.c */
void assist_end(struct vp *vp);
void assist_enter(struct vp *vp);
void assist_leave(struct vp *vp);           /* before its assist page moves, or it is reset */

/* hypercalls.c */
uint64_t hypercall_handle(uint64_t control, uint64_t input, uint64_t second);   /* RCX, RDX and R8; returns RAX */

/* bus.c */
extern struct vmbus *bus;
void bus_open(void);
void bus_start(void);                       /* starts the threads of the services, if VMBus is on */
void bus_deliver(struct vp *vp);            /* what waits for a processor that is not in the guest */

/* hyperv.c */
enum { HYPERCALL_PORT = 0xe8 };
struct partition_offer hyperv_offer(void);  /* what the guest is offered */
unsigned hyperv_add_cpuid(struct kvm_cpuid_entry2 *entries, unsigned count);
bool hyperv_read_msr(struct vp *vp, uint32_t msr, uint64_t *value);     /* false for #GP */
uint32_t *hyperv_assist(const struct vp *vp);   /* the first word of its assist page; null if it has none */
bool hyperv_write_msr(struct vp *vp, uint32_t msr, uint64_t value);
void hyperv_call(struct vp *vp);
void hyperv_continue(void);                 /* fills the reference TSC page again */

/* apic.c */
enum { APIC_BASE = 0xfee00000, APIC_HZ = 1000000000 };
void apic_reset(struct vp *vp);
uint32_t apic_read(struct vp *vp, uint32_t offset);
void apic_write(struct vp *vp, uint32_t offset, uint32_t value);
uint64_t apic_icr(struct vp *vp);
void apic_write_icr(struct vp *vp, uint64_t value);

/* devices.c */
enum { SLEEP_PORT = 0x600 };                /* ACPI's sleep control register, and after it the status register */
void port_write(struct vp *vp, uint16_t port, uint32_t value);
uint32_t port_read(uint16_t port);

/* load.c: the devices of the flat guest */
void load_start(uint64_t address);
void load_continue(void);                   /* starts their threads, if the guest has started the devices */
void load_stop(void);                       /* without the lock: ends their threads, between two calls of the board */

/* boot.c, linux.c: before the threads start, without the lock */
void boot_at(uint64_t rip, uint64_t rsi);
void boot_flat(const char *path);
void boot_linux(const char *kernel, const char *initrd, const char *command_line);

#endif

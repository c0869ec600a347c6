/* The command line, the start and the end of a run. */
#include <errno.h>
#include <getopt.h>
#include <signal.h>
#include <stdarg.h>
#include <stdio.h>
#include <stdlib.h>
#include <string.h>

#include "vmm.h"

enum { SECOND = 1000000, MOST_LINES = 200 };

struct vm vm = {
    .vps = 2, .ram_size = 512 << 20, .load = 10000,
    .vmbus = { .options.newest = VMBUS_NEWEST, .every = { SECOND, SECOND, SECOND / 50 } },
};

static const char usage[] =
    "usage: vmm --flat IMAGE [--load N] [OPTION ..]\n"
    "       vmm --linux KERNEL [--initrd FILE] [--append LINE] [OPTION ..]\n"
    "       vmm --continue FILE [OPTION ..]\n"
    "  --load N      the devices of the flat guest raise N interrupts, and send a tenth as many messages (10000)\n"
    "  --cpus N      1 to 8 processors (2; the flat guest needs 2)\n"
    "  --memory N    64 to 2048 MB (512)\n"
    "  --restore-every N  each N milliseconds, replace the board by the one restored from its image (never)\n"
    "  --save-after MS --save-to FILE  after MS milliseconds, save the guest to FILE and end\n"
    "  --report      print at the end what was counted\n"
    "  --trap-pages  the guest's stores to message and event flags pages exit, and are events of the board\n"
    "  --irqchip     the local APICs are KVM's, which get what the board requests\n"
    "  --trace FILE  with --trap-pages: write the events and replies as a trace, which `synicboard check` checks\n"
    "  --vmbus       Linux finds a VMBus with the services heartbeat, time synchronisation and shutdown\n"
    "  --vmbus-version M.N  the newest version of VMBus that is accepted (5.3)\n"
    "  --heartbeat-every MS, --timesync-every MS  how often the services send (1000)\n"
    "  --heartbeats N, --shutdown-after MS  shut the guest down after N answers, or MS milliseconds (never)\n"
    "  --rescind-after MS  take time synchronisation away from the guest, and offer it again (never)\n"
    "  --signal-from-threads  with --trap-pages: set event flags while the guest may clear others, which loses some\n"
    "A saved guest that is continued has its own load, processors and memory.\n";

struct options {
    const char *flat, *kernel, *initrd, *command_line, *saved;
    bool reports, has_save_time;
};

void fail(const char *what)
{
    fprintf(stderr, "vmm: %s: %s\n", what, strerror(errno));
    exit(1);
}

/* A guest causes lines, so there is an end to them. */
void vm_log(const char *format, ...)
{
    static unsigned lines;
    va_list arguments;
    if (lines++ >= MOST_LINES)
        return;
    fprintf(stderr, "vmm: %10.3f ms: ", (double)clock_now() / 1e4);
    va_start(arguments, format);
    vfprintf(stderr, format, arguments);
    va_end(arguments);
    fputc('\n', stderr);
}

/* A guest that ends while it is being stopped is not saved. */
void vm_stop(int status)
{
    if (!vm.is_stopping || vm.is_saving)
        vm.status = status;
    vm.is_stopping = true;
    vm.is_saving = false;
    for (unsigned number = 0; number < vm.vps; number++)
        vp_kick(&vm.vp[number]);
}

/* A signal only interrupts KVM_RUN. */
static void ignore(int number)
{
    (void)number;
}

static void print_exits(const struct vp *vp)
{
    static const char *const names[64] = {
        [KVM_EXIT_IO] = "port", [KVM_EXIT_MMIO] = "mmio", [KVM_EXIT_HLT] = "hlt", [KVM_EXIT_INTR] = "kick",
        [KVM_EXIT_IRQ_WINDOW_OPEN] = "window", [KVM_EXIT_X86_RDMSR] = "rdmsr", [KVM_EXIT_X86_WRMSR] = "wrmsr",
        [KVM_EXIT_SET_TPR] = "cr8", [KVM_EXIT_INTERNAL_ERROR] = "emulate",
    };
    fprintf(stderr, "vmm: processor %u: %lu interrupts, %lu ended without a write of EOI; exits:", vp->number, vp->injected, vp->ended_without);
    for (unsigned reason = 0; reason < 64; reason++)
        if (vp->exits[reason] != 0)
            fprintf(stderr, " %s %lu", names[reason] != NULL ? names[reason] : "other", vp->exits[reason]);
    fprintf(stderr, "\n");
}

static void report(void)
{
    for (unsigned number = 0; number < vm.vps; number++)
        print_exits(&vm.vp[number]);
    board_report();
    image_report();
    if (vm.vmbus.is_on)
        vmbus_report(bus);
    fprintf(stderr, "vmm: %.3f seconds, %lu changes of the memory slots, %lu instructions emulated here\n",
            (double)clock_now() / 1e7, vm.slot_changes, vm.emulated);
}

enum bus_option { VMBUS = 256, VERSION, HEARTBEAT_EVERY, TIMESYNC_EVERY, HEARTBEATS, SHUTDOWN_AFTER, RESCIND_AFTER, FROM_THREADS };

static uint64_t microseconds(const char *milliseconds)
{
    double value = strtod(milliseconds, NULL) * 1000;
    return value >= 1 && value < 1e12 ? (uint64_t)value : 1;
}

static uint32_t version(const char *word)
{
    char *end;
    uint32_t major = (uint32_t)strtoul(word, &end, 10) << 16;
    return *end == '.' ? major | (uint32_t)strtoul(end + 1, NULL, 10) : major;
}

/* Returns whether it is one of these options. */
static bool parse_vmbus(int option, const char *word)
{
    switch (option) {
    case VMBUS: vm.vmbus.is_on = true; return true;
    case VERSION: vm.vmbus.options.newest = version(word); return true;
    case HEARTBEAT_EVERY: vm.vmbus.every[0] = microseconds(word); return true;
    case TIMESYNC_EVERY: vm.vmbus.every[1] = microseconds(word); return true;
    case HEARTBEATS: vm.vmbus.options.heartbeats = strtoull(word, NULL, 10); return true;
    case SHUTDOWN_AFTER: vm.vmbus.options.shutdown_after = (uint32_t)strtoul(word, NULL, 10); return true;
    case RESCIND_AFTER: vm.vmbus.options.rescind_after = (uint32_t)strtoul(word, NULL, 10); return true;
    case FROM_THREADS: vm.vmbus.signals_from_threads = true; return true;
    default: return false;
    }
}

/* Returns whether the words make sense. */
static bool parse(int count, char **words, struct options *options)
{
    static const struct option known[] = {
        { "flat", 1, NULL, 'f' }, { "load", 1, NULL, 'n' }, { "linux", 1, NULL, 'l' }, { "initrd", 1, NULL, 'i' },
        { "append", 1, NULL, 'a' }, { "cpus", 1, NULL, 'c' }, { "memory", 1, NULL, 'm' }, { "restore-every", 1, NULL, 's' },
        { "continue", 1, NULL, 'g' }, { "save-after", 1, NULL, 't' }, { "save-to", 1, NULL, 'o' },
        { "report", 0, NULL, 'r' }, { "trace", 1, NULL, 'x' }, { "trap-pages", 0, NULL, 'p' }, { "irqchip", 0, NULL, 'k' }, { "vmbus", 0, NULL, VMBUS }, { "vmbus-version", 1, NULL, VERSION },
        { "heartbeat-every", 1, NULL, HEARTBEAT_EVERY }, { "timesync-every", 1, NULL, TIMESYNC_EVERY },
        { "heartbeats", 1, NULL, HEARTBEATS }, { "shutdown-after", 1, NULL, SHUTDOWN_AFTER },
        { "rescind-after", 1, NULL, RESCIND_AFTER }, { "signal-from-threads", 0, NULL, FROM_THREADS }, { 0 },
    };
    for (int option; (option = getopt_long(count, words, "", known, NULL)) != -1;)
        switch (option) {
        case 'f': options->flat = optarg; break;
        case 'n': vm.load = (uint32_t)strtoul(optarg, NULL, 10); break;
        case 'l': options->kernel = optarg; break;
        case 'i': options->initrd = optarg; break;
        case 'a': options->command_line = optarg; break;
        case 'c': vm.vps = (unsigned)strtoul(optarg, NULL, 10); break;
        case 'm': vm.ram_size = strtoull(optarg, NULL, 10) << 20; break;
        case 's': vm.restore_every = (uint32_t)strtoul(optarg, NULL, 10); break;
        case 'g': options->saved = optarg; break;
        case 't':
            vm.save_after = (uint32_t)strtoul(optarg, NULL, 10);
            options->has_save_time = true;
            break;
        case 'o': vm.save_to = optarg; break;
        case 'r': options->reports = true; break;
        case 'x': vm.trace = optarg; break;
        case 'p': vm.pages_trap = true; break;
        case 'k': vm.has_irqchip = true; break;
        default:
            if (!parse_vmbus(option, optarg))
                return false;
        }
    return optind == count && (options->flat != NULL) + (options->kernel != NULL) + (options->saved != NULL) == 1
        && options->has_save_time == (vm.save_to != NULL) && (vm.trace == NULL || vm.pages_trap) && vm_has_valid_size();
}

int main(int count, char **words)
{
    struct options options = { .command_line = "earlyprintk=serial,keep" };
    struct sigaction action = { .sa_handler = ignore };
    if (!parse(count, words, &options)) {
        fputs(usage, stderr);
        return 2;
    }
    sigaction(SIGUSR1, &action, NULL);
    if (options.saved != NULL)
        saved_open(options.saved);
    else
        trace_begin(NULL, 0);
    vm_open();
    if (options.saved != NULL)
        saved_read();
    else if (options.flat != NULL)
        boot_flat(options.flat);
    else
        boot_linux(options.kernel, options.initrd, options.command_line);
    /* The lock is held until every thread that may be kicked has been started. */
    for (unsigned number = 0; number < vm.vps; number++)
        vp_start(&vm.vp[number]);
    load_continue();
    image_start();
    saved_start();
    bus_start();
    lock_release();
    for (unsigned number = 0; number < vm.vps; number++)
        pthread_join(vm.vp[number].thread, NULL);
    fflush(stdout);
    saved_write();
    lock_acquire();
    board_observe();
    trace_end();
    lock_release();
    if (options.reports)
        report();
    if (vm.status == 0 && vm.vmbus.is_on && !vm.is_saving && !vmbus_is_answered(bus))
        vm.status = 3;
    return vm.status;
}

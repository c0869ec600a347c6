/* The first process of a Linux guest, without a C library: prints which timers and interrupts the
 * kernel uses, sleeps, computes, prints them again, and resets the machine. It writes to
 * /dev/kmsg, so the kernel needs no terminal.
 *
 * If there is a VMBus, it loads the drivers, if they are modules, prints the devices, takes one from
 * its driver and gives it back, and waits: the host shuts the guest down. For that the kernel runs
 * this program again, as /sbin/poweroff. */
#include <stdbool.h>
#include <stddef.h>
#include <stdint.h>

enum { READ = 0, WRITE = 1, OPEN = 2, CLOSE = 3, NANOSLEEP = 35, MOUNT = 165, REBOOT = 169, CLOCK_GETTIME = 228, FINIT_MODULE = 313 };
enum { WRITE_ONLY = 1, CLOCK_MONOTONIC = 1 };
enum { REBOOT_MAGIC1 = 0xfee1dead, REBOOT_MAGIC2 = 672274793, REBOOT_RESTART = 0x01234567, REBOOT_OFF = 0x4321fedc };

struct timespec { int64_t seconds, nanoseconds; };

static long call(long number, long a, long b, long c, long d, long e)
{
    long result;
    register long r10 __asm__("r10") = d;
    register long r8 __asm__("r8") = e;
    __asm__ volatile("syscall"
        : "=a"(result) : "a"(number), "D"(a), "S"(b), "d"(c), "r"(r10), "r"(r8) : "rcx", "r11", "memory");
    return result;
}

/* ---- Lines ---- */

static long kmsg = -1;
static char line[512];
static size_t used;

static void add(const char *text)
{
    while (*text != 0 && used < sizeof line - 1)
        line[used++] = *text++;
}

static void add_number(uint64_t number)
{
    char digits[21], *at = digits + 20;
    *at = 0;
    do
        *--at = (char)('0' + number % 10);
    while ((number /= 10) != 0);
    add(at);
}

static void end_line(void)
{
    call(WRITE, kmsg, (long)line, (long)used, 0, 0);
    used = 0;
}

/* Prints a file, each line with `init: ` and a name before it. */
static void print_file(const char *name, const char *path)
{
    static char bytes[4096];
    long file = call(OPEN, (long)path, 0, 0, 0, 0), got;
    if (file < 0)
        return;
    while ((got = call(READ, file, (long)bytes, sizeof bytes, 0, 0)) > 0)
        for (long at = 0; at < got; at++) {
            if (used == 0) {
                add("init: ");
                add(name);
            }
            if (bytes[at] == '\n')
                end_line();
            else if (used < sizeof line - 1)
                line[used++] = bytes[at];
        }
    if (used != 0)
        end_line();
    call(CLOSE, file, 0, 0, 0, 0);
}

/* ---- What it does ---- */

static uint64_t now(void)
{
    struct timespec time;
    call(CLOCK_GETTIME, CLOCK_MONOTONIC, (long)&time, 0, 0, 0);
    return (uint64_t)time.seconds * 1000000000 + (uint64_t)time.nanoseconds;
}

static void sleep_a_little(void)
{
    struct timespec time = { 0, 50000000 };
    call(NANOSLEEP, (long)&time, 0, 0, 0, 0);
}

static void sleep_often(void)
{
    uint64_t least = UINT64_MAX, most = 0, begin = now();
    for (int turn = 0; turn < 20; turn++) {
        uint64_t from = now();
        sleep_a_little();
        uint64_t took = now() - from;
        least = took < least ? took : least;
        most = took > most ? took : most;
    }
    add("init: 20 sleeps of 50 ms took ");
    add_number((now() - begin) / 1000);
    add(" us, the shortest ");
    add_number(least / 1000);
    add(", the longest ");
    add_number(most / 1000);
    end_line();
}

static void compute(void)
{
    uint64_t begin = now(), turns = 0;
    while (now() - begin < 1000000000)
        for (volatile int at = 0; at < 1000000; at++)
            turns++;
    add("init: computed for a second, ");
    add_number(turns / 1000000);
    add(" million turns");
    end_line();
}

static void print_interrupts(const char *when)
{
    print_file("clock event device of processor 0: ", "/sys/devices/system/clockevents/clockevent0/current_device");
    print_file("clock event device of processor 1: ", "/sys/devices/system/clockevents/clockevent1/current_device");
    print_file(when, "/proc/interrupts");
}

/* ---- VMBus ---- */

/* The host numbers the devices. */
#define DEVICE(number) "/sys/bus/vmbus/devices/0000000" number "-0000-0000-0000-000000000000/"
#define TIME_SYNC "00000002-0000-0000-0000-000000000000"

static long open_file(const char *path)
{
    return call(OPEN, (long)path, 0, 0, 0, 0);
}

static void load_module(const char *path)
{
    long file = open_file(path);
    if (file < 0)
        return;
    if (call(FINIT_MODULE, file, (long)"", 0, 0, 0) < 0) {
        add("init: cannot load ");
        add(path);
        end_line();
    }
    call(CLOSE, file, 0, 0, 0, 0);
}

static void write_name(const char *path, const char *name, long length)
{
    long file = call(OPEN, (long)path, WRITE_ONLY, 0, 0, 0);
    add(call(WRITE, file, (long)name, length, 0, 0) == length ? "init: wrote " : "init: cannot write ");
    add(path);
    end_line();
    call(CLOSE, file, 0, 0, 0, 0);
}

static bool exists(const char *path)
{
    long file = open_file(path);
    call(CLOSE, file, 0, 0, 0, 0);
    return file >= 0;
}

/* Waits until a channel is open (CHANNEL_OPENED_STATE), and returns whether it is. */
static bool is_opened(const char *path)
{
    for (int turn = 0; turn < 40; turn++) {
        char state = 0;
        long file = open_file(path);
        call(READ, file, (long)&state, 1, 0, 0);
        call(CLOSE, file, 0, 0, 0, 0);
        if (state == '3')
            return true;
        sleep_a_little();
    }
    return false;
}

static void print_devices(void)
{
    print_file("heartbeat: class ", DEVICE("1") "class_id");
    print_file("heartbeat: interrupts ", DEVICE("1") "channels/1/interrupts");
    print_file("time sync: class ", DEVICE("2") "class_id");
    print_file("time sync: interrupts ", DEVICE("2") "channels/2/interrupts");
    print_file("shutdown: class ", DEVICE("3") "class_id");
}

/* Returns if there is no VMBus. */
static void wait_for_host(void)
{
    if (!is_opened(DEVICE("1") "state") || !is_opened(DEVICE("2") "state") || !is_opened(DEVICE("3") "state"))
        return;
    print_devices();
    write_name("/sys/bus/vmbus/drivers/hv_utils/unbind", TIME_SYNC, sizeof TIME_SYNC - 1);
    write_name("/sys/bus/vmbus/drivers/hv_utils/bind", TIME_SYNC, sizeof TIME_SYNC - 1);
    if (!is_opened(DEVICE("2") "state"))
        return;
    add("init: waits for the host");
    end_line();
    for (;;)
        sleep_a_little();
}

static void turn_off(void)
{
    print_devices();
    print_file("", "/proc/interrupts");
    add("init: turned off by the host");
    end_line();
    call(REBOOT, REBOOT_MAGIC1, REBOOT_MAGIC2, REBOOT_OFF, 0, 0);
}

/* Called by _start with the words of the command. */
__attribute__((used)) void run(const char *const *words);
void run(const char *const *words)
{
    if (!exists("/dev/kmsg"))
        call(MOUNT, (long)"dev", (long)"/dev", (long)"devtmpfs", 0, 0);
    kmsg = call(OPEN, (long)"/dev/kmsg", WRITE_ONLY, 0, 0, 0);
    if (words[0][1] == 's')             /* /sbin/poweroff */
        turn_off();
    call(MOUNT, (long)"proc", (long)"/proc", (long)"proc", 0, 0);
    call(MOUNT, (long)"sys", (long)"/sys", (long)"sysfs", 0, 0);
    load_module("/hv_vmbus.ko");
    load_module("/hv_utils.ko");
    if (exists("/sys/bus/vmbus/devices"))
        wait_for_host();
    print_file("", "/proc/version");
    print_file("processors online: ", "/sys/devices/system/cpu/online");
    print_file("clock source: ", "/sys/devices/system/clocksource/clocksource0/current_clocksource");
    print_interrupts("before: ");
    sleep_often();
    compute();
    print_interrupts("after: ");
    add("init: done");
    end_line();
    call(REBOOT, REBOOT_MAGIC1, REBOOT_MAGIC2, REBOOT_RESTART, 0, 0);
    for (;;)
        ;
}

__asm__(".globl _start\n_start: lea 8(%rsp), %rdi\nand $-16, %rsp\ncall run\n");

/* A part of the kernel that does what init.c does, for machines whose KVM cannot run a guest's
 * processes (linux.md). `linux` adds it to the sources if IN_KERNEL is set. It ends with a reset. */
#include <linux/cpu.h>
#include <linux/delay.h>
#include <linux/hrtimer.h>
#include <linux/init.h>
#include <linux/interrupt.h>
#include <linux/ktime.h>
#include <linux/reboot.h>
#include <linux/seq_file.h>
#include <linux/smp.h>
#include <asm/hardirq.h>
#include "../kernel/time/tick-internal.h"

static char text[4096];

/* Whether a line of /proc/interrupts counts something here. */
static bool __init is_counted(const char *line)
{
    return strstr(line, "LOC:") || strstr(line, "HYP:") || strstr(line, "HVS:") || strstr(line, "RES:") || strstr(line, "CAL:");
}

static void __init print_interrupts(const char *when)
{
    struct seq_file file = { .buf = text, .size = sizeof(text) - 1 };
    char *line, *rest = text;
    int cpu;

    for_each_online_cpu(cpu)
        pr_info("in_kernel: clock event device of processor %d: %s\n", cpu, tick_get_device(cpu)->evtdev->name);
    arch_show_interrupts(&file, 3);
    text[file.count] = 0;
    while ((line = strsep(&rest, "\n")))
        if (is_counted(line))
            pr_info("in_kernel: %s: %s\n", when, line);
}

static void __init sleep_often(void)
{
    s64 least = S64_MAX, most = 0;
    int turn;

    for (turn = 0; turn < 20; turn++) {
        ktime_t from = ktime_get(), in = ms_to_ktime(50);
        s64 took;

        set_current_state(TASK_UNINTERRUPTIBLE);
        schedule_hrtimeout_range(&in, 0, HRTIMER_MODE_REL);
        took = ktime_us_delta(ktime_get(), from);
        least = min(least, took);
        most = max(most, took);
    }
    pr_info("in_kernel: 20 sleeps of 50 ms, the shortest %lld us, the longest %lld\n", least, most);
}

static void __init compute(void)
{
    unsigned long begin = jiffies, turns = 0;
    ktime_t from = ktime_get();

    while (jiffies - begin < HZ) {
        turns++;
        cpu_relax();
    }
    pr_info("in_kernel: computed for %lu jiffies of %d a second, which took %lld us\n", jiffies - begin, HZ,
            ktime_us_delta(ktime_get(), from));
}

static void count(void *at)
{
    ++*(unsigned long *)at;
}

static void __init call_others(void)
{
    unsigned long calls = 0;
    int cpu, turn;

    for_each_online_cpu(cpu)
        for (turn = 0; turn < 20; turn++)
            smp_call_function_single(cpu, count, &calls, 1);
    pr_info("in_kernel: %lu calls on %u processors\n", calls, num_online_cpus());
}

static int __init in_kernel(void)
{
    print_interrupts("before");
    sleep_often();
    compute();
    call_others();
    print_interrupts("after");
    pr_info("in_kernel: done\n");
    emergency_restart();
    return 0;
}
late_initcall_sync(in_kernel);

/* The first processor, and the others. */
#include "guest.h"

static void end_run(void)
{
    if (boot_resets) {
        raw_write(RESET, 1);                    /* Hyper-V's register, or else that of PCI */
        out(0xcf9, 6);
    }
    for (;;)
        __asm__ volatile("cli; hlt");
}

static void run_suite(void)
{
    console_open();
    boot_read_options();
    print("synicboard report 1\n");
    if (!hyperv_open()) {
        print("end: nothing is offered that a case could test\n");
        end_run();
    }
    show("# at the start: SCONTROL ", raw_read(SCONTROL), 16, "");
    show(", SIMP ", raw_read(SIMP), 16, "");
    show(", SIEFP ", raw_read(SIEFP), 16, "");
    show(", SINT2 ", raw_read(SINT0 + 2), 16, "\n");
    measure();
    if (boot_serves)
        serve();
    run_all();
    end_run();
}

void on_processor(uint32_t number);
void on_processor(uint32_t number)
{
    if (number == 0)
        interrupts_open();
    processor_serve(&cpus[number]);
    run_suite();
}

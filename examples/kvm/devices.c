/* The ports: a serial port that only sends, a port that ends the run, and those of the devices
 * in load.c. */
#include <stdio.h>

#include "guest/mailbox.h"
#include "vmm.h"

enum { COM1 = 0x3f8, COM1_LINE_CONTROL = COM1 + 3, COM1_LINE_STATUS = COM1 + 5 };
enum { HAS_DIVISOR = 0x80, TRANSMITTER_IS_EMPTY = 0x60 };
enum { KEYBOARD = 0x64, RESET_LINE = 0xfe, CMOS_DATA = 0x71 };
enum { SLEEP_ENABLE = 1 << 5, TYPE_OFF = 5 << 2 };

static bool has_divisor;    /* COM1 is the low byte of the divisor of its clock */

static void send_byte(uint8_t byte)
{
    if (has_divisor)
        return;
    putchar_unlocked(byte);
    if (byte == '\n')
        fflush(stdout);
}

void port_write(struct vp *vp, uint16_t port, uint32_t value)
{
    switch (port) {
    case HYPERCALL_PORT: hyperv_call(vp); break;
    case COM1: send_byte((uint8_t)value); break;
    case COM1_LINE_CONTROL: has_divisor = (value & HAS_DIVISOR) != 0; break;
    case END_PORT: vm_stop((int)value); break;
    case MAILBOX_PORT: load_start(value); break;
    case KEYBOARD:
        if ((value & 0xff) == RESET_LINE)
            vm_stop(0);
        break;
    case SLEEP_PORT:
        if ((value & 0xff) == (SLEEP_ENABLE | TYPE_OFF))
            vm_stop(0);
        break;
    }
}

void devices_transfer(void)
{
    saved_transfer(&has_divisor, sizeof has_divisor);
}

uint32_t port_read(uint16_t port)
{
    switch (port) {
    case COM1_LINE_STATUS: return TRANSMITTER_IS_EMPTY;
    case CMOS_DATA: return 0;           /* otherwise Linux waits for the end of an update */
    case SLEEP_PORT: return 0;
    case LOAD_PORT: return vm.load;
    case FRESH_PORT: return board_fresh;
    case ABSORBED_PORT: return (uint32_t)board_absorbed;
    default: return 0xffffffff;
    }
}

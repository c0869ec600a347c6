/* layout.h: where the guest of concurrent/ keeps what; the first 64 KB of memory, in real mode. */
#ifndef LAYOUT_H
#define LAYOUT_H

#define CODE 0x1000
#define SIM_PAGE 0x3000
#define SIEF_PAGE 0x4000
#define SLOT_AT (SIM_PAGE + 0x200)      /* that of SINT2 */
#define FLAGS_AT (SIEF_PAGE + 0x200)    /* those of SINT2, of which the first 32 are used */
#define SENT 0x5000                     /* for each flag, how often it was signalled */
#define SEEN 0x5100                     /* for each flag, SENT when the guest last cleared it */
#define NEXT 0x5200                     /* the number that the next message of the port has to have */
#define DISORDER 0x5204                 /* messages with another number */
#define ARMED 0x5208                    /* timer messages that were asked for, and those that came */
#define EXPIRED 0x520c
#define STOP 0x5210                     /* the timer is not armed again */
#define DEPTH 0x5214                    /* 1 in the handler */
#define AGAIN 0x5218
#define NESTED 0x521c                   /* interrupts within the handler */
#define STACKS 0x8000

#define VECTOR 0x50
#define TIMER_MESSAGE 0x80000010
#define TIMER_DELAY 20000               /* in 100 ns */
#define DELAY 5000                      /* rounds of a loop */
#define EVEN 0x55555555
#define ODD 0xaaaaaaaa

#define PORT_READY 0x10
#define PORT_SEND 0x11

#endif

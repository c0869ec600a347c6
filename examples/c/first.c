/* Delivers one message to a guest, with as few calls as possible. */
#include <inttypes.h>
#include <stdio.h>

#include "synicboard.h"

int main(void) {
    synicboard board = SYNICBOARD_CLOSED;
    if (synicboard_open(&board, 1, 4, 0) != SYNICBOARD_OK)
        return 1;
    synicboard_write(&board, 0, SYNICBOARD_MSR_SCONTROL, 1);        /* enable the SynIC */
    synicboard_write(&board, 0, SYNICBOARD_MSR_SIMP, 0x2001);       /* message page at page 2 */
    synicboard_write(&board, 0, SYNICBOARD_MSR_SINT0 + 2, 0x50);    /* SINT2 raises vector 50 */
    synicboard_open_message_port(&board, 3, 0, 2, 2);               /* port 3: SINT2, two buffers */
    synicboard_reply reply = synicboard_post(&board, 3, 1, (const uint8_t *)"\n", 1);
    printf("accepted %" PRIu64 ", next %x\n", reply.ticket, synicboard_next(&board, 0));
    synicboard_close(&board);
}

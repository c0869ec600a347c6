/* What the files of the VMBus target share: the guest's side of VMBus, over a real board. */
#ifndef FUZZ_VMBUS_H
#define FUZZ_VMBUS_H

#include <stdio.h>
#include <stdlib.h>
#include <string.h>

#include "../../examples/kvm/vmm.h"
#include "../../vmbus/bus.h"

enum { VPS = 2, RAM_PAGES = 96, SLOT = 256, MESSAGES = 64, FLAGS = 65, RINGS = 8 };     /* page numbers of the guest */

#define REQUIRE(holds) do { if (!(holds)) guest_fail(__LINE__, #holds); } while (0)

extern uint64_t guest_time;

_Noreturn void guest_fail(int line, const char *what);
void guest_open(void);                      /* a new board, its processor's SynIC enabled, and no contact */
void guest_close(void);
uint64_t guest_post(uint32_t connection, const void *message, uint32_t length);
uint32_t guest_take(void *message);         /* empties the slot and writes EOM; returns the length, 0 if there was none */
bool guest_answer(unsigned number, uint32_t skew, uint32_t value);  /* one request; a word of the answer is changed by a value */
uint64_t guest_call(uint64_t control, uint64_t address, const void *input, size_t length);     /* by memory */
uint8_t *guest_ring_byte(const struct ring *ring, uint32_t at);
uint32_t *guest_ring_word(const struct ring *ring, unsigned word);      /* of its first page */
void guest_check(void);                     /* what holds after each step */
void guest_scenario(void);                  /* the whole protocol, once in each version, with what must come of it */

#endif

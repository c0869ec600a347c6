/* The SynIC of the emulator: what QEMU's files for processors and local APICs call. */
#ifndef SYNIC_H
#define SYNIC_H

#include "cpu.h"

/* All are for processors of TCG. A call for another processor, or without a board, does nothing and returns false. */

/* A processor is made: whether the options hv-* of -cpu can be had. */
bool synic_realize(X86CPU *cpu, Error **errp);

/* A processor is reset, by the machine or by INIT. */
void synic_reset_processor(X86CPU *cpu);

/* CPUID leaves from 40000000 on: whether the leaf is the board's. */
bool synic_cpuid(CPUX86State *env, uint32_t index, uint32_t *eax, uint32_t *ebx, uint32_t *ecx, uint32_t *edx);

/* RDMSR and WRMSR, with their operands in the registers: whether the register is Hyper-V's. One that does not exist
 * raises #GP, and then the call does not return. */
bool synic_rdmsr(CPUX86State *env, uintptr_t ra);
bool synic_wrmsr(CPUX86State *env, uintptr_t ra);

/* The TSC: with a reference TSC page it is the virtual clock, since its rate has to be known. */
bool synic_tsc(uint64_t *tsc);

/* A local APIC, whose registers IRR, TMR and ISR these are, delivers a vector to its processor: whether it ends at once,
 * without an EOI. And it requests a vector, or gets an EOI. */
bool synic_delivered(X86CPU *cpu, int vector, const uint32_t *irr, const uint32_t *tmr);
void synic_assist_end(X86CPU *cpu, uint32_t *isr);

#endif

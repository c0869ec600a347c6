/* registers.c: synthetic registers, and the state of a processor after a reset. */
#include <string.h>

#include "board.h"

enum { COUNTER = 0x40000020, EOI = 0x40000070, TPR = 0x40000072, SCONTROL = 0x40000080, SVERSION, SIEFP, SIMP, EOM };
enum { SINT0 = 0x40000090, STIMER0 = 0x400000b0, VP_INDEX = 0x40000002, ICR = 0x40000071, VP_ASSIST = 0x40000073, APIC_BASE = 0x1b };

static struct peer_reply fault(void)
{
    return peer_reply(PEER_GENERAL_PROTECTION, 0);
}

static struct peer_reply value(uint64_t number)
{
    return peer_reply(PEER_VALUE, number);
}

void clear_processor(unsigned vp)
{
    struct processor *p = &board.vps[vp];
    p->scontrol = IS(synic_on_at_reset);
    p->siefp = p->simp = p->old_siefp = p->old_simp = 0;
    p->tpr = IS(tpr_at_reset) ? 0xf0 : 0;
    for (unsigned s = 0; s < SOURCES; s++)
        p->sint[s] = IS(sint_zero_at_reset) ? 0 : MASKED;
    memset(p->requested, 0, sizeof p->requested);
    memset(p->serving, 0, sizeof p->serving);
    memset(p->repeats, 0, sizeof p->repeats);
    memset(p->timers, 0, sizeof p->timers);
    memset(p->sim, 0, sizeof p->sim);
    memset(p->sief, 0, sizeof p->sief);
    p->suspended = false;
    kvm_reset_timers(vp);
}

static struct peer_reply write_source(unsigned vp, unsigned s, uint64_t word)
{
    uint64_t *sint = &board.vps[vp].sint[s];
    bool is_checked = !(word & MASKED) || IS(masked_vector_checked);
    if (IS(polling_excuses) && (word & POLLING))
        is_checked = false;
    if (is_checked && (word & 0xff) < 16 && !IS(sint_vector_unchecked))
        return fault();
    bool was_masked = *sint & MASKED;
    *sint = IS(sint_drops_bits) ? word & 0x700ff : word;
    if (IS(unmasking_raises) && was_masked && !(word & MASKED) && !is_slot_empty(vp, s))
        raise_source(vp, s);
    return done();
}

static void try_all(unsigned vp)
{
    for (unsigned s = 0; s < SOURCES; s++)
        try_delivery(vp, s);
}

static struct peer_reply write_page(unsigned vp, uint32_t msr, uint64_t word)
{
    if (msr == SCONTROL)
        board.vps[vp].scontrol = IS(scontrol_drops_bits) ? word & 1 : word;
    else if (is_bare && (word & 1) && word >> 12 >= board.pages)
        return fault();
    else
        page_register(vp, msr == SIMP, word);
    if (IS(enabling_delivers))
        try_all(vp);
    return done();
}

static struct peer_reply write_apic(unsigned vp, uint32_t msr, uint64_t word)
{
    if (IS(high_bits_fault) && word >> 32)
        return fault();
    if (msr == TPR)
        board.vps[vp].tpr = is_kvm ? word & 0xf0 : IS(tpr_keeps_bits) ? word : word & 0xff;
    else if (IS(eoi_needs_zero) && word != 0)
        return fault();
    else
        end_of_interrupt(vp);
    return done();
}

static struct peer_reply write_eom(unsigned vp, uint64_t word)
{
    if (IS(eom_needs_zero) && word != 0)
        return done();
    for (unsigned other = 0; other < board.processors; other++)
        if (other == vp || IS(eom_everywhere))
            end_of_message(other);
    return done();
}

/* Registers next to the SynIC that KVM has, and the model has not. */
static bool is_left_out(uint32_t msr)
{
    return is_kvm && (msr == 0 || msr == APIC_BASE || msr == VP_INDEX || msr == ICR || msr == VP_ASSIST);
}

struct peer_reply write_register(unsigned vp, uint32_t msr, uint64_t word)
{
    if (is_left_out(msr))
        return refused(99);
    if (msr >= SINT0 && msr < SINT0 + SOURCES)
        return write_source(vp, msr - SINT0, word);
    if (msr >= STIMER0 && msr < STIMER0 + 2 * TIMERS) {
        (msr % 2 ? write_count : write_config)(vp, (msr - STIMER0) / 2, word);
        return done();
    }
    switch (msr) {
    case EOI:
    case TPR: return write_apic(vp, msr, word);
    case SCONTROL:
    case SIEFP:
    case SIMP: return write_page(vp, msr, word);
    case EOM: return write_eom(vp, word);
    case SVERSION: return IS(version_writable) ? done() : fault();
    case COUNTER: return IS(counter_writable) ? done() : fault();
    case APIC_BASE:
        if (IS(apic_disabled)) {
            board.vps[vp].is_disabled = !(word >> 11 & 1);
            return done();
        }
        return fault();
    }
    return IS(unknown_ignored) ? done() : fault();
}

struct peer_reply read_register(unsigned vp, uint32_t msr)
{
    const struct processor *p = &board.vps[vp];
    if (is_left_out(msr))
        return refused(99);
    if (msr >= SINT0 && msr < SINT0 + SOURCES)
        return value(p->sint[msr - SINT0]);
    if (msr >= STIMER0 && msr < STIMER0 + 2 * TIMERS) {
        const struct timer *t = &p->timers[(msr - STIMER0) / 2];
        return value(msr % 2 ? t->count : t->config);
    }
    switch (msr) {
    case COUNTER: return value(IS(counter_stuck) ? 0 : board.now);
    case EOI: return IS(eoi_readable) ? value(0) : fault();
    case TPR: return value(p->tpr);
    case SCONTROL: return value(p->scontrol);
    case SVERSION: return value(1);
    case SIEFP: return value(p->siefp);
    case SIMP: return value(p->simp);
    case EOM: return value(IS(eom_reads_last) ? 1 : 0);
    case VP_INDEX:
        if (IS(vp_index))
            return value(vp);
        break;
    }
    return IS(unknown_ignored) ? value(0) : fault();
}

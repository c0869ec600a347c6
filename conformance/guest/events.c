/* The events of a script on this machine: pages become pages of the arena, times become times of its clock. */
#include "guest.h"

/* No memory is there: for the pages beyond those of the board. */
#define HOLE 0x4000000000u
#define HOUR (3600ull * 10000000)

volatile uint8_t arena[PAGES * PAGE] __attribute__((aligned(PAGE)));
uint64_t unit = 10000;
unsigned board_cpus, board_pages;

/* When the board was opened, the script's time, and how far into a unit the last write of a periodic timer was. If all
 * times of a script are multiples of `grain`, so many of its units are one here. */
static uint64_t base, now_tick, phase, grain = 1;

static bool is_timer(uint32_t msr)
{
    return msr >= STIMER0 && msr < STIMER0 + 2 * TIMERS;
}

/* A time of the script, by this machine's clock. */
static uint64_t scaled(uint64_t time)
{
    return time * unit / grain;
}

static uint64_t script_time(uint64_t time)
{
    return time * grain / unit;
}

static uint64_t elapsed(void)
{
    return counter() - (base + scaled(now_tick));
}

/* Whether the time of the script's next tick has nearly come. */
bool is_late(void)
{
    return elapsed() > unit - unit / 8;
}

/* ---- Registers ---- */

/* The CONFIG that a count is for: the present one if the count starts the timer, or the next one of the script. */
static uint64_t config_for(const struct cpu *cpu, unsigned timer, const char *at)
{
    unsigned vp = (unsigned)(cpu - cpus);
    for (at = next_line(at); (cpu->config[timer] & 9) == 0 && *at != 0 && !begins(at, "case "); at = next_line(at)) {
        const char *word = second_word(at);
        if (!begins(at, "write ") || parse(&word, 10) != vp)
            continue;
        uint64_t msr = parse(&word, 16);
        if (msr == STIMER0 + 2 * timer + 1)
            break;
        if (msr == STIMER0 + 2 * timer)
            return parse(&word, 16);
    }
    return cpu->config[timer];
}

static uint64_t page_value(struct cpu *cpu, uint32_t msr, uint64_t value)
{
    uint64_t page = value >> 12, raw = value;
    if (page < board_pages)
        raw = (uintptr_t)arena + value;
    else if (page < HOLE / PAGE)
        raw = HOLE + value;
    cpu->pages[msr - SIEFP][0] = value;
    return cpu->pages[msr - SIEFP][1] = raw;
}

static uint64_t count_value(struct cpu *cpu, unsigned timer, uint64_t value, const char *at)
{
    uint64_t raw = value;
    cpu->has_period[timer] = (config_for(cpu, timer, at) & 2) != 0;
    if (value != 0 && value <= UINT64_MAX / 4 / unit)
        raw = scaled(value) + (cpu->has_period[timer] ? 0 : base);
    cpu->count[timer] = value;
    return cpu->raw_count[timer] = raw;
}

/* Whether a line enables a timer with a count of the other kind: a period, or a time from this machine's start. */
bool turns_over(const char *line)
{
    const char *word = second_word(line);
    const struct cpu *cpu = &cpus[parse(&word, 10)];
    uint32_t msr = (uint32_t)parse(&word, 16);
    uint64_t value = parse(&word, 16);
    unsigned timer = (msr - STIMER0) / 2;
    if (!begins(line, "write ") || !is_timer(msr) || msr % 2 != 0 || (value & 1) == 0)
        return false;
    return cpu->count[timer] != 0 && cpu->has_period[timer] != ((value & 2) != 0);
}

/* What is written for a value of the script in line `at`. */
static uint64_t translated(struct cpu *cpu, uint32_t msr, uint64_t value, const char *at)
{
    if (msr == SIEFP || msr == SIMP)
        return page_value(cpu, msr, value);
    if (!is_timer(msr))
        return value;
    unsigned timer = (msr - STIMER0) / 2;
    if (msr % 2 != 0)
        return count_value(cpu, timer, value, at);
    return cpu->config[timer] = value;
}

static uint64_t translated_back(const struct cpu *cpu, uint32_t msr, uint64_t value)
{
    if (msr == COUNTER)
        return script_time(value - base);
    if (msr >= SINT0 && msr < SINT0 + 16 && value == MASKED_INSTEAD)
        return MASKED;
    if ((msr == SIEFP || msr == SIMP) && value == cpu->pages[msr - SIEFP][1])
        return cpu->pages[msr - SIEFP][0];
    if (is_timer(msr) && msr % 2 == 1 && value == cpu->raw_count[(msr - STIMER0) / 2])
        return cpu->count[(msr - STIMER0) / 2];
    return value;
}

/* A periodic timer counts from the write that starts it. */
static void note_phase(const struct cpu *cpu, uint32_t msr, const char *at)
{
    if (is_timer(msr) && (config_for(cpu, (msr - STIMER0) / 2, at) & 2) != 0 && elapsed() > phase)
        phase = elapsed();
}

static void perform_access(const char *at, bool is_write, char *answer)
{
    const char *word = second_word(at);
    struct cpu *cpu = &cpus[parse(&word, 10)];
    uint32_t msr = (uint32_t)parse(&word, 16);
    uint64_t value = is_write ? translated(cpu, msr, parse(&word, 16), at) : 0;
    value = order(cpu, is_write ? WRITE : READ, msr, value);
    if (is_write)
        note_phase(cpu, msr, at);
    if (cpu->is_fault)
        put_text(answer, "= general protection");
    else if (is_write)
        put_text(answer, "= done");
    else
        put_number(put_text(answer, "= value "), translated_back(cpu, msr, value), 16);
}

static void perform_take(const char *at, char *answer)
{
    const char *word = second_word(at);
    uint64_t vector = order(&cpus[parse(&word, 10)], TAKE, 0, 0);
    char *end = put_text(answer, "= taken ");
    if (vector == 0)
        put_text(end, "none");
    else
        put_number(end, vector, 16);
}

/* ---- Memory ---- */

/* A byte of the arena. The two times in a timer's message become those of the script. */
static uint8_t loaded(uint64_t address)
{
    uint64_t field = address & ~(uint64_t)7, place = field & 0xff;
    uint64_t value = *(volatile uint64_t *)(arena + field);
    if ((place == 0x18 || place == 0x20) && value >= base && value - base < HOUR)
        value = script_time(value - base);
    return (uint8_t)(value >> 8 * (address & 7));
}

static void perform_load(const char *at, char *answer)
{
    const char *word = second_word(at);
    uint64_t address = parse(&word, 16), length = parse(&word, 10);
    char *end = put_text(answer, "= bytes ");
    for (uint64_t i = 0; i < length; i++) {
        uint8_t byte = loaded(address + i);
        *end++ = "0123456789abcdef"[byte >> 4];
        *end++ = "0123456789abcdef"[byte & 15];
    }
    *end = 0;
}

/* Four and eight bytes by one store. */
static void perform_store(const char *at)
{
    const char *word = second_word(at);
    uint64_t address = parse(&word, 16), value = 0;
    unsigned length = 0;
    volatile uint8_t *to = arena + address;
    for (word++; word[0] > ' ' && length < 8; word += 2) {
        const char two[3] = { word[0], word[1], 0 }, *from = two;
        value |= parse(&from, 16) << 8 * length++;
    }
    if (length == 8)
        *(volatile uint64_t *)to = value;
    else if (length == 4)
        *(volatile uint32_t *)to = (uint32_t)value;
    else
        for (unsigned i = 0; i < length; i++)
            to[i] = (uint8_t)(value >> 8 * i);
}

/* ---- Events ---- */

static void perform_other(const char *at)
{
    const char *word = second_word(at);
    uint64_t number = parse(&word, 10);
    if (begins(at, "tick ")) {
        now_tick = number;
        wait_until(base + scaled(now_tick) + phase + unit / 8);
    } else if (begins(at, "grain "))
        grain = number;
    else if (begins(at, "assert "))
        write_icr(cpus[number].apic_id, (uint32_t)parse(&word, 16));
    else if (begins(at, "store "))
        perform_store(at);
}

/* Performs the event of a line and writes the answer; false if it has none that a guest sees. */
bool perform_event(const char *at, char *answer)
{
    bool is_write = begins(at, "write ");
    if (is_write || begins(at, "read "))
        perform_access(at, is_write, answer);
    else if (begins(at, "take "))
        perform_take(at, answer);
    else if (begins(at, "load "))
        perform_load(at, answer);
    else {
        perform_other(at);
        return false;
    }
    return true;
}

/* A board line: all processors as after a reset, memory of zeros, time 0. */
void open_board(const char *line)
{
    const char *word = second_word(line);
    board_cpus = (unsigned)parse(&word, 10);
    board_pages = (unsigned)parse(&word, 10);
    for (unsigned number = 0; number < board_cpus; number++) {
        struct cpu *cpu = &cpus[number];
        order(cpu, CLEAN, 0, 0);
        for (unsigned timer = 0; timer < TIMERS; timer++)
            cpu->config[timer] = cpu->count[timer] = cpu->raw_count[timer] = 0;
        cpu->pages[0][0] = cpu->pages[1][0] = cpu->pages[0][1] = cpu->pages[1][1] = 0;
    }
    for (volatile uint64_t *at = (volatile uint64_t *)arena; at < (volatile uint64_t *)(arena + board_pages * PAGE);)
        *at++ = 0;
    now_tick = phase = 0;
    grain = 1;
    base = counter();
}

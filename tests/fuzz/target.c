/* A fuzz target for the C interface, for libFuzzer and AFL++: makes calls from bytes, and ends the
 * program if a call does not return what it should.
 *
 *   - Each event is performed on two boards, by a struct and by its own call. Replies and notices
 *     must be equal, and at the end, or where the input asks for them, the queries. The boards hold pages, and
 *     then a sparse board does the same; or both are sparse, with up to 64 processors.
 *   - If the input asks for it, a shared board does the same, and its own trace must be equal.
 *   - synicboard_format_entry writes the trace of the events. synicboard_check must find it legal, and must
 *     refuse it with another next ticket.
 *   - A raise is fresh iff its bit is clear, and an absorb takes all bits that are set.
 *   - The image of the boards restores a board that saves the same image, and a text that is restored is the
 *     image of its board.
 *   - Texts: the result is one of those that the header lists, the same for each buffer, and nothing
 *     is written past the buffer.
 *
 * Bytes of an input, of which seeds.py makes some from scripts:
 *
 *   255, then a text           for synicboard_replay, synicboard_check and synicboard_restore
 *   P, G, ticket, actions      a board of 1 + P % 8 processors and 1 + G % 64 pages, and a shared
 *                              one if P / 8 is odd; if P / 16 is odd, a sparse board of 1 + G % 64
 *                              processors alone
 *
 * A number is its length in bytes, modulo 9, and these bytes, lowest first. An action is a byte,
 * modulo 25, and the fields of `forms`, below. A byte that is missing is 0. */
#include "target.h"

/* The rest of an input. */
struct input {
    const uint8_t *at, *end;
};

static uint8_t read_byte(struct input *input)
{
    return input->at < input->end ? *input->at++ : 0;
}

static uint64_t read_number(struct input *input)
{
    unsigned length = read_byte(input) % 9;
    uint64_t number = 0;
    for (unsigned at = 0; at < length; at++)
        number |= (uint64_t)read_byte(input) << 8 * at;
    return number;
}

/* The fields of each kind of event: a letter is a field, as read_field reads it. */
static const char *const forms[] = {
    [SYNICBOARD_OPEN_MESSAGE_PORT] = "pvsb", [SYNICBOARD_OPEN_EVENT_PORT] = "pvsfc", [SYNICBOARD_CLOSE_PORT] = "p",
    [SYNICBOARD_WRITE] = "vrx", [SYNICBOARD_READ] = "vr", [SYNICBOARD_POST] = "ptB", [SYNICBOARD_SIGNAL] = "pf",
    [SYNICBOARD_ASSERT] = "vV", [SYNICBOARD_ABSORB] = "vPx", [SYNICBOARD_STORE] = "aB", [SYNICBOARD_LOAD] = "al",
    [SYNICBOARD_TICK] = "m", [SYNICBOARD_TAKE] = "v", [SYNICBOARD_SUSPEND] = "v", [SYNICBOARD_RESUME] = "v",
    [SYNICBOARD_RESET] = "v", [SYNICBOARD_SEND] = "Vx",
};

static void read_bytes(struct input *input, synicboard_event *event)
{
    event->length = read_byte(input);
    for (unsigned at = 0; at < event->length && at < sizeof event->bytes; at++)
        event->bytes[at] = read_byte(input);
}

/* All registers of the board are 40000000 to 400000fe. */
static uint32_t read_register(struct input *input)
{
    uint8_t low = read_byte(input);
    return low < 255 ? 0x40000000u + low : (uint32_t)read_number(input);
}

static void read_field(struct input *input, char field, uint64_t moment, synicboard_event *event)
{
    switch (field) {
    case 'p': event->port = read_byte(input); break;
    case 'v': event->vp = read_byte(input); break;
    case 's': event->sint = read_byte(input); break;
    case 'b': event->buffers = read_byte(input); break;
    case 'V': event->vector = read_byte(input); break;
    case 'P': event->part = read_byte(input); break;
    case 'l': event->length = read_byte(input); break;
    case 'f': event->flag = (uint16_t)read_number(input); break;
    case 'c': event->count = (uint16_t)read_number(input); break;
    case 'r': event->msr = read_register(input); break;
    case 't': event->message_type = (uint32_t)read_number(input); break;
    case 'x': event->value = read_number(input); break;
    case 'a': event->address = read_number(input); break;
    case 'm': event->moment = moment + read_number(input); break;      /* after the present; may wrap */
    case 'B': read_bytes(input, event); break;
    }
}

/* Fields that the kind does not use are filled with a value that would show if they were read. */
static synicboard_event read_event(struct input *input, uint8_t kind, uint64_t moment)
{
    synicboard_event event;
    memset(&event, 0xa5, sizeof event);
    event.kind = kind;
    for (const char *form = forms[kind]; *form != '\0'; form++)
        read_field(input, *form, moment, &event);
    return event;
}

/* ---- Actions ---- */

enum { QUERY, BATCH = 18, RAISE, ABSORB_LINE, SPLIT, SHORT_NOTICES, NO_KIND, PAGES, ACTIONS };
enum { MOST_ACTIONS = 500, MOST_BATCH = 7 };

static void do_batch(struct fuzz *fuzz, struct input *input)
{
    synicboard_event events[MOST_BATCH];
    size_t count = read_byte(input) % (MOST_BATCH + 1), spare = read_byte(input);
    uint64_t moment = synicboard_moment(&fuzz->by_struct);
    for (size_t at = 0; at < count; at++)
        events[at] = read_event(input, 1 + read_byte(input) % SYNICBOARD_SEND, moment);
    fuzz_batch(fuzz, events, count, spare);
}

static void do_action(struct fuzz *fuzz, struct input *input)
{
    uint8_t action = read_byte(input) % ACTIONS;
    uint8_t vp = 0;
    switch (action) {
    case QUERY: fuzz_compare_queries(fuzz); break;
    case BATCH: do_batch(fuzz, input); break;
    case RAISE: vp = read_byte(input); fuzz_raise(fuzz, read_byte(input), vp, read_byte(input)); break;
    case ABSORB_LINE: vp = read_byte(input); fuzz_absorb(fuzz, read_byte(input), vp, read_byte(input)); break;
    case SPLIT: fuzz_split(fuzz, read_byte(input)); break;
    case SHORT_NOTICES: fuzz_short_notices(fuzz, read_byte(input)); break;
    case NO_KIND: fuzz_no_kind(fuzz, read_byte(input)); break;
    case PAGES: fuzz_pages(fuzz, read_byte(input)); break;
    default: {
        synicboard_event event = read_event(input, action, synicboard_moment(&fuzz->by_struct));
        fuzz_event(fuzz, &event);
    }
    }
}

int LLVMFuzzerTestOneInput(const uint8_t *data, size_t size);
int LLVMFuzzerTestOneInput(const uint8_t *data, size_t size)
{
    struct input input = { data, data + size };
    if (size > 0 && data[0] == 255) {
        fuzz_text(data + 1, size - 1);
        return 0;
    }
    uint8_t head = read_byte(&input), pages = 1 + read_byte(&input) % 64;
    uint64_t ticket = read_number(&input);
    struct fuzz *fuzz = head / 16 % 2 == 1 ? fuzz_open_sparse(pages, ticket) : fuzz_open(1 + head % 8, pages, ticket, head / 8 % 2 == 1);
    for (unsigned at = 0; at < MOST_ACTIONS && input.at < input.end; at++)
        do_action(fuzz, &input);
    fuzz_close(fuzz);
    return 0;
}

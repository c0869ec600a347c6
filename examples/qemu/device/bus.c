/* The small VMBus (vmbus/), as a device of QEMU: `-device synicboard-vmbus`. Its services are timers of the virtual clock,
 * and its date is recorded for a replay. The guest finds VMBus by a table of ACPI (examples/qemu/table). A second device,
 * `-device synicboard`, has the options of the board itself. */
#include "internal.h"
#include "hw/qdev-properties.h"
#include "migration/vmstate.h"
#include "qapi/error.h"
#include "qemu/error-report.h"
#include "qemu/timer.h"

#define TYPE_SYNIC_BUS "synicboard-vmbus"
OBJECT_DECLARE_SIMPLE_TYPE(SynicBus, SYNIC_BUS)

struct SynicBus {
    DeviceState parent;
    struct vmbus *bus;
    QEMUTimer *timers[CHANNELS], *kicks;
    uint64_t kicked;            /* processors for which vmbus_deliver is due */
    uint64_t heartbeats;
    uint32_t every[CHANNELS], shutdown_after, rescind_after, newest;
    uint32_t length;            /* of what is saved */
    uint8_t *saved;
};

static SynicBus *the_bus;

/* ---- What the bus calls ---- */

static uint8_t *find_page(void *opaque, uint64_t number, bool is_stored)
{
    return synic_find_page(number, is_stored);
}

static synicboard_reply perform(void *opaque, const synicboard_event *event)
{
    return synic_perform(event);
}

static uint64_t time_of(void *opaque)
{
    return synic_now();
}

static uint64_t date_of(void *opaque)
{
    return synic_date();
}

static void kick(void *opaque, unsigned vp)
{
    SynicBus *bus = opaque;
    bus->kicked |= 1ULL << vp;
    timer_mod(bus->kicks, qemu_clock_get_ns(QEMU_CLOCK_VIRTUAL) + 1000);
}

static void write_log(void *opaque, const char *line)
{
    fprintf(stderr, "synicboard: %10.3f ms: %s\n", synic_now() / 10000.0, line);
}

static const struct vmbus_host host = {
    .page = find_page, .perform = perform, .time = time_of, .date = date_of, .kick = kick, .log = write_log,
};

/* ---- Timers ---- */

/* On the processor's thread, between two of its instructions. */
static void deliver(CPUState *cs, run_on_cpu_data data)
{
    bool is_taken = synic_take_bql();
    if (vmbus_deliver(the_bus->bus, cs->cpu_index))
        kick(the_bus, cs->cpu_index);
    synic_release_bql(is_taken);
}

/* Where pages trap, flags are set while the processor executes nothing. */
static void fire_kicks(void *opaque)
{
    SynicBus *bus = opaque;
    uint64_t kicked = bus->kicked;
    bus->kicked = 0;
    for (unsigned vp = 0; vp < synic.offer.vps; vp++)
        if (kicked >> vp & 1) {
            if (synic_log_options.traps)
                async_run_on_cpu(qemu_get_cpu(vp), deliver, RUN_ON_CPU_NULL);
            else
                deliver(qemu_get_cpu(vp), RUN_ON_CPU_NULL);
        }
}

static void fire(void *opaque)
{
    enum vmbus_service service = (uintptr_t)opaque;
    vmbus_tick(the_bus->bus, service);
    timer_mod(the_bus->timers[service], qemu_clock_get_ns(QEMU_CLOCK_VIRTUAL) + the_bus->every[service] * 1000ULL);
}

/* ---- What the board calls ---- */

bool synic_has_bus(void)
{
    return the_bus != NULL;
}

uint64_t synic_bus_post(const struct partition_request *request)
{
    if (the_bus == NULL)
        return HV_STATUS_INVALID_CONNECTION_ID;
    return vmbus_post_message(the_bus->bus, request->post.connection, request->post.type, request->post.payload, request->post.length);
}

uint64_t synic_bus_signal(const struct partition_request *request)
{
    if (the_bus == NULL)
        return HV_STATUS_INVALID_CONNECTION_ID;
    return vmbus_signal_event(the_bus->bus, request->signal.connection, request->signal.flag);
}

/* Not from here: the bus may be in a call. */
void synic_bus_consumed(void)
{
    if (the_bus != NULL)
        kick(the_bus, 0);
}

void synic_bus_reset(void)
{
    if (the_bus != NULL)
        vmbus_reset(the_bus->bus);
}

static void report(void)
{
    vmbus_report(the_bus->bus);
    fprintf(stderr, "vmbus: %s\n", vmbus_is_answered(the_bus->bus) ? "each request was answered" : "not each request was answered");
}

/* ---- The device ---- */

static int pre_save(void *opaque)
{
    SynicBus *bus = opaque;
    size_t length;
    void *state = vmbus_state(bus->bus, &length);
    g_free(bus->saved);
    bus->saved = g_memdup2(state, length);
    bus->length = length;
    return 0;
}

static int post_load(void *opaque, int version)
{
    SynicBus *bus = opaque;
    size_t length;
    void *state = vmbus_state(bus->bus, &length);
    bool is_sound = bus->length == length;
    if (is_sound) {
        memcpy(state, bus->saved, length);
        is_sound = vmbus_is_sound(bus->bus);
    }
    if (!is_sound)
        error_report("%s: what was saved is no state of VMBus", TYPE_SYNIC_BUS);
    return is_sound ? 0 : -EINVAL;
}

static const VMStateDescription description = {
    .name = TYPE_SYNIC_BUS,
    .version_id = 1,
    .minimum_version_id = 1,
    .pre_save = pre_save,
    .post_load = post_load,
    .fields = (VMStateField[]) {
        VMSTATE_UINT64(kicked, SynicBus),
        VMSTATE_TIMER_PTR(timers[HEARTBEAT], SynicBus),
        VMSTATE_TIMER_PTR(timers[TIMESYNC], SynicBus),
        VMSTATE_TIMER_PTR(timers[SHUTDOWN], SynicBus),
        VMSTATE_TIMER_PTR(kicks, SynicBus),
        VMSTATE_UINT32(length, SynicBus),
        VMSTATE_VBUFFER_ALLOC_UINT32(saved, SynicBus, 1, NULL, length),
        VMSTATE_END_OF_LIST()
    },
};

static void realize(DeviceState *device, Error **errp)
{
    SynicBus *bus = SYNIC_BUS(device);
    struct vmbus_options options = {
        .vps = synic.offer.vps, .newest = bus->newest, .shutdown_after = bus->shutdown_after, .rescind_after = bus->rescind_after,
        .heartbeats = bus->heartbeats, .signals_in_turn = synic_log_options.traps,
    };
    if (!synic.is_open || !(synic.offer.features & PARTITION_SYNIC) || the_bus != NULL || synic_has_qemu_bus()) {
        error_setg(errp, "%s needs -cpu ..,hv-synic of the emulator, and no other VMBus", TYPE_SYNIC_BUS);
        return;
    }
    bus->bus = vmbus_open(&host, bus, &options);
    if (bus->bus == NULL) {
        error_setg(errp, "%s: no memory", TYPE_SYNIC_BUS);
        return;
    }
    the_bus = bus;
    bus->kicks = timer_new_ns(QEMU_CLOCK_VIRTUAL, fire_kicks, bus);
    for (uintptr_t service = 0; service < CHANNELS; service++) {
        bus->timers[service] = timer_new_ns(QEMU_CLOCK_VIRTUAL, fire, (void *)service);
        timer_mod(bus->timers[service], bus->every[service] * 1000ULL);
    }
    atexit(report);
}

static SynicProperty bus_properties[] = {
    DEFINE_PROP_UINT64("heartbeats", SynicBus, heartbeats, 0),
    DEFINE_PROP_UINT32("heartbeat-every", SynicBus, every[HEARTBEAT], 1000000),    /* microseconds */
    DEFINE_PROP_UINT32("timesync-every", SynicBus, every[TIMESYNC], 1000000),
    DEFINE_PROP_UINT32("shutdown-every", SynicBus, every[SHUTDOWN], 100000),
    DEFINE_PROP_UINT32("shutdown-after", SynicBus, shutdown_after, 0),              /* milliseconds */
    DEFINE_PROP_UINT32("rescind-after", SynicBus, rescind_after, 0),
    DEFINE_PROP_UINT32("newest-version", SynicBus, newest, VMBUS_NEWEST)
    SYNIC_PROPERTIES_END
};

static void bus_class_init(ObjectClass *class, SynicClassData data)
{
    DeviceClass *device = DEVICE_CLASS(class);
    device->realize = realize;
    device->vmsd = &description;
    device->user_creatable = true;
    device->hotpluggable = false;
    device_class_set_props(device, bus_properties);
    set_bit(DEVICE_CATEGORY_MISC, device->categories);
}

/* ---- The options of the board ---- */

#define TYPE_SYNIC_OPTIONS "synicboard"
OBJECT_DECLARE_SIMPLE_TYPE(SynicOptions, SYNIC_OPTIONS)

struct SynicOptions {
    DeviceState parent;
    struct synic_log_options options;
};

static void options_realize(DeviceState *device, Error **errp)
{
    if (!synic.is_open || synic_has_bus())
        error_setg(errp, "%s needs -cpu ..,hv-synic of the emulator, and is named before %s", TYPE_SYNIC_OPTIONS, TYPE_SYNIC_BUS);
    else
        synic_log_options = SYNIC_OPTIONS(device)->options;
}

static SynicProperty options_properties[] = {
    DEFINE_PROP_STRING("trace", SynicOptions, options.trace),
    DEFINE_PROP_STRING("notices", SynicOptions, options.notices),
    DEFINE_PROP_BOOL("trap-pages", SynicOptions, options.traps, false)
    SYNIC_PROPERTIES_END
};

static void options_class_init(ObjectClass *class, SynicClassData data)
{
    DeviceClass *device = DEVICE_CLASS(class);
    device->realize = options_realize;
    device->user_creatable = true;
    device->hotpluggable = false;
    device_class_set_props(device, options_properties);
    set_bit(DEVICE_CATEGORY_MISC, device->categories);
}

static const TypeInfo types[] = {
    { .name = TYPE_SYNIC_BUS, .parent = TYPE_DEVICE, .instance_size = sizeof(SynicBus), .class_init = bus_class_init },
    { .name = TYPE_SYNIC_OPTIONS, .parent = TYPE_DEVICE, .instance_size = sizeof(SynicOptions), .class_init = options_class_init },
};

DEFINE_TYPES(types)

/* Migration and the reset of the machine. What is saved is text and numbers: the board's image, and the registers of the
 * partition. */
#include "internal.h"
#include "migration/vmstate.h"
#include "qapi/error.h"
#include "qemu/error-report.h"

static struct saved {
    struct partition partition;
    uint32_t vps, features, length;
    uint8_t assisted[PARTITION_VPS];
    uint8_t *image;
} saved;

static int pre_save(void *opaque)
{
    size_t length;
    g_free(saved.image);
    saved.image = synic_save_image(&length);
    saved.length = length;
    saved.vps = synic.offer.vps;
    saved.features = synic.offer.features;
    saved.partition = synic.partition;
    memcpy(saved.assisted, synic_assisted, sizeof(saved.assisted));
    return 0;
}

static int post_load(void *opaque, int version)
{
    Error *error = NULL;
    if (saved.vps != synic.offer.vps || saved.features != synic.offer.features) {
        error_report("synicboard: saved with other properties hv-*, or another number of processors");
        return -EINVAL;
    }
    if (!synic_restore_image(saved.image, saved.length, &error)) {
        error_report_err(error);
        return -EINVAL;
    }
    synic.partition = saved.partition;
    memcpy(synic_assisted, saved.assisted, sizeof(saved.assisted));
    synic_routes_restored();
    return 0;
}

static const VMStateDescription description = {
    .name = "synicboard",
    .version_id = 1,
    .minimum_version_id = 1,
    .pre_save = pre_save,
    .post_load = post_load,
    .fields = (VMStateField[]) {
        VMSTATE_UINT32(vps, struct saved),
        VMSTATE_UINT32(features, struct saved),
        VMSTATE_UINT64(partition.guest_os_id, struct saved),
        VMSTATE_UINT64(partition.hypercall, struct saved),
        VMSTATE_UINT64(partition.reference_tsc, struct saved),
        VMSTATE_UINT64_ARRAY(partition.assist, struct saved, PARTITION_VPS),
        VMSTATE_UINT8_ARRAY(assisted, struct saved, PARTITION_VPS),
        VMSTATE_UINT32(length, struct saved),
        VMSTATE_VBUFFER_ALLOC_UINT32(image, struct saved, 1, NULL, length),
        VMSTATE_END_OF_LIST()
    },
};

/* The processors are reset by their own calls. Ports survive these, so VMBus closes its own. */
static void reset(void *opaque)
{
    synic.partition = (struct partition){ 0 };
    synic_bus_reset();
}

/* While a machine is loaded its local APICs have no state yet, so what the board forwards waits until it runs. */
static void on_state(void *opaque, bool is_running, RunState state)
{
    if (is_running)
        synic_settle();
}

void synic_open_state(void)
{
    vmstate_register(NULL, 0, &description, &saved);
    qemu_register_reset(reset, NULL);
    qemu_add_vm_change_state_handler(on_state, NULL);
}

/* Starts Linux by its 64-bit boot protocol (Documentation/x86/boot.rst), with the ACPI tables of
 * a machine that has processors and no other hardware. */
#define _GNU_SOURCE
#include <asm/bootparam.h>
#include <elf.h>
#include <string.h>

#include "boot.h"

enum { BOOT_PARAMS = 0x10000, COMMAND_LINE = 0x20000, MOST_LINE = 2048 };
enum { LOW_END = 0x9fc00, ACPI = 0xe0000, HIGH = 0x100000 };
enum { RAM = 1, RESERVED = 2 };         /* types of the memory map */
enum { HEADER = 36 };                   /* bytes of the header of an ACPI table */

static void put(uint8_t *at, uint64_t value, unsigned length)
{
    memcpy(at, &value, length);
}

static void put_sum(uint8_t *bytes, uint32_t length, unsigned at)
{
    uint8_t sum = 0;
    bytes[at] = 0;
    for (uint32_t byte = 0; byte < length; byte++)
        sum += bytes[byte];
    bytes[at] = (uint8_t)-sum;
}

static uint64_t next_table;

/* Begins an ACPI table and returns its address. Its sum comes last. */
static uint64_t add_table(const char *signature, uint8_t revision, uint32_t length)
{
    uint64_t address = next_table;
    uint8_t *table = vm_memory(address, length);
    memcpy(table, signature, 4);
    put(table + 4, length, 4);
    table[8] = revision;
    memcpy(table + 10, "SYNIC BOARDVMM", 14);
    table[24] = 1;
    memcpy(table + 28, "VMM ", 4);
    next_table += (length + 15) & ~15U;
    return address;
}

static void end_table(uint64_t address)
{
    uint32_t length;
    uint8_t *table = vm_memory(address, HEADER);
    memcpy(&length, table + 4, 4);
    put_sum(table, length, 9);
}

/* The DSDT says how to turn the machine off, and has one device, if there is a VMBus. Its driver wants a list of
 * resources, which may be empty. */
static uint64_t add_dsdt(void)
{
    /* Name (_S5, Package (4) { 5, 0, 0, 0 }) */
    static const uint8_t off[] = { 0x08, '_', 'S', '5', '_', 0x12, 0x07, 0x04, 0x0a, 0x05, 0, 0, 0 };
    /* Scope (\_SB) { Device (VMBS) { Name (_HID, "VMBUS"), Name (_UID, 0), Name (_CRS, ResourceTemplate () {}) } } */
    static const uint8_t device[] = {
        0x10, 0x2a, '\\', '_', 'S', 'B', '_', 0x5b, 0x82, 0x22, 'V', 'M', 'B', 'S',
        0x08, '_', 'H', 'I', 'D', 0x0d, 'V', 'M', 'B', 'U', 'S', 0,
        0x08, '_', 'U', 'I', 'D', 0x00,
        0x08, '_', 'C', 'R', 'S', 0x11, 0x05, 0x0a, 0x02, 0x79, 0x00,
    };
    uint32_t length = vm.vmbus.is_on ? sizeof device : 0;
    uint64_t address = add_table("DSDT", 2, HEADER + sizeof off + length);
    memcpy(vm_memory(address + HEADER, sizeof off), off, sizeof off);
    memcpy(vm_memory(address + HEADER + sizeof off, sizeof device), device, length);
    end_table(address);
    return address;
}

/* A Generic Address Structure: a port of 8 bits. */
static void put_port(uint8_t *at, uint16_t port)
{
    put(at, 1 | 8 << 8 | 1 << 24, 4);
    put(at + 4, port, 8);
}

/* "Hardware-reduced ACPI": no interrupt controller but the local APICs, no timer, no clock. */
static uint64_t add_fadt(void)
{
    uint64_t dsdt = add_dsdt(), address = add_table("FACP", 6, 276);
    uint8_t *fadt = vm_memory(address, 276);
    put(fadt + 40, dsdt, 4);
    put(fadt + 109, 1 << 2 | 1 << 3 | 1 << 5, 2);       /* no VGA, no MSI, no CMOS clock */
    put(fadt + 112, 1 << 20 | 1 << 10, 4);              /* hardware-reduced; has a reset register, */
    put_port(fadt + 116, 0x64);
    fadt[128] = 0xfe;                                   /* and the value that resets */
    fadt[131] = 3;
    put(fadt + 140, dsdt, 8);
    put_port(fadt + 244, SLEEP_PORT);                   /* sleep control, and sleep status */
    put_port(fadt + 256, SLEEP_PORT + 1);
    end_table(address);
    return address;
}

static uint64_t add_madt(void)
{
    uint64_t address = add_table("APIC", 4, HEADER + 8 + 8 * vm.vps);
    uint8_t *madt = vm_memory(address, HEADER + 8 + 8 * MOST_VPS);
    put(madt + HEADER, APIC_BASE, 4);
    for (uint64_t number = 0; number < vm.vps; number++)
        put(madt + HEADER + 8 + 8 * number, 8 << 8 | number << 16 | number << 24 | 1ULL << 32, 8);  /* enabled */
    end_table(address);
    return address;
}

/* Returns the address of the root pointer. */
static uint64_t write_acpi(void)
{
    uint8_t *rsdp = vm_memory(ACPI, 36);
    next_table = ACPI + 64;
    uint64_t fadt = add_fadt(), madt = add_madt(), xsdt = add_table("XSDT", 1, HEADER + 16);
    put(vm_memory(xsdt + HEADER, 8), fadt, 8);
    put(vm_memory(xsdt + HEADER + 8, 8), madt, 8);
    end_table(xsdt);
    memcpy(rsdp, "RSD PTR \0SYNIC \2", 16);
    put(rsdp + 20, 36, 4);
    put(rsdp + 24, xsdt, 8);
    put_sum(rsdp, 20, 8);
    put_sum(rsdp, 36, 32);
    return ACPI;
}

/* Loads the image that distributions have, which decompresses itself, where it wants to be. */
static uint64_t load_image(const char *path, struct boot_params *params, uint64_t *end)
{
    const struct setup_header *header = &params->hdr;
    uint64_t begin = (header->setup_sects + 1) * 512ULL, length = boot_file_size(path) - begin;
    boot_read(path, begin, length, header->pref_address);
    *end = header->pref_address + (header->init_size > length ? header->init_size : length);
    return header->pref_address + 0x200;
}

/* Loads each segment of a vmlinux at its physical address, and returns the entry. */
static uint64_t load_vmlinux(const char *path, struct boot_params *params, uint64_t *end)
{
    uint8_t *head = vm_memory(HIGH, PAGE);
    Elf64_Ehdr elf;
    Elf64_Phdr segments[16];
    boot_read(path, 0, PAGE, HIGH);
    memcpy(&elf, head, sizeof elf);
    unsigned count = elf.e_phnum < 16 ? elf.e_phnum : 16;
    memcpy(segments, head + elf.e_phoff, count * sizeof segments[0]);
    memset(head, 0, PAGE);
    *end = 0;
    for (unsigned at = 0; at < count; at++) {
        const Elf64_Phdr *segment = &segments[at];
        if (segment->p_type != PT_LOAD)
            continue;
        boot_read(path, segment->p_offset, segment->p_filesz, segment->p_paddr);
        if (segment->p_paddr + segment->p_memsz > *end)
            *end = segment->p_paddr + segment->p_memsz;
    }
    params->hdr.boot_flag = 0xaa55;
    params->hdr.header = 0x53726448;
    params->hdr.version = 0x020f;
    params->hdr.kernel_alignment = 0x1000000;
    return elf.e_entry;
}

/* The initial file system is placed at the end of memory. */
static void load_initrd(const char *path, struct boot_params *params, uint64_t end)
{
    uint64_t length = boot_file_size(path), address = (vm.ram_size - length) & ~(uint64_t)(PAGE - 1);
    if (length > vm.ram_size || address < end)
        fail("the guest's memory is too small");
    boot_read(path, 0, length, address);
    params->hdr.ramdisk_image = (uint32_t)address;
    params->hdr.ramdisk_size = (uint32_t)length;
}

static void add_memory(struct boot_params *params, uint64_t address, uint64_t end, uint32_t type)
{
    params->e820_table[params->e820_entries++] = (struct boot_e820_entry){ address, end - address, type };
}

/* Whether the file is an image, and reads its header then. */
static bool is_image(const char *path, struct boot_params *params)
{
    enum { HEADER_AT = 0x1f1, MAGIC = 0x53726448 };
    struct setup_header *header = &params->hdr;
    if (boot_file_size(path) < PAGE)
        return false;
    boot_read(path, HEADER_AT, sizeof *header, HIGH);
    memcpy(header, vm_memory(HIGH, sizeof *header), sizeof *header);
    if (header->header == MAGIC && header->version >= 0x020a)
        return true;
    memset(header, 0, sizeof *header);
    return false;
}

void boot_linux(const char *kernel, const char *initrd, const char *command_line)
{
    struct boot_params *params = (struct boot_params *)vm_memory(BOOT_PARAMS, sizeof *params);
    char *line = (char *)vm_memory(COMMAND_LINE, MOST_LINE);
    uint64_t end, entry = (is_image(kernel, params) ? load_image : load_vmlinux)(kernel, params, &end);
    params->hdr.type_of_loader = 0xff;
    params->hdr.loadflags |= 1;
    params->hdr.cmd_line_ptr = COMMAND_LINE;
    strncpy(line, command_line, MOST_LINE - 1);
    if (initrd != NULL)
        load_initrd(initrd, params, end);
    add_memory(params, 0, LOW_END, RAM);
    add_memory(params, LOW_END, HIGH, RESERVED);
    add_memory(params, HIGH, vm.ram_size, RAM);
    params->acpi_rsdp_addr = write_acpi();
    boot_at(entry, BOOT_PARAMS);
}

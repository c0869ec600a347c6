/* Starts the first processor in long mode, at an image of our own. */
#define _GNU_SOURCE
#include <fcntl.h>
#include <string.h>
#include <sys/ioctl.h>
#include <sys/stat.h>
#include <unistd.h>

#include "boot.h"

enum { GDT = 0x500, TABLES = 0x1000, STACK = 0x90000, FLAT = 0x100000 };
enum { CODE = 0x10, DATA = 0x18 };      /* selectors, as Linux's boot protocol wants them */

uint64_t boot_file_size(const char *path)
{
    struct stat about;
    if (stat(path, &about) != 0)
        fail(path);
    return (uint64_t)about.st_size;
}

void boot_read(const char *path, uint64_t from, uint64_t length, uint64_t address)
{
    uint8_t *to = vm_memory(address, length);
    int file = open(path, O_RDONLY | O_CLOEXEC);
    if (file < 0)
        fail(path);
    if (to == NULL)
        fail("the guest's memory is too small");
    for (uint64_t done = 0; done < length;) {
        ssize_t got = pread(file, to + done, length - done, (off_t)(from + done));
        if (got <= 0)
            fail(path);
        done += (uint64_t)got;
    }
    close(file);
}

/* Maps 4 GB at their own addresses, by pages of 2 MB. */
static void write_tables(void)
{
    uint64_t *tables = (uint64_t *)vm_memory(TABLES, 6 * PAGE);
    tables[0] = (TABLES + PAGE) | 3;
    for (uint64_t at = 0; at < 4; at++)
        tables[512 + at] = (TABLES + (2 + at) * PAGE) | 3;
    for (uint64_t at = 0; at < 4 * 512; at++)
        tables[1024 + at] = at << 21 | 0x83;
}

void boot_at(uint64_t rip, uint64_t rsi)
{
    static const uint64_t gdt[] = { 0, 0, 0x00af9b000000ffff, 0x00cf93000000ffff };
    struct kvm_segment code = { .limit = 0xffffffff, .selector = CODE, .type = 11, .present = 1, .s = 1, .l = 1, .g = 1 };
    struct kvm_segment data = { .limit = 0xffffffff, .selector = DATA, .type = 3, .present = 1, .s = 1, .db = 1, .g = 1 };
    struct kvm_regs regs = { .rip = rip, .rsi = rsi, .rsp = STACK, .rflags = 2 };
    struct kvm_sregs sregs = vm.vp[0].reset_sregs;
    memcpy(vm_memory(GDT, sizeof gdt), gdt, sizeof gdt);
    write_tables();
    sregs.cr0 = 0x80000011;
    sregs.cr3 = TABLES;
    sregs.cr4 = 1 << 5;
    sregs.efer = 0x500;
    sregs.gdt.base = GDT;
    sregs.gdt.limit = sizeof gdt - 1;
    sregs.cs = code;
    sregs.ds = sregs.es = sregs.fs = sregs.gs = sregs.ss = data;
    if (ioctl(vm.vp[0].fd, KVM_SET_SREGS, &sregs) != 0)
        fail("KVM_SET_SREGS");
    if (ioctl(vm.vp[0].fd, KVM_SET_REGS, &regs) != 0)
        fail("KVM_SET_REGS");
}

void boot_flat(const char *path)
{
    boot_read(path, 0, boot_file_size(path), FLAT);
    boot_at(FLAT, 0);
}

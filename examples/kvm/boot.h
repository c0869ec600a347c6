/* What the two ways to boot share. */
#ifndef BOOT_H
#define BOOT_H

#include "vmm.h"

uint64_t boot_file_size(const char *path);
void boot_read(const char *path, uint64_t from, uint64_t length, uint64_t address);  /* into the guest's memory */

#endif

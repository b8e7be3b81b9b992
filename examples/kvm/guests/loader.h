/* What linux.py writes into the image of a Linux guest, at address PLAN. */
#ifndef LOADER_H
#define LOADER_H
#include <stdint.h>

enum { PLAN = 0x9000, MEASURED = 2 };

struct measured {
    uint64_t address, length; /* in bytes; the address is that of a page */
    uint8_t digest[32];       /* SHA-256 */
};

struct linux_plan {
    uint64_t entry; /* where Linux begins */
    uint64_t vcpus;
    struct measured files[MEASURED]; /* the kernel, and the initramfs */
};
#endif

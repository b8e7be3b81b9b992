/* The disk that the host has for a Linux guest: it answers the requests that it finds in the ring. */
#ifndef DISK_H
#define DISK_H
#include "host.h"

enum { SECTOR = 512 };

struct host_disk {
    uint8_t bytes[DISK_SECTORS * SECTOR];
};

/* The guest's pages, each by its guest frame; NULL for one that the host does not reach. */
struct lent {
    uint8_t *(*reach)(void *of, uint32_t gfn);
    void *of;
};

/* Answers what is in the ring at a guest frame. Returns whether there was something, and the host reaches the ring. */
bool disk_answer(struct host_disk *disk, const struct lent *lent, uint32_t ring);
#endif

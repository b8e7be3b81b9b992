/* The untrusted part, a process of its own: it has its memory, three pipes and its images, and nothing else. */
#ifndef HOST_H
#define HOST_H
#include <stdbool.h>
#include <stdint.h>
#include <sys/types.h>

enum { MOST_GUESTS = 8, PARTS = 4 };
enum { DISK_SECTORS = 256 }; /* of 512 bytes: what the host has for the disk of each Linux guest */

/* The numbers of its files: after the standard streams its memory, in which frame f is at f * 4,096; the pipe to which
 * it writes calls, and that from which it reads the replies; the pipe of events; the images; its program. */
enum { MEMORY = 3, CALLS, REPLIES, EVENTS, IMAGE_FILES };

/* Files that a guest boots from, open, each at its guest frame. The first ones are its images; of the others it gets
 * the pages as it misses them. */
struct boot {
    struct {
        int file;
        uint32_t base;
    } parts[PARTS];
    unsigned count, images, vcpus;
};

struct plan {
    uint32_t frames, first, last; /* of the machine; the host's at boot are first to last - 1 */
    struct boot boots[MOST_GUESTS];
    unsigned count;
    pid_t monitor; /* for what it may not do */
    bool is_hostile;
    unsigned storm; /* random calls and accesses */
    char **words;   /* of another host's command line, or NULL */
    int program;    /* its file, open */
};

/* Boots the guests, supplies them with frames until all have ended, and exits. */
_Noreturn void host_main(const struct plan *plan);
#endif

/* The MMU: it follows the record of each frame, and knows nothing else.
 *
 * The bytes of a frame are in the host's file exactly while the record says that the host reaches it, and those of a
 * guest's other frames in the guest's file. They move by being copied, and the old page is punched out: a page that the
 * host has pinned (in a pipe, for a disk) never becomes a guest's. While a page moves it is protected against writing,
 * so that no write of another virtual processor is lost. */
#include "monitor.h"
#include <errno.h>
#include <fcntl.h>
#include <linux/userfaultfd.h>
#include <stdio.h>
#include <stdlib.h>
#include <string.h>
#include <sys/ioctl.h>
#include <sys/mman.h>
#include <sys/stat.h>
#include <sys/syscall.h>
#include <unistd.h>

enum place { NOWHERE, HOSTS, GUESTS };

static const size_t SIZE = (size_t)GUEST_FRAMES * PAGE;

/* Where a frame's bytes are. Those that are nowhere are zero. */
static enum place place_of(const kcore_record *record) {
    if (record->present) return HOSTS;
    return record->owner == KCORE_VM ? GUESTS : NOWHERE;
}

static off_t offset_of(uint32_t page) { return (off_t)page * PAGE; }

static void read_page(int file, uint32_t page, uint8_t *bytes) {
    if (pread(file, bytes, PAGE, offset_of(page)) != PAGE) fail("a page is not read");
}

static void write_page(int file, uint32_t page, const uint8_t *bytes) {
    if (pwrite(file, bytes, PAGE, offset_of(page)) != PAGE) fail("a page is not written");
}

/* Takes a page out of a file, whoever sees it there. */
static void punch(int file, uint32_t page) {
    if (fallocate(file, FALLOC_FL_PUNCH_HOLE | FALLOC_FL_KEEP_SIZE, offset_of(page), PAGE))
        fail("a page is not taken out");
}

static struct uffdio_range range_of(const struct memory *memory, uint32_t gfn, uint32_t count) {
    return (struct uffdio_range){(uintptr_t)memory->seen + offset_of(gfn), (uint64_t)count * PAGE};
}

static void watch(struct memory *memory, uint32_t gfn, uint32_t count, uint64_t mode) {
    struct uffdio_register asked = {.range = range_of(memory, gfn, count), .mode = mode};
    if (ioctl(memory->faults, UFFDIO_REGISTER, &asked)) fail("guest memory is not watched");
}

/* Whoever writes to the page from now on waits. */
static void protect(struct memory *memory, uint32_t gfn) {
    struct uffdio_writeprotect asked = {range_of(memory, gfn, 1), UFFDIO_WRITEPROTECT_MODE_WP};
    if (ioctl(memory->faults, UFFDIO_WRITEPROTECT, &asked)) fail("a page is not protected");
}

void memory_wake(struct memory *memory, uint32_t gfn) {
    struct uffdio_range range = range_of(memory, gfn, 1);
    if (ioctl(memory->faults, UFFDIO_WAKE, &range)) fail("userfaultfd");
}

/* Has the guest see a page of a file: one of its own that is missing is a fault. */
static void show(struct memory *memory, uint32_t gfn, int file, uint32_t page) {
    const int flags = MAP_SHARED | MAP_FIXED | MAP_NORESERVE;
    uint64_t missing = file == memory->pages ? UFFDIO_REGISTER_MODE_MISSING : 0;
    uint8_t *at = memory->seen + offset_of(gfn);
    if (mmap(at, PAGE, PROT_READ | PROT_WRITE, flags, file, offset_of(page)) == MAP_FAILED)
        fail("a page is not mapped");
    watch(memory, gfn, 1, UFFDIO_REGISTER_MODE_WP | missing);
}

static struct memory *memory_of(struct mmu *mmu, const kcore_record *record) {
    return record->owner == KCORE_VM ? mmu->of[record->vm] : NULL;
}

/* Carries out a change: a frame's bytes go from one place to another, and it stays a guest's, becomes a guest's or
 * leaves a guest. */
static void follow(struct mmu *mmu, const kcore_frame_change *change, const uint8_t *copy) {
    enum place from = place_of(&change->before), to = place_of(&change->after);
    struct memory *old = memory_of(mmu, &change->before), *guest = memory_of(mmu, &change->after);
    uint32_t frame = change->frame, gfn = change->after.gfn;
    uint8_t bytes[PAGE] = {0};
    if (from == to) return;
    if (old && guest) protect(guest, gfn);
    if (copy) memcpy(bytes, copy, PAGE);
    else if (from == HOSTS) read_page(mmu->host, frame, bytes);
    else if (from == GUESTS) read_page(old->pages, change->before.gfn, bytes);
    if (to == HOSTS) write_page(mmu->host, frame, bytes);
    if (to == GUESTS) write_page(guest->pages, gfn, bytes);
    if (old && guest && to == HOSTS) show(guest, gfn, mmu->host, frame);
    if (old && guest && to == GUESTS) show(guest, gfn, guest->pages, gfn);
    if (guest) memory_wake(guest, gfn);
    if (from == HOSTS) punch(mmu->host, frame);
    if (from == GUESTS) punch(old->pages, change->before.gfn);
}

void mmu_follow(struct mmu *mmu, const kcore_frame_change *changes, size_t count, const uint8_t *copy) {
    for (size_t number = 0; number < count; number++) follow(mmu, &changes[number], copy);
}

void mmu_read_host(struct mmu *mmu, uint32_t frame, uint8_t *bytes) { read_page(mmu->host, frame, bytes); }

void mmu_zero_end(struct mmu *mmu, uint32_t vm, uint32_t gfn, uint32_t offset) {
    static const uint8_t zero[PAGE];
    ssize_t length = PAGE - offset;
    if (pwrite(mmu->of[vm]->pages, zero, length, offset_of(gfn) + offset) != length) fail("a page is not written");
}

/* A file in memory, whose size nobody can change. */
static int open_pages(const char *name, uint32_t count) {
    int file = memfd_create(name, MFD_CLOEXEC | MFD_ALLOW_SEALING);
    if (file < 0 || ftruncate(file, offset_of(count)) ||
        fcntl(file, F_ADD_SEALS, F_SEAL_SHRINK | F_SEAL_GROW | F_SEAL_SEAL))
        fail("memory");
    return file;
}

void mmu_open(struct mmu *mmu, uint32_t frames) {
    mmu->frames = frames;
    mmu->host = open_pages("host", frames);
}

void mmu_close(struct mmu *mmu) {
    if (close(mmu->host)) fail("memory");
}

/* By the system call, which takes root, or by the device. */
static int open_faults(void) {
    int file = syscall(SYS_userfaultfd, O_CLOEXEC | O_NONBLOCK);
    if (file >= 0 || errno != EPERM) return file;
    int device = open("/dev/userfaultfd", O_RDWR | O_CLOEXEC);
    if (device < 0) return device;
    file = ioctl(device, USERFAULTFD_IOC_NEW, O_CLOEXEC | O_NONBLOCK);
    close(device);
    return file;
}

void memory_open(struct memory *memory) {
    struct uffdio_api api = {.api = UFFD_API,
                             .features = UFFD_FEATURE_MISSING_SHMEM | UFFD_FEATURE_THREAD_ID |
                                         UFFD_FEATURE_PAGEFAULT_FLAG_WP | UFFD_FEATURE_WP_HUGETLBFS_SHMEM};
    memory->pages = open_pages("guest", GUEST_FRAMES);
    memory->seen = mmap(NULL, SIZE, PROT_READ | PROT_WRITE, MAP_SHARED | MAP_NORESERVE, memory->pages, 0);
    if (memory->seen == MAP_FAILED) fail("guest memory");
    memory->faults = open_faults();
    if (memory->faults < 0 || ioctl(memory->faults, UFFDIO_API, &api)) fail("userfaultfd");
    watch(memory, 0, GUEST_FRAMES, UFFDIO_REGISTER_MODE_MISSING | UFFDIO_REGISTER_MODE_WP);
}

void memory_shut(struct memory *memory) {
    struct uffdio_range all = range_of(memory, 0, GUEST_FRAMES);
    const int flags = MAP_PRIVATE | MAP_ANONYMOUS | MAP_FIXED | MAP_NORESERVE;
    if (mmap(memory->seen, SIZE, PROT_NONE, flags, -1, 0) == MAP_FAILED || ioctl(memory->faults, UFFDIO_WAKE, &all))
        fail("guest memory");
}

void memory_close(struct memory *memory) {
    if (munmap(memory->seen, SIZE) || close(memory->faults) || close(memory->pages)) fail("guest memory");
}

/* The comparison. It asks the kernel what is mapped where and what each file has, not what was done. */

/* What a guest sees at a guest frame: its own file's page there; as N + 1, the host's page of frame N; or another. */
enum { OWN = 0, ELSE = UINT32_MAX };

static bool is_file(int file, unsigned long long inode) {
    struct stat it;
    if (fstat(file, &it)) fail("fstat");
    return it.st_ino == inode;
}

/* Marks what a guest sees by a mapping of this process, given as a line of /proc/self/maps. */
static void mark(struct mmu *mmu, struct memory *memory, const char *line, uint32_t *seen) {
    unsigned long long begin, end, offset, inode, base = (uintptr_t)memory->seen;
    if (sscanf(line, "%llx-%llx %*s %llx %*s %llu", &begin, &end, &offset, &inode) != 4) return;
    if (begin < base || end > base + SIZE) return;
    bool is_hosts = is_file(mmu->host, inode), is_own = is_file(memory->pages, inode) && offset == begin - base;
    uint32_t gfn = (begin - base) / PAGE, count = (end - begin) / PAGE;
    for (uint32_t n = 0; n < count; n++) seen[gfn + n] = is_hosts ? offset / PAGE + n + 1 : is_own ? OWN : ELSE;
}

static void look(struct mmu *mmu, struct memory *memory, uint32_t *seen) {
    FILE *maps = fopen("/proc/self/maps", "r");
    char line[512];
    if (!maps) fail("/proc/self/maps");
    for (uint32_t gfn = 0; gfn < GUEST_FRAMES; gfn++) seen[gfn] = ELSE;
    while (fgets(line, sizeof line, maps)) mark(mmu, memory, line, seen);
    if (ferror(maps) || fclose(maps)) fail("/proc/self/maps");
}

static bool has_page(int file, uint32_t page) { return lseek(file, offset_of(page), SEEK_DATA) == offset_of(page); }

static uint32_t count_pages(int file) {
    off_t at = 0, end;
    uint32_t count = 0;
    while ((at = lseek(file, at, SEEK_DATA)) >= 0) {
        if ((end = lseek(file, at, SEEK_HOLE)) < 0) fail("lseek");
        count += (end - at) / PAGE;
        at = end;
    }
    if (errno != ENXIO) fail("lseek");
    return count;
}

/* Compares one guest's memory with the records of its frames. */
static void compare_guest(struct mmu *mmu, struct core *core, uint32_t vm, uint32_t *seen, struct comparison *found) {
    struct memory *memory = mmu->of[vm];
    uint32_t private_pages = 0, shared_pages = 0, seen_shared = 0, seen_else = 0;
    look(mmu, memory, seen);
    for (uint32_t frame = 0; frame < mmu->frames; frame++) {
        kcore_record record = core_record_of(core, frame);
        if (record.owner != KCORE_VM || record.vm != vm) continue;
        bool is_shared = record.present, is_wrong = seen[record.gfn] != (is_shared ? frame + 1 : OWN);
        is_wrong |= has_page(memory->pages, record.gfn) == is_shared;
        *(is_shared ? &shared_pages : &private_pages) += 1;
        found->wrong += is_wrong;
    }
    for (uint32_t gfn = 0; gfn < GUEST_FRAMES; gfn++) {
        seen_else += seen[gfn] == ELSE;
        seen_shared += seen[gfn] != OWN && seen[gfn] != ELSE;
    }
    found->wrong += seen_else + (seen_shared != shared_pages) + (count_pages(memory->pages) != private_pages);
    found->private_pages += private_pages;
    found->shared_pages += shared_pages;
}

struct comparison mmu_compare(struct mmu *mmu, struct core *core) {
    struct comparison found = {0};
    uint32_t *seen = calloc(GUEST_FRAMES, sizeof *seen);
    if (!seen) fail("memory");
    for (uint32_t vm = 0; vm < SLOTS; vm++)
        if (mmu->of[vm]) compare_guest(mmu, core, vm, seen, &found);
    for (uint32_t frame = 0; frame < mmu->frames; frame++) {
        kcore_record record = core_record_of(core, frame);
        found.wrong += record.owner == KCORE_VM && !mmu->of[record.vm];
    }
    free(seen);
    return found;
}

/* What guests without a system share: the calls of the monitor's ports, output, and pages by number. */
#include <stdint.h>

enum { PAGE = 4096, GUEST_FRAMES = 262144 };
enum { GRANT = 0x1000, REVOKE, DROP, GRANTR, REVOKER, NOTIFY = 0x1008, CLOCK = 0x100a, PRINT = 0xe9 };

static inline void out(uint16_t port, uint32_t value) {
    __asm__ volatile("outl %0, %1" ::"a"(value), "d"(port) : "memory");
}

static inline uint32_t in(uint16_t port) {
    uint32_t value;
    __asm__ volatile("inl %1, %0" : "=a"(value) : "d"(port) : "memory");
    return value;
}

/* Makes a call. Returns whether it was done. */
static inline int asks(uint16_t call, uint32_t gfn, uint32_t count) {
    out(call, gfn | count * GUEST_FRAMES);
    return in(GRANT) == 0;
}

static inline void say(const char *text) {
    while (*text) __asm__ volatile("outb %0, %1" ::"a"(*text++), "d"((uint16_t)PRINT));
}

static inline void say_number(uint64_t number) {
    char digits[21], *at = digits + 20;
    *at = 0;
    do *--at = '0' + number % 10;
    while (number /= 10);
    say(at);
}

static inline volatile uint8_t *page(uint32_t gfn) { return (volatile uint8_t *)((uint64_t)gfn * PAGE); }

static inline volatile uint64_t *words(uint32_t gfn) { return (volatile uint64_t *)page(gfn); }

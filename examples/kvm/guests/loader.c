/* The measured part of a Linux guest. Kernel and initramfs are larger than images can be: the host supplies their pages
 * as this touches them, and once they are private they are hashed. Linux begins only if they have the digests that
 * linux.py put into this image. The addresses at which Linux looks for what firmware left are zeroed, since the host
 * supplied those pages too. */
#include "guest.h"
#include "loader.h"

static const struct linux_plan *const plan = (const struct linux_plan *)PLAN;
enum { FIRMWARE = 0x80000, FIRMWARE_END = 0x100000, BLOCK = 64 };

/* SHA-256, as FIPS 180-4 has it. */
static const uint32_t constants[64] = {
    0x428a2f98, 0x71374491, 0xb5c0fbcf, 0xe9b5dba5, 0x3956c25b, 0x59f111f1, 0x923f82a4, 0xab1c5ed5,
    0xd807aa98, 0x12835b01, 0x243185be, 0x550c7dc3, 0x72be5d74, 0x80deb1fe, 0x9bdc06a7, 0xc19bf174,
    0xe49b69c1, 0xefbe4786, 0x0fc19dc6, 0x240ca1cc, 0x2de92c6f, 0x4a7484aa, 0x5cb0a9dc, 0x76f988da,
    0x983e5152, 0xa831c66d, 0xb00327c8, 0xbf597fc7, 0xc6e00bf3, 0xd5a79147, 0x06ca6351, 0x14292967,
    0x27b70a85, 0x2e1b2138, 0x4d2c6dfc, 0x53380d13, 0x650a7354, 0x766a0abb, 0x81c2c92e, 0x92722c85,
    0xa2bfe8a1, 0xa81a664b, 0xc24b8b70, 0xc76c51a3, 0xd192e819, 0xd6990624, 0xf40e3585, 0x106aa070,
    0x19a4c116, 0x1e376c08, 0x2748774c, 0x34b0bcb5, 0x391c0cb3, 0x4ed8aa4a, 0x5b9cca4f, 0x682e6ff3,
    0x748f82ee, 0x78a5636f, 0x84c87814, 0x8cc70208, 0x90befffa, 0xa4506ceb, 0xbef9a3f7, 0xc67178f2};

static uint32_t rotate(uint32_t word, int by) { return word >> by | word << (32 - by); }

static uint32_t big_endian(const volatile uint8_t *at) {
    return (uint32_t)at[0] << 24 | (uint32_t)at[1] << 16 | (uint32_t)at[2] << 8 | at[3];
}

static void compress(uint32_t *state, const volatile uint8_t *block) {
    uint32_t w[64], s[8];
    for (int n = 0; n < 16; n++) w[n] = big_endian(block + 4 * n);
    for (int n = 16; n < 64; n++)
        w[n] = w[n - 16] + w[n - 7] + (rotate(w[n - 15], 7) ^ rotate(w[n - 15], 18) ^ w[n - 15] >> 3) +
               (rotate(w[n - 2], 17) ^ rotate(w[n - 2], 19) ^ w[n - 2] >> 10);
    for (int n = 0; n < 8; n++) s[n] = state[n];
    for (int n = 0; n < 64; n++) {
        uint32_t one = s[7] + (rotate(s[4], 6) ^ rotate(s[4], 11) ^ rotate(s[4], 25)) +
                       ((s[4] & s[5]) ^ (~s[4] & s[6])) + constants[n] + w[n];
        uint32_t two = (rotate(s[0], 2) ^ rotate(s[0], 13) ^ rotate(s[0], 22)) +
                       ((s[0] & s[1]) ^ (s[0] & s[2]) ^ (s[1] & s[2]));
        for (int k = 7; k > 0; k--) s[k] = s[k - 1];
        s[4] += one;
        s[0] = one + two;
    }
    for (int n = 0; n < 8; n++) state[n] += s[n];
}

/* Whether the bytes at a file's address have its digest. A page that was touched is private. */
static int has_digest(const struct measured *file) {
    uint32_t state[8] = {0x6a09e667, 0xbb67ae85, 0x3c6ef372, 0xa54ff53a,
                         0x510e527f, 0x9b05688c, 0x1f83d9ab, 0x5be0cd19};
    const volatile uint8_t *at = (const volatile uint8_t *)file->address;
    uint8_t last[2 * BLOCK] = {0};
    uint64_t rest = file->length % BLOCK, whole = file->length - rest, size = rest < BLOCK - 8 ? BLOCK : 2 * BLOCK;
    for (uint64_t from = 0; from < whole; from += BLOCK) compress(state, at + from);
    for (uint64_t n = 0; n < rest; n++) last[n] = at[whole + n];
    last[rest] = 0x80;
    for (int n = 0; n < 8; n++) last[size - 1 - n] = (file->length * 8) >> (8 * n);
    for (uint64_t from = 0; from < size; from += BLOCK) compress(state, last + from);
    for (int n = 0; n < 8; n++)
        if (state[n] != big_endian(file->digest + 4 * n)) return 0;
    return 1;
}

uint64_t main(void) {
    for (int n = 0; n < MEASURED; n++) {
        int is_right = has_digest(&plan->files[n]);
        say(n ? "loader: initramfs, " : "loader: kernel, ");
        say_number(plan->files[n].length);
        say(is_right ? " bytes: the measured digest\n" : " bytes: another digest, so Linux does not begin\n");
        if (!is_right) return 0;
    }
    uint64_t at = FIRMWARE, count = (FIRMWARE_END - FIRMWARE) / 8;
    __asm__ volatile("rep stosq" : "+D"(at), "+c"(count) : "a"(0ull) : "memory");
    return plan->entry;
}

/* Times the CRC-32 of 1 MiB by one step of a table for each byte: 100 calls, the best of five rounds. */
#include <stddef.h>
#include <stdint.h>
#include <stdio.h>
#include <time.h>

enum { LARGE = 1 << 20, ROUNDS = 5, COUNT = 100 };

static uint8_t data[LARGE];
static uint32_t table[256];

static double now(void) {
    struct timespec t;
    clock_gettime(CLOCK_MONOTONIC, &t);
    return t.tv_sec * 1e9 + t.tv_nsec;
}

static uint32_t crc32(const uint8_t *bytes, size_t size) {
    uint32_t register_ = ~0u;
    for (size_t i = 0; i < size; i++)
        register_ = table[(register_ ^ bytes[i]) & 255] ^ register_ >> 8;
    return ~register_;
}

int main(void) {
    for (uint32_t i = 0; i < 256; i++) {
        table[i] = i;
        for (int bit = 0; bit < 8; bit++)
            table[i] = table[i] & 1 ? 0xEDB88320 ^ table[i] >> 1 : table[i] >> 1;
    }
    for (size_t i = 0; i < LARGE; i++)
        data[i] = i * 2654435761u >> 24;
    /* by Python's zlib */
    if (crc32(data, LARGE) != 0x158987C5) {
        puts("a wrong answer");
        return 1;
    }
    double best = 1e300;
    for (int round = 0; round < ROUNDS; round++) {
        double start = now();
        /* A byte of each code is the first of those that follow, so that no two calls are alike. */
        for (int i = 0; i < COUNT; i++)
            data[0] = crc32(data, LARGE) >> 24;
        double took = (now() - start) / COUNT;
        if (took < best)
            best = took;
    }
    printf("the same steps in C              %8.0f ns   %.2f ns a byte\n", best, best / LARGE);
    return 0;
}

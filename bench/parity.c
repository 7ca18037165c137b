// Parity of stripes: the proved library beside a plain loop, memcpy and, where it is installed, ISA-L.
#include <stdbool.h>
#include <stdint.h>
#include <stdio.h>
#include <stdlib.h>
#include <string.h>
#include <time.h>
#ifdef HAVE_ISAL
#include <isa-l.h>
#endif

#define BLOCK 512
#define MOST 7

bool dustercyan_parity(const uint8_t *blocks, size_t len, uint8_t *into, size_t into_len);

__attribute__((noinline)) static void plain(const uint8_t *restrict blocks, int count, uint8_t *restrict into) {
    for (int i = 0; i < BLOCK; i++) {
        uint8_t x = 0;
        for (int j = 0; j < count; j++) x ^= blocks[j * BLOCK + i];
        into[i] = x;
    }
}

// One block after the other into the result, as most arrays write it.
__attribute__((noinline)) static void plain_rows(const uint8_t *restrict blocks, int count, uint8_t *restrict into) {
    memcpy(into, blocks, BLOCK);
    for (int j = 1; j < count; j++)
        for (int i = 0; i < BLOCK; i++) into[i] ^= blocks[j * BLOCK + i];
}

static void proved(const uint8_t *blocks, int count, uint8_t *into) {
    if (!dustercyan_parity(blocks, (size_t)count * BLOCK, into, BLOCK)) abort();
}

// The data is copied to one small place that stays in cache: little more than reading it.
__attribute__((noinline)) static void copied_small(const uint8_t *blocks, int count, uint8_t *into) {
    static uint8_t room[MOST * BLOCK];
    (void)into;
    memcpy(room, blocks, (size_t)count * BLOCK);
    __asm__ volatile("" ::: "memory");
}

// All of the data is copied, to a place as large.
__attribute__((noinline)) static void copied(const uint8_t *blocks, int count, uint8_t *into) {
    memcpy(into, blocks, (size_t)count * BLOCK);
}

#ifdef HAVE_ISAL
static void isal(const uint8_t *blocks, int count, uint8_t *into) {
    void *rows[MOST + 1];
    for (int j = 0; j < count; j++) rows[j] = (void *)(blocks + j * BLOCK);
    rows[count] = into;
    if (xor_gen(count + 1, BLOCK, rows)) abort();
}
#endif

static double now(void) {
    struct timespec t;
    clock_gettime(CLOCK_MONOTONIC, &t);
    return (double)t.tv_sec + 1e-9 * (double)t.tv_nsec;
}

typedef void (*way)(const uint8_t *, int, uint8_t *);

// Gigabytes of data a second, the best of several turns over `stripes` stripes; each leaves `step` bytes.
static double measure(way w, const uint8_t *data, size_t stripes, int count, uint8_t *into, size_t step, size_t turns) {
    double best = 0;
    for (int round = 0; round < 7; round++) {
        double start = now();
        for (size_t t = 0; t < turns; t++)
            for (size_t s = 0; s < stripes; s++) w(data + s * (size_t)count * BLOCK, count, into + s * step);
        double speed = (double)turns * (double)stripes * count * BLOCK / (now() - start) / 1e9;
        if (speed > best) best = speed;
    }
    return best;
}

static void compare(const char *where, int members, size_t bytes, size_t turns) {
    int count = members - 1;
    size_t stripes = bytes / ((size_t)count * BLOCK);
    uint8_t *data = aligned_alloc(4096, (bytes + 4095) / 4096 * 4096);
    uint8_t *one = aligned_alloc(4096, (stripes * BLOCK + 4095) / 4096 * 4096);
    uint8_t *two = aligned_alloc(4096, (stripes * BLOCK + 4095) / 4096 * 4096);
    uint8_t *copy = aligned_alloc(4096, (bytes + 4095) / 4096 * 4096);
    if (!data || !one || !two || !copy) abort();
    uint32_t v = 1;
    for (size_t i = 0; i < bytes; i++) {
        v = v * 1664525u + 1013904223u;
        data[i] = (uint8_t)(v >> 24);
    }
    memset(one, 0, stripes * BLOCK);
    memset(two, 1, stripes * BLOCK);
    memset(copy, 1, bytes);
    double p = measure(proved, data, stripes, count, one, BLOCK, turns);
    double q = measure(plain, data, stripes, count, two, BLOCK, turns);
    if (memcmp(one, two, stripes * BLOCK)) {
        puts("the results differ");
        exit(1);
    }
    double r = measure(plain_rows, data, stripes, count, two, BLOCK, turns);
    double best = q > r ? q : r;
    double c = measure(copied, data, stripes, count, copy, (size_t)count * BLOCK, turns);
    double d = measure(copied_small, data, stripes, count, two, 0, turns);
    printf("%-11s M=%d  proved %6.1f GB/s  plain loop %6.1f  memcpy %6.1f  memcpy to cache %6.1f", where, members, p, best, c, d);
#ifdef HAVE_ISAL
    double i = measure(isal, data, stripes, count, two, BLOCK, turns);
    printf("  ISA-L %6.1f", i);
#endif
    printf("  | of plain %.2f, of memcpy %.2f, of memcpy to cache %.2f", p / best, p / c, p / d);
#ifdef HAVE_ISAL
    printf(", of ISA-L %.2f", p / i);
#endif
    puts("");
    free(data);
    free(one);
    free(two);
    free(copy);
}

int main(void) {
    compare("in cache", 4, 16 * 1024, 20000);
    compare("in cache", 8, 16 * 1024, 20000);
    compare("from memory", 4, 256u * 1024 * 1024, 1);
    compare("from memory", 8, 256u * 1024 * 1024, 1);
    return 0;
}

// How fast crc32c is beside a plain table loop. Of each size the best of several rounds counts, in which the two take
// turns. Fails where they do not agree. 296 and 304 lie on both sides of the length from which crc32c folds.
#define _POSIX_C_SOURCE 199309L
#include <inttypes.h>
#include <stddef.h>
#include <stdint.h>
#include <stdio.h>
#include <stdlib.h>
#include <time.h>

#define LONGEST ((size_t)1 << 20)
#define ROUNDS 5
#define SECONDS 0.2

typedef uint32_t checksum(const uint8_t *bytes, size_t count);

checksum exported_crc32c;

static uint32_t table[256];

static void make_table(void)
{
    for (uint32_t i = 0; i < 256; i++) {
        uint32_t c = i;
        for (int bit = 0; bit < 8; bit++)
            c = c >> 1 ^ (c & 1) * UINT32_C(0x82F63B78);
        table[i] = c;
    }
}

static uint32_t table_crc32c(const uint8_t *bytes, size_t count)
{
    uint32_t c = UINT32_MAX;
    for (size_t i = 0; i < count; i++)
        c = c >> 8 ^ table[(c ^ bytes[i]) & 0xFF];
    return ~c;
}

// Xorshift: bytes in which no code can find a rule.
static void fill(uint8_t *bytes, size_t count)
{
    uint64_t x = UINT64_C(0x9E3779B97F4A7C15);
    for (size_t i = 0; i < count; i++) {
        x ^= x << 13;
        x ^= x >> 7;
        x ^= x << 17;
        bytes[i] = (uint8_t)(x >> 56);
    }
}

static double now(void)
{
    struct timespec t;
    clock_gettime(CLOCK_MONOTONIC, &t);
    return (double)t.tv_sec + (double)t.tv_nsec / 1e9;
}

// Millions of bytes a second. The calls go through a volatile pointer, so that each is made.
static double rate(checksum *code, const uint8_t *bytes, size_t count)
{
    checksum *volatile call = code;
    size_t calls = 0, batch = LONGEST / 16 / count + 1;
    double start = now(), spent;
    do {
        for (size_t i = 0; i < batch; i++)
            call(bytes, count);
        calls += batch;
        spent = now() - start;
    } while (spent < SECONDS);
    return (double)calls * (double)count / spent / 1e6;
}

static double larger(double a, double b)
{
    return a < b ? b : a;
}

int main(void)
{
    static const size_t sizes[] = {16, 64, 256, 296, 304, 1024, 65536, LONGEST};
    uint8_t *bytes = malloc(LONGEST);
    if (bytes == NULL) {
        fputs("no memory\n", stderr);
        return 1;
    }
    fill(bytes, LONGEST);
    make_table();
    printf("%9s %18s %12s %7s\n", "bytes", "C table loop, MB/s", "crc32c, MB/s", "ratio");
    for (size_t i = 0; i < sizeof sizes / sizeof sizes[0]; i++) {
        size_t count = sizes[i];
        uint32_t theirs = table_crc32c(bytes, count), ours = exported_crc32c(bytes, count);
        if (theirs != ours) {
            fprintf(stderr, "%zu bytes: %08" PRIX32 " and %08" PRIX32 " differ\n", count, theirs, ours);
            return 1;
        }
        double slow = 0, fast = 0;
        for (int round = 0; round < ROUNDS; round++) {
            slow = larger(slow, rate(table_crc32c, bytes, count));
            fast = larger(fast, rate(exported_crc32c, bytes, count));
        }
        printf("%9zu %18.0f %12.0f %7.2f\n", count, slow, fast, fast / slow);
    }
    free(bytes);
    return 0;
}

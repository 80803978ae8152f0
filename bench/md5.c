/* Compares the proved MD5 with plain C and with md5sum: equal digests first, then speed. */
#define _POSIX_C_SOURCE 200809L
#include <stdint.h>
#include <stdio.h>
#include <stdlib.h>
#include <string.h>
#include <time.h>

enum { MIB = 1 << 20, LENGTHS = 20000, RUNS = 300, FILE_MIB = 256, FILE_RUNS = 5, NAME = 40, NAMES = 10000 };

/* a slice is its address and its length */
uint32_t digest_md5(const unsigned char *name, size_t len, size_t number);
void plain_md5(const unsigned char *message, size_t len, unsigned char digest[16]);

static double now(void)
{
    struct timespec t;
    clock_gettime(CLOCK_MONOTONIC, &t);
    return (double)t.tv_sec + 1e-9 * (double)t.tv_nsec;
}

static uint64_t random_number(void)
{
    static uint64_t x = 88172645463325252u;
    x ^= x << 13;
    x ^= x >> 7;
    x ^= x << 17;
    return x;
}

static uint32_t plain_word(const unsigned char *p, size_t len, size_t number)
{
    unsigned char d[16];
    plain_md5(p, len, d);
    const unsigned char *w = d + 4 * number;
    return (uint32_t)w[0] << 24 | (uint32_t)w[1] << 16 | (uint32_t)w[2] << 8 | w[3];
}

static void compare(const unsigned char *octets)
{
    for (int n = 0; n < LENGTHS; n++) {
        size_t len = n < 1000 ? (size_t)n : random_number() % 10000;
        const unsigned char *p = octets + random_number() % 1000;
        for (size_t k = 0; k < 4; k++)
            if (digest_md5(p, len, k) != plain_word(p, len, k)) {
                printf("the digests of %zu octets differ\n", len);
                exit(1);
            }
    }
    printf("%d messages: the digests agree\n", LENGTHS);
}

typedef uint32_t word_of(const unsigned char *p, size_t len, size_t number);

/* seconds for `count` digests of `len` octets, the best of RUNS for each of the two, taken in turn */
static void best(const unsigned char *p, size_t len, int count, double seconds[2])
{
    word_of *const digest[2] = {digest_md5, plain_word};
    seconds[0] = seconds[1] = 1e9;
    for (int n = 0; n < 2 * RUNS; n++) {
        volatile uint32_t word;
        double t = now();
        for (int k = 0; k < count; k++)
            word = digest[n % 2](p + k, len, 0);
        (void)word;
        t = now() - t;
        if (t < seconds[n % 2])
            seconds[n % 2] = t;
    }
}

static double md5sum_speed(const unsigned char *octets, const char *path)
{
    char command[4096];
    double most = 0;
    FILE *f = fopen(path, "wb");
    if (!f)
        exit(1);
    for (int n = 0; n < FILE_MIB; n++)
        if (fwrite(octets, 1, MIB, f) != MIB)
            exit(1);
    fclose(f);
    snprintf(command, sizeof command, "md5sum '%s' >/dev/null", path);
    for (int n = 0; n < FILE_RUNS; n++) {
        double t = now();
        if (system(command) != 0)
            exit(1);
        double s = (double)FILE_MIB * MIB / (now() - t) / 1e6;
        if (s > most)
            most = s;
    }
    return most;
}

int main(int argc, char **argv)
{
    static unsigned char octets[MIB];
    double large[2], small[2];
    if (argc != 2)
        return 2;
    for (size_t n = 0; n < MIB; n++)
        octets[n] = (unsigned char)random_number();
    compare(octets);
    best(octets, MIB, 1, large);
    best(octets, NAME, NAMES, small);
    double proved = MIB / large[0] / 1e6, plain = MIB / large[1] / 1e6, sum = md5sum_speed(octets, argv[1]);
    printf("MD5 of 1 MiB, the best of %d runs; md5sum on %d MiB, the best of %d\n", RUNS, FILE_MIB, FILE_RUNS);
    printf("proved   %6.0f MB/s\n", proved);
    printf("plain C  %6.0f MB/s   proved / plain C  %.2f\n", plain, proved / plain);
    printf("md5sum   %6.0f MB/s   proved / md5sum   %.2f\n", sum, proved / sum);
    printf("MD5 of %d octets, the best of %d runs of %d\n", NAME, RUNS, NAMES);
    printf("proved   %6.1f ns\n", small[0] / NAMES * 1e9);
    printf("plain C  %6.1f ns     plain C / proved  %.2f\n", small[1] / NAMES * 1e9, small[1] / small[0]);
    return 0;
}

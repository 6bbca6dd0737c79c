// Times one call of the proved compression against plain C, as ratios of one run.
// Every call gets another H, M and key, made from the output before it. The proved call takes
// the key, looks at its length and all other lengths, and fills it; plain C is handed it filled.
#include <stdint.h>
#include <stdio.h>
#include <stdlib.h>
#include <string.h>
#include <time.h>

typedef const uint8_t *bytes;
extern uint8_t yardolive_sha256(bytes key, uint64_t, bytes h, uint64_t, bytes m, uint64_t, uint8_t *out, uint64_t);
extern uint8_t yardolive_sha512(bytes key, uint64_t, bytes h, uint64_t, bytes m, uint64_t, uint8_t *out, uint64_t);
extern void plain_s256(bytes left, bytes h, bytes m, uint8_t *out);
extern void plain_s512(bytes left, bytes h, bytes m, uint8_t *out);
extern void fused_s256(bytes left, bytes h, bytes m, uint8_t *out);
extern void fused_s512(bytes left, bytes h, bytes m, uint8_t *out);

enum { CALLS = 200000, TURNS = 21, KEY = 32 };

static void check(uint8_t code) {
    if (code != 0) { fprintf(stderr, "refused: %d\n", code); exit(1); }
}

typedef void (*function)(bytes key, bytes h, bytes m, uint8_t *out);

static void proved256(bytes k, bytes h, bytes m, uint8_t *o) { check(yardolive_sha256(k, KEY, h, 32, m, 32, o, 32)); }
static void proved512(bytes k, bytes h, bytes m, uint8_t *o) { check(yardolive_sha512(k, KEY, h, 64, m, 64, o, 64)); }
static void plain256(bytes k, bytes h, bytes m, uint8_t *o) { plain_s256(k, h, m, o); }
static void plain512(bytes k, bytes h, bytes m, uint8_t *o) { plain_s512(k, h, m, o); }
static void fused256(bytes k, bytes h, bytes m, uint8_t *o) { fused_s256(k, h, m, o); }
static void fused512(bytes k, bytes h, bytes m, uint8_t *o) { fused_s512(k, h, m, o); }

static double now(void) {
    struct timespec t;
    clock_gettime(CLOCK_MONOTONIC, &t);
    return t.tv_sec + 1e-9 * t.tv_nsec;
}

// Seconds for CALLS calls; the last output is left in `last`.
static double timed(function f, size_t width, uint8_t *last) {
    uint8_t key[64] = {1}, h[64] = {2}, m[64] = {3}, out[64] = {0};
    double start = now();
    for (int i = 0; i < CALLS; i++) {
        f(key, h, m, out);
        key[i & 31] ^= out[0];
        m[i & 31] ^= out[1];
        memcpy(h, out, width);
    }
    double taken = now() - start;
    memcpy(last, out, width);
    return taken;
}

static int by_size(const void *a, const void *b) {
    double x = *(const double *)a, y = *(const double *)b;
    return (x > y) - (x < y);
}

static void compare(const char *name, const char *against, function proved, function other, size_t width) {
    double ratios[TURNS], times[TURNS];
    uint8_t a[64], b[64];
    for (int i = 0; i < TURNS; i++) {
        double p = timed(proved, width, a), q = timed(other, width, b);
        if (memcmp(a, b, width) != 0) { fprintf(stderr, "%s differs\n", name); exit(1); }
        ratios[i] = p / q;
        times[i] = p;
    }
    qsort(ratios, TURNS, sizeof ratios[0], by_size);
    qsort(times, TURNS, sizeof times[0], by_size);
    printf("%-8s %-28s %5.0f ns  %.3f (%.3f to %.3f)\n", name, against, times[TURNS / 2] * 1e9 / CALLS,
           ratios[TURNS / 2], ratios[0], ratios[TURNS - 1]);
}

int main(int argc, char **argv) {
    const char *by = argc > 1 ? argv[1] : "C";
    char two[64], one[64];
    snprintf(two, sizeof two, "%s, schedule first", by);
    snprintf(one, sizeof one, "%s, one loop", by);
    compare("SHA-256", two, proved256, plain256, 32);
    compare("SHA-256", one, proved256, fused256, 32);
    compare("SHA-512", two, proved512, plain512, 64);
    compare("SHA-512", one, proved512, fused512, 64);
    return 0;
}

// Prints how fast this machine copies memory and loads from it. bench/measure builds and runs it.

#include <stdint.h>
#include <stdio.h>
#include <stdlib.h>
#include <string.h>
#include <time.h>

enum { BYTES = 256 << 20, LOADS = 4 << 20, RUNS = 3 };

static double now(void) {
    struct timespec time;
    clock_gettime(CLOCK_MONOTONIC, &time);
    return time.tv_sec + time.tv_nsec / 1e9;
}

// The shortest time of a copy of all bytes.
static double copy(char *to, const char *from) {
    double best = 1e9;
    for (int run = 0; run < RUNS; run++) {
        double begin = now();
        memcpy(to, from, BYTES);
        double time = now() - begin;
        if (time < best) best = time;
    }
    return best;
}

// The time of one load, each at a place that the one before it names.
static double load(uint64_t *next) {
    uint64_t count = BYTES / sizeof *next, roll = 88172645463325252u, at = 0;
    for (uint64_t i = 0; i < count; i++) next[i] = i;
    // Sattolo's shuffle makes one ring of all places.
    for (uint64_t i = count - 1; i > 0; i--) {
        roll ^= roll << 13, roll ^= roll >> 7, roll ^= roll << 17;
        uint64_t j = roll % i, held = next[i];
        next[i] = next[j], next[j] = held;
    }
    double begin = now();
    for (uint64_t i = 0; i < LOADS; i++) at = next[at];
    double time = now() - begin;
    return at == count ? 0 : time / LOADS;
}

int main(void) {
    char *one = malloc(BYTES), *other = malloc(BYTES);
    if (!one || !other) return 1;
    memset(one, 1, BYTES);
    memset(other, 2, BYTES);
    printf("a copy of memory %.1f GB/s, a random load %.0f ns\n", BYTES / copy(other, one) / 1e9,
           load((uint64_t *)one) * 1e9);
    return 0;
}

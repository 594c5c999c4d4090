// A stopwatch over crates/pace: nanoseconds for each of many calls, the best of seven runs.
#include <stdint.h>
#include <stdio.h>
#include <time.h>

uint64_t pace_encode(uint64_t times);
uint64_t pace_decode(uint64_t times);
uint64_t pace_apply(uint64_t times);
uint64_t pace_node_bytes(void);

static double now(void) {
    struct timespec t;
    clock_gettime(CLOCK_MONOTONIC, &t);
    return t.tv_sec * 1e9 + t.tv_nsec;
}

static void show(const char *name, uint64_t (*f)(uint64_t)) {
    const uint64_t times = 1000000;
    double best = 1e18;
    uint64_t sum = 0;
    for (int run = 0; run < 7; run++) {
        double start = now();
        sum += f(times);
        double took = (now() - start) / times;
        if (took < best) best = took;
    }
    printf("%-28s %7.1f ns   (sum %llu)\n", name, best, (unsigned long long)sum);
}

int main(void) {
    printf("%-28s %7llu bytes\n", "a Node in memory", (unsigned long long)pace_node_bytes());
    show("encode a leaf of 16 rows", pace_encode);
    show("decode a leaf of 16 rows", pace_decode);
    show("apply a Set to such a leaf", pace_apply);
    return 0;
}

// What it costs to hand a state of the device's size in and out of a call by value, and nothing else (docs/PERFORMANCE.md):
// cc -O3 -o target/by_value bench/by_value.c && target/by_value
#include <stdio.h>
#include <string.h>
#include <time.h>

struct State {
    unsigned char bytes[720];
};

__attribute__((noinline)) static struct State call(struct State state, unsigned long i) {
    state.bytes[i % sizeof state.bytes] = (unsigned char)i;
    return state;
}

int main(void) {
    const unsigned long calls = 20000000;
    struct State state;
    memset(&state, 0, sizeof state);
    for (int round = 0; round < 5; round++) {
        struct timespec from, to;
        clock_gettime(CLOCK_PROCESS_CPUTIME_ID, &from);
        for (unsigned long i = 0; i < calls; i++)
            state = call(state, i);
        clock_gettime(CLOCK_PROCESS_CPUTIME_ID, &to);
        double ns = (to.tv_sec - from.tv_sec) * 1e9 + (to.tv_nsec - from.tv_nsec);
        printf("%.1f ns a call\n", ns / calls);
    }
    return state.bytes[0] & 1;
}

/* The C library's functions are declared here, for the kit's compiler comes without headers. */

#include "timing.h"

struct timespec { long seconds, nanoseconds; };
int clock_gettime(int, struct timespec *);
enum { PROCESSOR_TIME = 2 };

static double now(void) {
    struct timespec time;
    clock_gettime(PROCESSOR_TIME, &time);
    return (double)time.seconds * 1e9 + (double)time.nanoseconds;
}

static double batch(timed *call, size_t times) {
    double start = now();
    for (size_t i = 0; i < times; i++) call();
    return (now() - start) / (double)times;
}

/* How many calls make a millisecond. */
static size_t calls_of_a_millisecond(timed *call) {
    size_t times = 1;
    while (times < 1000000 && batch(call, times) * (double)times < 1e6) times *= 2;
    return times;
}

void time_in_turns(timed *const calls[], double least[], size_t count, size_t rounds) {
    size_t times[MOST_SIDES];
    for (size_t i = 0; i < count; i++) {
        times[i] = calls_of_a_millisecond(calls[i]);
        least[i] = 1e18;
    }
    for (size_t turn = 0; turn < rounds * count; turn++) {
        size_t i = (turn + turn / count) % count;
        double time = batch(calls[i], times[i]);
        if (time < least[i]) least[i] = time;
    }
}

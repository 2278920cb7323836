/* How a call is timed (timing.h). */
#include "timing.h"
#include <stddef.h>
#include <time.h>

typedef struct {
    double least, second;
} kept;

static const kept NONE = {1e9, 1e9};

static double now(void) {
    struct timespec t;
    clock_gettime(CLOCK_PROCESS_CPUTIME_ID, &t);
    return (double)t.tv_sec + 1e-9 * (double)t.tv_nsec;
}

static void time_one(void (*prepare)(void *), void (*call)(void *), void *with, kept *times) {
    if (prepare) prepare(with);
    double from = now();
    call(with);
    double t = now() - from;
    if (t < times->least) times->second = times->least, times->least = t;
    else if (t < times->second) times->second = t;
}

double second_least(void (*prepare)(void *), void (*call)(void *), void *with) {
    kept times = NONE;
    double begun = now();
    for (int i = 0; i < 3 || now() - begun < 0.2; i++) time_one(prepare, call, with, &times);
    return times.second;
}

void second_least_of_two(void (*prepare)(void *), void (*call)(void *), void *const with[2], double took[2]) {
    kept times[2] = {NONE, NONE};
    double begun = now();
    for (int i = 0; i < 5 || now() - begun < 0.3; i++)
        for (int j = 0; j < 2; j++) time_one(prepare, call, with[i % 2 ^ j], &times[i % 2 ^ j]);
    took[0] = times[0].second, took[1] = times[1].second;
}

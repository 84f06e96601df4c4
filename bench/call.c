/* What a call through a book takes: acquire, look, judge and finish, for small and large windows and
   for few and many open tickets. Without arguments it prints nanoseconds. With the four numbers CALLS
   SECONDS SIZE OPEN it makes so many calls and prints nothing: a count of its instructions, less that
   of fewer calls, gives instructions a call. */
#include <stdint.h>
#include <stdio.h>
#include <stdlib.h>
#include <time.h>

/* Makes so many calls on a fresh book, and answers how many were recorded: all of them. */
uint64_t bench_exports_call(uint32_t calls, uint8_t counts_seconds, uint32_t window_size, uint32_t open_tickets);

struct shape {
    const char *name;
    uint8_t counts_seconds;
    uint32_t window_size;
    uint32_t open_tickets;
};

static const struct shape shapes[] = {
    {"a window of 10 calls", 0, 10, 0},
    {"a window of 100 calls", 0, 100, 0},
    {"a window of 10,000 calls", 0, 10000, 0},
    {"a window of 10 seconds", 1, 10, 0},
    {"a window of 3,600 seconds", 1, 3600, 0},
    {"a window of 100 calls, 9,000 open tickets", 0, 100, 9000},
};

/* So many calls fill the largest window before the time is taken. */
static const uint32_t before = 10000;
static const uint32_t calls = 5000;

static double seconds(void) {
    struct timespec now;
    clock_gettime(CLOCK_MONOTONIC, &now);
    return (double)now.tv_sec + (double)now.tv_nsec * 1e-9;
}

/* The seconds that so many calls took; negative where one was not recorded. */
static double calls_take(uint32_t count, const struct shape *shape) {
    const double begin = seconds();
    const uint64_t recorded = bench_exports_call(count, shape->counts_seconds, shape->window_size, shape->open_tickets);
    const double taken = seconds() - begin;
    if (recorded != count) {
        fprintf(stderr, "called wrongly: %llu recorded\n", (unsigned long long)recorded);
        return -1.0;
    }
    return taken;
}

/* The best of 99 attempts, in seconds; negative where a call was not recorded. */
static double best_calls(uint32_t count, const struct shape *shape) {
    double best = 0.0;
    for (int attempt = 0; attempt < 99; attempt++) {
        const double taken = calls_take(count, shape);
        if (taken < 0.0) {
            return -1.0;
        }
        if (attempt == 0 || taken < best) {
            best = taken;
        }
    }
    return best;
}

int main(int count, char **words) {
    if (count == 5) {
        const struct shape shape = {"", (uint8_t)atoi(words[2]), (uint32_t)atoi(words[3]), (uint32_t)atoi(words[4])};
        return calls_take((uint32_t)atoi(words[1]), &shape) < 0.0;
    }
    for (size_t i = 0; i < sizeof shapes / sizeof *shapes; i++) {
        const double without = best_calls(before, &shapes[i]);
        const double with = best_calls(before + calls, &shapes[i]);
        if (without < 0.0 || with < 0.0) {
            return 1;
        }
        printf("call: %.0f ns with %s (acquire, look, judge and finish)\n", (with - without) * 1e9 / calls, shapes[i].name);
    }
    return 0;
}

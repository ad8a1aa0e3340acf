/* What calls cost from C: threads add to one counter, each call in an activity of its own, and nothing is kept.
   cost CALLS [THREADS] says on standard error how long a call took, and how much memory there was before and after. */
#define _POSIX_C_SOURCE 200809L
#include "k42.h"

#include <inttypes.h>
#include <pthread.h>
#include <sched.h>
#include <stdio.h>
#include <stdlib.h>
#include <time.h>

enum { HITS = 0, MOST_THREADS = 8, LINE = 256 };

/* What a thread writes lies apart from what another does. */
struct worker {
    _Alignas(64) k42_pass pass;
    pthread_t thread;
    unsigned long calls, done;
};

static void *work(void *at) {
    struct worker *worker = at;
    unsigned long done = 0;
    for (unsigned long i = 0; i < worker->calls; i++) {
        uint32_t status;
        k42_enter(&worker->pass);
        while ((status = k42_add(&worker->pass, HITS, 1)) == K42_AGAIN)
            sched_yield();
        k42_leave(&worker->pass);
        done += status == K42_DONE;
    }
    worker->done = done;
    return 0;
}

/* The memory that is resident, in kilobytes. */
static long resident(void) {
    char line[LINE];
    long kilobytes = 0;
    FILE *status = fopen("/proc/self/status", "r");
    while (status && fgets(line, LINE, status) && sscanf(line, "VmRSS: %ld", &kilobytes) != 1)
        ;
    if (status)
        fclose(status);
    return kilobytes;
}

static double seconds(void) {
    struct timespec time;
    clock_gettime(CLOCK_MONOTONIC, &time);
    return (double)time.tv_sec + (double)time.tv_nsec / 1e9;
}

/* Reads the counter with a pass that works no more. */
static uint64_t sum(k42_pass *pass) {
    uint64_t value = 0;
    k42_enter(pass);
    k42_get(pass, HITS, &value);
    k42_leave(pass);
    return value;
}

int main(int argc, char **argv) {
    static struct worker workers[MOST_THREADS];
    k42_pass passes[MOST_THREADS] = {0};
    const uint32_t homes[MOST_THREADS] = {0, 1, 2, 3, 4, 5, 6, 7};
    const k42_object hits = {K42_COUNTER, K42_SPREAD};
    unsigned long calls = argc > 1 ? strtoul(argv[1], 0, 10) : 0, threads = argc > 2 ? strtoul(argv[2], 0, 10) : 1;
    if (calls == 0 || threads == 0 || threads > MOST_THREADS)
        return fprintf(stderr, "usage: cost CALLS [THREADS]\n") > 0 ? 2 : 5;
    if (k42_start((uint32_t)threads, &hits, 1, homes, threads, K42_KEEP_NOTHING, passes, threads) != K42_DONE)
        return 6;
    long before = resident();
    double start = seconds();
    for (unsigned long i = 0; i < threads; i++) {
        workers[i] = (struct worker){.pass = passes[i], .calls = calls};
        if (pthread_create(&workers[i].thread, 0, work, &workers[i]) != 0)
            return 6;
    }
    unsigned long done = 0;
    for (unsigned long i = 0; i < threads; i++) {
        pthread_join(workers[i].thread, 0);
        done += workers[i].done;
    }
    double each = (seconds() - start) * 1e9 / (double)calls;
    fprintf(stderr, "%.1f ns a call, resident %ld kB before and %ld kB after\n", each, before, resident());
    uint64_t value = sum(&workers[0].pass);
    uint32_t missing = 0, status = K42_DONE;
    for (unsigned long i = 0; i < threads; i++)
        status = k42_close(&workers[i].pass, &missing);
    printf("calls %lu, sum %" PRIu64 ", closed %s\n", done, value, status == K42_DONE ? "whole" : "not");
    return done == calls * threads && value == done && status == K42_DONE ? 0 : 1;
}

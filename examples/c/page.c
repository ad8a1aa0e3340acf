/* A page that counts its hits: threads add, and what they added is there. With a number, each thread adds so often. */
#include "k42.h"

#include <pthread.h>
#include <sched.h>
#include <stdio.h>
#include <stdlib.h>

enum { THREADS = 2, HITS = 0 };

struct worker {
    k42_pass *pass;
    unsigned long calls;
    uint32_t status; /* of what went wrong, if something did */
};

/* One call in an activity of its own. */
static uint32_t hit(k42_pass *pass) {
    uint32_t status = k42_enter(pass);
    if (status != K42_DONE)
        return status;
    while ((status = k42_add(pass, HITS, 1)) == K42_AGAIN)
        sched_yield();
    k42_leave(pass);
    return status;
}

static void *work(void *at) {
    struct worker *worker = at;
    for (unsigned long i = 0; i < worker->calls && worker->status == K42_DONE; i++)
        worker->status = hit(worker->pass);
    return 0;
}

/* Gives a pass back, and says which are missing, a bit each. */
static uint32_t give_back(k42_pass *pass, uint32_t *missing) {
    uint32_t status;
    while ((status = k42_close(pass, missing)) == K42_AGAIN)
        sched_yield();
    return status;
}

int main(int argc, char **argv) {
    unsigned long calls = argc > 1 ? strtoul(argv[1], 0, 10) : 100000;
    k42_object hits = {K42_COUNTER, K42_SPREAD};
    uint32_t homes[THREADS] = {0, 1};
    k42_pass passes[THREADS] = {0};
    if (k42_start(2, &hits, 1, homes, THREADS, K42_KEEP_ALL, passes, THREADS) != K42_DONE)
        return 6;

    struct worker workers[THREADS];
    pthread_t threads[THREADS];
    for (int i = 0; i < THREADS; i++) {
        workers[i] = (struct worker){&passes[i], calls, K42_DONE};
        if (pthread_create(&threads[i], 0, work, &workers[i]) != 0)
            return 6;
    }
    for (int i = 0; i < THREADS; i++) {
        pthread_join(threads[i], 0);
        if (workers[i].status != K42_DONE)
            return 1;
    }

    uint64_t sum = 0, entries = 0;
    uint32_t missing = 0;
    k42_enter(&passes[0]);
    uint32_t status = k42_get(&passes[0], HITS, &sum);
    k42_leave(&passes[0]);
    printf("sum %llu, status %u\n", (unsigned long long)sum, status);
    status = give_back(&passes[0], &missing);
    printf("the first pass is given back: status %u, missing %u\n", status, missing);
    status = give_back(&passes[1], &missing);
    printf("the last pass is given back: status %u, missing %u\n", status, missing);
    k42_entries(&passes[1], &entries);
    printf("entries %llu\n", (unsigned long long)entries);
    k42_drop(&passes[1]);
    return sum == THREADS * calls && entries == THREADS * calls + 1 ? 0 : 1;
}

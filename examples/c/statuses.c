/* Each call of objects, and each by which systems and passes begin and end, with each status that it can be brought
   to: a line for each, and OK at the end where the history has just the calls that were made. Of swaps
   swaps.c tells, of sections sections.c, and of the calls' K42_GONE and K42_WORN ends.c. */
#include "seeing.h"

#include <pthread.h>
#include <stdio.h>
#include <string.h>

enum { PASSES = 3 };

static k42_pass none, passes[PASSES];
static k42_pass *const resting = &passes[0], *const working = &passes[1], *const other = &passes[2];

/* --- The calls of objects --- */

static atomic_bool stops;

static void *call_on(void *at) {
    while (!stops)
        tell(at, other);
    return 0;
}

/* Calls until the status is seen. */
static uint32_t call_until(const struct call *call, uint32_t status) {
    for (long i = 0; i < TRIES; i++)
        if (tell(call, working) == status)
            return status;
    return K42_DONE;
}

/* Calls until another thread is in the way that makes the same call. */
static uint32_t call_beside(const struct call *call) {
    pthread_t thread;
    stops = false;
    if (pthread_create(&thread, 0, call_on, (void *)call) != 0)
        return K42_MEMORY;
    uint32_t status = call_until(call, K42_AGAIN);
    stops = true;
    pthread_join(thread, 0);
    return status;
}

/* Calls until a call needs memory, of which there is none. */
static uint32_t call_without_memory(const struct call *call) {
    grants = 0;
    uint32_t status = call_until(call, K42_MEMORY);
    grants = -1;
    return status;
}

static void show_call(const struct call *call) {
    begin(call->name);
    see(tell(call, &none), K42_EMPTY);
    see(tell(call, resting), K42_TURN);
    see(call->make(working, NO_OBJECT), K42_OBJECT);
    if (call->stranger != NO_OBJECT)
        see(call->make(working, call->stranger), K42_KIND);
    see(tell(call, working), call->status);
    see(call_beside(call), K42_AGAIN);
    see(call_without_memory(call), K42_MEMORY);
    end();
}

/* What the kinds answer else, and arguments that spell nothing. */
static void show_answers(void) {
    begin("k42_bind, k42_find, k42_unbind");
    see(tell(&calls[3], working), K42_TAKEN);
    see(k42_unbind(working, NAMES, "front", 5, &number), K42_DONE);
    see(tell(&calls[4], working), K42_NONE);
    made++;
    see(k42_bind(working, NAMES, "Front", 5, 7), K42_ARGUMENT);
    see(k42_find(working, NAMES, "", 0, &number), K42_ARGUMENT);
    see(k42_unbind(working, NAMES, "a_key_of_17_bytes", 17, &number), K42_ARGUMENT);
    end();
    begin("k42_write, k42_read");
    see(k42_read(working, CACHE, 6, &text), K42_NONE);
    made++;
    see(k42_write(working, CACHE, 65536, "hello", 5), K42_ARGUMENT);
    see(k42_write(working, CACHE, 5, "two words", 9), K42_ARGUMENT);
    see(k42_read(working, CACHE, 65536, &text), K42_ARGUMENT);
    end();
}

/* --- Systems and passes --- */

static const k42_object objects[OBJECTS + 14] = {
    {K42_COUNTER, K42_SHARED},
    {K42_DIRECTORY, K42_SHARED},
    {K42_PAGES, K42_SHARED},
};
static const uint32_t homes[PASSES + 14] = {0, 1, 0};

static uint32_t start(k42_pass *passes, uint32_t keep) {
    return k42_start(2, objects, OBJECTS, homes, PASSES, keep, passes, PASSES);
}

/* A start needs memory, of which there is more each time. */
static uint32_t start_poor(k42_pass *passes) {
    uint32_t status = K42_MEMORY;
    for (long some = 0; some < 100; some++) {
        grants = some;
        status = start(passes, K42_KEEP_ALL);
        grants = -1;
        if (status != K42_MEMORY)
            return K42_DONE;
        for (int i = 0; i < PASSES; i++)
            if (memcmp(&passes[i], &none, sizeof none) != 0 || k42_enter(&passes[i]) != K42_EMPTY)
                return K42_FULL;
    }
    return status;
}

static void show_start(void) {
    static k42_pass many[17];
    const k42_object strange[2] = {{3, K42_SHARED}, {K42_COUNTER, 2}};
    const uint32_t away[PASSES] = {0, 1, 2};
    begin("k42_start");
    see(k42_start(0, objects, OBJECTS, homes, PASSES, K42_KEEP_ALL, passes, PASSES), K42_PROCESSORS);
    see(k42_start(9, objects, OBJECTS, homes, PASSES, K42_KEEP_ALL, passes, PASSES), K42_PROCESSORS);
    see(k42_start(2, objects, 0, homes, PASSES, K42_KEEP_ALL, passes, PASSES), K42_OBJECTS);
    see(k42_start(2, objects, 17, homes, PASSES, K42_KEEP_ALL, passes, PASSES), K42_OBJECTS);
    see(k42_start(2, objects, OBJECTS, homes, 0, K42_KEEP_ALL, passes, 0), K42_PASSES);
    see(k42_start(2, objects, OBJECTS, homes, 17, K42_KEEP_ALL, many, 17), K42_PASSES);
    see(k42_start(2, objects, OBJECTS, away, PASSES, K42_KEEP_ALL, passes, PASSES), K42_PROCESSOR);
    see(k42_start(2, strange, 1, homes, PASSES, K42_KEEP_ALL, passes, PASSES), K42_ARGUMENT);
    see(k42_start(2, strange + 1, 1, homes, PASSES, K42_KEEP_ALL, passes, PASSES), K42_ARGUMENT);
    see(k42_start(2, objects, OBJECTS, homes, PASSES, 3, passes, PASSES), K42_ARGUMENT);
    see(k42_start(2, objects, OBJECTS, homes, 2, K42_KEEP_ALL, passes, PASSES), K42_ARGUMENT);
    grants = 0;
    see(start(passes, K42_KEEP_ALL), K42_MEMORY);
    grants = -1;
    see(start_poor(passes), K42_DONE);
    see(start(passes, K42_KEEP_ALL), K42_FULL);
    end();
}

static void show_activities(void) {
    uint32_t missing = 0;
    uint64_t entries = 0;
    size_t told = 0;
    k42_entry entry;
    begin("k42_enter");
    see(k42_enter(&none), K42_EMPTY);
    see(k42_enter(working), K42_DONE);
    see(k42_enter(working), K42_TURN);
    see(k42_enter(other), K42_DONE);
    end();
    begin("k42_leave");
    see(k42_leave(&none), K42_EMPTY);
    see(k42_leave(resting), K42_TURN);
    end();
    begin("k42_close, k42_drop");
    see(k42_close(&none, &missing), K42_EMPTY);
    see(k42_close(working, &missing), K42_TURN);
    see(k42_drop(&none), K42_EMPTY);
    see(k42_drop(working), K42_TURN);
    end();
    begin("k42_entries, k42_history");
    see(k42_entries(&none, &entries), K42_EMPTY);
    see(k42_entries(resting, &entries), K42_TURN);
    see(k42_history(&none, 0, &entry, 1, &told), K42_EMPTY);
    see(k42_history(working, 0, &entry, 1, &told), K42_TURN);
    end();
}

static void *close_slowly(void *at) {
    uint32_t missing = 0;
    waits_to_free = true;
    *(uint32_t *)at = k42_close(other, &missing);
    return 0;
}

/* Closes while another thread is closing, which waits in its midst. */
static uint32_t close_beside(uint32_t *status) {
    uint32_t missing = 0;
    pthread_t thread;
    if (pthread_create(&thread, 0, close_slowly, status) != 0)
        return K42_MEMORY;
    sem_wait(&arrived);
    uint32_t beside = k42_close(resting, &missing);
    sem_post(&released);
    pthread_join(thread, 0);
    return beside;
}

static void show_close(void) {
    uint32_t status = K42_DONE, missing = 0;
    begin("k42_close");
    see(k42_leave(other), K42_DONE);
    see(close_beside(&status), K42_AGAIN);
    see(status, K42_MISSING);
    see(k42_close(resting, &missing), K42_MISSING);
    see_number(missing, 1 << 1); /* the pass that works, passes[1] */
    see(k42_close(resting, &missing), K42_EMPTY);
    see(k42_leave(working), K42_DONE);
    grants = 0;
    see(k42_close(working, &missing), K42_MEMORY);
    grants = -1;
    see(k42_close(working, &missing), K42_DONE);
    see_number(missing, 0);
    see(k42_close(working, &missing), K42_TURN);
    see(k42_enter(working), K42_TURN);
    see(tell(&calls[0], working), K42_TURN);
    end();
}

static void show_history(void) {
    uint64_t entries = 0;
    size_t told = 0;
    k42_entry first[2];
    begin("k42_entries, k42_history");
    see(k42_entries(working, &entries), K42_DONE);
    grants = 0;
    see(k42_history(working, 0, first, 2, &told), K42_MEMORY);
    grants = -1;
    see(k42_history(working, 0, first, 2, &told), K42_DONE);
    see_number(told, 2);
    see(k42_history(working, entries, first, 2, &told), K42_DONE);
    see_number(told, 0);
    end();
    wrong = wrong || entries != made || first[0].place != 1 || first[0].asked != K42_ADD || first[0].number != 5;
}

/* Systems that keep nothing; of the second a pass is dropped. */
static void show_end(void) {
    uint32_t missing = 0;
    begin("k42_drop");
    see(k42_drop(working), K42_DONE);
    see(k42_drop(working), K42_EMPTY);
    see(start(passes, K42_KEEP_NOTHING), K42_DONE);
    for (int i = 0; i < PASSES; i++)
        see(k42_close(&passes[i], &missing), i < PASSES - 1 ? K42_MISSING : K42_DONE);
    see(start(passes, K42_KEEP_NOTHING), K42_DONE);
    see(k42_drop(&passes[0]), K42_DONE);
    see(k42_close(&passes[1], &missing), K42_MISSING);
    see(k42_close(&passes[2], &missing), K42_MISSING);
    see_number(missing, 1 << 0);
    end();
}

int main(void) {
    sem_init(&arrived, 0, 0);
    sem_init(&released, 0, 0);
    show_start();
    show_activities();
    for (int i = 0; i < CALLS; i++)
        show_call(&calls[i]);
    show_answers();
    show_close();
    show_history();
    show_end();
    return verdict();
}

/* Each call of k42.h by which objects are swapped and rows are freed, with each status that it can be brought to and
   each cause that holds a swap up; and that a pass with one under way does nothing else. A line for each, and OK at
   the end where the history has just the calls and swaps that were made. worn.c shows K42_WORN of them. */
#include "seeing.h"

#include <pthread.h>
#include <stdio.h>

enum { PASSES = 4, SWAPPER = 0, ENTRIES = 100000, SWAPS_OF_AN_OBJECT = 1048575 };

static k42_pass none, passes[PASSES];
/* Those that swap are at the first processor, those that call at the second. */
static k42_pass *const swapper = &passes[SWAPPER], *const rival = &passes[1], *const caller = &passes[2],
                *const other = &passes[3];
static k42_swapping swap;
static uint32_t rows;

/* --- What is seen --- */

/* A swap is held up by this. */
static void see_held(uint32_t status, uint32_t cause, uint32_t at, uint32_t count) {
    static const char *const causes[] = {"NOTHING", "LEFT", "ROLE", "INSIDE", "CELL"};
    see(status, K42_UNDERWAY);
    if (swap.cause == cause && swap.at == at && swap.count == count) {
        printf(" (%s, %u, %u)", causes[cause], at, count);
    } else {
        printf(" (cause %u, %u, %u and not %s, %u, %u)", swap.cause, swap.at, swap.count, causes[cause], at, count);
        wrong = true;
    }
}

/* A swap has ended with this number, and left an entry. */
static void see_ended(uint32_t status, uint32_t due, uint32_t number) {
    made++;
    see(status, due);
    if (number > 0)
        see_number(swap.number, number);
    wrong = wrong || swap.number != number || swap.cause != K42_NOTHING || swap.at != 0 || swap.count != 0;
}

/* The calls of an object that was swapped, made by a pass in an activity. */
static void see_calls(uint32_t object, uint32_t due) {
    for (int i = 0; i < CALLS; i++)
        if (calls[i].object == object && calls[i].stranger != NO_OBJECT)
            see(tell(&calls[i], caller), due);
}

/* --- Swaps that nothing holds up --- */

/* The first of a pass needs memory for its entry and its row. */
static void show_swap(void) {
    begin("k42_swap");
    grants = 0;
    see(k42_swap(swapper, HITS, K42_SPREAD, &swap), K42_MEMORY);
    grants = -1;
    see(k42_swap(&none, HITS, K42_SPREAD, &swap), K42_EMPTY);
    see(k42_swap(swapper, NO_OBJECT, K42_SPREAD, &swap), K42_OBJECT);
    see(k42_swap(swapper, HITS, 2, &swap), K42_ARGUMENT);
    see_ended(k42_swap(swapper, HITS, K42_SHARED, &swap), K42_DONE, 1);
    see_ended(k42_swap(swapper, HITS, K42_SPREAD, &swap), K42_DONE, 2);
    see_ended(k42_swap(swapper, HITS, K42_SPREAD, &swap), K42_DONE, 3);
    end();
}

static void see_seen(uint32_t due, uint64_t count) {
    k42_enter(caller);
    number = 0;
    see(k42_seen(caller, HITS, &number), due);
    see_number(number, count);
    see(k42_add(caller, HITS, 5), K42_DONE);
    k42_leave(caller);
    made += 2;
}

static void show_watch(void) {
    begin("k42_watch");
    see(k42_watch(&none, HITS, &swap), K42_EMPTY);
    see(k42_watch(swapper, NO_OBJECT, &swap), K42_OBJECT);
    see_ended(k42_watch(swapper, HITS, &swap), K42_DONE, 4);
    see_seen(K42_DONE, 0);
    see_seen(K42_DONE, 1);
    see_ended(k42_watch(swapper, HITS, &swap), K42_DONE, 5);
    see_seen(K42_DONE, 0);
    end();
    begin("k42_unwatch");
    see(k42_unwatch(&none, HITS, &swap), K42_EMPTY);
    see(k42_unwatch(swapper, NO_OBJECT, &swap), K42_OBJECT);
    see_ended(k42_unwatch(swapper, HITS, &swap), K42_DONE, 6);
    see_seen(K42_NONE, 0);
    see_ended(k42_unwatch(swapper, HITS, &swap), K42_DONE, 7);
    end();
}

/* --- Swaps that are held up --- */

static void *get_slowly(void *at) {
    waits_to_ask = 0;
    *(uint32_t *)at = k42_get(other, HITS, &number);
    return 0;
}

/* Steps the swap where a call has begun after it, and waits for memory inside the object: there is room for the entry
   of a second call. */
static void see_inside(void) {
    uint32_t status = K42_MEMORY;
    pthread_t thread;
    k42_enter(other);
    see(k42_get(other, HITS, &number), K42_DONE);
    made++;
    if (pthread_create(&thread, 0, get_slowly, &status) != 0)
        return;
    sem_wait(&arrived);
    k42_leave(caller);
    see_held(k42_step(swapper, &swap), K42_INSIDE, 0, 1);
    k42_enter(caller);
    see(k42_add(caller, HITS, 5), K42_AGAIN);
    k42_leave(caller);
    sem_post(&released);
    pthread_join(thread, 0);
    made++;
    see(status, K42_DONE);
    k42_leave(other);
}

/* What others do meanwhile that would swap the object, or free rows. */
static void see_rival(uint32_t under_way) {
    see_ended(k42_swap(rival, HITS, K42_SHARED, &swap), K42_BUSY, under_way);
    see_ended(k42_destroy(rival, HITS, &swap), K42_BUSY, under_way);
    see_ended(k42_watch(rival, HITS, &swap), K42_BUSY, under_way);
    see_ended(k42_unwatch(rival, HITS, &swap), K42_BUSY, under_way);
    see(k42_reclaim(rival, &rows), K42_AGAIN);
    see_held(k42_swap(rival, NAMES, K42_SPREAD, &swap), K42_ROLE, SWAPPER, 0);
    see_held(k42_step(rival, &swap), K42_ROLE, SWAPPER, 0);
}

static void show_causes(void) {
    begin("k42_step");
    see(k42_step(&none, &swap), K42_EMPTY);
    k42_enter(caller);
    k42_enter(other);
    see_held(k42_swap(swapper, HITS, K42_SHARED, &swap), K42_LEFT, 1, 2);
    k42_leave(other);
    see_held(k42_step(swapper, &swap), K42_LEFT, 1, 1);
    see_rival(8);
    end();
    show_turns("a pass that swaps", swapper, SWAPS);
    begin("k42_step");
    see_inside();
    see_ended(k42_step(swapper, &swap), K42_DONE, 8);
    see_ended(k42_step(rival, &swap), K42_DONE, 1);
    see(k42_step(swapper, &swap), K42_TURN);
    end();
}

/* It needs memory for the new representatives. Given up, it leaves an entry, and its number to the next. So it does at
   its first step too, where there was room for the entry. */
static void show_memory(void) {
    begin("k42_step");
    k42_enter(caller);
    see_held(k42_swap(swapper, HITS, K42_SPREAD, &swap), K42_LEFT, 1, 1);
    k42_leave(caller);
    grants = 0;
    see(k42_step(swapper, &swap), K42_MEMORY);
    grants = -1;
    see(k42_step(swapper, &swap), K42_TURN);
    grants = 0;
    see(k42_swap(swapper, HITS, K42_SPREAD, &swap), K42_MEMORY);
    grants = -1;
    made += 2;
    see(k42_step(swapper, &swap), K42_TURN);
    see_ended(k42_swap(swapper, HITS, K42_SPREAD, &swap), K42_DONE, 9);
    end();
}

/* --- The end of an object --- */

static atomic_bool stops;

static void *write_on(void *at) {
    while (!stops)
        if (k42_write(at, CACHE, 5, "hello", 5) == K42_GONE)
            made++;
    return 0;
}

static void *add_on(void *at) {
    while (!stops)
        k42_add(at, HITS, 5);
    return 0;
}

/* Swaps an object that is swapped no more, until a call of another pass, of this number, is at it just then. */
static void see_cell(k42_pass *asker, uint32_t object, uint32_t due, k42_pass *beside, uint32_t number_of_beside) {
    uint32_t status = due;
    pthread_t thread;
    k42_enter(beside);
    stops = false;
    if (pthread_create(&thread, 0, object == CACHE ? write_on : add_on, beside) != 0)
        return;
    for (long i = 0; i < TRIES && status == due; i++) {
        status = k42_swap(asker, object, K42_SHARED, &swap);
        made += status == due;
    }
    see_held(status, K42_CELL, number_of_beside, 0);
    stops = true;
    pthread_join(thread, 0);
    see_ended(k42_step(asker, &swap), due, 0);
    k42_leave(beside);
}

static void show_destroy(void) {
    begin("k42_destroy");
    see(k42_destroy(&none, CACHE, &swap), K42_EMPTY);
    see(k42_destroy(swapper, NO_OBJECT, &swap), K42_OBJECT);
    k42_enter(caller);
    see_calls(CACHE, K42_DONE);
    see_held(k42_destroy(swapper, CACHE, &swap), K42_LEFT, 1, 1);
    k42_leave(caller);
    see_ended(k42_step(swapper, &swap), K42_DONE, 1);
    end();
    begin("the object that is gone");
    k42_enter(caller);
    see_calls(CACHE, K42_GONE);
    see(k42_seen(caller, CACHE, &number), K42_GONE);
    made++;
    see_ended(k42_swap(swapper, CACHE, K42_SHARED, &swap), K42_GONE, 0);
    see_ended(k42_destroy(swapper, CACHE, &swap), K42_GONE, 0);
    see_ended(k42_watch(swapper, CACHE, &swap), K42_GONE, 0);
    see_ended(k42_unwatch(swapper, CACHE, &swap), K42_GONE, 0);
    k42_leave(caller);
    see_cell(swapper, CACHE, K42_GONE, other, 3);
    end();
}

/* --- Rows --- */

/* The last swap that was done has left a row, and the one before it was freed then. */
static void show_reclaim(void) {
    begin("k42_reclaim");
    see(k42_reclaim(&none, &rows), K42_EMPTY);
    k42_enter(caller);
    see(k42_reclaim(swapper, &rows), K42_UNDERWAY);
    see(k42_reclaim(swapper, &rows), K42_UNDERWAY);
    see_held(k42_swap(rival, NAMES, K42_SHARED, &swap), K42_ROLE, SWAPPER, 0);
    end();
    show_turns("a pass that reclaims", swapper, RECLAIMS);
    begin("k42_reclaim");
    k42_leave(caller);
    see(k42_reclaim(swapper, &rows), K42_DONE);
    see_number(rows, 1);
    see(k42_reclaim(swapper, &rows), K42_DONE);
    see_number(rows, 0);
    see_ended(k42_step(rival, &swap), K42_DONE, 2);
    end();
}

/* --- The four kinds, each in a system of its own --- */

static uint32_t spread(k42_pass *pass, uint32_t object, k42_swapping *swap) {
    return k42_swap(pass, object, K42_SPREAD, swap);
}

static const struct {
    const char *name;
    uint32_t (*begin)(k42_pass *, uint32_t, k42_swapping *);
} kinds[] = {{"k42_swap", spread}, {"k42_watch", k42_watch}, {"k42_unwatch", k42_unwatch}, {"k42_destroy", k42_destroy}};

static uint32_t start_alone(uint32_t keep, k42_pass *own, size_t count) {
    static const k42_object hits = {K42_COUNTER, K42_SHARED};
    static const uint32_t homes[3] = {0, 0, 0};
    return k42_start(1, &hits, 1, homes, count, keep, own, count);
}

static void close_alone(k42_pass *own, size_t count) {
    uint32_t missing = 0;
    for (size_t i = 0; i < count; i++)
        see(k42_close(&own[i], &missing), i < count - 1 ? K42_MISSING : K42_DONE);
    k42_drop(&own[count - 1]);
}

/* Without memory nothing is begun. With it, an activity holds the swap up. */
static void show_kinds(void) {
    k42_pass own[2] = {0};
    for (size_t i = 0; i < sizeof kinds / sizeof *kinds; i++) {
        begin(kinds[i].name);
        see(start_alone(K42_KEEP_ALL, own, 2), K42_DONE);
        for (grants = 0; grants == 0; grants = -1)
            see(kinds[i].begin(&own[0], HITS, &swap), K42_MEMORY);
        k42_enter(&own[1]);
        see_held(kinds[i].begin(&own[0], HITS, &swap), K42_LEFT, 0, 1);
        k42_leave(&own[1]);
        see_ended(k42_step(&own[0], &swap), K42_DONE, 1);
        close_alone(own, 2);
        end();
    }
}

/* --- The last swap of an object --- */

/* A system of its own, that keeps nothing: after so many swaps there is none more, but calls go on. */
static void show_spent(void) {
    k42_pass own[2] = {0}, *pass = &own[0];
    begin("k42_swap, for the last time");
    see(start_alone(K42_KEEP_NOTHING, own, 2), K42_DONE);
    for (uint32_t i = 1; i < SWAPS_OF_AN_OBJECT; i++)
        wrong = k42_swap(pass, HITS, i % 2 ? K42_SPREAD : K42_SHARED, &swap) != K42_DONE || swap.number != i || wrong;
    see_ended(k42_swap(pass, HITS, K42_SPREAD, &swap), K42_DONE, SWAPS_OF_AN_OBJECT);
    for (size_t i = 0; i < sizeof kinds / sizeof *kinds; i++)
        see_ended(kinds[i].begin(pass, HITS, &swap), K42_SPENT, 0);
    k42_enter(pass);
    see(k42_add(pass, HITS, 5), K42_DONE);
    k42_leave(pass);
    end();
    begin("k42_step, behind the last");
    see_cell(pass, HITS, K42_SPENT, &own[1], 1);
    close_alone(own, 2);
    end();
}

/* --- The history --- */

static void show_entry(const k42_entry *entry) {
    static const char *const asked[] = {"TO_SHARED", "TO_SPREAD", "TO_DEAD", "TO_WATCH", "TO_UNWATCH"};
    begin(asked[entry->asked - K42_TO_SHARED]);
    see(entry->status, entry->status);
    printf(" of object %u by pass %u: %llu\n", entry->object, entry->pass, (unsigned long long)entry->reply);
    wrong = wrong || entry->processor != 0 || entry->number != 0 || entry->key.length != 0 || entry->text.length != 0;
}

/* The swaps of a pass, in its order, but those of an object that is gone, whose number is not always the same. Says
   how many entries there are of all passes. */
static uint64_t show_swaps(k42_pass *last, uint32_t pass) {
    static k42_entry read[ENTRIES];
    uint64_t before = 0;
    for (size_t told = 1; told > 0 && k42_history(last, before, read, ENTRIES, &told) == K42_DONE; before += told)
        for (size_t i = 0; i < told; i++)
            if (read[i].pass == pass && read[i].asked >= K42_TO_SHARED && read[i].status != K42_GONE)
                show_entry(&read[i]);
    return before;
}

static void show_history(k42_pass *last) {
    uint64_t entries = 0;
    wrong = k42_entries(last, &entries) != K42_DONE || entries != made || wrong;
    for (uint32_t pass = 0; pass < PASSES; pass++)
        wrong = show_swaps(last, pass) != entries || wrong;
    show_turns("a handle with a history", last, HISTORY);
    begin("k42_drop");
    see(k42_drop(last), K42_DONE);
    end();
}

/* Closes with more memory each time, until the pass is taken, and there is none for the history. */
static uint32_t close_poor(void) {
    uint32_t missing = 0, status = K42_DONE;
    for (long some = 0; some < 10; some++) {
        grants = some;
        status = k42_close(other, &missing);
        grants = -1;
        if (status != K42_MEMORY || k42_enter(other) == K42_TURN)
            break;
        k42_leave(other);
    }
    return status;
}

/* Nothing is left then but to close it again. */
static void show_end(void) {
    uint32_t missing = 0;
    begin("k42_close");
    for (int i = 0; i < PASSES - 1; i++)
        see(k42_close(&passes[i], &missing), K42_MISSING);
    see(close_poor(), K42_MEMORY);
    end();
    show_turns("a handle whose passes were taken", other, ENDS);
    begin("k42_close");
    see(k42_close(other, &missing), K42_DONE);
    end();
    show_history(other);
}

int main(void) {
    static const k42_object objects[OBJECTS] = {
        {K42_COUNTER, K42_SPREAD}, {K42_DIRECTORY, K42_SHARED}, {K42_PAGES, K42_SHARED}};
    static const uint32_t homes[PASSES] = {0, 0, 1, 1};
    sem_init(&arrived, 0, 0);
    sem_init(&released, 0, 0);
    if (k42_start(2, objects, OBJECTS, homes, PASSES, K42_KEEP_ALL, passes, PASSES) != K42_DONE)
        return 6;
    show_turns("no pass", &none, EMPTY);
    show_turns("a pass that rests", caller, RESTS);
    k42_enter(caller);
    show_turns("a pass that works", caller, WORKS);
    k42_leave(caller);
    show_swap();
    show_watch();
    show_causes();
    show_memory();
    show_destroy();
    show_reclaim();
    show_end();
    show_kinds();
    show_spent();
    return verdict();
}

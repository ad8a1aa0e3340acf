/* k42_section and k42_resume with each status that they can be brought to: a line for each, and OK at the end where
   each section has just what was called since the one before, and the sections lie end to end. */
#include "seeing.h"

#include <pthread.h>
#include <stdio.h>

enum { PASSES = 3, ENTRIES = 8 };
enum { NONE = 0, FIRST = 1, SECOND = 2, THIRD = 4 }; /* the bits of passes that are missing */

static k42_pass none, passes[PASSES];
static k42_pass *const first = &passes[0], *const second = &passes[1], *const third = &passes[2];
static uint32_t missing;
static uint64_t places; /* in the sections so far */

static uint32_t start(uint32_t keep, size_t count) {
    static const k42_object objects[OBJECTS] = {
        {K42_COUNTER, K42_SHARED}, {K42_DIRECTORY, K42_SHARED}, {K42_PAGES, K42_SHARED}};
    static const uint32_t homes[PASSES] = {0, 1, 0};
    return k42_start(2, objects, OBJECTS, homes, count, keep, passes, count);
}

static void see_missing(uint32_t status, uint32_t due, uint32_t which) {
    see(status, due);
    see_number(missing, which);
}

/* Adds an amount in an activity of its own. */
static void add(k42_pass *pass, uint32_t amount) {
    k42_enter(pass);
    wrong = k42_add(pass, HITS, amount) != K42_DONE || wrong;
    k42_leave(pass);
}

static void see_entries(k42_pass *pass, uint64_t count) {
    uint64_t entries = 0;
    see(k42_entries(pass, &entries), K42_DONE);
    see_number(entries, count);
}

/* The section has just these calls. */
static void see_section(k42_pass *pass, const uint32_t *amounts, size_t count) {
    static k42_entry read[ENTRIES];
    size_t told = 0;
    see_entries(pass, count);
    grants = 0;
    see(k42_history(pass, 0, read, ENTRIES, &told), K42_MEMORY);
    grants = -1;
    see(k42_history(pass, 0, read, ENTRIES, &told), K42_DONE);
    see_number(told, count);
    for (size_t i = 0; i < told; i++) {
        wrong = read[i].place != ++places || read[i].asked != K42_ADD || read[i].number != amounts[i] || wrong;
        printf(" %llu", (unsigned long long)read[i].place);
    }
}

/* --- Another thread is parking its pass, or takes it up --- */

static void *park_slowly(void *at) {
    waits_to_free = true;
    *(uint32_t *)at = k42_section(first, &missing);
    return 0;
}

static void *resume_slowly(void *at) {
    waits_to_ask = 0;
    *(uint32_t *)at = k42_resume(first);
    return 0;
}

/* Sees what may not be done in the midst of that, and what comes of it. */
static void see_beside(void *(*slowly)(void *), bool is_parked, uint32_t due) {
    uint32_t status = K42_MEMORY, beside = 0;
    pthread_t thread;
    if (pthread_create(&thread, 0, slowly, &status) != 0)
        return;
    sem_wait(&arrived);
    see(k42_section(second, &beside), K42_AGAIN);
    if (is_parked)
        see(k42_resume(second), K42_AGAIN);
    see(k42_close(third, &beside), K42_AGAIN);
    sem_post(&released);
    pthread_join(thread, 0);
    see(status, due);
}

/* --- Sections --- */

static void show_kept(void) {
    begin("k42_section");
    see(k42_section(&none, &missing), K42_EMPTY);
    for (uint32_t keep = K42_KEEP_NOTHING; keep <= K42_KEEP_ALL; keep++) {
        see(start(keep, 1), K42_DONE);
        see(k42_section(first, &missing), K42_SECTIONS);
        see(k42_close(first, &missing), K42_DONE);
        k42_drop(first);
    }
    end();
}

static void show_parking(void) {
    begin("k42_section");
    see(start(K42_KEEP_SECTIONS, PASSES), K42_DONE);
    add(second, 1);
    add(first, 2);
    add(third, 3);
    grants = 0;
    see(k42_section(first, &missing), K42_MEMORY);
    grants = -1;
    see_beside(park_slowly, false, K42_MISSING);
    see_missing(k42_section(first, &missing), K42_MISSING, SECOND | THIRD);
    see_missing(k42_section(second, &missing), K42_MISSING, THIRD);
    end();
    show_turns("a pass that is parked", first, PARKS);
    begin("k42_resume");
    see(k42_resume(&none), K42_EMPTY);
    see(k42_resume(third), K42_TURN);
    grants = 0;
    see(k42_resume(first), K42_MEMORY);
    grants = -1;
    see_beside(resume_slowly, true, K42_DONE);
    end();
}

static void show_sections(void) {
    static const uint32_t before[] = {1, 2, 3, 4}, after[] = {5, 6};
    begin("k42_section");
    add(first, 4);
    see_missing(k42_section(first, &missing), K42_MISSING, THIRD);
    for (grants = 0; grants == 0; grants = -1)
        see(k42_section(third, &missing), K42_MEMORY);
    see_missing(k42_section(third, &missing), K42_DONE, NONE);
    see_section(third, before, 4);
    end();
    show_turns("a handle with a section", third, SECTION);
    begin("k42_resume");
    for (int i = 0; i < PASSES; i++)
        see(k42_resume(&passes[i]), K42_DONE);
    end();
    begin("k42_section");
    add(third, 5);
    add(second, 6);
    see_missing(k42_section(third, &missing), K42_MISSING, FIRST | SECOND);
    see_missing(k42_section(second, &missing), K42_MISSING, FIRST);
    see_missing(k42_section(first, &missing), K42_DONE, NONE);
    see_section(first, after, 2);
    end();
}

/* What is not in a section is not in the history, which nobody has. */
static void show_close(void) {
    begin("k42_close");
    for (int i = 0; i < PASSES; i++)
        see(k42_resume(&passes[i]), K42_DONE);
    add(first, 7);
    see_missing(k42_close(first, &missing), K42_MISSING, SECOND | THIRD);
    see_missing(k42_close(second, &missing), K42_MISSING, THIRD);
    see_missing(k42_close(third, &missing), K42_DONE, NONE);
    see(k42_drop(third), K42_EMPTY);
    end();
}

/* --- Passes that are given back --- */

/* One that was given back counts as parked. */
static void show_given_back(void) {
    begin("k42_section");
    see(start(K42_KEEP_SECTIONS, PASSES), K42_DONE);
    add(first, 8);
    see_missing(k42_close(first, &missing), K42_MISSING, SECOND | THIRD);
    see_missing(k42_section(second, &missing), K42_MISSING, THIRD);
    see_missing(k42_section(third, &missing), K42_DONE, NONE);
    see_entries(third, 1);
    see_missing(k42_section(second, &missing), K42_DONE, NONE);
    see_entries(second, 0);
    end();
    begin("k42_drop");
    see(k42_drop(third), K42_DONE);
    see(k42_resume(second), K42_DONE);
    see_missing(k42_close(second, &missing), K42_DONE, NONE);
    end();
}

/* One that is parked counts as given back. The last that was missing waits for its handle. */
static void see_closed(void) {
    see(start(K42_KEEP_SECTIONS, PASSES), K42_DONE);
    see_missing(k42_section(first, &missing), K42_MISSING, SECOND | THIRD);
    see_missing(k42_close(second, &missing), K42_MISSING, THIRD);
    see(k42_close(third, &missing), K42_AGAIN);
    see(k42_close(third, &missing), K42_AGAIN);
}

static void show_gone(void) {
    begin("k42_section");
    see_closed();
    see(k42_section(first, &missing), K42_GONE);
    see(k42_section(first, &missing), K42_EMPTY);
    see_missing(k42_close(third, &missing), K42_DONE, NONE);
    end();
    begin("k42_resume");
    see_closed();
    see(k42_resume(first), K42_GONE);
    see(k42_resume(first), K42_EMPTY);
    see_missing(k42_close(third, &missing), K42_DONE, NONE);
    end();
    begin("k42_drop");
    see_closed();
    see(k42_drop(first), K42_DONE);
    see_missing(k42_close(third, &missing), K42_DONE, NONE);
    end();
}

/* A pass that is dropped and was not parked is missing for ever. */
static void show_dropped(void) {
    begin("k42_drop");
    see(start(K42_KEEP_SECTIONS, PASSES), K42_DONE);
    see(k42_drop(first), K42_DONE);
    see_missing(k42_section(second, &missing), K42_MISSING, FIRST | THIRD);
    see_missing(k42_section(third, &missing), K42_MISSING, FIRST);
    see(k42_drop(second), K42_DONE);
    see(k42_resume(third), K42_DONE);
    see_missing(k42_close(third, &missing), K42_MISSING, FIRST);
    end();
}

int main(void) {
    sem_init(&arrived, 0, 0);
    sem_init(&released, 0, 0);
    show_kept();
    show_parking();
    show_sections();
    show_close();
    show_given_back();
    show_gone();
    show_dropped();
    return verdict();
}

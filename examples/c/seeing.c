#include "seeing.h"

#include <pthread.h>
#include <stdio.h>
#include <stdlib.h>

/* --- The heap --- */

atomic_long grants = -1;
_Thread_local bool waits_to_free;
_Thread_local int waits_to_ask = NOWHERE;
sem_t arrived, released;

struct tried {
    bool ok;
    void *p;
};

static char nothing;

static void be_held(void) {
    sem_post(&arrived);
    sem_wait(&released);
}

static bool is_granted(void) {
    if (waits_to_ask != NOWHERE && waits_to_ask-- == 0)
        be_held();
    if (grants > 0)
        grants--;
    else if (grants == 0)
        return false;
    return true;
}

struct tried rattle_alloc(size_t n, size_t align) {
    void *p = is_granted() ? malloc(n ? n : align) : 0;
    return (struct tried){p != 0, p ? p : &nothing};
}

struct tried rattle_realloc(void *p, size_t kept, size_t n, size_t align) {
    (void)kept;
    p = is_granted() ? realloc(p, n ? n : align) : 0;
    return (struct tried){p != 0, p ? p : &nothing};
}

void rattle_dealloc(void *p) {
    if (waits_to_free) {
        waits_to_free = false;
        be_held();
    }
    free(p);
}

/* --- What is seen --- */

static const char *const names[] = {
    "DONE", "NONE", "TAKEN",  "GONE", "MISSING",  "AGAIN",      "MEMORY",  "WORN",   "EMPTY",     "FULL",
    "TURN", "OBJECT", "KIND", "ARGUMENT", "PROCESSORS", "OBJECTS", "PASSES", "PROCESSOR", "BUSY", "SPENT",
    "UNDERWAY", "SECTIONS",
};
bool wrong;
atomic_ulong made;

void begin(const char *call) {
    printf("%s", call);
}

void see(uint32_t status, uint32_t due) {
    if (status == due) {
        printf(" %s", names[due]);
    } else {
        printf(" %u-and-not-%s", status, names[due]);
        wrong = true;
    }
}

void see_number(uint64_t number, uint64_t due) {
    printf(number == due ? " (%llu)" : " (%llu, which is wrong)", (unsigned long long)number);
    wrong = wrong || number != due;
}

void end(void) {
    printf("\n");
}

int verdict(void) {
    printf(wrong ? "WRONG\n" : "OK\n");
    return wrong;
}

/* --- The calls of objects --- */

_Thread_local uint64_t number;
_Thread_local k42_text text;

static uint32_t add(k42_pass *pass, uint32_t object) { return k42_add(pass, object, 5); }
static uint32_t get(k42_pass *pass, uint32_t object) { return k42_get(pass, object, &number); }
static uint32_t drain(k42_pass *pass, uint32_t object) { return k42_drain(pass, object, &number); }
static uint32_t seen(k42_pass *pass, uint32_t object) { return k42_seen(pass, object, &number); }
static uint32_t bind_front(k42_pass *pass, uint32_t object) { return k42_bind(pass, object, "front", 5, 7); }
static uint32_t find_front(k42_pass *pass, uint32_t object) { return k42_find(pass, object, "front", 5, &number); }
static uint32_t unbind_back(k42_pass *pass, uint32_t object) { return k42_unbind(pass, object, "back", 4, &number); }
static uint32_t size(k42_pass *pass, uint32_t object) { return k42_size(pass, object, &number); }
static uint32_t write_hello(k42_pass *pass, uint32_t object) { return k42_write(pass, object, 5, "hello", 5); }
static uint32_t read_hello(k42_pass *pass, uint32_t object) { return k42_read(pass, object, 5, &text); }
static uint32_t dirty(k42_pass *pass, uint32_t object) { return k42_dirty(pass, object, &number); }
static uint32_t clean(k42_pass *pass, uint32_t object) { return k42_clean(pass, object, &number); }

const struct call calls[CALLS] = {
    {"k42_add", add, HITS, K42_DONE, NAMES},         {"k42_get", get, HITS, K42_DONE, CACHE},
    {"k42_drain", drain, HITS, K42_DONE, NAMES},     {"k42_bind", bind_front, NAMES, K42_DONE, CACHE},
    {"k42_find", find_front, NAMES, K42_DONE, HITS}, {"k42_unbind", unbind_back, NAMES, K42_NONE, CACHE},
    {"k42_size", size, NAMES, K42_DONE, HITS},       {"k42_write", write_hello, CACHE, K42_DONE, NAMES},
    {"k42_read", read_hello, CACHE, K42_DONE, HITS}, {"k42_dirty", dirty, CACHE, K42_DONE, NAMES},
    {"k42_clean", clean, CACHE, K42_DONE, HITS},     {"k42_seen", seen, HITS, K42_NONE, NO_OBJECT},
};

uint32_t tell(const struct call *call, k42_pass *pass) {
    uint32_t status = call->make(pass, call->object);
    if (status <= K42_GONE)
        made++;
    return status;
}

/* --- What is out of turn --- */

static uint32_t missing;
static k42_swapping swapping;

static uint32_t swap(k42_pass *pass) { return k42_swap(pass, HITS, K42_SHARED, &swapping); }
static uint32_t destroy(k42_pass *pass) { return k42_destroy(pass, HITS, &swapping); }
static uint32_t watch(k42_pass *pass) { return k42_watch(pass, HITS, &swapping); }
static uint32_t unwatch(k42_pass *pass) { return k42_unwatch(pass, HITS, &swapping); }
static uint32_t step(k42_pass *pass) { return k42_step(pass, &swapping); }
static uint32_t reclaim(k42_pass *pass) { return k42_reclaim(pass, &missing); }
static uint32_t section(k42_pass *pass) { return k42_section(pass, &missing); }
static uint32_t close_pass(k42_pass *pass) { return k42_close(pass, &missing); }
static uint32_t entries(k42_pass *pass) { return k42_entries(pass, &number); }

static uint32_t history(k42_pass *pass) {
    k42_entry entry;
    size_t told = 0;
    return k42_history(pass, 0, &entry, 1, &told);
}

/* What is no call, and where it is in turn. */
static const struct act {
    uint32_t (*make)(k42_pass *);
    unsigned seats;
} acts[] = {
    {k42_enter, RESTS},
    {k42_leave, WORKS},
    {swap, RESTS},
    {destroy, RESTS},
    {watch, RESTS},
    {unwatch, RESTS},
    {step, SWAPS},
    {reclaim, RESTS | RECLAIMS},
    {section, RESTS | PARKS},
    {k42_resume, PARKS | SECTION},
    {close_pass, RESTS | ENDS},
    {k42_drop, RESTS | PARKS | SECTION | ENDS | HISTORY},
    {entries, SECTION | HISTORY},
    {history, SECTION | HISTORY},
};

void show_turns(const char *where, k42_pass *pass, unsigned seat) {
    uint32_t due = seat == EMPTY ? K42_EMPTY : K42_TURN;
    unsigned long told = 0, others = 0;
    for (size_t i = 0; i < sizeof acts / sizeof *acts; i++) {
        uint32_t status = acts[i].seats & seat ? due : acts[i].make(pass);
        told += !(acts[i].seats & seat) && status == due;
        others += status != due;
    }
    for (size_t i = 0; i < CALLS && seat != WORKS; i++) {
        uint32_t status = tell(&calls[i], pass);
        told += status == due;
        others += status != due;
    }
    printf("%s: %lu %s", where, told, names[due]);
    if (others > 0)
        printf(", and %lu others", others);
    wrong = wrong || others > 0;
    end();
}

/* Each call of an object: where the object is gone, and where the pass has made 2^58 calls. Nobody makes so many: this
   program makes some, finds their number in the memory of the pass, where it stands as the calls made and behind it as
   the clock of the last, and writes one less than 2^58 there. No other program may do that. */
#define _DEFAULT_SOURCE
#include "seeing.h"

#include <stdio.h>
#include <string.h>
#include <unistd.h>

enum { MADE = 54321 };
static const uint64_t MOST = (uint64_t)1 << 58;

static k42_pass pass;
static const k42_pass untouched; /* as a handle is before it is used, and once it has nothing more */

static uint32_t start(void) {
    static const k42_object objects[OBJECTS] = {
        {K42_COUNTER, K42_SPREAD}, {K42_DIRECTORY, K42_SPREAD}, {K42_PAGES, K42_SPREAD}};
    static const uint32_t home = 0;
    return k42_start(1, objects, OBJECTS, &home, 1, K42_KEEP_NOTHING, &pass, 1);
}

static void see_all(uint32_t due) {
    for (int i = 0; i < CALLS; i++) {
        begin(calls[i].name);
        see(calls[i].make(&pass, calls[i].object), due);
        end();
    }
}

static void see_closed(void) {
    uint32_t missing = 0;
    begin("k42_leave, k42_close");
    see(k42_leave(&pass), K42_DONE);
    see(k42_close(&pass, &missing), K42_DONE);
    wrong = memcmp(&pass, &untouched, sizeof pass) != 0 || wrong;
    end();
}

static void show_gone(void) {
    k42_swapping swap;
    begin("k42_destroy");
    see(start(), K42_DONE);
    for (uint32_t object = 0; object < OBJECTS; object++)
        see(k42_destroy(&pass, object, &swap), K42_DONE);
    see(k42_enter(&pass), K42_DONE);
    end();
    see_all(K42_GONE);
    see_closed();
}

/* Writes the number where that of the calls stands twice in a row on the heap. Says how often it does. */
static uint64_t age(const void *heap, uint64_t number) {
    uint64_t found = 0;
    for (uint64_t *at = (uint64_t *)heap; at + 1 < (uint64_t *)sbrk(0); at++) {
        if (at[0] != MADE || at[1] != MADE)
            continue;
        at[0] = at[1] = number;
        found++;
    }
    return found;
}

static void show_worn(const void *heap) {
    begin("k42_add, again and again");
    see(start(), K42_DONE);
    see(k42_enter(&pass), K42_DONE);
    for (int i = 0; i < MADE; i++)
        wrong = k42_add(&pass, HITS, 5) != K42_DONE || wrong;
    see_number(age(heap, MOST - 1), 1);
    end();
    begin("k42_get, the last call");
    see(k42_get(&pass, HITS, &number), K42_DONE);
    see_number(number, 5 * MADE);
    end();
    see_all(K42_WORN);
    see_closed();
}

int main(void) {
    const void *heap = sbrk(0);
    show_gone();
    show_worn(heap);
    return verdict();
}

/* What the programs share that bring the calls of k42.h to their statuses: a heap that refuses or holds a thread up,
   the lines that are printed, and a list of all that may be done with a pass. */
#ifndef SEEING_H
#define SEEING_H

#include "k42.h"

#include <semaphore.h>
#include <stdatomic.h>
#include <stdbool.h>

enum { HITS = 0, NAMES = 1, CACHE = 2, NO_OBJECT = 3, OBJECTS = 3, TRIES = 100000000 };

/* --- The heap --- */

extern atomic_long grants; /* how many requests more are granted; all where it is below 0 */

/* A thread tells that it came, and waits to be released: where it frees next, or at its next request but so many. */
enum { NOWHERE = -1 };
extern _Thread_local bool waits_to_free;
extern _Thread_local int waits_to_ask;
extern sem_t arrived, released;

/* --- What is seen --- */

extern bool wrong;

void begin(const char *call);
void see(uint32_t status, uint32_t due);
void see_number(uint64_t number, uint64_t due);
void end(void);

/* The verdict: what the program ends with. */
int verdict(void);

/* --- What may be done with a pass --- */

struct call {
    const char *name;
    uint32_t (*make)(k42_pass *, uint32_t);
    uint32_t object;   /* that takes it */
    uint32_t status;   /* of the first call that is made */
    uint32_t stranger; /* of another kind, if there is one that does not take it */
};

enum { CALLS = 12 };
extern const struct call calls[CALLS];
extern _Thread_local uint64_t number; /* that was answered */
extern _Thread_local k42_text text;

extern atomic_ulong made; /* calls and swaps that have left an entry */

/* Makes a call, and counts it where it leaves an entry. */
uint32_t tell(const struct call *call, k42_pass *pass);

/* Where a pass is, or what its handle has. */
enum { EMPTY = 0, RESTS = 1, WORKS = 2, SWAPS = 4, RECLAIMS = 8, PARKS = 16, SECTION = 32, ENDS = 64, HISTORY = 128 };

/* Does all with the pass that is out of turn where it is. Each is told so, and their number is shown. */
void show_turns(const char *where, k42_pass *pass, unsigned seat);

#endif

/* k42.h - Kilbotu for C: clustered objects that threads call, each through a pass of its own.

   A system has objects (counters, directories, page caches) and passes. A pass is what one thread calls with; it has
   a handle, a k42_pass. Calls are made in an activity, between k42_enter and k42_leave. Once all passes were given
   back by k42_close, the last handle has one legal history of all calls, if the system keeps one.

       k42_object hits = {K42_COUNTER, K42_SPREAD};
       uint32_t homes[2] = {0, 1};
       k42_pass pass[2] = {0};
       k42_start(2, &hits, 1, homes, 2, K42_KEEP_ALL, pass, 2);
       k42_enter(&pass[0]);
       while (k42_add(&pass[0], 0, 1) == K42_AGAIN)
           sched_yield();
       k42_leave(&pass[0]);

   An object is swapped to another implementation while other passes call it. Leave your own activities first: a swap
   waits for those that are open.

       k42_swapping swap;
       uint32_t status = k42_swap(&pass[1], 0, K42_SHARED, &swap);
       while (status == K42_UNDERWAY) {
           sched_yield();
           status = k42_step(&pass[1], &swap);
       }

   NOBODY WAITS. No call blocks, sleeps or spins. Where something is in the way for a moment, nothing is done and the
   status is K42_AGAIN: do something else, or yield, and call again. A pass may stay in its activity meanwhile. A swap
   that is held up is K42_UNDERWAY: it is stepped on, as often as you like.

   STATUS. Each call returns one. K42_DONE, K42_NONE, K42_TAKEN, K42_GONE, K42_MISSING, K42_BUSY and K42_SPENT say that
   it was answered, K42_UNDERWAY that it goes on. Each other says that nothing was done: no object, no handle and no
   place that a pointer leads to has changed. But a swap that comes to K42_MEMORY may have been given up, of which the
   history has an entry; and k42_close and k42_section may have taken the pass by then, and go on from there.

   A pass RESTS where it is in no activity, has no swap and no reclaim under way, is not parked, and was not given back.

   WHAT THE CALLER PROMISES, and nothing checks:
   - a k42_pass is set to 0 before its first use, and from then on only passed by its address; it may be moved as a
     whole where no call is under way, but not copied and not written;
   - one call at a time is made with a handle, or reads it. Different handles of one system are for different threads,
     at the same time. A handle may change its thread where the change is ordered, as by pthread_create, pthread_join
     or a mutex;
   - no pointer is null, also where its length is 0, and what it leads to is of the length that is given, initialised,
     and used by nobody else during the call;
   - rattle_alloc, rattle_realloc and rattle_dealloc, through which the library asks for memory, are as those of
     heap.c: over one allocator that aligns as malloc does, and that never calls back into the library. Where that
     allocator waits for a lock of its own, so does the call;
   - no call is made in a signal handler, nor in the child of a fork of a process with threads.

   Link with libk42_c.a, with heap.c or your own of these three functions, and with -pthread where there are threads. */
#ifndef K42_H
#define K42_H

#include <stddef.h>
#include <stdint.h>

#ifdef __cplusplus
extern "C" {
#endif

/* What a call returns. */
enum {
    K42_DONE = 0,
    K42_NONE = 1,       /* done: there is no such key, the page was never written, or the object has no layer */
    K42_TAKEN = 2,      /* done: the key was bound already, and leads where it led */
    K42_GONE = 3,       /* done: the object was destroyed; of a parked pass: the system was closed */
    K42_MISSING = 4,    /* done: the pass was given back, or parked, and others are missing still */
    K42_AGAIN = 5,      /* something is in the way for a moment */
    K42_MEMORY = 6,     /* out of memory */
    K42_WORN = 7,       /* the pass has made 2^58 calls, or has begun 2^27 swaps and reclaims, and no more are made */
    K42_EMPTY = 8,      /* the handle has no pass */
    K42_FULL = 9,       /* a handle has a pass already */
    K42_TURN = 10,      /* out of turn: the pass does not rest, or is not where this call asks it to be */
    K42_OBJECT = 11,    /* there is no such object */
    K42_KIND = 12,      /* the object is of another kind */
    K42_ARGUMENT = 13,  /* a key, a text, a page, a number of the plan or a length is none */
    K42_PROCESSORS = 14, /* there are 1 to 8 processors */
    K42_OBJECTS = 15,   /* there are 1 to 16 objects */
    K42_PASSES = 16,    /* there are 1 to 16 passes */
    K42_PROCESSOR = 17, /* a pass's processor is not there */
    K42_BUSY = 18,      /* answered: another swap of the object is under way */
    K42_SPENT = 19,     /* answered: the object has had its last swap */
    K42_UNDERWAY = 20,  /* the pass goes on with it at its next step */
    K42_SECTIONS = 21,  /* the system keeps no sections */
};

/* A handle. It is empty while it is 0. */
typedef struct {
    uint64_t opaque[2];
} k42_pass;

/* The kinds of objects, all empty at first. */
enum { K42_COUNTER = 0, K42_DIRECTORY = 1, K42_PAGES = 2 };

/* How an object is kept: by one representative for all processors, or by one for each. */
enum { K42_SHARED = 0, K42_SPREAD = 1 };

/* Which entries are kept for the history. */
enum { K42_KEEP_NOTHING = 0, K42_KEEP_ALL = 1, K42_KEEP_SECTIONS = 2 };

/* An object, as it starts. */
typedef struct {
    uint32_t kind;
    uint32_t layout;
} k42_object;

/* NAME   k42_start - starts a system

   It has so many processors, 1 to 8, these objects, 1 to 16, and a pass for each handle, 1 to 16. homes says of each
   pass its processor, from 0: calls of passes at different processors meet seldom where an object is K42_SPREAD.
   keep says which entries are kept. Under K42_KEEP_ALL each call keeps one until the system is closed, in 24 bytes and
   more; under K42_KEEP_SECTIONS until k42_section has given it; under K42_KEEP_NOTHING a call needs no memory for the
   history, however long the system runs.

   STATUS   K42_DONE: each handle has a pass with nothing under way. K42_FULL: a handle is not empty. K42_ARGUMENT:
   home_count and pass_count differ, or a kind, a layout or keep is none. K42_PROCESSORS, K42_OBJECTS, K42_PASSES,
   K42_PROCESSOR: the first of these that does not hold. K42_MEMORY. */
uint32_t k42_start(uint32_t processors, const k42_object *objects, size_t object_count, const uint32_t *homes,
                   size_t home_count, uint32_t keep, k42_pass *passes, size_t pass_count);

/* NAME   k42_enter, k42_leave - begin and end an activity of the pass

   Calls are made in an activity, and an activity may have any number of calls. A system frees nothing that an open
   activity might still read, so leave it before you wait for anything.

   STATUS   K42_DONE. K42_EMPTY. K42_TURN: of k42_enter, the pass does not rest; of k42_leave, it is in no activity. */
uint32_t k42_enter(k42_pass *pass);
uint32_t k42_leave(k42_pass *pass);

/* Calls. Objects are numbered from 0, in the order of k42_start. Each call is tried once.

   STATUS   of all: K42_DONE. K42_AGAIN: another pass is at the object. K42_MEMORY: the call was not made. K42_WORN.
   K42_EMPTY. K42_TURN: the pass is in no activity. K42_OBJECT. K42_KIND. K42_GONE. What else there is stands below.
   A number goes to its place only where the call answers it. */

/* NAME   k42_add, k42_get, k42_drain - of counters

   k42_add adds the amount, modulo 2^64. k42_get reads the value. k42_drain reads it and sets it to 0. */
uint32_t k42_add(k42_pass *pass, uint32_t object, uint32_t amount);
uint32_t k42_get(k42_pass *pass, uint32_t object, uint64_t *value);
uint32_t k42_drain(k42_pass *pass, uint32_t object, uint64_t *value);

/* NAME   k42_bind, k42_find, k42_unbind, k42_size - of directories

   A key has 1 to 16 bytes: a letter a to z, and then such letters, digits and '_'. It need not end with a zero byte.
   k42_bind binds it to a number. k42_find reads the number. k42_unbind reads it and unbinds the key. k42_size counts
   the keys that are bound.

   STATUS   K42_TAKEN: k42_bind of a key that is bound. K42_NONE: k42_find, k42_unbind of one that is not.
   K42_ARGUMENT: the bytes are no key. */
uint32_t k42_bind(k42_pass *pass, uint32_t object, const char *key, size_t length, uint64_t number);
uint32_t k42_find(k42_pass *pass, uint32_t object, const char *key, size_t length, uint64_t *number);
uint32_t k42_unbind(k42_pass *pass, uint32_t object, const char *key, size_t length, uint64_t *number);
uint32_t k42_size(k42_pass *pass, uint32_t object, uint64_t *count);

/* The text of a page: so many bytes, and zeros behind them. */
typedef struct {
    uint32_t length;
    char bytes[32];
} k42_text;

/* NAME   k42_write, k42_read, k42_dirty, k42_clean - of page caches

   Pages are numbered from 0 to 65,535. A text has 1 to 32 bytes from '!' to '~'. k42_write writes it, which makes the
   page dirty. k42_read reads the page. k42_dirty counts the dirty pages. k42_clean counts them and makes all clean.

   STATUS   K42_NONE: k42_read of a page that was never written. K42_ARGUMENT: there is no such page, or the bytes are
   no text. */
uint32_t k42_write(k42_pass *pass, uint32_t object, uint32_t page, const char *text, size_t length);
uint32_t k42_read(k42_pass *pass, uint32_t object, uint32_t page, k42_text *text);
uint32_t k42_dirty(k42_pass *pass, uint32_t object, uint64_t *count);
uint32_t k42_clean(k42_pass *pass, uint32_t object, uint64_t *count);

/* NAME   k42_seen - of every object: how many calls its layer has counted, see k42_watch

   STATUS   K42_NONE: it has no layer. */
uint32_t k42_seen(k42_pass *pass, uint32_t object, uint64_t *count);

/* What holds a swap up. */
enum {
    K42_NOTHING = 0,
    K42_LEFT = 1,   /* activities that began before it, on a processor, are open still */
    K42_ROLE = 2,   /* another pass is in a swap or a reclaim that frees former representatives */
    K42_INSIDE = 3, /* calls are inside the object still */
    K42_CELL = 4,   /* a pass is at the object */
};

/* How far a swap is, where the status is K42_UNDERWAY, K42_DONE, K42_BUSY, K42_SPENT or K42_GONE; under others it
   stays as it is. What it has none of is 0. */
typedef struct {
    uint32_t number; /* among the object's swaps, from 1: under K42_DONE of this one, under K42_BUSY of the other */
    uint32_t cause;  /* K42_LEFT to K42_CELL, under K42_UNDERWAY */
    uint32_t at;     /* of K42_LEFT the processor; of K42_ROLE and K42_CELL the pass, in the order of k42_start */
    uint32_t count;  /* of K42_LEFT the activities; of K42_INSIDE the calls */
} k42_swapping;

/* NAME   k42_swap, k42_destroy, k42_watch, k42_unwatch - replace the implementation of an object

   They begin a swap of the object, by a pass that rests, and make its first step. k42_swap goes to a layout,
   K42_SHARED or K42_SPREAD, and keeps what the object has; it may be the layout in which it is. k42_destroy ends the
   object: each later call is answered K42_GONE. k42_watch places a layer round the object that counts its calls, from
   0, also where it has one; k42_unwatch takes it away.

   A swap waits for the activities that are open, for the calls that are inside, and for other passes that free former
   representatives; others call the object meanwhile. Once it is K42_UNDERWAY the pass does nothing but k42_step. An
   object has at most 1,048,575 swaps of all four kinds, not counting those that were given up.

   STATUS   K42_UNDERWAY: go on by k42_step. K42_BUSY: it was not swapped, and the history tells so. How else it ends,
   at this step or a later one, is told below. K42_MEMORY: nothing was begun, or it was given up. K42_WORN: nothing was
   begun; a pass begins 2^27 swaps and reclaims. K42_EMPTY. K42_TURN: the pass does not rest. K42_OBJECT. K42_ARGUMENT:
   the layout of k42_swap is none. */
uint32_t k42_swap(k42_pass *pass, uint32_t object, uint32_t layout, k42_swapping *swap);
uint32_t k42_destroy(k42_pass *pass, uint32_t object, k42_swapping *swap);
uint32_t k42_watch(k42_pass *pass, uint32_t object, k42_swapping *swap);
uint32_t k42_unwatch(k42_pass *pass, uint32_t object, k42_swapping *swap);

/* NAME   k42_step - goes on with the swap of the pass

   STATUS   K42_UNDERWAY. K42_DONE: the object has its new implementation. K42_SPENT: it has had its last swap.
   K42_GONE: it was destroyed before. K42_MEMORY: the swap was given up, and the object is as it was. After each of
   these but the first the pass rests, and the history tells of it. K42_EMPTY. K42_TURN: the pass has no swap under
   way. */
uint32_t k42_step(k42_pass *pass, k42_swapping *swap);

/* NAME   k42_reclaim - frees what the swaps of the pass have left

   A swap leaves the former representatives of the object, a row of them, with its pass, which frees them at the next
   swap that it carries out; k42_reclaim frees them without one. It begins at a pass that rests, and goes on where it
   is K42_UNDERWAY: call it until it is done, also where there is nothing to free. Under K42_DONE rows says how many
   rows it has freed.

   STATUS   K42_DONE: the pass has none left, and rests. K42_UNDERWAY: an activity that might read them is open.
   K42_AGAIN: another pass frees rows, and nothing was begun. K42_WORN: see k42_swap. K42_EMPTY. K42_TURN: the pass
   does not rest, and has no reclaim under way. */
uint32_t k42_reclaim(k42_pass *pass, uint32_t *rows);

/* NAME   k42_close - gives the pass back, and with the last closes the system

   Each handle is closed once its pass has nothing under way, by any thread. Where others are missing, the handle is
   empty then, and missing says which: its bit i is 1 where pass i is, in the order of k42_start and from 0. The last
   handle has the history under K42_KEEP_ALL, to be read and then dropped; else it is empty.

   A pass that is parked counts as given back. Where it is the last that was missing, this one waits for its handle to
   be resumed, which empties it, or dropped.

   STATUS   K42_DONE: it was the last, and missing is 0. K42_MISSING. K42_AGAIN: another pass is being given back,
   parked or taken up in this moment. K42_MEMORY. After these two call again: the pass may be taken by then, and its
   handle for k42_close and k42_drop alone. K42_EMPTY. K42_TURN: the pass does not rest, or the handle has a history. */
uint32_t k42_close(k42_pass *pass, uint32_t *missing);

/* NAME   k42_drop - empties a handle

   It drops the history that the handle has, or its pass: then the others are never closed, and have no section, but
   miss this one for ever. A pass that is parked is given back, as by k42_close, and its section dropped.

   STATUS   K42_DONE. K42_EMPTY. K42_TURN: the pass is in an activity, or has a swap or a reclaim under way. */
uint32_t k42_drop(k42_pass *pass);

/* What an entry asked: the calls in the order in which they stand above, and the swaps. */
enum {
    K42_ADD = 0,
    K42_GET = 1,
    K42_DRAIN = 2,
    K42_BIND = 3,
    K42_FIND = 4,
    K42_UNBIND = 5,
    K42_SIZE = 6,
    K42_WRITE = 7,
    K42_READ = 8,
    K42_DIRTY = 9,
    K42_CLEAN = 10,
    K42_SEEN = 11,
    K42_TO_SHARED = 12,
    K42_TO_SPREAD = 13,
    K42_TO_DEAD = 14,
    K42_TO_WATCH = 15,
    K42_TO_UNWATCH = 16,
};

/* A key: so many bytes, and zeros behind them. */
typedef struct {
    uint32_t length;
    char bytes[16];
} k42_key;

/* An entry of a history: who asked what of which object, and how it was answered. What it has none of is 0. */
typedef struct {
    uint64_t place;       /* in the history, from 1; of sections, end to end */
    uint64_t index;       /* among those of its pass, from 0 */
    uint64_t number;      /* what was added or bound */
    uint64_t reply;       /* the number that was answered, or that a swap has */
    uint32_t pass;        /* in the order of k42_start, from 0 */
    uint32_t processor;
    uint32_t generation;  /* of the activity */
    uint32_t object;
    uint32_t incarnation; /* of the object: 0 for the first */
    uint32_t asked;       /* K42_ADD to K42_TO_UNWATCH */
    uint32_t status;      /* K42_DONE, K42_NONE, K42_TAKEN or K42_GONE; of swaps also K42_BUSY, K42_SPENT, K42_MEMORY */
    uint32_t page;
    k42_key key;
    k42_text text;        /* what was written, or read */
} k42_entry;

/* NAME   k42_section, k42_resume - take the history of a running system in sections

   Under K42_KEEP_SECTIONS. Each pass that rests is parked by k42_section; missing says which are not, as k42_close
   does. The handle of the last has the section then, to be read by k42_entries and k42_history: what the passes have
   drawn since the last section, in order, as the history has it. Each handle takes its pass up by k42_resume, and goes
   on; that of the section drops it. The sections, end to end, are the history of the system, up to the last.

   So let one thread park all handles, or let all threads wait, by means of their own, until one has K42_DONE, before
   any resumes: a pass that is taken up before is missing again. Once all are parked, k42_section of a handle without a
   section gives another, which has nothing. A pass that was given back counts as parked.

   STATUS   of k42_section: K42_DONE: all are parked, the handle has a section, and missing is 0. K42_MISSING.
   K42_MEMORY: call again; the pass may be parked by then. K42_SECTIONS. K42_TURN: the pass does not rest and is not
   parked, or the handle has a section or a history.
   STATUS   of k42_resume: K42_DONE: the pass rests. K42_MEMORY: it is parked still. K42_TURN: it is not parked.
   STATUS   of both: K42_AGAIN: another pass is being parked, taken up or given back in this moment. K42_GONE: the
   others have closed the system with this pass, and the handle is empty. K42_EMPTY. */
uint32_t k42_section(k42_pass *pass, uint32_t *missing);
uint32_t k42_resume(k42_pass *pass);

/* NAME   k42_entries - counts the entries of the history, or of the section

   STATUS   K42_DONE. K42_EMPTY. K42_TURN: the handle has neither. */
uint32_t k42_entries(k42_pass *pass, uint64_t *entries);

/* NAME   k42_history - reads entries of the history, or of the section

   It writes entries into their room, beginning with the one that has so many before it there, and says how many it has
   told: fewer than there is room for where the history ends. Each call begins at the front, so read much at once.

   STATUS   K42_DONE. K42_MEMORY. K42_EMPTY. K42_TURN: the handle has neither. */
uint32_t k42_history(k42_pass *pass, uint64_t before, k42_entry *entries, size_t room, size_t *told);

#ifdef __cplusplus
}
#endif
#endif

/* A pass begins 2^27 swaps and reclaims, and no more: it is K42_WORN then, still calls, and is given back. */
#include "k42.h"

#include <stdbool.h>
#include <stdio.h>

enum { HITS = 0, PASSES = 2 };

int main(void) {
    k42_object hits = {K42_COUNTER, K42_SHARED};
    uint32_t homes[PASSES] = {0, 0}, rows = 0, missing = 0, status;
    k42_pass passes[PASSES] = {0}, *worn = &passes[0], *other = &passes[1];
    k42_swapping swap = {0};
    uint64_t entries = 0, reclaims = 0;
    if (k42_start(1, &hits, 1, homes, PASSES, K42_KEEP_ALL, passes, PASSES) != K42_DONE)
        return 6;

    while ((status = k42_reclaim(worn, &rows)) == K42_DONE)
        reclaims++;
    printf("%llu reclaims, and then %s\n", (unsigned long long)reclaims, status == K42_WORN ? "worn" : "something else");
    bool all = k42_swap(worn, HITS, K42_SPREAD, &swap) == K42_WORN && k42_destroy(worn, HITS, &swap) == K42_WORN &&
               k42_watch(worn, HITS, &swap) == K42_WORN && k42_unwatch(worn, HITS, &swap) == K42_WORN;
    printf("swaps of all four kinds: %s\n", all ? "worn" : "something else");
    k42_enter(worn);
    printf("a call: %s\n", k42_add(worn, HITS, 1) == K42_DONE ? "done" : "something else");
    k42_leave(worn);
    status = k42_close(other, &missing);
    printf("the other pass is given back: status %u, missing %u\n", status, missing);
    status = k42_close(worn, &missing);
    k42_entries(worn, &entries);
    printf("the worn pass is given back: status %u, entries %llu\n", status, (unsigned long long)entries);
    k42_drop(worn);
    return reclaims == 1u << 27 && entries == 1 ? 0 : 1;
}

/* A load for the server: connections that ask one request after the other, and one more that swaps the objects to and
   fro meanwhile. Each answer is compared with what is due, and timed from the request on.

   load PORT CONNECTIONS REQUESTS SWAPS: so many requests of each connection. It takes a server that is new, stops it,
   and ends with 1 where an answer is wrong, a sum is not that of the amounts, or more than one in 1,000 is late. */
#define _GNU_SOURCE
#include "k42.h"

#include <arpa/inet.h>
#include <netinet/tcp.h>
#include <pthread.h>
#include <stdatomic.h>
#include <stdbool.h>
#include <stdio.h>
#include <stdlib.h>
#include <string.h>
#include <sys/epoll.h>
#include <sys/socket.h>
#include <sys/time.h>
#include <time.h>
#include <unistd.h>

enum { LOADERS = 2, MOST_CONNECTIONS = 1000, SLOTS = 16, SORTS = 8, LINE = 96, EVENTS = 64, PATIENCE_MS = 10000 };
enum { UNWRITTEN = 40000, LATE_NS = 10000000 };

struct connection {
    int socket;
    uint32_t number;
    uint32_t asked;      /* requests, so far */
    uint64_t added, sent_at;
    uint64_t least;      /* what a value that is due is at least */
    char due[LINE];      /* the answer, or nothing where a value is due */
    char in[LINE];
    size_t got;
};

/* A thread with a share of the connections. The first has the one that swaps too. */
struct loader {
    pthread_t thread;
    int poll;
    struct connection *connections, *swapper;
    uint32_t count, requests, swaps;
    uint64_t answered, failed; /* requests */
    uint32_t *times;           /* of requests, in nanoseconds */
    uint32_t swapped, unswapped, longest_swap;
    bool is_swapping, is_cut;  /* a swap is asked for; the server does not speak as it should */
};

static uint64_t now(void) {
    struct timespec time;
    clock_gettime(CLOCK_MONOTONIC, &time);
    return (uint64_t)time.tv_sec * 1000000000u + (uint64_t)time.tv_nsec;
}

static bool connects(struct connection *it, uint16_t port) {
    struct sockaddr_in place = {.sin_family = AF_INET, .sin_port = htons(port)};
    const struct timeval patience = {.tv_sec = PATIENCE_MS / 1000};
    place.sin_addr.s_addr = htonl(INADDR_LOOPBACK);
    it->socket = socket(AF_INET, SOCK_STREAM, 0);
    setsockopt(it->socket, IPPROTO_TCP, TCP_NODELAY, &(int){1}, sizeof(int));
    setsockopt(it->socket, SOL_SOCKET, SO_RCVTIMEO, &patience, sizeof patience);
    return connect(it->socket, (struct sockaddr *)&place, sizeof place) == 0;
}

/* --- Requests --- */

static void ask(struct connection *it, const char *line) {
    it->sent_at = now();
    send(it->socket, line, strlen(line), MSG_NOSIGNAL); /* or else no answer comes */
}

/* Asks the next request of the mix, and notes what is due. Keys and pages are the connection's own. */
static void ask_next(struct connection *it) {
    char line[LINE];
    uint32_t number = it->number, round = it->asked / SORTS, slot = round % SLOTS, lap = round / SLOTS;
    strcpy(it->due, "ok\n");
    switch (it->asked++ % SORTS) {
    case 0:
        it->added += slot + 1;
        snprintf(line, LINE, "add hits %u\n", slot + 1);
        break;
    case 1:
        snprintf(line, LINE, "bind names k%u_%u %u\n", number, slot, number + slot);
        snprintf(it->due, LINE, lap == 0 ? "ok\n" : "taken\n");
        break;
    case 2:
        snprintf(line, LINE, "find names k%u_%u\n", number, slot);
        snprintf(it->due, LINE, "%u\n", number + slot);
        break;
    case 3:
        snprintf(line, LINE, "write cache %u text_%u\n", number * SLOTS + slot, lap);
        break;
    case 4:
        snprintf(line, LINE, "read cache %u\n", number * SLOTS + slot);
        snprintf(it->due, LINE, "text_%u\n", lap);
        break;
    case 5:
        it->least = it->added > it->least ? it->added : it->least;
        snprintf(line, LINE, "get hits\n");
        *it->due = 0;
        break;
    case 6:
        snprintf(line, LINE, "find names unbound_%u\n", slot);
        snprintf(it->due, LINE, "none\n");
        break;
    default:
        snprintf(line, LINE, "read cache %u\n", UNWRITTEN + slot);
        snprintf(it->due, LINE, "none\n");
    }
    ask(it, line);
}

/* Asks to swap an object to the other layout: all are spread at first, and only here swapped. */
static void ask_swap(struct connection *it) {
    static const char *const objects[3] = {"hits", "names", "cache"};
    char line[LINE];
    uint32_t before = it->asked / 3;
    snprintf(line, LINE, "swap %s %s\n", objects[it->asked++ % 3], before % 2 == 0 ? "shared" : "spread");
    snprintf(it->due, LINE, "swapped %u\n", before + 1);
    ask(it, line);
}

/* Whether the answer is the one that is due. A value is a number, and never less than one before. */
static bool is_right(struct connection *it) {
    if (*it->due)
        return strcmp(it->in, it->due) == 0;
    char *end;
    uint64_t value = strtoull(it->in, &end, 10);
    bool right = it->in[0] >= '0' && it->in[0] <= '9' && strcmp(end, "\n") == 0 && value >= it->least;
    it->least = value;
    return right;
}

/* --- Loaders --- */

/* Asks for the swaps that are due by now: they lie evenly among the requests, one after the other. */
static void swap_on(struct loader *loader) {
    uint64_t all = (uint64_t)loader->count * loader->requests, ended = loader->swapped + loader->unswapped;
    if (loader->is_swapping || ended == loader->swaps)
        return;
    if (loader->answered < all && loader->answered * loader->swaps < ended * all)
        return;
    loader->is_swapping = true;
    ask_swap(loader->swapper);
}

/* Takes what came, and goes on where it is the whole answer. */
static void take_answer(struct loader *loader, struct connection *it) {
    ssize_t got = recv(it->socket, it->in + it->got, LINE - 1 - it->got, MSG_DONTWAIT);
    loader->is_cut = loader->is_cut || got <= 0 || it->got + (size_t)got == LINE - 1;
    if (loader->is_cut)
        return;
    it->got += (size_t)got;
    it->in[it->got] = 0;
    if (it->in[it->got - 1] != '\n')
        return;
    uint64_t time = now() - it->sent_at;
    bool right = is_right(it);
    if (!right && loader->failed + loader->unswapped == 0)
        fprintf(stderr, "connection %u got %s after %u requests, not %s\n", it->number, it->in, it->asked, it->due);
    it->got = 0;
    if (it == loader->swapper) {
        loader->is_swapping = false;
        loader->swapped += right;
        loader->unswapped += !right;
        loader->longest_swap = time > loader->longest_swap ? (uint32_t)time : loader->longest_swap;
        return;
    }
    loader->failed += !right;
    loader->times[loader->answered++] = time < UINT32_MAX ? (uint32_t)time : UINT32_MAX;
    if (it->asked < loader->requests)
        ask_next(it);
}

static bool is_done(const struct loader *loader) {
    return loader->answered == (uint64_t)loader->count * loader->requests && !loader->is_swapping &&
           loader->swapped + loader->unswapped == loader->swaps;
}

static void *work(void *at) {
    struct loader *loader = at;
    struct epoll_event events[EVENTS];
    for (uint32_t i = 0; i < loader->count; i++)
        ask_next(&loader->connections[i]);
    while (!is_done(loader) && !loader->is_cut) {
        swap_on(loader);
        int count = epoll_wait(loader->poll, events, EVENTS, PATIENCE_MS);
        if (count <= 0)
            break;
        for (int i = 0; i < count; i++)
            take_answer(loader, events[i].data.ptr);
    }
    return 0;
}

static bool joins(struct loader *loader, struct connection *it, uint16_t port) {
    struct epoll_event event = {.events = EPOLLIN, .data.ptr = it};
    return connects(it, port) && epoll_ctl(loader->poll, EPOLL_CTL_ADD, it->socket, &event) == 0;
}

/* Gives the loader its share of the connections. */
static bool is_ready(struct loader *loader, uint16_t port, uint32_t first, uint32_t count, uint32_t requests) {
    loader->poll = epoll_create1(0);
    loader->count = count;
    loader->requests = requests;
    loader->connections = calloc(count, sizeof *loader->connections);
    loader->times = calloc((size_t)count * requests, sizeof *loader->times);
    for (uint32_t i = 0; loader->connections && loader->times && i < count; i++) {
        loader->connections[i].number = first + i;
        if (!joins(loader, &loader->connections[i], port))
            return false;
    }
    return loader->connections && loader->times;
}

/* --- What is found --- */

static int compare(const void *left, const void *right) {
    uint32_t a = *(const uint32_t *)left, b = *(const uint32_t *)right;
    return (a > b) - (a < b);
}

/* Tells the times, and whether 999 of 1,000 are in time. */
static bool is_in_time(uint32_t *times, size_t count, uint64_t elapsed, uint32_t longest_swap) {
    if (count == 0)
        return true;
    qsort(times, count, sizeof *times, compare);
    uint32_t most = times[count - 1 - count / 1000];
    fprintf(stderr, "median %.3f ms, 999 of 1,000 %.3f ms, longest %.3f ms, longest swap %.3f ms, ",
            times[count / 2] / 1e6, most / 1e6, times[count - 1] / 1e6, longest_swap / 1e6);
    fprintf(stderr, "%.0f requests a second\n", (double)count * 1e9 / (double)elapsed);
    return most <= LATE_NS;
}

/* Asks a last request of a connection that asks no more, and reads its answer. */
static bool is_answered(struct connection *it, const char *line, const char *due) {
    ask(it, line);
    while (it->got < LINE - 1 && (it->got == 0 || it->in[it->got - 1] != '\n')) {
        ssize_t got = recv(it->socket, it->in + it->got, LINE - 1 - it->got, 0);
        if (got <= 0)
            return false;
        it->got += (size_t)got;
    }
    it->in[it->got] = 0;
    it->got = 0;
    return strcmp(it->in, due) == 0;
}

/* Adds up what the loaders have found, and ends the server. */
static int finish(struct loader *loaders, struct connection *swapper, uint64_t elapsed) {
    uint64_t answered = 0, failed = 0, sum = 0, all = 0;
    for (struct loader *loader = loaders; loader < loaders + LOADERS; loader++) {
        all += (uint64_t)loader->count * loader->requests;
        failed += loader->failed;
        for (uint32_t i = 0; i < loader->count; i++)
            sum += loader->connections[i].added;
    }
    uint32_t *times = calloc(all ? all : 1, sizeof *times);
    if (!times)
        return 6;
    for (struct loader *loader = loaders; loader < loaders + LOADERS; loader++) {
        memcpy(times + answered, loader->times, loader->answered * sizeof *times);
        answered += loader->answered;
    }
    char value[LINE];
    snprintf(value, LINE, "%llu\n", (unsigned long long)sum);
    bool has_sum = is_answered(swapper, "get hits\n", value);
    bool in_time = is_in_time(times, answered, elapsed, loaders->longest_swap);
    bool stopped = is_answered(swapper, "stop\n", "ok\n");
    printf("requests %llu, failed %llu\n", (unsigned long long)answered, (unsigned long long)failed);
    printf("swaps %u, failed %u\n", loaders->swapped, loaders->unswapped);
    printf("sum %s\n%s\n", has_sum ? "right" : "wrong", in_time ? "in time" : "late");
    free(times);
    bool whole = answered == all && failed == 0 && loaders->swapped == loaders->swaps;
    return whole && has_sum && in_time && stopped ? 0 : 1;
}

int main(int argc, char **argv) {
    static struct loader loaders[LOADERS];
    static struct connection swapper, last;
    if (argc != 5)
        return fprintf(stderr, "usage: load PORT CONNECTIONS REQUESTS SWAPS\n") > 0 ? 2 : 5;
    uint16_t port = (uint16_t)strtoul(argv[1], 0, 10);
    uint32_t connections = (uint32_t)strtoul(argv[2], 0, 10), requests = (uint32_t)strtoul(argv[3], 0, 10);
    uint32_t first = 0;
    if (connections < LOADERS || connections > MOST_CONNECTIONS || !connects(&last, port))
        return 2;
    for (uint32_t i = 0; i < LOADERS; i++) {
        uint32_t count = connections / LOADERS + (i < connections % LOADERS);
        if (!is_ready(&loaders[i], port, first, count, requests))
            return 6;
        first += count;
        loaders[i].swapper = &swapper;
    }
    loaders[0].swaps = (uint32_t)strtoul(argv[4], 0, 10);
    if (!joins(&loaders[0], &swapper, port))
        return 6;
    uint64_t start = now();
    for (int i = 0; i < LOADERS; i++)
        if (pthread_create(&loaders[i].thread, 0, work, &loaders[i]) != 0)
            return 6;
    for (int i = 0; i < LOADERS; i++)
        pthread_join(loaders[i].thread, 0);
    return finish(loaders, &last, now() - start);
}

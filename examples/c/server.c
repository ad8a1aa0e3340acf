/* A server of a line protocol over TCP: threads with a loop each call three objects, which are swapped meanwhile.

   server PORT THREADS listens on 127.0.0.1 alone; port 0 is any that is free. Each line is a command, and gets a line:

       add OBJECT AMOUNT          ok
       get OBJECT                 the value
       bind OBJECT KEY NUMBER     ok, or taken
       find OBJECT KEY            the number, or none
       write OBJECT PAGE TEXT     ok
       read OBJECT PAGE           the text, or none
       swap OBJECT LAYOUT         swapped NUMBER, or busy NUMBER
       quit                       nothing: the connection is closed
       stop                       ok: the server ends
   and any other line error and a word. What is held up blocks no loop: it is tried again at the loop's next turn. */
#define _GNU_SOURCE
#include "k42.h"

#include <errno.h>
#include <netinet/in.h>
#include <netinet/tcp.h>
#include <pthread.h>
#include <sched.h>
#include <stdatomic.h>
#include <stdbool.h>
#include <stdio.h>
#include <stdlib.h>
#include <string.h>
#include <sys/epoll.h>
#include <sys/socket.h>
#include <unistd.h>

enum { OBJECTS = 3, MOST_THREADS = 4, LINE = 256, ANSWER = 64, EVENTS = 64, BACKLOG = 1024, NAP_NS = 20000 };

/* Each thread calls with one pass and swaps with another, since a pass with a swap under way does nothing else. */
struct loop {
    _Alignas(64) k42_pass calls, swaps;
    pthread_t thread;
    int poll;
    int mail[2];                /* a pipe of the sockets that are given to it, which ends where it is to end */
    struct connection *first;   /* of its connections */
    struct connection *swapper; /* which waits for its swap */
    k42_swapping swapping;
    uint32_t swap;              /* K42_UNDERWAY while a swap goes on */
    uint32_t held_turns;        /* turns in a row with something held up */
    bool is_held, is_ended;     /* something is to be tried again; the thread is to end */
};

struct connection {
    struct connection *next;
    int socket;
    uint32_t interest;          /* the events that its loop waits for */
    bool is_asking;             /* its request has no answer yet */
    bool is_long;               /* what comes is the rest of a line that is too long */
    bool is_over, is_broken;    /* to be closed once all is answered, or at once */
    char in[LINE], out[ANSWER];
    size_t got, due, sent;      /* bytes in, bytes out, and how many of these were sent */
    const struct command *command;
    uint32_t object, layout;
    uint64_t number;            /* that is asked with, or answered */
    char line[LINE], *word;
    k42_text text;
};

static int listener;
static atomic_uint given_back, closed; /* passes, the last of which closes the system */

/* --- Lines --- */

enum { ADD, GET, BIND, FIND, WRITE, READ, SWAP, QUIT, STOP, COMMANDS };

/* What a command takes: an object, a layout, a number of 32 bits (u) or of 64 (n), a word. */
static const struct command {
    const char *name, *takes;
} commands[COMMANDS] = {
    {"add", "ou"},  {"get", "o"},  {"bind", "own"}, {"find", "ow"}, {"write", "ouw"},
    {"read", "ou"}, {"swap", "ol"}, {"quit", ""},    {"stop", ""},
};

static bool is_number(const char *word, uint64_t greatest, uint64_t *number) {
    for (*number = 0; *word; word++) {
        uint64_t digit = (uint64_t)*word - '0';
        if (digit > 9 || *number > (greatest - digit) / 10)
            return false;
        *number = *number * 10 + digit;
    }
    return true;
}

static bool is_among(const char *word, const char *const *words, uint32_t count, uint32_t *index) {
    for (*index = 0; *index < count; ++*index)
        if (strcmp(word, words[*index]) == 0)
            return true;
    return false;
}

/* Reads a word of a request. Says what is wrong with it, if anything is. */
static const char *parse_word(struct connection *it, char takes, char *word) {
    static const char *const objects[OBJECTS] = {"hits", "names", "cache"};
    static const char *const layouts[2] = {"shared", "spread"};
    switch (takes) {
    case 'o':
        return is_among(word, objects, OBJECTS, &it->object) ? 0 : "object";
    case 'l':
        return is_among(word, layouts, 2, &it->layout) ? 0 : "layout";
    case 'w':
        it->word = word;
        return 0;
    default:
        return is_number(word, takes == 'u' ? UINT32_MAX : UINT64_MAX, &it->number) ? 0 : "number";
    }
}

/* Reads the line of a request. Says what is wrong with it, if anything is. */
static const char *parse(struct connection *it) {
    char *rest = 0, *name = strtok_r(it->line, " ", &rest);
    it->command = 0;
    for (const struct command *at = commands; name && at < commands + COMMANDS; at++)
        if (strcmp(name, at->name) == 0)
            it->command = at;
    if (!it->command)
        return "command";
    for (const char *takes = it->command->takes; *takes; takes++) {
        char *word = strtok_r(0, " ", &rest);
        const char *wrong = word ? parse_word(it, *takes, word) : "words";
        if (wrong)
            return wrong;
    }
    return strtok_r(0, " ", &rest) ? "words" : 0;
}

/* Takes a whole line, if one has come, as the request. What is none is answered. */
static bool takes_line(struct connection *it) {
    char *end = memchr(it->in, '\n', it->got);
    if (!end) {
        it->is_long = it->is_long || it->got == LINE;
        it->got = it->got == LINE ? 0 : it->got;
        return false;
    }
    size_t length = (size_t)(end - it->in);
    memcpy(it->line, it->in, length);
    it->line[length] = 0;
    it->got -= length + 1;
    memmove(it->in, end + 1, it->got);
    const char *wrong = it->is_long ? "long" : strlen(it->line) < length ? "byte" : parse(it);
    it->is_long = false;
    it->is_asking = !wrong;
    if (wrong)
        it->due = (size_t)snprintf(it->out, ANSWER, "error %s\n", wrong);
    return true;
}

/* --- Requests --- */

/* Tries the request once. A swap begins where the activity is left, if no other is under way. */
static uint32_t try(struct loop *loop, struct connection *it) {
    k42_pass *pass = &loop->calls;
    switch (it->command - commands) {
    case ADD:
        return k42_add(pass, it->object, (uint32_t)it->number);
    case GET:
        return k42_get(pass, it->object, &it->number);
    case BIND:
        return k42_bind(pass, it->object, it->word, strlen(it->word), it->number);
    case FIND:
        return k42_find(pass, it->object, it->word, strlen(it->word), &it->number);
    case WRITE:
        return k42_write(pass, it->object, (uint32_t)it->number, it->word, strlen(it->word));
    case READ:
        return k42_read(pass, it->object, (uint32_t)it->number, &it->text);
    case SWAP:
        if (!loop->swapper && loop->swap != K42_UNDERWAY)
            loop->swapper = it;
        return K42_AGAIN;
    case QUIT:
        it->is_over = true;
        it->got = 0;
        return K42_DONE;
    default:
        shutdown(listener, SHUT_RD); /* which ends the wait for connections, and so all */
        return K42_DONE;
    }
}

/* Answers the request by the status of its call. There is room, since one answer is due at a time. */
static void answer(struct loop *loop, struct connection *it, uint32_t status) {
    static const char *const words[] = {
        [K42_NONE] = "none",       [K42_TAKEN] = "taken",             [K42_MEMORY] = "error memory",
        [K42_KIND] = "error kind", [K42_ARGUMENT] = "error argument", [K42_SPENT] = "error spent"};
    const char *word = status < sizeof words / sizeof *words && words[status] ? words[status] : "error status";
    long command = it->command - commands;
    int due = 0;
    if (status == K42_BUSY)
        due = snprintf(it->out, ANSWER, "busy %u\n", loop->swapping.number);
    else if (status != K42_DONE)
        due = snprintf(it->out, ANSWER, "%s\n", word);
    else if (command == SWAP)
        due = snprintf(it->out, ANSWER, "swapped %u\n", loop->swapping.number);
    else if (command == GET || command == FIND)
        due = snprintf(it->out, ANSWER, "%llu\n", (unsigned long long)it->number);
    else if (command == READ)
        due = snprintf(it->out, ANSWER, "%.*s\n", (int)it->text.length, it->text.bytes);
    else if (command != QUIT)
        due = snprintf(it->out, ANSWER, "ok\n");
    it->due = (size_t)due;
    it->is_asking = false;
}

/* Tries all requests in one activity, which is left before anything is waited for. */
static void try_all(struct loop *loop) {
    k42_enter(&loop->calls);
    for (struct connection *it = loop->first; it; it = it->next) {
        uint32_t status = it->is_asking && it != loop->swapper ? try(loop, it) : K42_AGAIN;
        if (status != K42_AGAIN)
            answer(loop, it, status);
    }
    k42_leave(&loop->calls);
}

/* Begins the swap that was asked for, or goes on with it. Whoever has asked may be gone by then. */
static void step_swap(struct loop *loop) {
    struct connection *it = loop->swapper;
    if (loop->swap == K42_UNDERWAY)
        loop->swap = k42_step(&loop->swaps, &loop->swapping);
    else if (it)
        loop->swap = k42_swap(&loop->swaps, it->object, it->layout, &loop->swapping);
    if (loop->swap == K42_UNDERWAY || !it)
        return;
    answer(loop, it, loop->swap);
    loop->swapper = 0;
}

/* --- Connections --- */

static void flush(struct connection *it) {
    ssize_t sent = it->due ? send(it->socket, it->out + it->sent, it->due - it->sent, MSG_NOSIGNAL) : 0;
    it->is_broken = it->is_broken || (sent < 0 && errno != EAGAIN);
    it->sent += sent > 0 ? (size_t)sent : 0;
    if (it->sent == it->due)
        it->due = it->sent = 0;
}

static void receive(struct connection *it, uint32_t ready) {
    size_t room = LINE - it->got;
    it->is_broken = ready & (EPOLLERR | EPOLLHUP);
    if (!(ready & EPOLLIN) || room == 0)
        return;
    ssize_t got = recv(it->socket, it->in + it->got, room, 0);
    it->got += got > 0 ? (size_t)got : 0;
    it->is_over = it->is_over || got == 0;
    it->is_broken = it->is_broken || (got < 0 && errno != EAGAIN);
}

/* Sends what is due, takes the next line, and says whether the connection stays. */
static bool stays(struct loop *loop, struct connection *it) {
    flush(it);
    while (it->due == 0 && !it->is_asking && takes_line(it))
        flush(it);
    if (it->is_broken || (it->is_over && it->due == 0 && !it->is_asking))
        return false;
    loop->is_held = loop->is_held || it->is_asking;
    uint32_t interest = it->due ? EPOLLOUT : it->is_over ? 0 : EPOLLIN;
    struct epoll_event event = {.events = interest, .data.ptr = it};
    if (interest != it->interest)
        epoll_ctl(loop->poll, EPOLL_CTL_MOD, it->socket, &event);
    it->interest = interest;
    return true;
}

/* Goes on with all connections, and closes those that do not stay. */
static void settle_all(struct loop *loop) {
    struct connection **at = &loop->first, *it;
    while ((it = *at)) {
        if (stays(loop, it)) {
            at = &it->next;
            continue;
        }
        if (loop->swapper == it)
            loop->swapper = 0;
        *at = it->next;
        close(it->socket);
        free(it);
    }
}

/* Takes a connection that is given to the loop, or learns that it is to end. */
static void take_mail(struct loop *loop) {
    int socket;
    loop->is_ended = read(loop->mail[0], &socket, sizeof socket) != sizeof socket;
    if (loop->is_ended)
        return;
    struct connection *it = calloc(1, sizeof *it);
    struct epoll_event event = {.events = EPOLLIN, .data.ptr = it};
    if (!it || epoll_ctl(loop->poll, EPOLL_CTL_ADD, socket, &event) != 0) {
        free(it);
        close(socket);
        return;
    }
    setsockopt(socket, IPPROTO_TCP, TCP_NODELAY, &(int){1}, sizeof(int));
    it->socket = socket;
    it->interest = EPOLLIN;
    it->next = loop->first;
    loop->first = it;
}

/* Where something is held up the loop soon naps, since who is in the way may wait for a processor. */
static void turn(struct loop *loop) {
    struct epoll_event events[EVENTS];
    loop->held_turns = loop->is_held ? loop->held_turns + 1 : 0;
    const struct timespec nap = {.tv_nsec = loop->held_turns > 1 ? NAP_NS : 0};
    int count = epoll_pwait2(loop->poll, events, EVENTS, loop->is_held ? &nap : 0, 0);
    for (int i = 0; i < count; i++) {
        if (events[i].data.ptr)
            receive(events[i].data.ptr, events[i].events);
        else
            take_mail(loop);
    }
    try_all(loop);
    step_swap(loop);
    loop->is_held = loop->swap == K42_UNDERWAY;
    settle_all(loop);
}

static void give_back(k42_pass *pass) {
    uint32_t status, missing;
    while ((status = k42_close(pass, &missing)) == K42_AGAIN)
        sched_yield();
    given_back += status == K42_MISSING;
    closed += status == K42_DONE;
}

static void *work(void *at) {
    struct loop *loop = at;
    while (!loop->is_ended)
        turn(loop);
    while (loop->swap == K42_UNDERWAY) {
        sched_yield();
        step_swap(loop);
    }
    for (struct connection *it = loop->first; it; it = it->next)
        it->is_broken = true;
    settle_all(loop);
    give_back(&loop->calls);
    give_back(&loop->swaps);
    return 0;
}

static bool begins(struct loop *loop, const k42_pass *passes) {
    struct epoll_event event = {.events = EPOLLIN, .data.ptr = 0};
    loop->calls = passes[0];
    loop->swaps = passes[1];
    loop->poll = epoll_create1(0);
    return pipe(loop->mail) == 0 && epoll_ctl(loop->poll, EPOLL_CTL_ADD, loop->mail[0], &event) == 0 &&
           pthread_create(&loop->thread, 0, work, loop) == 0;
}

/* Listens, and prints where. */
static bool listens(uint16_t port) {
    struct sockaddr_in place = {.sin_family = AF_INET, .sin_port = htons(port)};
    socklen_t length = sizeof place;
    place.sin_addr.s_addr = htonl(INADDR_LOOPBACK);
    listener = socket(AF_INET, SOCK_STREAM, 0);
    setsockopt(listener, SOL_SOCKET, SO_REUSEADDR, &(int){1}, sizeof(int));
    if (bind(listener, (struct sockaddr *)&place, length) != 0 || listen(listener, BACKLOG) != 0 ||
        getsockname(listener, (struct sockaddr *)&place, &length) != 0)
        return false;
    printf("listening on %u\n", ntohs(place.sin_port));
    return fflush(stdout) == 0;
}

/* Gives each connection to a loop, in turn, until there are no more. */
static void accept_all(struct loop *loops, uint32_t threads) {
    int socket;
    for (uint32_t turn = 0; (socket = accept4(listener, 0, 0, SOCK_NONBLOCK)) >= 0 || errno != EINVAL; turn++)
        if (socket < 0 || write(loops[turn % threads].mail[1], &socket, sizeof socket) < 0)
            usleep(1000);
}

int main(int argc, char **argv) {
    static struct loop loops[MOST_THREADS];
    static k42_pass passes[2 * MOST_THREADS];
    static const uint32_t homes[2 * MOST_THREADS] = {0, 0, 1, 1, 2, 2, 3, 3};
    static const k42_object objects[OBJECTS] = {
        {K42_COUNTER, K42_SPREAD}, {K42_DIRECTORY, K42_SPREAD}, {K42_PAGES, K42_SPREAD}};
    uint64_t port, threads;
    if (argc != 3 || !is_number(argv[1], UINT16_MAX, &port) || !is_number(argv[2], MOST_THREADS, &threads) || !threads)
        return fprintf(stderr, "usage: server PORT THREADS\n") > 0 ? 2 : 5;
    uint32_t count = (uint32_t)threads;
    if (!listens((uint16_t)port) ||
        k42_start(count, objects, OBJECTS, homes, 2 * count, K42_KEEP_NOTHING, passes, 2 * count) != K42_DONE)
        return 6;
    for (uint32_t i = 0; i < count; i++)
        if (!begins(&loops[i], &passes[2 * i]))
            return 6;
    accept_all(loops, count);
    for (uint32_t i = 0; i < count; i++) {
        close(loops[i].mail[1]);
        pthread_join(loops[i].thread, 0);
    }
    return closed == 1 && given_back == 2 * count - 1 ? 0 : 1;
}

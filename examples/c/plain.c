/* The calls that the server makes, over one lock, a hash table and an array in place of the library: the server that
   is linked with it is what that of the library is measured beside. A swap has nothing to do. */
#include "k42.h"

#include <pthread.h>
#include <stdbool.h>
#include <stdlib.h>
#include <string.h>

enum { MOST_OBJECTS = 16, BUCKETS = 16384, KEY = 16, PAGES = 65536, TEXT = 32 };

struct binding {
    struct binding *next;
    k42_key key;
    uint64_t number;
};

static struct object {
    uint32_t kind, swaps;
    uint64_t value;
    struct binding **buckets;
    k42_text *pages;
} objects[MOST_OBJECTS];

static size_t object_count;
static uint32_t missing_passes; /* a bit each */
static pthread_mutex_t lock = PTHREAD_MUTEX_INITIALIZER;

uint32_t k42_start(uint32_t processors, const k42_object *asked, size_t count, const uint32_t *homes,
                   size_t home_count, uint32_t keep, k42_pass *passes, size_t pass_count) {
    (void)processors, (void)homes, (void)home_count, (void)keep;
    object_count = count;
    for (size_t i = 0; i < count; i++) {
        objects[i].kind = asked[i].kind;
        objects[i].buckets = calloc(BUCKETS, sizeof *objects[i].buckets);
        objects[i].pages = calloc(PAGES, sizeof *objects[i].pages);
        if (!objects[i].buckets || !objects[i].pages)
            return K42_MEMORY;
    }
    for (size_t i = 0; i < pass_count; i++) {
        passes[i].opaque[0] = 1u << i;
        missing_passes |= 1u << i;
    }
    return K42_DONE;
}

uint32_t k42_enter(k42_pass *pass) {
    (void)pass;
    return K42_DONE;
}

uint32_t k42_leave(k42_pass *pass) {
    (void)pass;
    return K42_DONE;
}

/* What is wrong with a call of the kind, if anything is. */
static uint32_t wrong(uint32_t object, uint32_t kind) {
    return object >= object_count ? K42_OBJECT : objects[object].kind != kind ? K42_KIND : K42_DONE;
}

uint32_t k42_add(k42_pass *pass, uint32_t object, uint32_t amount) {
    (void)pass;
    uint32_t status = wrong(object, K42_COUNTER);
    if (status != K42_DONE)
        return status;
    pthread_mutex_lock(&lock);
    objects[object].value += amount;
    pthread_mutex_unlock(&lock);
    return K42_DONE;
}

uint32_t k42_get(k42_pass *pass, uint32_t object, uint64_t *value) {
    (void)pass;
    uint32_t status = wrong(object, K42_COUNTER);
    if (status != K42_DONE)
        return status;
    pthread_mutex_lock(&lock);
    *value = objects[object].value;
    pthread_mutex_unlock(&lock);
    return K42_DONE;
}

static bool is_key(const char *bytes, size_t length) {
    static const char letters[] = "abcdefghijklmnopqrstuvwxyz", others[] = "0123456789_";
    for (size_t i = 0; i < length; i++)
        if (bytes[i] == 0 || (!strchr(letters, bytes[i]) && (i == 0 || !strchr(others, bytes[i]))))
            return false;
    return length >= 1 && length <= KEY;
}

/* Where the binding of a key is led to, or would be. */
static struct binding **place(struct object *object, const char *key, size_t length) {
    uint64_t hash = 14695981039346656037u;
    for (size_t i = 0; i < length; i++)
        hash = (hash ^ (unsigned char)key[i]) * 1099511628211u;
    struct binding **at = &object->buckets[(hash ^ hash >> 32) % BUCKETS];
    while (*at && ((*at)->key.length != length || memcmp((*at)->key.bytes, key, length) != 0))
        at = &(*at)->next;
    return at;
}

uint32_t k42_bind(k42_pass *pass, uint32_t object, const char *key, size_t length, uint64_t number) {
    (void)pass;
    uint32_t status = wrong(object, K42_DIRECTORY);
    if (status != K42_DONE || !is_key(key, length))
        return status != K42_DONE ? status : K42_ARGUMENT;
    struct binding *binding = calloc(1, sizeof *binding);
    if (!binding)
        return K42_MEMORY;
    binding->key.length = (uint32_t)length;
    memcpy(binding->key.bytes, key, length);
    binding->number = number;
    pthread_mutex_lock(&lock);
    struct binding **at = place(&objects[object], key, length);
    bool taken = *at;
    if (!taken)
        *at = binding;
    pthread_mutex_unlock(&lock);
    if (taken)
        free(binding);
    return taken ? K42_TAKEN : K42_DONE;
}

uint32_t k42_find(k42_pass *pass, uint32_t object, const char *key, size_t length, uint64_t *number) {
    (void)pass;
    uint32_t status = wrong(object, K42_DIRECTORY);
    if (status != K42_DONE || !is_key(key, length))
        return status != K42_DONE ? status : K42_ARGUMENT;
    pthread_mutex_lock(&lock);
    struct binding *found = *place(&objects[object], key, length);
    if (found)
        *number = found->number;
    pthread_mutex_unlock(&lock);
    return found ? K42_DONE : K42_NONE;
}

uint32_t k42_write(k42_pass *pass, uint32_t object, uint32_t page, const char *text, size_t length) {
    (void)pass;
    bool is_text = page < PAGES && length >= 1 && length <= TEXT;
    for (size_t i = 0; is_text && i < length; i++)
        is_text = text[i] >= '!' && text[i] <= '~';
    uint32_t status = wrong(object, K42_PAGES);
    if (status != K42_DONE || !is_text)
        return status != K42_DONE ? status : K42_ARGUMENT;
    k42_text written = {.length = (uint32_t)length};
    memcpy(written.bytes, text, length);
    pthread_mutex_lock(&lock);
    objects[object].pages[page] = written;
    pthread_mutex_unlock(&lock);
    return K42_DONE;
}

uint32_t k42_read(k42_pass *pass, uint32_t object, uint32_t page, k42_text *text) {
    (void)pass;
    uint32_t status = wrong(object, K42_PAGES);
    if (status != K42_DONE || page >= PAGES)
        return status != K42_DONE ? status : K42_ARGUMENT;
    pthread_mutex_lock(&lock);
    k42_text read = objects[object].pages[page];
    pthread_mutex_unlock(&lock);
    if (read.length == 0)
        return K42_NONE;
    *text = read;
    return K42_DONE;
}

uint32_t k42_swap(k42_pass *pass, uint32_t object, uint32_t layout, k42_swapping *swap) {
    (void)pass, (void)layout;
    if (object >= object_count)
        return K42_OBJECT;
    pthread_mutex_lock(&lock);
    *swap = (k42_swapping){.number = ++objects[object].swaps};
    pthread_mutex_unlock(&lock);
    return K42_DONE;
}

uint32_t k42_step(k42_pass *pass, k42_swapping *swap) {
    (void)pass, (void)swap;
    return K42_TURN;
}

static void clear(struct object *object) {
    for (size_t i = 0; i < BUCKETS; i++) {
        while (object->buckets[i]) {
            struct binding *binding = object->buckets[i];
            object->buckets[i] = binding->next;
            free(binding);
        }
    }
    free(object->buckets);
    free(object->pages);
}

uint32_t k42_close(k42_pass *pass, uint32_t *missing) {
    pthread_mutex_lock(&lock);
    uint32_t left = missing_passes &= ~(uint32_t)pass->opaque[0];
    pthread_mutex_unlock(&lock);
    pass->opaque[0] = 0;
    *missing = left;
    for (size_t i = 0; left == 0 && i < object_count; i++)
        clear(&objects[i]);
    return left == 0 ? K42_DONE : K42_MISSING;
}

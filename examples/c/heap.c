/* The memory that libk42_c.a asks for, over malloc. */
#include <stdbool.h>
#include <stddef.h>
#include <stdlib.h>

struct tried {
    bool ok;
    void *p; /* where there was no memory, some byte */
};

static char nothing;

/* A block of n bytes that is aligned to so many, at most 16. */
struct tried rattle_alloc(size_t n, size_t align) {
    void *p = malloc(n ? n : align);
    return (struct tried){p != 0, p ? p : &nothing};
}

/* The block p, of which the first bytes are kept, with n bytes. */
struct tried rattle_realloc(void *p, size_t kept, size_t n, size_t align) {
    (void)kept;
    p = realloc(p, n ? n : align);
    return (struct tried){p != 0, p ? p : &nothing};
}

void rattle_dealloc(void *p) {
    free(p);
}

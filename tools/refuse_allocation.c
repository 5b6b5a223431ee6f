/* A malloc to preload: it refuses one allocation of a process, the one that REFUSED_ALLOCATION names, from 1 on, and
   writes into the file ALLOCATIONS_TOLD how many there were. See refuse-allocations. */
#include <errno.h>
#include <stddef.h>
#include <stdio.h>
#include <stdlib.h>

void *__libc_malloc(size_t size);
void *__libc_realloc(void *old, size_t size);

static unsigned long count, refused;

static int is_refused(void) {
    return __atomic_add_fetch(&count, 1, __ATOMIC_SEQ_CST) == refused;
}

__attribute__((constructor)) static void begin(void) {
    const char *number = getenv("REFUSED_ALLOCATION");
    refused = number ? strtoul(number, NULL, 10) : 0;
    count = 0;
}

__attribute__((destructor)) static void end(void) {
    const char *name = getenv("ALLOCATIONS_TOLD");
    unsigned long total = count;
    refused = 0;
    FILE *told = name ? fopen(name, "w") : NULL;
    if (told) {
        fprintf(told, "%lu\n", total);
        fclose(told);
    }
}

void *malloc(size_t size) {
    if (is_refused()) {
        errno = ENOMEM;
        return NULL;
    }
    return __libc_malloc(size);
}

void *realloc(void *old, size_t size) {
    if (is_refused()) {
        errno = ENOMEM;
        return NULL;
    }
    return __libc_realloc(old, size);
}

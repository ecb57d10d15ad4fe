/* Refuses the allocation whose number the variable REFUSE has, from 1; at the end says how many there were. */
#define _GNU_SOURCE
#include <dlfcn.h>
#include <errno.h>
#include <stdio.h>
#include <stdlib.h>
#include <string.h>
#include <unistd.h>

static unsigned long seen, refused;
static int ready;

static int is_refused(void) {
    if (!ready) {
        const char *number = getenv("REFUSE");
        ready = 1;
        refused = number ? strtoul(number, NULL, 10) : 0;
    }
    return ++seen == refused;
}

void *malloc(size_t size) {
    static void *(*plain)(size_t);
    if (!plain) plain = dlsym(RTLD_NEXT, "malloc");
    if (is_refused()) { errno = ENOMEM; return NULL; }
    return plain(size);
}

void *realloc(void *old, size_t size) {
    static void *(*plain)(void *, size_t);
    if (!plain) plain = dlsym(RTLD_NEXT, "realloc");
    if (is_refused()) { errno = ENOMEM; return NULL; }
    return plain(old, size);
}

__attribute__((destructor)) static void say(void) {
    char text[64];
    int length = snprintf(text, sizeof text, "allocations %lu\n", seen);
    if (getenv("COUNT") && write(2, text, length) < 0) abort();
}

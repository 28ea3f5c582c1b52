/* Stands before the allocator of a program: the growth of number GROWTH_FAILS, counted from 1, finds no memory.
   How many growths were asked for is written to the file GROWTHS_TO. */
#define _GNU_SOURCE
#include <dlfcn.h>
#include <fcntl.h>
#include <stddef.h>
#include <stdio.h>
#include <stdlib.h>
#include <unistd.h>

static unsigned long asked, fails;

__attribute__((constructor)) static void begin(void) {
    const char *number = getenv("GROWTH_FAILS");
    fails = number ? strtoul(number, NULL, 10) : 0;
    asked = 0;
}

__attribute__((destructor)) static void end(void) {
    const char *path = getenv("GROWTHS_TO");
    int file = path ? open(path, O_WRONLY | O_CREAT | O_TRUNC, 0600) : -1;
    if (file >= 0) {
        dprintf(file, "%lu", asked);
        close(file);
    }
}

void *malloc(size_t size) {
    static void *(*next)(size_t);
    if (!next) next = (void *(*)(size_t))dlsym(RTLD_NEXT, "malloc");
    return ++asked == fails ? NULL : next(size);
}

void *realloc(void *old, size_t size) {
    static void *(*next)(void *, size_t);
    if (!next) next = (void *(*)(void *, size_t))dlsym(RTLD_NEXT, "realloc");
    return ++asked == fails ? NULL : next(old, size);
}

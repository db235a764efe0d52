/* Refuses the memory of one request, the Nth of the process by REFUSE=N, to be loaded before a program. It writes how many
   requests there were to the file REFUSE_COUNT, where that is given. */
#define _GNU_SOURCE
#include <dlfcn.h>
#include <stdlib.h>
#include <stdio.h>
#include <string.h>
#include <unistd.h>
static unsigned long seen, refused;
static int asked;
static int refuses(void) {
    if (!asked) { const char *n = getenv("REFUSE"); refused = n ? strtoul(n, 0, 10) : 0; asked = 1; }
    return ++seen == refused;
}
#define NEXT(name) ((__typeof__(&name))dlsym(RTLD_NEXT, #name))
void *malloc(size_t size) { static void *(*next)(size_t); if (!next) next = NEXT(malloc); return refuses() ? 0 : next(size); }
void *realloc(void *at, size_t size) { static void *(*next)(void *, size_t); if (!next) next = NEXT(realloc); return refuses() ? 0 : next(at, size); }
void *aligned_alloc(size_t align, size_t size) { static void *(*next)(size_t, size_t); if (!next) next = NEXT(aligned_alloc); return refuses() ? 0 : next(align, size); }
int posix_memalign(void **at, size_t align, size_t size) { static int (*next)(void **, size_t, size_t); if (!next) next = NEXT(posix_memalign); return refuses() ? 12 : next(at, align, size); }
__attribute__((destructor)) static void count(void) {
    const char *name = getenv("REFUSE_COUNT");
    if (!name) return;
    FILE *out = fopen(name, "w");
    if (out) { fprintf(out, "%lu\n", seen); fclose(out); }
}

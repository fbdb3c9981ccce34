/* Loaded before a program, it has one call of it fail, or each from that one on, or moves few bytes at once: `FAIL` names the
   kind of call, allocate, open, read or write, `FROM` and `TO` the first and the last that fails, from 1, and `PIECE` how many
   bytes a read or a write moves at most. As the program ends it writes how many calls of each kind it made into `COUNTS`. */
#define _GNU_SOURCE
#include <dlfcn.h>
#include <errno.h>
#include <fcntl.h>
#include <stdarg.h>
#include <stdio.h>
#include <stdlib.h>
#include <string.h>
#include <unistd.h>

enum kind { ALLOCATE, OPEN, READ, WRITE, KINDS };

static const char *const names[KINDS] = {"allocate", "open", "read", "write"};
static unsigned long counts[KINDS], first, last;
static size_t piece;
static int failing = -1, counting;

static unsigned long number(const char *name) {
    const char *text = getenv(name);
    return text ? strtoul(text, NULL, 10) : 0;
}

__attribute__((constructor)) static void begin(void) {
    const char *kind = getenv("FAIL");
    for (int i = 0; kind && i < KINDS; i++)
        if (strcmp(kind, names[i]) == 0) failing = i;
    first = number("FROM");
    last = number("TO");
    piece = number("PIECE");
    counting = 1;
}

/* Counts a call, and says whether it fails. */
static int fails(enum kind kind, int error) {
    if (!counting) return 0;
    const unsigned long call = ++counts[kind];
    if ((int)kind != failing || call < first || call > last) return 0;
    errno = error;
    return 1;
}

static size_t moved(size_t count) { return piece && count > piece ? piece : count; }

void *malloc(size_t size) {
    static void *(*next)(size_t);
    if (!next) *(void **)&next = dlsym(RTLD_NEXT, "malloc");
    return fails(ALLOCATE, ENOMEM) ? NULL : next(size);
}

void *realloc(void *old, size_t size) {
    static void *(*next)(void *, size_t);
    if (!next) *(void **)&next = dlsym(RTLD_NEXT, "realloc");
    return fails(ALLOCATE, ENOMEM) ? NULL : next(old, size);
}

int open(const char *path, int flags, ...) {
    static int (*next)(const char *, int, ...);
    if (!next) *(void **)&next = dlsym(RTLD_NEXT, "open");
    va_list rest;
    va_start(rest, flags);
    const int mode = va_arg(rest, int);
    va_end(rest);
    return fails(OPEN, EACCES) ? -1 : next(path, flags, mode);
}

ssize_t read(int file, void *bytes, size_t count) {
    static ssize_t (*next)(int, void *, size_t);
    if (!next) *(void **)&next = dlsym(RTLD_NEXT, "read");
    return fails(READ, EIO) ? -1 : next(file, bytes, moved(count));
}

ssize_t write(int file, const void *bytes, size_t count) {
    static ssize_t (*next)(int, const void *, size_t);
    if (!next) *(void **)&next = dlsym(RTLD_NEXT, "write");
    return fails(WRITE, EIO) ? -1 : next(file, bytes, moved(count));
}

__attribute__((destructor)) static void end(void) {
    const char *path = getenv("COUNTS");
    counting = 0;
    FILE *file = path ? fopen(path, "w") : NULL;
    if (!file) return;
    fprintf(file, "%lu %lu %lu %lu\n", counts[ALLOCATE], counts[OPEN], counts[READ], counts[WRITE]);
    fclose(file);
}

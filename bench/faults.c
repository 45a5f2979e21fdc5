/* Lets one call of the C library fail, counted from main on: loaded before the C library by LD_PRELOAD, for bench/faults.
   FAULT_CALL    memory (malloc, calloc, realloc), read or write: which calls are counted
   FAULT_AT      the number of the first call that is touched, from 1 on; 0 touches none
   FAULT_BEHIND  1: all calls behind it too
   FAULT_HOW     fail: it answers an error (no memory, EIO, ENOSPC); interrupt: EINTR; a number: at most so many bytes
   FAULT_COUNT   a file that gets the number of calls, at the end
   FAULT_FD      where set, reads and writes of this descriptor alone are counted */
#define _GNU_SOURCE
#include <dlfcn.h>
#include <errno.h>
#include <fcntl.h>
#include <stdio.h>
#include <stdlib.h>
#include <string.h>
#include <unistd.h>

static void *(*real_malloc)(size_t);
static void *(*real_calloc)(size_t, size_t);
static void *(*real_realloc)(void *, size_t);
static ssize_t (*real_read)(int, void *, size_t);
static ssize_t (*real_write)(int, const void *, size_t);

static enum { NONE, MEMORY, READ, WRITE } counted = NONE;
static long at, calls, fd = -1;
static int behind;
static const char *how = "fail";

/* whether this call, which is counted, is touched */
static int touched(void) {
    calls++;
    return at > 0 && (calls == at || (behind && calls > at));
}

static void find(void) {
    real_malloc = dlsym(RTLD_NEXT, "malloc");
    real_calloc = dlsym(RTLD_NEXT, "calloc");
    real_realloc = dlsym(RTLD_NEXT, "realloc");
    real_read = dlsym(RTLD_NEXT, "read");
    real_write = dlsym(RTLD_NEXT, "write");
}

__attribute__((constructor)) static void begin(void) {
    find();
    const char *call = getenv("FAULT_CALL"), *number = getenv("FAULT_AT"), *all = getenv("FAULT_BEHIND"), *one = getenv("FAULT_FD");
    if (getenv("FAULT_HOW")) how = getenv("FAULT_HOW");
    at = number ? atol(number) : 0;
    behind = all && *all == '1';
    if (one) fd = atol(one);
    if (call) counted = !strcmp(call, "memory") ? MEMORY : !strcmp(call, "read") ? READ : !strcmp(call, "write") ? WRITE : NONE;
}

__attribute__((destructor)) static void end(void) {
    const char *name = getenv("FAULT_COUNT");
    counted = NONE;
    FILE *file = name ? fopen(name, "w") : NULL;
    if (!file) return;
    fprintf(file, "%ld\n", calls);
    fclose(file);
}

static int has_no_memory(void) {
    if (counted != MEMORY || !touched()) return 0;
    errno = ENOMEM;
    return 1;
}

void *malloc(size_t bytes) {
    if (!real_malloc) find();
    return has_no_memory() ? NULL : real_malloc(bytes);
}

/* dlsym may ask for memory before it knows where calloc is */
void *calloc(size_t items, size_t bytes) {
    static char early[4096];
    static size_t taken;
    if (!real_calloc) {
        void *room = early + taken;
        taken += (items * bytes + 15) / 16 * 16;
        return taken <= sizeof early ? room : NULL;
    }
    return has_no_memory() ? NULL : real_calloc(items, bytes);
}

void *realloc(void *old, size_t bytes) {
    if (!real_realloc) find();
    return has_no_memory() ? NULL : real_realloc(old, bytes);
}

/* how many bytes the call may move, or -1 where it fails */
static ssize_t allowed(int of, size_t bytes, int error) {
    if (fd >= 0 && of != fd) return bytes;
    if (!touched()) return bytes;
    if (!strcmp(how, "interrupt")) error = EINTR;
    else if (strcmp(how, "fail")) return bytes < (size_t)atol(how) ? bytes : (size_t)atol(how);
    errno = error;
    return -1;
}

ssize_t read(int of, void *into, size_t bytes) {
    ssize_t most = counted == READ ? allowed(of, bytes, EIO) : (ssize_t)bytes;
    return most < 0 ? -1 : real_read(of, into, most);
}

ssize_t write(int of, const void *from, size_t bytes) {
    ssize_t most = counted == WRITE ? allowed(of, bytes, ENOSPC) : (ssize_t)bytes;
    if (most < 0) return -1;
    return most == 0 ? 0 : real_write(of, from, most);
}

/* Preloaded into a program (LD_PRELOAD): as long as the file FULL is there, no write to a journal finds room. */
#define _GNU_SOURCE
#include <dlfcn.h>
#include <errno.h>
#include <stdio.h>
#include <stdlib.h>
#include <string.h>
#include <unistd.h>

static int ends_with(const char *name, const char *end) {
    size_t whole = strlen(name), part = strlen(end);
    return whole >= part && strcmp(name + whole - part, end) == 0;
}

static int is_refused(int fd) {
    char link[64], name[4096];
    const char *full = getenv("FULL");
    if (!full || access(full, F_OK) != 0) return 0;
    snprintf(link, sizeof link, "/proc/self/fd/%d", fd);
    ssize_t length = readlink(link, name, sizeof name - 1);
    if (length < 0) return 0;
    name[length] = 0;
    return ends_with(name, ".journal") || ends_with(name, ".copy");
}

ssize_t write(int fd, const void *octets, size_t count) {
    static ssize_t (*real)(int, const void *, size_t);
    if (!real) real = (ssize_t (*)(int, const void *, size_t))dlsym(RTLD_NEXT, "write");
    if (is_refused(fd)) {
        const char *as = getenv("FULL_AS");
        errno = as && strcmp(as, "EDQUOT") == 0 ? EDQUOT : ENOSPC;
        return -1;
    }
    return real(fd, octets, count);
}

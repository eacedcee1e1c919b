/* Preloaded into a server (LD_PRELOAD): its clocks read what the driver says, a rest lasts until something comes or the driver ticks,
 * and the link breaks as the driver says. YEAR_SHARED names the mapped file, YEAR_SIDE is 0 or 1, YEAR_TICKS has the descriptors of
 * both servers' eventfds. All else is the system's. */
#define _GNU_SOURCE
#include "shared.h"
#include <dlfcn.h>
#include <errno.h>
#include <fcntl.h>
#include <linux/futex.h>
#include <netinet/in.h>
#include <poll.h>
#include <stdlib.h>
#include <stdio.h>
#include <sys/epoll.h>
#include <sys/mman.h>
#include <sys/socket.h>
#include <sys/syscall.h>
#include <time.h>
#include <unistd.h>

#define REAL(result, name, ...) \
    static result (*real_##name)(__VA_ARGS__); \
    if (!real_##name) real_##name = (result (*)(__VA_ARGS__))dlsym(RTLD_NEXT, #name)

enum { MOST_FILES = 1024 };

static struct shared *shared;
static int side, ticks[2];
/* the connections of the link */
static char is_link[MOST_FILES];
/* whether it wrote anything since its last rest: what it wrote in keeping up it tells in the next turn, which it has at once */
static int has_written;

static void die(const char *why) {
    perror(why);
    _exit(99);
}

__attribute__((constructor)) static void begin(void) {
    const char *path = getenv("YEAR_SHARED"), *words = getenv("YEAR_TICKS");
    if (!path || !words || sscanf(words, "%d,%d", &ticks[0], &ticks[1]) != 2) die("YEAR_SHARED, YEAR_TICKS");
    side = atoi(getenv("YEAR_SIDE"));
    int file = open(path, O_RDWR | O_CLOEXEC);
    shared = file < 0 ? MAP_FAILED : mmap(NULL, sizeof *shared, PROT_READ | PROT_WRITE, MAP_SHARED, file, 0);
    if (shared == MAP_FAILED) die(path);
}

static struct server *own(void) { return &shared->servers[side]; }

static struct server *other(void) { return &shared->servers[1 - side]; }

static int is_linked(int file) { return file >= 0 && file < MOST_FILES && is_link[file]; }

/* gives the partner something that no event of its own tells of */
static void tick_partner(void) {
    uint64_t one = 1;
    if (write(ticks[1 - side], &one, 8) == 8) atomic_fetch_add(&other()->given, 1);
}

int clock_gettime(clockid_t clock, struct timespec *out) {
    int64_t now;
    switch (clock) {
    case CLOCK_REALTIME:
    case CLOCK_REALTIME_COARSE:
        now = atomic_load(&own()->real_ns);
        break;
    case CLOCK_MONOTONIC:
    case CLOCK_MONOTONIC_RAW:
    case CLOCK_MONOTONIC_COARSE:
    case CLOCK_BOOTTIME:
        now = atomic_load(&own()->mono_ns);
        break;
    default:
        return (int)syscall(SYS_clock_gettime, clock, out);
    }
    out->tv_sec = now / 1000000000;
    out->tv_nsec = now % 1000000000;
    return 0;
}

/* a broken link's connections are ended, as if the network had told */
static void break_links(void) {
    if (atomic_load(&own()->link) != BROKEN) return;
    for (int file = 0; file < MOST_FILES; file++)
        if (is_link[file]) shutdown(file, SHUT_RDWR);
}

static void rest(void) {
    atomic_store(&own()->rests, 1);
    atomic_fetch_add(&shared->bell, 1);
    if (atomic_load(&shared->waits)) syscall(SYS_futex, &shared->bell, FUTEX_WAKE, 1, NULL, NULL, 0);
}

int epoll_wait(int epoll, struct epoll_event *events, int most, int timeout) {
    REAL(int, epoll_wait, int, struct epoll_event *, int, int);
    (void)timeout;
    atomic_fetch_add(&own()->turns, 1);
    if (has_written) {
        has_written = 0;
        return 0;
    }
    for (int may_wait = 0;; may_wait = -1) {
        break_links();
        uint64_t count;
        struct pollfd files[2] = {{.fd = ticks[side], .events = POLLIN}, {.fd = epoll, .events = POLLIN}};
        int found = poll(files, 2, may_wait);
        atomic_store(&own()->rests, 0);
        if (found < 0) return -1;
        if (files[0].revents) {
            if (read(ticks[side], &count, 8) != 8) return -1;
            atomic_fetch_add(&own()->taken, count);
            return 0;
        }
        if (files[1].revents) {
            int ready = real_epoll_wait(epoll, events, most, 0);
            if (ready != 0) return ready;
        }
        rest();
    }
}

int connect(int file, const struct sockaddr *address, socklen_t length) {
    REAL(int, connect, int, const struct sockaddr *, socklen_t);
    if (address->sa_family == AF_UNIX || file >= MOST_FILES) return real_connect(file, address, length);
    if (atomic_load(&own()->link) != STANDS) {
        errno = atomic_load(&own()->link) == SILENT ? EINPROGRESS : ENETUNREACH;
        return -1;
    }
    is_link[file] = 1;
    return real_connect(file, address, length);
}

int accept4(int listener, struct sockaddr *address, socklen_t *length, int flags) {
    REAL(int, accept4, int, struct sockaddr *, socklen_t *, int);
    int file = real_accept4(listener, address, length, flags), domain = 0;
    socklen_t size = sizeof domain;
    if (file >= 0 && file < MOST_FILES && getsockopt(file, SOL_SOCKET, SO_DOMAIN, &domain, &size) == 0) is_link[file] = domain != AF_UNIX;
    return file;
}

int close(int file) {
    REAL(int, close, int);
    int was_link = is_linked(file);
    if (was_link) is_link[file] = 0;
    int done = real_close(file);
    if (was_link) tick_partner();
    return done;
}

ssize_t recv(int file, void *buffer, size_t size, int flags) {
    REAL(ssize_t, recv, int, void *, size_t, int);
    if (is_linked(file) && atomic_load(&own()->link) == SILENT) {
        errno = EAGAIN;
        return -1;
    }
    ssize_t count = real_recv(file, buffer, size, flags);
    if (count <= 0 || !is_linked(file)) return count;
    atomic_fetch_add(&own()->heard, count);
    if (atomic_exchange(&other()->stuck, 0)) tick_partner();
    return count;
}

ssize_t recvfrom(int file, void *buffer, size_t size, int flags, struct sockaddr *from, socklen_t *length) {
    REAL(ssize_t, recvfrom, int, void *, size_t, int, struct sockaddr *, socklen_t *);
    ssize_t count = real_recvfrom(file, buffer, size, flags, from, length);
    if (count >= 0) atomic_fetch_add(&own()->taken, 1);
    return count;
}

ssize_t send(int file, const void *octets, size_t size, int flags) {
    REAL(ssize_t, send, int, const void *, size_t, int);
    ssize_t count = real_send(file, octets, size, flags);
    if (!is_linked(file)) return count;
    if (count > 0) atomic_fetch_add(&other()->sent, count);
    if (count < (ssize_t)size) atomic_store(&own()->stuck, 1);
    return count;
}

int fdatasync(int file) {
    REAL(int, fdatasync, int);
    atomic_fetch_add(&own()->syncs, 1);
    has_written = 1;
    /* a killed process loses nothing that the system has, and a lost disk isn't played here */
    return getenv("YEAR_UNSYNCED") ? 0 : real_fdatasync(file);
}

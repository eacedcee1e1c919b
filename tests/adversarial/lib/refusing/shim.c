/* Preloaded into a program (LD_PRELOAD): of its calls that reach the system one is refused.
 *
 * A call has a kind, the name of its function, and a target: the file or the sort of socket that it is about; the calls of a kind and
 * target are counted from 1. `-idle` stands behind the target of a call that finds nothing to take.
 * REFUSE_LOG names a file that gets a line for each call, `KIND TARGET`.
 * REFUSE_CALL is `KIND TARGET NUMBER HOW VALUE`: that call is refused, and the file REFUSE_DONE made. HOW is one of
 *   fail     it fails with the errno VALUE, and nothing is done
 *   stay     so do all calls of its kind from then on, but for those about the three standard streams
 *   short    it does one octet alone
 *   part     it writes half of its octets, and the next one to the same target fails with the errno VALUE
 *   end      it finds the end of its file
 *   back     this clock reads VALUE milliseconds less, from this call on
 *   once     this clock reads VALUE milliseconds less, this once
 *   stand    this clock stands from this call on */
#define _GNU_SOURCE
#include <dirent.h>
#include <dlfcn.h>
#include <errno.h>
#include <fcntl.h>
#include <link.h>
#include <netinet/in.h>
#include <poll.h>
#include <pthread.h>
#include <stdarg.h>
#include <stdatomic.h>
#include <stdint.h>
#include <stdio.h>
#include <stdlib.h>
#include <string.h>
#include <sys/epoll.h>
#include <sys/file.h>
#include <sys/ioctl.h>
#include <sys/socket.h>
#include <sys/stat.h>
#include <sys/syscall.h>
#include <time.h>
#include <unistd.h>

enum { MOST_FILES = 1024, NAME = 64, KINDS = 256 };
enum how { GOES, FAILS, STAYS, SHORT, PART, ENDS, BACK, ONCE, STANDS };
static const char *const HOWS[] = {"", "fail", "stay", "short", "part", "end", "back", "once", "stand"};

static char names[MOST_FILES][NAME] = {"stdin", "stdout", "stderr"};
static struct { char kind[NAME], target[NAME]; long count; } counts[KINDS];
static char kind_refused[NAME], target_refused[NAME];
static long number_refused, value;
static enum how how;
static int log_file = -1;
/* whether the call came that is refused, and whether the one behind a part is yet to fail */
static atomic_int has_come, fails_next;
static struct timespec stood;
static pthread_mutex_t lock = PTHREAD_MUTEX_INITIALIZER;

static int find_program(struct dl_phdr_info *, size_t, void *);
static int opened(const char *path, int flags) { return (int)syscall(SYS_openat, AT_FDCWD, path, flags | O_CLOEXEC, 0600); }

__attribute__((constructor)) static void begin(void) {
    const char *log = getenv("REFUSE_LOG"), *call = getenv("REFUSE_CALL");
    char word[NAME] = "";
    if (log) {
        int file = opened(log, O_WRONLY | O_CREAT | O_APPEND);
        log_file = (int)syscall(SYS_fcntl, file, F_DUPFD_CLOEXEC, MOST_FILES - 10);
        syscall(SYS_close, file);
    }
    if (call && sscanf(call, "%63s %63s %ld %63s %ld", kind_refused, target_refused, &number_refused, word, &value) == 5)
        for (int each = FAILS; each <= STANDS; each++)
            if (!strcmp(word, HOWS[each])) how = each;
    if (call && how == GOES) _exit(99);
    dl_iterate_phdr(find_program, NULL);
}

static const char *name_of(int file) { return file >= 0 && file < MOST_FILES && names[file][0] ? names[file] : "other"; }

/* the last name of a path, without the strokes and spaces that it has */
static const char *last_of(char *room, const char *path) {
    size_t end = strlen(path);
    while (end > 1 && path[end - 1] == '/') end--;
    size_t begin = end;
    while (begin > 0 && path[begin - 1] != '/') begin--;
    snprintf(room, NAME, "%.*s", (int)(end - begin), path + begin);
    for (char *each = room; *each; each++)
        if (*each == ' ') *each = '_';
    return room;
}

static void name(int file, const char *path) {
    if (file >= 0 && file < MOST_FILES) last_of(names[file], path);
}

/* the number of this call among those of its kind and target */
static long number_of(const char *kind, const char *target) {
    long number = 0;
    pthread_mutex_lock(&lock);
    for (int place = 0; place < KINDS && !number; place++) {
        if (!counts[place].count) {
            snprintf(counts[place].kind, NAME, "%s", kind);
            snprintf(counts[place].target, NAME, "%s", target);
        }
        if (!strcmp(counts[place].kind, kind) && !strcmp(counts[place].target, target)) number = ++counts[place].count;
    }
    pthread_mutex_unlock(&lock);
    return number;
}

static void note_done(void) {
    const char *done = getenv("REFUSE_DONE");
    if (atomic_exchange(&has_come, 1) || !done) return;
    syscall(SYS_close, opened(done, O_WRONLY | O_CREAT));
}

/* how this call goes; where it fails, errno says why */
static enum how verdict(const char *kind, const char *target) {
    int before = errno;
    long number = number_of(kind, target);
    if (log_file >= 0) {
        char line[3 * NAME];
        int size = snprintf(line, sizeof line, "%s %s\n", kind, target);
        syscall(SYS_write, log_file, line, size);
    }
    errno = before;
    if (how == GOES || strcmp(kind, kind_refused)) return GOES;
    int is_same = !strcmp(target, target_refused);
    if (how == PART && is_same && atomic_exchange(&fails_next, 0)) {
        errno = (int)value;
        return FAILS;
    }
    int is_standard = !strcmp(target, "stdin") || !strcmp(target, "stdout") || !strcmp(target, "stderr");
    if (how == STAYS && atomic_load(&has_come) && !is_standard) {
        errno = (int)value;
        return FAILS;
    }
    if ((how == BACK || how == STANDS) && is_same && number > number_refused) return how;
    if (!is_same || number != number_refused) return GOES;
    note_done();
    errno = (int)value;
    if (how == PART) atomic_store(&fails_next, 1);
    return how == STAYS ? FAILS : how;
}

#define REAL(result, name, parameters) \
    static result (*real) parameters; \
    if (!real) real = (result (*) parameters)dlsym(RTLD_NEXT, #name)

/* the memory that the program itself asks for, not its libraries; a refused growth leaves what it had. What asks before this library
 * begins is none of the program's. */
extern void *__libc_malloc(size_t);
extern void *__libc_realloc(void *, size_t);
static uintptr_t program_begins, program_ends;

static int find_program(struct dl_phdr_info *object, size_t size, void *unused) {
    (void)size;
    (void)unused;
    for (int part = 0; part < object->dlpi_phnum; part++) {
        const ElfW(Phdr) *header = &object->dlpi_phdr[part];
        if (header->p_type != PT_LOAD || !(header->p_flags & PF_X)) continue;
        program_begins = object->dlpi_addr + header->p_vaddr;
        program_ends = program_begins + header->p_memsz;
    }
    /* (the program is the first) */
    return 1;
}

static int is_refused_to(const void *caller, const char *kind) {
    uintptr_t place = (uintptr_t)caller;
    return place >= program_begins && place < program_ends && verdict(kind, "program") == FAILS;
}

void *malloc(size_t size) {
    return is_refused_to(__builtin_return_address(0), "malloc") ? NULL : __libc_malloc(size);
}

void *realloc(void *block, size_t size) {
    return is_refused_to(__builtin_return_address(0), "realloc") ? NULL : __libc_realloc(block, size);
}

/* a call that is done whole or not at all */
#define WHOLE(result, name, target, parameters, arguments) \
    result name parameters { \
        char room[NAME]; \
        (void)room; \
        REAL(result, name, parameters); \
        return verdict(#name, target) == FAILS ? -1 : real arguments; \
    }

/* whether something is there to take, so that a call finds it */
static int is_ready(int file) {
    struct pollfd one = {.fd = file, .events = POLLIN};
    struct timespec none = {0, 0};
    return (int)syscall(SYS_ppoll, &one, 1, &none, NULL, 0) > 0;
}

static const char *taking(char *room, int file) {
    snprintf(room, NAME + 8, is_ready(file) ? "%s" : "%s-idle", name_of(file));
    return room;
}

int open(const char *path, int flags, ...) {
    REAL(int, open, (const char *, int, ...));
    va_list rest;
    va_start(rest, flags);
    mode_t mode = flags & O_CREAT ? va_arg(rest, mode_t) : 0;
    va_end(rest);
    char room[NAME];
    if (verdict("open", last_of(room, path)) == FAILS) return -1;
    int file = real(path, flags, mode);
    name(file, path);
    return file;
}

int openat(int folder, const char *path, int flags, ...) {
    REAL(int, openat, (int, const char *, int, ...));
    va_list rest;
    va_start(rest, flags);
    mode_t mode = flags & O_CREAT ? va_arg(rest, mode_t) : 0;
    va_end(rest);
    char room[NAME];
    if (verdict("openat", last_of(room, path)) == FAILS) return -1;
    int file = real(folder, path, flags, mode);
    name(file, path);
    return file;
}

int socket(int domain, int type, int protocol) {
    REAL(int, socket, (int, int, int));
    const char *target = domain == AF_UNIX ? "control" : (type & 15) == SOCK_DGRAM ? "udp" : "tcp";
    if (verdict("socket", target) == FAILS) return -1;
    int file = real(domain, type, protocol);
    name(file, target);
    return file;
}

int accept4(int listener, struct sockaddr *address, socklen_t *length, int flags) {
    REAL(int, accept4, (int, struct sockaddr *, socklen_t *, int));
    char target[NAME + 8];
    if (verdict("accept4", taking(target, listener)) == FAILS) return -1;
    int file = real(listener, address, length, flags);
    name(file, name_of(listener));
    return file;
}

int epoll_create1(int flags) {
    REAL(int, epoll_create1, (int));
    if (verdict("epoll_create1", "epoll") == FAILS) return -1;
    int file = real(flags);
    name(file, "epoll");
    return file;
}

int fcntl(int file, int command, ...) {
    REAL(int, fcntl, (int, int, ...));
    va_list rest;
    va_start(rest, command);
    long argument = va_arg(rest, long);
    va_end(rest);
    if (verdict("fcntl", name_of(file)) == FAILS) return -1;
    int found = real(file, command, argument);
    if (command == F_DUPFD || command == F_DUPFD_CLOEXEC) name(found, name_of(file));
    return found;
}

int close(int file) {
    REAL(int, close, (int));
    enum how this = verdict("close", name_of(file));
    int before = errno;
    if (file >= 0 && file < MOST_FILES) names[file][0] = 0;
    int done = real(file);
    /* a close that fails has closed all the same */
    if (this != FAILS) return done;
    errno = before;
    return -1;
}

ssize_t read(int file, void *buffer, size_t size) {
    REAL(ssize_t, read, (int, void *, size_t));
    switch (verdict("read", name_of(file))) {
    case FAILS: return -1;
    case ENDS: return 0;
    case SHORT: return real(file, buffer, size > 1 ? 1 : size);
    default: return real(file, buffer, size);
    }
}

ssize_t write(int file, const void *octets, size_t size) {
    REAL(ssize_t, write, (int, const void *, size_t));
    switch (verdict("write", name_of(file))) {
    case FAILS: return -1;
    case SHORT: return real(file, octets, size > 1 ? 1 : size);
    case PART: return real(file, octets, size > 1 ? size / 2 : size);
    default: return real(file, octets, size);
    }
}

ssize_t recv(int file, void *buffer, size_t size, int flags) {
    REAL(ssize_t, recv, (int, void *, size_t, int));
    char target[NAME + 8];
    switch (verdict("recv", taking(target, file))) {
    case FAILS: return -1;
    case ENDS: return 0;
    case SHORT: return real(file, buffer, size > 1 ? 1 : size, flags);
    default: return real(file, buffer, size, flags);
    }
}

ssize_t send(int file, const void *octets, size_t size, int flags) {
    REAL(ssize_t, send, (int, const void *, size_t, int));
    switch (verdict("send", name_of(file))) {
    case FAILS: return -1;
    case SHORT: return real(file, octets, size > 1 ? 1 : size, flags);
    case PART: return real(file, octets, size > 1 ? size / 2 : size, flags);
    default: return real(file, octets, size, flags);
    }
}

ssize_t recvfrom(int file, void *buffer, size_t size, int flags, struct sockaddr *from, socklen_t *length) {
    REAL(ssize_t, recvfrom, (int, void *, size_t, int, struct sockaddr *, socklen_t *));
    char target[NAME + 8];
    return verdict("recvfrom", taking(target, file)) == FAILS ? -1 : real(file, buffer, size, flags, from, length);
}

int epoll_wait(int epoll, struct epoll_event *events, int most, int timeout) {
    REAL(int, epoll_wait, (int, struct epoll_event *, int, int));
    char target[NAME + 8];
    return verdict("epoll_wait", taking(target, epoll)) == FAILS ? -1 : real(epoll, events, most, timeout);
}

int clock_gettime(clockid_t clock, struct timespec *out) {
    REAL(int, clock_gettime, (clockid_t, struct timespec *));
    enum how this = verdict("clock_gettime", clock == CLOCK_REALTIME ? "real" : "steady");
    if (this == FAILS) return -1;
    int done = real(clock, out);
    if (this == BACK || this == ONCE) {
        int64_t reading = out->tv_sec * INT64_C(1000000000) + out->tv_nsec - value * INT64_C(1000000);
        out->tv_sec = reading / 1000000000;
        out->tv_nsec = reading % 1000000000;
    }
    if (this == STANDS) {
        pthread_mutex_lock(&lock);
        if (!stood.tv_sec) stood = *out;
        *out = stood;
        pthread_mutex_unlock(&lock);
    }
    return done;
}

int pthread_create(pthread_t *thread, const pthread_attr_t *how_made, void *(*does)(void *), void *with) {
    REAL(int, pthread_create, (pthread_t *, const pthread_attr_t *, void *(*)(void *), void *));
    return verdict("pthread_create", "thread") == FAILS ? errno : real(thread, how_made, does, with);
}

WHOLE(int, bind, name_of(file), (int file, const struct sockaddr *address, socklen_t length), (file, address, length))
WHOLE(int, connect, name_of(file), (int file, const struct sockaddr *address, socklen_t length), (file, address, length))
WHOLE(int, listen, name_of(file), (int file, int most), (file, most))
WHOLE(int, getpeername, name_of(file), (int file, struct sockaddr *address, socklen_t *length), (file, address, length))
WHOLE(int, getsockopt, name_of(file), (int file, int level, int option, void *out, socklen_t *length), (file, level, option, out, length))
WHOLE(int, setsockopt, name_of(file), (int file, int level, int option, const void *in, socklen_t length),
      (file, level, option, in, length))
WHOLE(ssize_t, sendto, name_of(file),
      (int file, const void *octets, size_t size, int flags, const struct sockaddr *to, socklen_t length),
      (file, octets, size, flags, to, length))
WHOLE(int, epoll_ctl, name_of(file), (int epoll, int command, int file, struct epoll_event *event), (epoll, command, file, event))
WHOLE(int, fsync, name_of(file), (int file), (file))
WHOLE(int, fdatasync, name_of(file), (int file), (file))
WHOLE(int, ftruncate, name_of(file), (int file, off_t size), (file, size))
WHOLE(int, flock, name_of(file), (int file, int operation), (file, operation))
WHOLE(off_t, lseek, name_of(file), (int file, off_t offset, int whence), (file, offset, whence))
WHOLE(ssize_t, getdents64, name_of(file), (int file, void *buffer, size_t size), (file, buffer, size))
WHOLE(int, fchmod, name_of(file), (int file, mode_t mode), (file, mode))
WHOLE(int, chmod, last_of(room, path), (const char *path, mode_t mode), (path, mode))
WHOLE(int, rename, last_of(room, from), (const char *from, const char *to), (from, to))
WHOLE(int, unlink, last_of(room, path), (const char *path), (path))
WHOLE(int, statx, path[0] ? last_of(room, path) : name_of(folder),
      (int folder, const char *restrict path, int flags, unsigned mask, struct statx *restrict out), (folder, path, flags, mask, out))
WHOLE(int, poll, files ? name_of(files->fd) : "none", (struct pollfd *files, nfds_t count, int timeout), (files, count, timeout))
WHOLE(int, nanosleep, "time", (const struct timespec *wanted, struct timespec *left), (wanted, left))
WHOLE(int, getentropy, "octets", (void *buffer, size_t size), (buffer, size))
WHOLE(int, sched_getaffinity, "processors", (pid_t process, size_t size, cpu_set_t *set), (process, size, set))

/* the one call by its number that the programs make for a file: ioctl(FIONBIO) */
int ioctl(int file, unsigned long request, ...) {
    REAL(int, ioctl, (int, unsigned long, ...));
    va_list rest;
    va_start(rest, request);
    void *argument = va_arg(rest, void *);
    va_end(rest);
    return verdict("ioctl", name_of(file)) == FAILS ? -1 : real(file, request, argument);
}

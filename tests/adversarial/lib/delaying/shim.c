/* A library that is preloaded into a server: it shifts the clock of the time and the steady one, steps the former in the
 * midst of a sync, and lets syncs and reads of journals take as long as a file says. DELAYS names that file, which the trial changes meanwhile:
 * see shim.py for its words. */
#define _GNU_SOURCE
#include <fcntl.h>
#include <stdatomic.h>
#include <stdint.h>
#include <stdio.h>
#include <stdlib.h>
#include <string.h>
#include <sys/mman.h>
#include <sys/syscall.h>
#include <time.h>
#include <unistd.h>

/* times are nanoseconds; `READ_ENDED` and `WRITTEN` are told by this library, by the clock that it shows */
enum { SHIFT, SYNC, STEP, READ, SLOW_READS, READ_ENDED, WRITTEN, STEADY, WORDS };
enum { SECOND = 1000000000 };
static _Atomic int64_t none[WORDS];
static _Atomic int64_t *words = none;

__attribute__((constructor)) static void begin(void) {
    const char *path = getenv("DELAYS");
    if (!path) return;
    int file = (int)syscall(SYS_openat, AT_FDCWD, path, O_RDWR | O_CLOEXEC, 0);
    void *found = mmap(NULL, sizeof none, PROT_READ | PROT_WRITE, MAP_SHARED, file, 0);
    if (found == MAP_FAILED) _exit(99);
    syscall(SYS_close, file);
    words = found;
}

int clock_gettime(clockid_t clock, struct timespec *out) {
    if (clock != CLOCK_REALTIME && clock != CLOCK_MONOTONIC) return (int)syscall(SYS_clock_gettime, clock, out);
    int word = clock == CLOCK_REALTIME ? SHIFT : STEADY, done;
    int64_t shift;
    /* the shift that held at that moment: a thread may lose its processor between the two */
    do {
        shift = words[word];
        done = (int)syscall(SYS_clock_gettime, clock, out);
    } while (!done && words[word] != shift);
    if (done) return done;
    int64_t reading = out->tv_sec * INT64_C(1000000000) + out->tv_nsec + shift;
    out->tv_sec = reading / SECOND;
    out->tv_nsec = reading % SECOND;
    return done;
}

static int64_t reading(void) {
    struct timespec now;
    clock_gettime(CLOCK_REALTIME, &now);
    return now.tv_sec * INT64_C(1000000000) + now.tv_nsec;
}

static void rest(int64_t time) {
    struct timespec left = {.tv_sec = time / SECOND, .tv_nsec = time % SECOND};
    while (time > 0 && nanosleep(&left, &left)) {}
}

static int is_journal(int file) {
    static const char end[] = ".journal";
    char name[64], path[4096];
    snprintf(name, sizeof name, "/proc/self/fd/%d", file);
    ssize_t size = readlink(name, path, sizeof path);
    ssize_t rest = size - (ssize_t)(sizeof end - 1);
    return rest >= 0 && !memcmp(path + rest, end, sizeof end - 1);
}

/* the clock steps once, in the midst of the first sync from now on */
static void before_sync(int file) {
    if ((!words[SYNC] && !words[STEP]) || !is_journal(file)) return;
    rest(words[SYNC] / 2);
    words[SHIFT] += atomic_exchange(&words[STEP], 0);
    rest(words[SYNC] / 2);
}

int fsync(int file) {
    before_sync(file);
    return (int)syscall(SYS_fsync, file);
}

int fdatasync(int file) {
    before_sync(file);
    return (int)syscall(SYS_fdatasync, file);
}

static int before_read(int file) {
    if (words == none || !is_journal(file)) return 0;
    if (words[SLOW_READS] <= 0) return 1;
    words[SLOW_READS]--;
    rest(words[READ]);
    return 1;
}

/* of reads, those count that come before the first write to a journal */
static ssize_t behind_read(int is_read, ssize_t count) {
    if (is_read && !words[WRITTEN]) words[READ_ENDED] = reading();
    return count;
}

ssize_t read(int file, void *buffer, size_t size) {
    int is_read = before_read(file);
    return behind_read(is_read, syscall(SYS_read, file, buffer, size));
}

ssize_t pread(int file, void *buffer, size_t size, off_t place) {
    int is_read = before_read(file);
    return behind_read(is_read, syscall(SYS_pread64, file, buffer, size, place));
}

ssize_t pread64(int file, void *buffer, size_t size, off_t place) {
    int is_read = before_read(file);
    return behind_read(is_read, syscall(SYS_pread64, file, buffer, size, place));
}

ssize_t write(int file, const void *octets, size_t size) {
    if (words != none && !words[WRITTEN] && is_journal(file)) words[WRITTEN] = reading();
    return syscall(SYS_write, file, octets, size);
}

/* The driver's own part, called from Python: setting the clocks, ticking, and waiting until nothing is under way. */
#define _GNU_SOURCE
#include "shared.h"
#include <fcntl.h>
#include <linux/futex.h>
#include <sys/mman.h>
#include <sys/syscall.h>
#include <time.h>
#include <unistd.h>

static struct shared *shared;
static int ticks[2];

int begin(const char *path, int first_ticks, int second_ticks) {
    int file = open(path, O_RDWR | O_CLOEXEC);
    if (file < 0) return -1;
    shared = mmap(NULL, sizeof *shared, PROT_READ | PROT_WRITE, MAP_SHARED, file, 0);
    close(file);
    ticks[0] = first_ticks;
    ticks[1] = second_ticks;
    return shared == MAP_FAILED ? -1 : 0;
}

void set_clock(int side, int64_t real_ns, int64_t mono_ns) {
    atomic_store(&shared->servers[side].real_ns, real_ns);
    atomic_store(&shared->servers[side].mono_ns, mono_ns);
}

void set_link(int how) {
    for (int side = 0; side < 2; side++) atomic_store(&shared->servers[side].link, how);
}

/* so many things were given to a server */
void give(int side, int count) { atomic_fetch_add(&shared->servers[side].given, count); }

void tick(int side) {
    uint64_t one = 1;
    if (write(ticks[side], &one, 8) == 8) give(side, 1);
}

/* what was given and not taken is lost */
static void even(int side) {
    struct server *server = &shared->servers[side];
    atomic_store(&server->taken, atomic_load(&server->given));
    atomic_store(&server->heard, atomic_load(&server->sent));
}

/* a server is started anew */
void forget(int side) {
    uint64_t count;
    (void)!read(ticks[side], &count, 8);
    atomic_store(&shared->servers[side].stuck, 0);
    atomic_store(&shared->servers[side].rests, 0);
    even(side);
}

uint64_t turns(int side) { return atomic_load(&shared->servers[side].turns); }

uint64_t syncs(int side) { return atomic_load(&shared->servers[side].syncs); }

static int has_done(int side) {
    struct server *server = &shared->servers[side];
    if (!atomic_load(&server->rests) || atomic_load(&server->taken) != atomic_load(&server->given)) return 0;
    return atomic_load(&server->link) != STANDS || atomic_load(&server->heard) == atomic_load(&server->sent);
}

static uint64_t all_given(void) {
    uint64_t all = 0;
    for (int side = 0; side < 2; side++) all += atomic_load(&shared->servers[side].given) + atomic_load(&shared->servers[side].sent);
    return all;
}

/* nothing was given while it looked, and each rests and has taken what was given before */
static int is_quiet(unsigned sides) {
    uint64_t before = all_given();
    for (int side = 0; side < 2; side++)
        if ((sides >> side & 1) && !has_done(side)) return 0;
    return all_given() == before;
}

static int64_t microseconds(void) {
    struct timespec now;
    syscall(SYS_clock_gettime, CLOCK_MONOTONIC, &now);
    return now.tv_sec * 1000000LL + now.tv_nsec / 1000;
}

uint64_t losses;

/* waits until nothing is under way at these servers; 0 then, else 1 after so long. Where nothing stirs for a while though all rest, what
 * was given is lost, with a connection or a process that is gone. */
int settle(unsigned sides, int64_t longest_us) {
    int64_t until = microseconds() + longest_us;
    struct timespec while_ = {.tv_nsec = 20000000};
    for (;;) {
        uint32_t bell = atomic_load(&shared->bell);
        if (is_quiet(sides)) return 0;
        atomic_store(&shared->waits, 1);
        if (!is_quiet(sides)) {
            long woken = syscall(SYS_futex, &shared->bell, FUTEX_WAIT, bell, &while_, NULL, 0);
            int stirs = woken == 0 || atomic_load(&shared->bell) != bell;
            for (int side = 0; side < 2; side++)
                if ((sides >> side & 1) && !atomic_load(&shared->servers[side].rests)) stirs = 1;
            for (int side = 0; side < 2 && !stirs; side++)
                if (!has_done(side)) losses++, even(side);
        }
        atomic_store(&shared->waits, 0);
        if (microseconds() > until) return 1;
    }
}

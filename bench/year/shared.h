/* What the driver and the two servers share: a mapped file. Whoever gives a server something counts it in `given`, and the server what it
 * takes in `taken`, once it is awake: datagrams and ticks there, octets of the link in `sent` and `heard`. So where both servers rest and
 * have taken what they were given, nothing is under way. */
#include <stdatomic.h>
#include <stdint.h>

enum { STANDS, SILENT, BROKEN };

struct server {
    _Atomic int64_t real_ns, mono_ns;
    _Atomic uint64_t given, taken, sent, heard;
    _Atomic uint32_t rests;
    /* how the link is at this server's end */
    _Atomic uint32_t link;
    /* where it has written what its partner hasn't room for */
    _Atomic uint32_t stuck;
    _Atomic uint64_t turns, syncs;
};

struct shared {
    struct server servers[2];
    /* a futex: counts rests; and whether the driver waits on it */
    _Atomic uint32_t bell, waits;
};

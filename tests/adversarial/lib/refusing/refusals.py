"""What is refused of a program: which of its calls, and how."""
import collections
import errno
import os
import pathlib
import subprocess
from dataclasses import dataclass

SHIM = pathlib.Path(__file__).with_name("shim.c")
# Where a call that is refused by EINTR, or done in part, changes nothing at all.
HARMLESS = {"fail EINTR", "short 1"}
# How a call of each kind may be refused; `fail ENOSPC` and the like name an errno. What stands first is tried of every call.
FILE_ERRORS = ["fail EIO", "fail EINTR"]
HOWS = {
    "open": ["fail EMFILE", "fail EINTR", "fail EACCES", "fail EIO"],
    "openat": ["fail EMFILE", "fail EINTR", "fail EACCES"],
    "read": ["fail EIO", "fail EINTR", "short 1"],
    "write": ["fail EIO", "fail EINTR", "short 1", "part ENOSPC", "stay ENOSPC"],
    "fsync": FILE_ERRORS,
    "fdatasync": [*FILE_ERRORS, "stay EIO"],
    "ftruncate": FILE_ERRORS,
    "rename": ["fail EIO", "fail ENOSPC"],
    "unlink": ["fail EIO", "fail EACCES"],
    "getdents64": ["fail EIO"],
    "statx": ["fail EIO", "fail EACCES"],
    "lseek": ["fail EIO"],
    "flock": ["fail ENOLCK", "fail EINTR", "fail EWOULDBLOCK"],
    "fcntl": ["fail EMFILE"],
    "chmod": ["fail EPERM"],
    "fchmod": ["fail EPERM"],
    "close": ["fail EIO", "fail EINTR"],
    "socket": ["fail EMFILE", "fail EACCES"],
    "bind": ["fail EADDRINUSE", "fail EACCES"],
    "listen": ["fail EADDRINUSE"],
    "connect": ["fail ECONNREFUSED", "fail EINTR", "fail ENETUNREACH"],
    "accept4": ["fail EMFILE", "fail ECONNABORTED", "fail EINTR", "stay EMFILE"],
    "getpeername": ["fail ENOTCONN"],
    "getsockopt": ["fail ENOBUFS"],
    "setsockopt": ["fail ENOBUFS"],
    "ioctl": ["fail ENOMEM"],
    "epoll_create1": ["fail EMFILE"],
    "epoll_ctl": ["fail ENOSPC"],
    "epoll_wait": ["fail EINTR"],
    "poll": ["fail EINTR"],
    "recv": ["fail ECONNRESET", "fail EINTR", "short 1", "fail EAGAIN"],
    "send": ["fail EPIPE", "fail EINTR", "short 1", "fail EAGAIN", "part ECONNRESET"],
    "recvfrom": ["fail ENOMEM", "fail EINTR", "fail EAGAIN", "fail ECONNREFUSED"],
    "sendto": ["fail EPERM", "fail EINTR", "fail EAGAIN", "fail ENETUNREACH"],
    "nanosleep": ["fail EINTR"],
    "getentropy": ["fail EIO"],
    "pthread_create": ["fail EAGAIN"],
    "sched_getaffinity": ["fail EINVAL"],
    "clock_gettime real": ["fail EINVAL", "once 200", "back 200", "back 3600000", "stand 0"],
    # (the steady clock never goes back)
    "clock_gettime steady": ["fail EINVAL", "once 200"],
}
# The memory that a program asks for.
MEMORY = ("malloc", "realloc")
HOWS |= {kind: ["fail ENOMEM"] for kind in MEMORY}
# What is made of a kind that isn't named above.
OTHER = ["fail EIO"]


@dataclass(frozen=True)
class Refusal:
    """The call of a kind and target that is refused, by its number from 1, and how."""

    kind: str
    target: str
    number: int
    how: str

    def __str__(self):
        return f"{self.kind} {self.target} {self.number}, {self.how}"

    def is_harmless(self):
        return self.how in HARMLESS

    def is_of_clock(self):
        return self.kind == "clock_gettime"

    def is_of_memory(self):
        return self.kind in MEMORY

    def is_far(self):
        """Whether its clock reads so much less that it can serve nobody, or only as if at another time."""
        return self.is_of_clock() and self.how in ("back 3600000", "stand 0")

    def is_deaf(self):
        """Whether nobody can tell the server anything from that call on: none of its sockets takes a connection."""
        return self.kind == "accept4" and self.how.startswith("stay")

    def call(self):
        """The words that the shim takes."""
        word, value = self.how.split()
        return f"{self.kind} {self.target} {self.number} {word} {int(value) if value.isdigit() else getattr(errno, value)}"


def is_known(refusal, fault):
    """Whether a fault is the one that syscall_failure.md tells of: a directory whose opening is interrupted isn't opened again."""
    is_interrupted = refusal is not None and (refusal.kind, refusal.how) == ("openat", "fail EINTR")
    return is_interrupted and ("Interrupted system call" in fault or "fault Path" in fault)


class Shim:
    """The library that refuses, built in a folder."""

    def __init__(self, folder):
        self.library = folder / "refuse.so"
        words = ["cc", "-O1", "-Wall", "-shared", "-fPIC", "-o", self.library, SHIM, "-ldl", "-lpthread"]
        subprocess.run(words, check=True)

    def logging(self, log):
        """The environment of a program whose calls are noted in a file."""
        return {**os.environ, "LD_PRELOAD": str(self.library), "REFUSE_LOG": str(log)}

    def refusing(self, refusal, done):
        """The environment of a program one of whose calls is refused; that file is made then."""
        return {**os.environ, "LD_PRELOAD": str(self.library), "REFUSE_CALL": refusal.call(), "REFUSE_DONE": str(done)}


def counted(log):
    """How many calls of each kind and target were noted."""
    return collections.Counter(tuple(line.split(" ")) for line in log.read_text().splitlines())


def numbers(count, dice, most):
    """Which of so many calls are refused: all, or the first, the last, and some drawn."""
    if count <= most:
        return range(1, count + 1)
    ends = [1, 2, count][:most]
    return sorted({*ends, *dice.sample(range(1, count + 1), most - len(ends))})


def drawn(calls, dice, most, hows, memory):
    """The refusals of a story whose calls were counted: of each kind and target at most so many calls, each by so many of the ways; of a
    kind that asks for memory so many."""
    for (kind, target), count in sorted(calls.items()):
        ways = HOWS.get(kind) or HOWS.get(f"{kind} {target}", OTHER)
        if kind == "write" and target in ("stdout", "stderr"):
            ways = [way for way in ways if not way.startswith("stay")]
        for number in numbers(count, dice, memory if kind in MEMORY else most):
            chosen = ways if len(ways) <= hows else [ways[0], *dice.sample(ways[1:], hows - 1)]
            for how in chosen:
                yield Refusal(kind, target, number, how)

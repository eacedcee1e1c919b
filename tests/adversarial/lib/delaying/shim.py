"""What delays a server: a library that is preloaded, and the file by which it is told how long calls take and what the
clock shows."""
import mmap
import os
import pathlib
import subprocess

SOURCE = pathlib.Path(__file__).with_name("shim.c")
# The words of the file, 64 bits each: by how much the clock is shifted, how long each sync of a journal takes, by how
# much the clock steps in the midst of the next one, how long a read of a journal takes, and how many reads from now on.
# Then what the library tells: when the last read before the first write to a journal ended, and when that began. The
# last word is by how much the steady clock is shifted.
SHIFT, SYNC, STEP, READ, SLOW_READS, READ_ENDED, WRITTEN, STEADY = range(8)
OCTETS = 64
# Nanoseconds in a millisecond.
MILLISECOND = 1_000_000


class Shim:
    """The library, built in a folder."""

    def __init__(self, folder):
        self.library = folder / "delay.so"
        words = ["cc", "-O1", "-Wall", "-shared", "-fPIC", "-o", self.library, SOURCE]
        subprocess.run(words, check=True)

    def delays(self, path):
        return Delays(self.library, path)


class Delays:
    """Those of one server, which has the same when it is started again. Times are milliseconds."""

    def __init__(self, library, path):
        path.write_bytes(bytes(OCTETS))
        self.environment = {**os.environ, "LD_PRELOAD": str(library), "DELAYS": str(path)}
        with open(path, "r+b") as file:
            # (as a list of 64-bit words it is written a word at a time)
            self.words = memoryview(mmap.mmap(file.fileno(), OCTETS)).cast("q")

    def shift(self, milliseconds):
        """The clock shows so much more than the system's from now on."""
        self.words[SHIFT] = round(milliseconds * MILLISECOND)

    def shift_steady(self, milliseconds):
        """The steady clock shows so much more than the system's from now on: less, once a machine was suspended."""
        self.words[STEADY] = round(milliseconds * MILLISECOND)

    def slow_syncs(self, sync, step=0):
        """Each sync of a journal takes so long, and in the midst of the first one the clock steps."""
        self.words[STEP] = round(step * MILLISECOND)
        self.words[SYNC] = round(sync * MILLISECOND)

    def slow_reads(self, read, count):
        """So many reads of journals take so long each; what is told of reads is told anew."""
        self.words[READ_ENDED] = self.words[WRITTEN] = 0
        self.words[READ], self.words[SLOW_READS] = round(read * MILLISECOND), count

    def reads_left(self):
        return self.words[SLOW_READS]

    def read_ended(self):
        """When the last read before the first write to a journal ended, by the clock that the server sees."""
        return self.words[READ_ENDED] / MILLISECOND

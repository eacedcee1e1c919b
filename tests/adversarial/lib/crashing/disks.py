"""A file system of its own for both servers, in a file by a loop device: it can be full, and it can fail and become read-only."""
import os
import subprocess

MEGABYTES = 192
# From how long before the failure on a line may be lost, in milliseconds: ext4 was seen to lose what a sync had just said to be written.
JUST_BEFORE = 1000


class SmallDisk:
    def __init__(self, folder):
        self.image, self.path = folder / "image", folder / "disk"
        self.path.mkdir(parents=True)
        with open(self.image, "wb") as file:
            file.truncate(MEGABYTES << 20)
        self.run("mkfs.ext4", "-q", "-F", self.image)
        self.mount()

    @staticmethod
    def run(*words):
        done = subprocess.run(words, capture_output=True, text=True, check=False)
        # fsck says 1 where it mended something
        if done.returncode > 1 or (done.returncode and not str(words[0]).startswith("fsck")):
            raise SystemExit(f"{words[0]}: {done.stderr.strip()} (a loop device wants root)")

    def mount(self):
        self.run("mount", "-o", "loop,errors=remount-ro", self.image, self.path)

    def fill(self):
        """Leaves no room."""
        with open(self.path / "ballast", "wb", buffering=0) as file:
            size = os.statvfs(self.path)
            os.posix_fallocate(file.fileno(), 0, max(1, size.f_bavail * size.f_frsize - (1 << 20)))
            file.seek(0, 2)
            try:
                while True:
                    file.write(bytes(4096))
            except OSError:
                pass

    def make_room(self):
        (self.path / "ballast").unlink()

    def fail(self):
        """The file system meets an error, and is read-only from then on."""
        rows = (row.split() for row in open("/proc/mounts"))
        device = next(row[0] for row in rows if row[1] == str(self.path)).removeprefix("/dev/")
        with open(f"/sys/fs/ext4/{device}/trigger_fs_error", "w") as file:
            file.write("1")

    def mend(self):
        """It is checked and mounted anew, by nobody used meanwhile."""
        self.run("umount", self.path)
        self.run("fsck.ext4", "-p", self.image)
        self.mount()

    def end(self):
        self.run("umount", self.path)
        self.image.unlink()

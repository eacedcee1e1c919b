// The same in C: opens the folder's journal, syncs it and the folder, takes the lock, reads the file and counts its whole
// lines, then appends batches of lines of 110 octets and syncs behind each.
#include <fcntl.h>
#include <stdio.h>
#include <stdlib.h>
#include <string.h>
#include <sys/file.h>
#include <sys/stat.h>
#include <unistd.h>

enum { WIDTH = 110 };

static void fail(const char *what) {
    perror(what);
    exit(2);
}

static long count_lines(int file) {
    struct stat known;
    if (fstat(file, &known)) fail("fstat");
    size_t length = known.st_size, whole = 0;
    char *content = malloc(length + 1);
    for (size_t at = 0; at < length;) {
        ssize_t got = read(file, content + at, length - at);
        if (got <= 0) fail("read");
        at += got;
    }
    long lines = 0;
    for (size_t at = 0; at < length && content[at]; at++)
        if (content[at] == '\n') {
            lines++;
            whole = at + 1;
        }
    free(content);
    if (ftruncate(file, whole) || fdatasync(file)) fail("cut");
    return lines;
}

int main(int count, char **words) {
    if (count != 4) return 2;
    long batch = atol(words[2]), batches = atol(words[3]), put = 0;
    int folder = open(words[1], O_RDONLY);
    if (folder < 0 || flock(folder, LOCK_EX | LOCK_NB) || chdir(words[1])) fail("folder");
    int file = open("journal", O_RDWR | O_APPEND | O_CREAT, 0666);
    if (file < 0 || fsync(file) || fsync(folder)) fail("journal");
    long lines = count_lines(file);
    char *text = malloc(WIDTH * batch), line[WIDTH];
    memset(line, 'x', WIDTH - 1);
    line[WIDTH - 1] = '\n';
    for (long turn = 0; turn < batches; turn++) {
        for (long index = 0; index < batch; index++) memcpy(text + WIDTH * index, line, WIDTH);
        if (write(file, text, WIDTH * batch) != WIDTH * batch || fdatasync(file)) fail("write");
        put += batch;
    }
    printf("%ld %ld\n", lines, put);
}

// Preloaded before a program (LD_PRELOAD): a read and a write that move fewer bytes than they are asked, and fail, as the environment says.
//
//   READ_MOST, WRITE_MOST    no call moves more bytes
//   READ_FAIL, WRITE_FAIL    when that many bytes have been moved the next call fails
//   FAIL_ERRNO               with this errno; with 0 it answers 0
//   FAIL_TIMES               and so many calls in all, by default one; those after them succeed
//
// Of writes only those to standard output. A number that is not set is as large as can be.
#define _GNU_SOURCE
#include <errno.h>
#include <stdint.h>
#include <stdlib.h>
#include <sys/syscall.h>
#include <unistd.h>

struct kind {
    long call;
    const char *most, *fail;
    size_t moved, failed;
};

static size_t setting(const char *name, size_t otherwise) {
    const char *text = getenv(name);
    return text ? strtoull(text, NULL, 10) : otherwise;
}

static size_t least(size_t a, size_t b) { return a < b ? a : b; }

static ssize_t move(struct kind *kind, int file, void *bytes, size_t count) {
    size_t fail = setting(kind->fail, SIZE_MAX);
    if (kind->moved == fail && kind->failed < setting("FAIL_TIMES", 1)) {
        kind->failed++;
        errno = setting("FAIL_ERRNO", EIO);
        return errno ? -1 : 0;
    }
    count = least(count, setting(kind->most, SIZE_MAX));
    if (kind->moved < fail)
        count = least(count, fail - kind->moved);
    ssize_t n = syscall(kind->call, file, bytes, count);
    if (n > 0)
        kind->moved += n;
    return n;
}

ssize_t read(int file, void *bytes, size_t count) {
    static struct kind reads = {SYS_read, "READ_MOST", "READ_FAIL", 0, 0};
    return move(&reads, file, bytes, count);
}

ssize_t write(int file, const void *bytes, size_t count) {
    static struct kind writes = {SYS_write, "WRITE_MOST", "WRITE_FAIL", 0, 0};
    return file == STDOUT_FILENO ? move(&writes, file, (void *)bytes, count) : syscall(SYS_write, file, bytes, count);
}

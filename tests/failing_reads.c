/* Bad sectors without a device mapper: a library that is preloaded, in which reads of one file fail.
 *
 *   FAILING_FILE    the file, or the device
 *   FAILING_BYTES   START:LENGTH, .. of the bytes that cannot be read
 *   FAILING_UNIT    a read without O_DIRECT loses whole units of so many bytes, as the page cache does
 *   FAILING_ERROR   the number of the error, EIO if there is none
 *   FAILING_WHOLE   a read fails as a whole, also if its first bytes could be read
 *   FAILING_MOST    a read of that file, and each write, is of so many bytes at most
 *   FAILING_WRITES  writes of any file at this offset and after it fail, as on a full disk
 */
#define _GNU_SOURCE
#include <dlfcn.h>
#include <errno.h>
#include <fcntl.h>
#include <stdint.h>
#include <stdlib.h>
#include <sys/stat.h>
#include <sys/types.h>
#include <sys/uio.h>
#include <unistd.h>

static int is_file(int descriptor)
{
    const char *name = getenv("FAILING_FILE");
    struct stat named, found;

    return name && !stat(name, &named) && !fstat(descriptor, &found) && named.st_dev == found.st_dev
        && named.st_ino == found.st_ino;
}

/* The first byte from `start` on, and before `end`, that cannot be read, or `end`. */
static uint64_t first_bad(int descriptor, uint64_t start, uint64_t end)
{
    const char *at = getenv("FAILING_BYTES"), *unit_name = getenv("FAILING_UNIT");
    uint64_t unit = unit_name ? strtoull(unit_name, NULL, 0) : 1, found = end;

    if (fcntl(descriptor, F_GETFL) & O_DIRECT)
        unit = 1;
    while (at && *at) {
        char *next;
        uint64_t bad = strtoull(at, &next, 0), length = strtoull(next + 1, &next, 0);
        uint64_t bad_end = (bad + length + unit - 1) / unit * unit;

        bad = bad / unit * unit;
        if (bad < found && bad_end > start)
            found = bad > start ? bad : start;
        at = *next == ',' ? next + 1 : next;
    }
    return found;
}

static size_t most(size_t count)
{
    const char *name = getenv("FAILING_MOST");

    return name && strtoull(name, NULL, 0) < count ? strtoull(name, NULL, 0) : count;
}

/* How many bytes of a read may be given; -1 if it fails. */
static ssize_t allowed(int descriptor, uint64_t offset, size_t length)
{
    const char *error = getenv("FAILING_ERROR");
    uint64_t bad;

    if (!is_file(descriptor))
        return length;
    length = most(length);
    bad = first_bad(descriptor, offset, offset + length);
    if (bad == offset + length || (bad > offset && !getenv("FAILING_WHOLE")))
        return bad - offset;
    errno = error ? atoi(error) : EIO;
    return -1;
}

ssize_t preadv64v2(int descriptor, const struct iovec *parts, int count, off64_t offset, int flags)
{
    ssize_t (*real)(int, const struct iovec *, int, off64_t, int) = dlsym(RTLD_NEXT, "preadv64v2");
    struct iovec only = parts[0];
    ssize_t length = allowed(descriptor, offset, only.iov_len);

    if (length < 0)
        return -1;
    if (count > 1)
        return real(descriptor, parts, count, offset, flags);
    only.iov_len = length;
    return real(descriptor, &only, 1, offset, flags);
}

ssize_t pread64(int descriptor, void *buffer, size_t count, off64_t offset)
{
    ssize_t (*real)(int, void *, size_t, off64_t) = dlsym(RTLD_NEXT, "pread64");
    ssize_t length = allowed(descriptor, offset, count);

    return length < 0 ? -1 : real(descriptor, buffer, length, offset);
}

/* (what nbdkit calls; with offsets of 64 bits it is the same function) */
ssize_t pread(int descriptor, void *buffer, size_t count, off_t offset)
{
    return pread64(descriptor, buffer, count, offset);
}

ssize_t read(int descriptor, void *buffer, size_t count)
{
    ssize_t (*real)(int, void *, size_t) = dlsym(RTLD_NEXT, "read");
    off64_t offset = is_file(descriptor) ? lseek64(descriptor, 0, SEEK_CUR) : -1;
    ssize_t length = offset < 0 ? (ssize_t)count : allowed(descriptor, offset, count);

    return length < 0 ? -1 : real(descriptor, buffer, length);
}

/* (how luksrd-rescue reads key files and candidates) */
ssize_t readv(int descriptor, const struct iovec *parts, int count)
{
    ssize_t (*real)(int, const struct iovec *, int) = dlsym(RTLD_NEXT, "readv");

    return count == 1 ? read(descriptor, parts->iov_base, parts->iov_len) : real(descriptor, parts, count);
}

ssize_t write(int descriptor, const void *buffer, size_t count)
{
    ssize_t (*real)(int, const void *, size_t) = dlsym(RTLD_NEXT, "write");

    return real(descriptor, buffer, most(count));
}

ssize_t pwrite64(int descriptor, const void *buffer, size_t count, off64_t offset)
{
    ssize_t (*real)(int, const void *, size_t, off64_t) = dlsym(RTLD_NEXT, "pwrite64");
    const char *from = getenv("FAILING_WRITES");

    if (from && offset + count > strtoull(from, NULL, 0)) {
        errno = ENOSPC;
        return -1;
    }
    return real(descriptor, buffer, most(count), offset);
}

#include "input.h"

#include <errno.h>
#include <fcntl.h>
#include <stdlib.h>
#include <string.h>
#include <sys/stat.h>
#include <unistd.h>

#define NBDKIT_API_VERSION 2
#include <nbdkit-plugin.h>

void wipe(struct bytes *bytes)
{
  if (bytes->at)
    explicit_bzero(bytes->at, bytes->capacity);
  free(bytes->at);
  *bytes = (struct bytes){ 0 };
}

int allocate(struct bytes *bytes, size_t len)
{
  const size_t capacity = len > 0 ? len : 1;
  *bytes = (struct bytes){ .at = malloc(capacity), .len = len, .capacity = capacity };
  if (bytes->at)
    return 0;
  *bytes = (struct bytes){ 0 };
  nbdkit_error("luksrd: out of memory");
  return -1;
}

/* Reports that a file cannot be opened, and closes it if it was opened. Returns -1. */
static int refuse(const char *name, int fd, const char *why)
{
  nbdkit_error("luksrd: cannot open %s: %s", name, why);
  if (fd >= 0)
    close(fd);
  return -1;
}

/* Opens a file to be read, again if a signal interrupts that. */
static int open_read_only(const char *name, int flags)
{
  int fd;
  do
    fd = open(name, O_RDONLY | O_CLOEXEC | O_NOCTTY | flags);
  while (fd < 0 && errno == EINTR);
  return fd;
}

/* Opens a file that is not a folder. */
static int open_file(const char *name, int flags, struct stat *found)
{
  int fd = open_read_only(name, flags);
  /* Another program has a lease on a regular file, and the kernel asks for it: this waits. */
  if (fd < 0 && errno == EWOULDBLOCK)
    fd = open_read_only(name, 0);
  if (fd < 0 || fstat(fd, found) < 0)
    return refuse(name, fd, strerror(errno));
  if (S_ISDIR(found->st_mode))
    return refuse(name, fd, strerror(EISDIR));
  return fd;
}

int open_stream(const char *name)
{
  struct stat found;
  return open_file(name, 0, &found);
}

int open_image(const char *name, uint64_t *len)
{
  struct stat found;
  /* A blocking open would wait for a writer of a pipe, which is then refused. */
  const int fd = open_file(name, O_NONBLOCK, &found);
  if (fd < 0)
    return -1;
  if (!S_ISREG(found.st_mode) && !S_ISBLK(found.st_mode))
    return refuse(name, fd, "neither a regular file nor a block device");
  /* The length of a block device is known only by its end. */
  const off_t end = lseek(fd, 0, SEEK_END);
  if (end < 0 || lseek(fd, 0, SEEK_SET) < 0)
    return refuse(name, fd, strerror(errno));
  *len = (uint64_t)end;
  return fd;
}

/* Reads the next `size` bytes, or fewer only if the file ends or a read fails. Returns their number;
 * errno says why a read failed, and is 0 if none did. */
static size_t read_next(int fd, uint8_t *to, size_t size)
{
  size_t got = 0;
  while (got < size) {
    const ssize_t n = read(fd, to + got, size - got);
    if (n == 0)
      break;
    if (n > 0)
      got += (size_t)n;
    else if (errno != EINTR)
      return got;
  }
  errno = 0;
  return got;
}

bool read_some(const char *name, int fd, size_t max, struct bytes *bytes)
{
  if (allocate(bytes, max) < 0)
    return false;
  bytes->len = read_next(fd, bytes->at, max);
  if (errno == 0)
    return true;
  nbdkit_error("%s: luksrd: read failed: after %zu bytes: %s", name, bytes->len, strerror(errno));
  return false;
}

int read_first(const char *name, int fd, size_t max, struct bytes *bytes)
{
  if (allocate(bytes, max) < 0)
    return -1;
  bytes->len = read_next(fd, bytes->at, max);
  if (errno != 0) {
    nbdkit_error("%s: luksrd: read failed: %s", name, strerror(errno));
    /* what was read before that may be a part of a secret */
    wipe(bytes);
    return -1;
  }
  return 0;
}

/* Whether a file still has this many bytes. A file that is truncated while it is read may give
 * zeros from its last page, so its length is checked after the read. A block device has no length
 * here. */
static bool reaches(int fd, uint64_t end)
{
  struct stat found;
  if (fstat(fd, &found) < 0)
    return false;
  errno = 0;
  return !S_ISREG(found.st_mode) || (uint64_t)found.st_size >= end;
}

bool read_at(int fd, uint8_t *to, size_t size, uint64_t offset)
{
  size_t got = 0;
  while (got < size) {
    const ssize_t n = pread(fd, to + got, size - got, (off_t)(offset + got));
    if (n == 0) {
      errno = 0;
      return false;
    }
    if (n > 0)
      got += (size_t)n;
    else if (errno != EINTR)
      return false;
  }
  return reaches(fd, offset + size);
}

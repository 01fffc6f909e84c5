/* What is read: files, from their first byte on or at offsets, and bytes that hold a secret. */
#ifndef LUKSRD_NBDKIT_INPUT_H
#define LUKSRD_NBDKIT_INPUT_H

#include <stdbool.h>
#include <stddef.h>
#include <stdint.h>
#include <sys/types.h>

/* Bytes on the heap, or none. */
struct bytes {
  uint8_t *at;
  size_t len;
  size_t capacity; /* how many were allocated, at least `len` */
};

/* Wipes and frees bytes, all that were allocated. */
void wipe(struct bytes *bytes);

/* Makes room for this many bytes. Returns 0, or -1 and reports that there is no memory. */
int allocate(struct bytes *bytes, size_t len);

/* Opens a file to be read once, from its first byte on; it may be a pipe. Returns its descriptor,
 * or -1 and reports why. A folder cannot be opened. */
int open_stream(const char *name);

/* Opens an image that is read at offsets: a regular file or a block device. Returns its descriptor
 * and puts its length in bytes there, or -1 and reports why. */
int open_image(const char *name, uint64_t *len);

/* Reads all of a file, its first `max` bytes, or those before the first that cannot be read, and
 * then reports why. Returns whether no read failed; or false and no bytes, and reports that there is
 * no memory. */
bool read_some(const char *name, int fd, size_t max, struct bytes *bytes);

/* Reads all of a file, or its first `max` bytes. Returns 0; or -1 and reports why not, and then
 * there are no bytes. */
int read_first(const char *name, int fd, size_t max, struct bytes *bytes);

/* Reads exactly `size` bytes from `offset` on. Returns whether it did; if not, errno says why, and
 * is 0 if the file ends before them. */
bool read_at(int fd, uint8_t *to, size_t size, uint64_t offset);

#endif

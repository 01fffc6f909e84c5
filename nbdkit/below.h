/* What is below the filter: another filter or a plugin, as one connection sees it. */
#ifndef LUKSRD_NBDKIT_BELOW_H
#define LUKSRD_NBDKIT_BELOW_H

#include "input.h"

#include <nbdkit-filter.h>

#include <stdbool.h>
#include <stddef.h>
#include <stdint.h>

struct below {
  nbdkit_next *next;
  uint64_t len;       /* in bytes */
  uint32_t minimum;   /* it is read in whole blocks of this many bytes */
  uint32_t maximum;   /* the most bytes that it is asked for at once, whole blocks */
  uint32_t preferred; /* the number of bytes for which it works best, or 0 */
};

/* Asks for length and block size. Returns 0, or -1 if what is below has reported why not. */
int look_below(struct below *below, nbdkit_next *next);

/* Reads exactly `size` bytes from `offset` on, which are within it, for struct image. Returns
 * whether it did; if not, errno says why. */
bool read_below(void *below, uint8_t *to, size_t size, uint64_t offset);

/* Reads the first `size` bytes, or those before the first that cannot be read, and then errno says
 * why. Returns their number. */
size_t read_first_below(struct below *below, uint8_t *to, size_t size);

/* The first bytes of an image, or none. They tell one volume from another: they have the header of
 * LUKS1 with its key slots, or the binary header of LUKS2 with the checksum of the rest. */
struct start {
  uint8_t at[4096];
  size_t len;
};

/* Keeps the first bytes of an image. */
void keep_start(struct start *start, const struct bytes *header);

/* Whether they begin a header, the first one of LUKS2 or that of LUKS1. */
bool has_magic(const struct start *start);

/* How what is below compares with an image whose first bytes these are. If it could not be read,
 * errno says why. */
enum likeness { SAME, OTHER, UNREAD };

/* Compares all of these bytes. */
enum likeness compare_start(struct below *below, const struct start *start);

/* Compares the UUIDs of two headers, which have the same place in both formats. */
enum likeness compare_uuid(struct below *below, const struct start *start);

/* The blocks that contain `count` bytes from `offset` on, at most as many as a request may name. */
struct blocks {
  uint64_t offset;
  uint32_t count;
};

struct blocks blocks_of(const struct below *below, uint32_t count, uint64_t offset);

#endif

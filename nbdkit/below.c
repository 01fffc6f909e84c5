#include "below.h"

#include <errno.h>
#include <string.h>

/* The most bytes that are asked for at once, if what is below sets no lower limit. */
#define MAX_READ 1048576

int look_below(struct below *below, nbdkit_next *next)
{
  const int64_t len = next->get_size(next);
  uint32_t maximum;
  below->next = next;
  if (len < 0 || next->block_size(next, &below->minimum, &below->preferred, &maximum) < 0)
    return -1;
  below->len = (uint64_t)len;
  if (below->minimum == 0) {
    below->minimum = 1;
    maximum = UINT32_MAX;
  }
  /* (a minimum is a power of two, at most 65536) */
  below->maximum = maximum < MAX_READ ? maximum - maximum % below->minimum : MAX_READ;
  return 0;
}

/* Reads whole blocks, or blocks to the end. */
static bool read_blocks(const struct below *below, uint8_t *to, size_t size, uint64_t offset)
{
  while (size > 0) {
    const uint32_t count = size < below->maximum ? (uint32_t)size : below->maximum;
    int error = EIO;
    if (below->next->pread(below->next, to, count, offset, 0, &error) < 0) {
      errno = error;
      return false;
    }
    to += count;
    size -= count;
    offset += count;
  }
  return true;
}

/* The end of the last block that has a byte before this place. */
static uint64_t block_end(const struct below *below, uint64_t end)
{
  const uint64_t over = end % below->minimum;
  if (over == 0 || below->len - end < below->minimum - over)
    return over == 0 ? end : below->len;
  return end + (below->minimum - over);
}

bool read_below(void *from, uint8_t *to, size_t size, uint64_t offset)
{
  const struct below *below = from;
  const size_t before = offset % below->minimum;
  const size_t len = before + (block_end(below, offset + size) - offset);
  if (len == size)
    return read_blocks(below, to, size, offset);
  uint8_t *blocks = malloc(len);
  if (!blocks)
    return false;
  const bool is_read = read_blocks(below, blocks, len, offset - before);
  if (is_read)
    memcpy(to, blocks + before, size);
  const int error = errno;
  free(blocks);
  errno = error;
  return is_read;
}

size_t read_first_below(struct below *below, uint8_t *to, size_t size)
{
  size_t got = 0, step = MAX_READ;
  while (got < size) {
    const size_t count = size - got < step ? size - got : step;
    if (read_below(below, to + got, count, got))
      got += count;
    else if (step > 4096)
      step = 4096;
    else
      break;
  }
  return got;
}

void keep_start(struct start *start, const struct bytes *header)
{
  start->len = header->len < sizeof start->at ? header->len : sizeof start->at;
  memcpy(start->at, header->at, start->len);
}

bool has_magic(const struct start *start)
{
  static const uint8_t magic[] = { 'L', 'U', 'K', 'S', 0xba, 0xbe };
  return start->len >= sizeof magic && memcmp(start->at, magic, sizeof magic) == 0;
}

/* Compares `len` of these bytes, from `from` on. */
static enum likeness compare(struct below *below, const struct start *start, size_t from,
                             size_t len)
{
  uint8_t found[sizeof start->at];
  if (start->len < from + len || below->len < from + len)
    return OTHER;
  if (!read_below(below, found, len, from))
    return UNREAD;
  return memcmp(found, start->at + from, len) == 0 ? SAME : OTHER;
}

enum likeness compare_start(struct below *below, const struct start *start)
{
  return compare(below, start, 0, start->len);
}

enum likeness compare_uuid(struct below *below, const struct start *start)
{
  enum { UUID = 168, UUID_LEN = 40 };
  return compare(below, start, UUID, UUID_LEN);
}

struct blocks blocks_of(const struct below *below, uint32_t count, uint64_t offset)
{
  const uint64_t first = offset - offset % below->minimum;
  const uint64_t len = block_end(below, offset + count) - first;
  const uint32_t max = UINT32_MAX - UINT32_MAX % below->minimum;
  return (struct blocks){ .offset = first, .count = len < max ? (uint32_t)len : max };
}

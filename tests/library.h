/* What the programs over luksrd.h share that tests/test_library.py runs. */
#include "luksrd.h"

#include <stdbool.h>
#include <stdio.h>
#include <stdlib.h>
#include <string.h>

struct bytes {
  uint8_t *at;
  size_t len;
};

static void must(bool holds, const char *what)
{
  if (!holds) {
    fprintf(stderr, "FAILED: %s\n", what);
    exit(99);
  }
}

static inline struct bytes copy_of(const uint8_t *at, size_t len)
{
  struct bytes copy = { malloc(len > 0 ? len : 1), len };
  must(copy.at != NULL, "memory");
  memcpy(copy.at, at, len);
  return copy;
}

static inline struct bytes contents(const char *name)
{
  FILE *file = fopen(name, "rb");
  must(file != NULL && fseek(file, 0, SEEK_END) == 0, name);
  const long len = ftell(file);
  must(len >= 0 && fseek(file, 0, SEEK_SET) == 0, name);
  struct bytes all = { malloc(len > 0 ? (size_t)len : 1), (size_t)len };
  must(all.at != NULL && fread(all.at, 1, all.len, file) == all.len, name);
  fclose(file);
  return all;
}

/* The image's or the header's first bytes, which are all that opening needs. */
static inline struct bytes header_in(const char *name)
{
  struct bytes header = contents(name);
  if (header.len > LUKSRD_HEADER_BYTES)
    header.len = LUKSRD_HEADER_BYTES;
  return header;
}

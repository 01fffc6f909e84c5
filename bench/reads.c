/* Reads a volume over luksrd.h at random places, for bench/reads.
 *
 *     reads SIZE SECTOR COUNT
 *
 * reads SIZE bytes, COUNT times, of an image in memory whose sectors have SECTOR bytes, each from a
 * random sector on: it plans, takes the bytes, and finishes. Nothing else is done. */
#include "luksrd.h"

#include <stdlib.h>
#include <string.h>

#define IMAGE (1 << 22)

int main(int argc, char **argv)
{
  static uint8_t image[IMAGE], bytes[1 << 16];
  static struct luksrd_cipher cipher;
  if (argc != 4)
    return 1;
  const uint64_t size = strtoull(argv[1], NULL, 10), sector = strtoull(argv[2], NULL, 10);
  uint64_t state = 1, count = strtoull(argv[3], NULL, 10);
  struct luksrd_volume volume = {
    .sector_size = (uint32_t)sector,
    .mode = LUKSRD_XTS_PLAIN64,
    .key_size = 64,
  };
  memset(volume.key, 0x5a, 32);
  if (luksrd_prepare(&volume, &cipher) != LUKSRD_OK)
    return 1;
  for (; count > 0; count--) {
    state = state * 6364136223846793005u + 1442695040888963407u;
    const uint64_t offset = (state >> 33) % ((IMAGE - size) / sector) * sector;
    struct luksrd_step step;
    if (luksrd_plan(&cipher, IMAGE, offset, size, &step) != LUKSRD_OK || step.count != size)
      return 1;
    memcpy(bytes, image + step.read_offset, step.read_len);
    if (luksrd_finish(&cipher, &step, bytes, step.read_len) != LUKSRD_OK)
      return 1;
  }
  return 0;
}

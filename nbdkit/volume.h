/* An open volume, and any part of its plaintext. Only this file calls luksrd's library. */
#ifndef LUKSRD_NBDKIT_VOLUME_H
#define LUKSRD_NBDKIT_VOLUME_H

#include "luksrd.h"
#include "input.h"
#include "parameters.h"

#include <stdbool.h>
#include <stdint.h>

/* How many first bytes of an image, or of a detached header, a volume is opened from. */
#define MAX_HEADER LUKSRD_HEADER_BYTES

/* The longest passphrase, and the longest volume key. */
#define MAX_PASSPHRASE LUKSRD_PASSPHRASE_BYTES
#define MAX_VOLUME_KEY sizeof(((struct luksrd_volume *)0)->key)

/* It does not change after it is opened, so threads may read it at the same time. */
struct volume {
  const char *name; /* of the image, or NULL if it has none */
  struct luksrd_volume opened;
  struct luksrd_cipher cipher;
};

/* An image that is read at offsets, whoever reads it. */
struct image {
  uint64_t len; /* in bytes */
  /* Reads exactly `size` bytes from `offset` on, which are within the image. Returns whether it
   * did; if not, errno says why, and is 0 if the image has become shorter. */
  bool (*read)(void *from, uint8_t *to, size_t size, uint64_t offset);
  void *from;
};

/* Reads the first bytes of an image, or of the detached header that the parameters name. If a read
 * fails, luksrd may still need none of the bytes that are missing: then the others are taken, as if
 * the image ended there. Returns 0; or -1 and reports why not. */
int read_header(const char *name, int fd, const struct parameters *parameters,
                struct bytes *header);

/* Whether luksrd can open a volume with these first bytes of an image, although the next ones cannot
 * be read: they have its header, or a volume key opens it. It refuses a volume with a key area that
 * is not there. */
bool are_enough(const struct bytes *start, const struct parameters *parameters);

/* The end of an attempt to open a volume: it is open; it is refused, and will be, also if memory for
 * Argon2 was; or, if other memory was short or a read failed, it may open later. */
enum outcome { OPENED, REFUSED, TRY_LATER };

/* Tries a passphrase on a header, the detached one if the parameters name one; or, if they name a
 * file with the volume key, takes that and what they say of the payload, unless the header has the
 * digest of another key. If the volume does not open, reports why not, and keeps no key. */
enum outcome unlock(struct volume *volume, const struct bytes *header, const struct bytes *secret,
                    const struct parameters *parameters);

/* Compares a header that has changed with the open volume: OPENED if the volume's key matches its
 * digest, and it describes the payload as before; then another volume would not be served. REFUSED
 * if not. */
enum outcome compare_header(const struct volume *volume, const struct bytes *header,
                            const struct parameters *parameters);

/* Writes over what functions that the caller called before have left on the stack: 256 KiB of it,
 * or what there is. Clears the vector registers, in which copying leaves bytes: the loader saves
 * these on the stack when it looks up a function. Called after a secret was read or used. */
void forget_copies(void);

/* The length of the plaintext that is served, whole sectors, if the image has this length. */
uint64_t plain_len(const struct volume *volume, uint64_t image_len);

/* The first byte of the payload in the image. */
uint64_t payload_offset(const struct volume *volume);

/* Reports an incomplete image: it is served all the same, as far as it goes. */
void report_ending(const struct volume *volume, uint64_t image_len);

/* Puts `count` bytes of plaintext from `offset` on, which are within the volume, into the buffer.
 * Returns 0; or -1 and reports why not, and then the buffer is zeroed. */
int read_plain(const struct volume *volume, const struct image *image, uint8_t *to, uint32_t count,
               uint64_t offset);

/* Wipes the keys. */
void close_volume(struct volume *volume);

/* Prints the version of the library, and which volumes it opens, as lines of NAME=VALUE. */
void print_library(void);

#endif

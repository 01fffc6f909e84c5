/*
 * luksrd.h: any part of the plaintext of a LUKS1 or LUKS2 volume, from C.
 *
 * luksrd_open opens a volume from the first bytes of its image, or of its detached header, and
 * luksrd_prepare expands its key once. After that luksrd_read reads any range of the plaintext,
 * over a function of the caller that reads the image as pread does:
 *
 *     static int64_t read_image(void *from, uint8_t *to, size_t len, uint64_t offset)
 *     {
 *       return pread(*(int *)from, to, len, (off_t)offset);
 *     }
 *
 *     struct luksrd_options options = { .size = sizeof options };
 *     if (luksrd_open(header, header_len, passphrase, passphrase_len, &options, &volume,
 *                     &message) ||
 *         luksrd_prepare(&volume, &cipher) ||
 *         luksrd_read(&cipher, image_len, read_image, &fd, offset, to, len))
 *       return failed;
 *
 * These options set no limit of iterations, and let Argon2 have 4 GiB of memory, so that a hostile
 * header may make luksrd_open take days: struct luksrd_options has limits.
 *
 * Key slots by Argon2, which are LUKS2's default, are tried by luksrd_open and skipped by `luksrd`.
 * So what is said of `luksrd luksCat` holds if the header has no such slot or `no_argon2` is not 0.
 * With one, luksrd_open tries more slots, in the same order, and its messages have more reasons. Once
 * the volume is open, its plaintext is what luksCat writes by the same volume key.
 *
 * luksrd_read is written here, in C, over two functions: luksrd_plan says which bytes of the image
 * the next step reads, and luksrd_finish decrypts them. A caller that cannot wait for a read calls
 * these itself, as luksrd_read does. A range has at most three steps.
 *
 * Sector n of the payload begins at byte `offset + n * sector_size` of the image, and holds the
 * bytes from `n * sector_size` on of what `luksrd luksCat` writes. luksrd_decrypt decrypts sectors
 * that the caller has read in another way.
 *
 * Rules for the caller, in every function:
 *   - no pointer is NULL, not even one to no bytes;
 *   - a pointer with a length points to that many bytes; any other points to one whole value of its
 *     type, aligned as its type is;
 *   - memory that is passed does not overlap, and no other thread changes it until the call
 *     returns.
 *
 * No function keeps state, so threads may call all of them at once, with the same volume and cipher
 * too. Only luksrd_open, luksrd_open_by_key and luksrd_check_key allocate memory, by malloc, realloc
 * and free. They may not be called from a signal handler, nor from the forked child of a process
 * with threads. luksrd_open asks for the memory of a slot by Argon2 in one piece, when the slot's
 * turn comes, and frees it before it returns.
 *
 * luksrd_open, luksrd_open_by_key and luksrd_check_key need at most 256 KiB of stack, luksrd_prepare
 * 128 KiB, luksrd_wipe_stack 257 KiB, luksrd_read 40 KiB and what `read` needs, and every other
 * function 32 KiB.
 *
 * What is left of keys: luksrd_open, luksrd_open_by_key, luksrd_check_key and luksrd_prepare write
 * over the stack that they used before they return, whatever they return; luksrd_open also over the
 * memory of Argon2, before it frees that. The caller wipes the passphrase, the volume and the cipher
 * (luksrd_wipe), and what its own functions leave on the stack (luksrd_wipe_stack).
 * Parts of keys can stay in registers that nothing has used since. The loader saves registers on the
 * stack when it looks up a function for the first time, unless the program is linked with
 * `-Wl,-z,now`. The library puts no copy elsewhere.
 */
#ifndef LUKSRD_H
#define LUKSRD_H

#include <stddef.h>
#include <stdint.h>
#include <string.h>

#ifdef __cplusplus
extern "C" {
#endif

#ifdef __GNUC__
#define LUKSRD_NONNULL __attribute__((nonnull))
#define LUKSRD_CHECKED __attribute__((nonnull, warn_unused_result))
#define LUKSRD_INLINE __inline__ __attribute__((unused))
#else
#define LUKSRD_NONNULL
#define LUKSRD_CHECKED
#define LUKSRD_INLINE
#endif

/* The number of first bytes of an image or of a detached header that decide everything about
 * opening: with them the outcome is the same as with all its bytes. A shorter one is passed
 * whole. */
#define LUKSRD_HEADER_BYTES 33554432

/* The longest passphrase in bytes, which is also that of a key file. */
#define LUKSRD_PASSPHRASE_BYTES 8388608

/* The length of the longest sector in bytes. */
#define LUKSRD_SECTOR_BYTES 4096

/* What a function returns. The codes 1 to 11 are refusals of `luksrd luksCat`. For luksrd_open,
 * codes 2, 7, 8, 10 and 11 may be about slots by Argon2, too: 2 if the key area of one is not whole,
 * even if another slot opens, and 11 if the memory of one is refused. */
enum luksrd_code {
  LUKSRD_OK = 0,
  LUKSRD_NOT_LUKS = 1,        /* the image has no LUKS header */
  LUKSRD_TRUNCATED = 2,       /* the image ends inside the header or a key area */
  LUKSRD_JSON = 3,            /* the JSON area of a LUKS2 header is not readable */
  LUKSRD_SEGMENT_REFUSED = 4, /* the payload cannot be read */
  LUKSRD_NO_SUCH_SLOT = 5,    /* the named key slot is not there */
  LUKSRD_SLOT_DISABLED = 6,   /* the named key slot is not in use */
  LUKSRD_SLOT_SKIPPED = 7,    /* the named key slot cannot be tried */
  LUKSRD_NOTHING_TRIED = 8,   /* no key slot can be tried */
  LUKSRD_KEY_FILE_LENGTH = 9, /* the passphrase is longer than LUKSRD_PASSPHRASE_BYTES */
  LUKSRD_NO_KEY = 10,         /* no key slot that was tried opens */
  LUKSRD_OUT_OF_MEMORY = 11,

  /* how an incomplete image ends */
  LUKSRD_ENDS_BEFORE_PAYLOAD = 12, /* before its payload begins */
  LUKSRD_ENDS_INSIDE_SECTOR = 13,  /* inside a sector of the payload */
  LUKSRD_ENDS_BEFORE_SEGMENT = 14, /* before the end of a payload of fixed size */

  /* a call that no caller should make */
  LUKSRD_BAD_OPTIONS = 15, /* a key slot number above 31, a key slot named where none may be, or
                            * options of another version */
  LUKSRD_BAD_VOLUME = 16,  /* a struct without an open volume */
  LUKSRD_BAD_RANGE = 17,   /* no whole sectors, sector numbers that are too large, or a range that
                            * ends past the plaintext */

  /* what luksrd_check_key and luksrd_open_by_key find */
  LUKSRD_OTHER_KEY = 18, /* the volume key does not match the digest in the header */
  LUKSRD_NO_DIGEST = 19  /* the header has no digest that the volume key can be compared with */
};

/* How a volume is opened. `{ .size = sizeof(struct luksrd_options) }` is an attached header, every
 * key slot, and no limit of iterations, so that a hostile header may make opening take days.
 *
 * A key slot by Argon2 is tried if it is within both of its limits, and skipped otherwise, with the
 * limit as the reason in the message and, for the first slot there, with what it asks for. If its
 * memory is refused, luksrd_open returns LUKSRD_OUT_OF_MEMORY with the slot and the memory in the
 * message, and tries no later slot: a named slot or a limit gets around it.
 *
 * The library of release 1.2.0 does not know the three fields for Argon2: it returns
 * LUKSRD_BAD_OPTIONS if one of them is not 0, and skips these slots if all are. */
struct luksrd_options {
  uint32_t size;              /* sizeof(struct luksrd_options) */
  uint32_t detached;          /* not 0: the bytes are those of a detached header */
  uint32_t has_key_slot;      /* not 0: only key slot number `key_slot` is tried */
  uint32_t key_slot;          /* 0 to 31 */
  uint32_t max_iterations;    /* the limit of PBKDF2 iterations of a slot or a digest; 0, the
                               * default: no limit */
  uint32_t argon2_memory_kib; /* the limit of Argon2's memory in KiB; 0, the default: 4194304, which
                               * is cryptsetup's own maximum */
  uint32_t argon2_fill_mib;   /* the limit of the memory that Argon2 fills in all passes, which is
                               * time * memory, in MiB; 0, the default: 65536 */
  uint32_t no_argon2;         /* not 0: slots by Argon2 are skipped, as `luksrd` does */
  uint8_t reserved[32];       /* 0 */
};

/* How a payload is encrypted: the last part of `aes-..` in a header. */
enum luksrd_mode {
  LUKSRD_XTS_PLAIN64 = 1,
  LUKSRD_XTS_PLAIN = 2,
  LUKSRD_CBC_ESSIV_SHA256 = 3,
  LUKSRD_CBC_PLAIN64 = 4
};

/* The name of a mode in headers and in `cryptsetup luksDump`, or NULL if it is none of enum
 * luksrd_mode. */
static LUKSRD_INLINE const char *luksrd_mode_name(uint32_t mode)
{
  switch (mode) {
  case LUKSRD_XTS_PLAIN64:
    return "aes-xts-plain64";
  case LUKSRD_XTS_PLAIN:
    return "aes-xts-plain";
  case LUKSRD_CBC_ESSIV_SHA256:
    return "aes-cbc-essiv:sha256";
  case LUKSRD_CBC_PLAIN64:
    return "aes-cbc-plain64";
  default:
    return NULL;
  }
}

/* The mode of this name, or 0 if none has it. */
static LUKSRD_INLINE uint32_t luksrd_mode_of(const char *name)
{
  uint32_t mode;
  for (mode = LUKSRD_XTS_PLAIN64; mode <= LUKSRD_CBC_PLAIN64; mode++)
    if (strcmp(name, luksrd_mode_name(mode)) == 0)
      return mode;
  return 0;
}

/* An open volume. It belongs to the caller, has no pointers and may be copied. It contains the
 * volume key: wipe it (luksrd_wipe) when it is no longer needed.
 *
 * If the volume key is known, the caller can fill the struct by hand, without a passphrase and even
 * without a header: each field as stated here, all others 0. luksrd_prepare refuses a struct whose
 * fields do not go together; luksrd_len and luksrd_ending use `offset`, `size`, `has_size` and
 * `sector_size` alone. luksrd_check_key compares the key with a header, if there is one, and
 * luksrd_open_by_key also fills the struct. */
struct luksrd_volume {
  uint64_t offset;      /* the first byte of the payload in its image */
  uint64_t size;        /* the payload's length in bytes, if has_size is 1; else 0 */
  uint64_t iv_tweak;    /* the data unit number of the first sector, in units of 512 bytes */
  uint32_t has_size;    /* 1: the payload has a fixed size; 0: it ends with its image */
  uint32_t sector_size; /* 512, 1024, 2048 or 4096 bytes */
  uint32_t mode;        /* one of enum luksrd_mode */
  uint32_t key_size;    /* the volume key's length in bytes: 16, 32 or 64 */
  uint32_t key_slot;    /* the number of the key slot that opened; 0 if none did */
  uint32_t reserved;    /* 0 */
  uint8_t key[64];      /* the volume key; the bytes past key_size are 0 */
};

/* What decryption needs of an open volume: its expanded keys, and where its payload is. It belongs
 * to the caller, has no pointers and may be copied. It contains keys: wipe it (luksrd_wipe) when it
 * is no longer needed. luksrd_prepare fills it; its contents are the library's own.
 *
 * Any bytes in it are safe to pass. With those that luksrd_prepare filled in, the plaintext is that
 * of the volume. With others a call is refused, or gives bytes that mean nothing. */
struct luksrd_cipher {
  uint64_t words[2048]; /* 16384 bytes */
};

/* A step of reading a range of the plaintext: the bytes of the image to read, which are whole
 * sectors, and which of them the range gets. Either these are whole sectors of the range (`skip` is
 * 0, and `count` is `read_len`), so that they can be read to their place, or they are one sector of
 * which the range gets a part, so that LUKSRD_SECTOR_BYTES are enough for it. */
struct luksrd_step {
  uint64_t read_offset;  /* the first byte of the image to read */
  uint64_t read_len;     /* how many bytes to read */
  uint64_t first_sector; /* the number of the sector that begins there */
  uint64_t skip;         /* how many of the bytes come before the range */
  uint64_t count;        /* how many bytes of the range the step gives; 0 if the range is empty */
};

/* A message: the exit status of `luksrd luksCat`, and the line that it prints on standard
 * error, without its newline. Each fits whole. */
struct luksrd_message {
  uint32_t status; /* 0: success; 1: refused; 2: no key; 3: out of memory; 4: the image is not as it
                    * has to be */
  uint32_t len;    /* the text's length in bytes, at most 1015; 0 if the status is 0 */
  char text[1016]; /* the text; the bytes past `len`, at least one, are 0 */
};

/* Opens a volume by a passphrase.
 *
 * `header` is the image's first bytes, or those of the detached header if the options say so: the
 * first LUKSRD_HEADER_BYTES of it, or all of it if it is shorter. The passphrase is used as it is,
 * including a newline at its end.
 *
 * Returns LUKSRD_OK: the volume is filled and the message is empty. Or returns, with a volume that
 * is all zero:
 *   - LUKSRD_BAD_OPTIONS, exactly if has_key_slot is not 0 and key_slot is above 31, `size` is not
 *     sizeof(struct luksrd_options), or a byte of `reserved` is not 0. The message is that of
 *     luksrd_status_text;
 *   - a code from 1 to 11, with the message of `luksrd luksCat`, but for slots by Argon2.
 * The time is that of PBKDF2 and Argon2, which the header decides: seconds and more, if it has many
 * iterations and no limit is given. Nothing cancels it. */
uint32_t luksrd_open(const uint8_t *header, size_t header_len, const uint8_t *passphrase,
                     size_t passphrase_len, const struct luksrd_options *options,
                     struct luksrd_volume *volume, struct luksrd_message *message) LUKSRD_CHECKED;

/* Compares a volume key that is known with the digest in a header: for LUKS2 the usable digest with
 * the lowest number that lists segment 0, for LUKS1 the only one.
 *
 * `header` and the options are those of luksrd_open, but no key slot may be named, and those for
 * Argon2 are ignored. No key area is looked at. `key` is the key alone, without zeros after it:
 * PBKDF2 does not distinguish a key from the same key with zeros after it.
 *
 * Returns LUKSRD_OK if the key matches the whole digest: the message is empty. Or returns:
 *   - LUKSRD_OTHER_KEY, with the message of luksrd_status_text, if it does not, or if the cipher in
 *     the header has no keys of its length;
 *   - LUKSRD_NO_DIGEST, with the message of luksrd_status_text, if there is no such digest, or it
 *     has more iterations than the limit;
 *   - LUKSRD_BAD_OPTIONS, exactly if has_key_slot is not 0, `size` is not sizeof(struct
 *     luksrd_options), or a byte of `reserved` is not 0. The message is that of luksrd_status_text;
 *   - LUKSRD_NOT_LUKS, LUKSRD_TRUNCATED, LUKSRD_JSON, LUKSRD_SEGMENT_REFUSED or
 *     LUKSRD_OUT_OF_MEMORY, with the message of `luksrd luksCat`.
 * The time is that of PBKDF2, which the header decides, as in luksrd_open. */
uint32_t luksrd_check_key(const uint8_t *header, size_t header_len, const uint8_t *key,
                          size_t key_len, const struct luksrd_options *options,
                          struct luksrd_message *message) LUKSRD_CHECKED;

/* Opens a volume by a volume key that is known, if it matches the digest in a header.
 *
 * The header, the key and the options are those of luksrd_check_key, and so are the result, the
 * message and the time. If it returns LUKSRD_OK, the volume is filled: with the payload as the
 * header describes it, with the key, and with 0 for `key_slot`, since no key slot opened. Otherwise
 * the volume is all zero. */
uint32_t luksrd_open_by_key(const uint8_t *header, size_t header_len, const uint8_t *key,
                            size_t key_len, const struct luksrd_options *options,
                            struct luksrd_volume *volume, struct luksrd_message *message)
    LUKSRD_CHECKED;

/* The number of first bytes of an image, or of the file of a detached header, that hold its
 * headers, as far as `header`, its first bytes, say so: 592 for LUKS1, and both headers for LUKS2,
 * of which one is whole in these bytes and valid. LUKSRD_HEADER_BYTES if they do not say.
 *
 * So the headers are there if it is at most `len`. Key areas lie after them. */
uint64_t luksrd_header_len(const uint8_t *header, size_t len) LUKSRD_CHECKED;

/* The length in bytes of a volume's plaintext, if its payload's image has `image_len` bytes: its
 * whole sectors, a multiple of the sector size. 0 if `sector_size` is none of its four values, as
 * in a struct that luksrd_open has set to zero, or `has_size` is above 1. */
uint64_t luksrd_len(const struct luksrd_volume *volume, uint64_t image_len) LUKSRD_CHECKED;

/* How the payload ends in an image of `image_len` bytes.
 *
 * Returns LUKSRD_OK, with 0 in `bytes`, if it is whole; LUKSRD_ENDS_BEFORE_PAYLOAD, with 0;
 * LUKSRD_ENDS_INSIDE_SECTOR, with the number of bytes of that sector that are there; or
 * LUKSRD_ENDS_BEFORE_SEGMENT, with the number of bytes of the payload that are missing. The message
 * is the one with which `luksrd luksCat` ends.
 *
 * Returns LUKSRD_BAD_VOLUME, with 0 in `bytes` and the message of luksrd_status_text, exactly if
 * `sector_size` is none of its four values, as in a struct that luksrd_open has set to zero, or
 * `has_size` is above 1. */
uint32_t luksrd_ending(const struct luksrd_volume *volume, uint64_t image_len, uint64_t *bytes,
                       struct luksrd_message *message) LUKSRD_CHECKED;

/* Expands a volume's keys. This is done once: no other function does it.
 *
 * Returns LUKSRD_OK. Or returns LUKSRD_BAD_VOLUME, with a cipher that is all zero, exactly if
 * `sector_size` or `mode` is none of its values, `has_size` is above 1, `has_size` is 1 and `size`
 * is not a multiple of the sector size, `key_size` is not a key length of the mode (32 or 64 for
 * XTS, 16 or 32 for CBC), or `reserved` is not 0. A struct that luksrd_open has filled is never
 * refused. */
uint32_t luksrd_prepare(const struct luksrd_volume *volume, struct luksrd_cipher *cipher)
    LUKSRD_CHECKED;

/* The next step of reading the `len` bytes of the plaintext from byte `offset` on, if the payload's
 * image has `image_len` bytes. No byte outside the sectors of the range is read. Each step gives at
 * least one byte, if `len` is not 0, and a range has at most three steps.
 *
 * Returns LUKSRD_OK. Or returns, with a step that is all zero:
 *   - LUKSRD_BAD_VOLUME for a cipher of which no segment can be read, as one that is all zero;
 *   - otherwise LUKSRD_BAD_RANGE, exactly if the range ends past the plaintext, whose length is
 *     luksrd_len. */
uint32_t luksrd_plan(const struct luksrd_cipher *cipher, uint64_t image_len, uint64_t offset,
                     uint64_t len, struct luksrd_step *step) LUKSRD_CHECKED;

/* Decrypts the bytes that a step reads, and moves the part that the range gets to their beginning:
 * the first `step->count` of the bytes are those of the range. The bytes after them are zeros.
 *
 * A caller that read fewer bytes than the step names must not pass the rest.
 *
 * Returns LUKSRD_OK. Or returns, with the bytes unchanged, what luksrd_decrypt returns for these
 * bytes and `step->first_sector`, or LUKSRD_BAD_RANGE if `step->skip + step->count` is above
 * `len`. */
uint32_t luksrd_finish(const struct luksrd_cipher *cipher, const struct luksrd_step *step,
                       uint8_t *bytes, size_t len) LUKSRD_CHECKED;

/* Fills the bytes with zeros, also if nothing reads them afterwards. */
void luksrd_wipe(void *bytes, size_t len) LUKSRD_NONNULL;

/* Reads bytes of an image, as pread does: at most `len` of them, which is not 0, from byte `offset`
 * on. Returns how many it put there, 0 only if the image ends; or -1 if it could not read. */
typedef int64_t luksrd_pread(void *from, uint8_t *to, size_t len, uint64_t offset);

/* Calls `read` until all of these bytes are there. Returns 0; or -1 if it does not give them. */
static LUKSRD_INLINE int luksrd_read_image(luksrd_pread *read, void *from, uint8_t *to, size_t len,
                                           uint64_t offset)
{
  while (len > 0) {
    const int64_t got = read(from, to, len, offset);
    if (got <= 0 || (uint64_t)got > len)
      return -1;
    to += got;
    len -= (size_t)got;
    offset += (uint64_t)got;
  }
  return 0;
}

/* Puts the next bytes of a range into `to`: at least one of its `len` bytes, which are not 0, and
 * at most all; `got` is how many. Returns as luksrd_read does. */
static LUKSRD_INLINE int luksrd_read_step(const struct luksrd_cipher *cipher, uint64_t image_len,
                                          luksrd_pread *read, void *from, uint64_t offset,
                                          uint8_t *to, size_t len, size_t *got)
{
  uint8_t sector[LUKSRD_SECTOR_BYTES];
  struct luksrd_step step;
  uint8_t *bytes = to;
  int status = (int)luksrd_plan(cipher, image_len, offset, len, &step);
  if (step.count != step.read_len)
    bytes = sector;
  if (status == 0)
    status = luksrd_read_image(read, from, bytes, (size_t)step.read_len, step.read_offset);
  if (status == 0)
    status = (int)luksrd_finish(cipher, &step, bytes, (size_t)step.read_len);
  if (status == 0 && bytes == sector)
    memcpy(to, sector, (size_t)step.count);
  *got = (size_t)step.count;
  return status;
}

/* Puts the `len` bytes of the plaintext from byte `offset` on into `to`, if the payload's image has
 * `image_len` bytes. `read` reads that image, and gets `from`, which may be NULL. It is called
 * until all bytes of a step are there. No byte outside the sectors of the range is read, and none
 * if the range is refused.
 *
 * Returns LUKSRD_OK, which is 0. Or fills `to` with zeros, and returns a code of luksrd_plan or of
 * luksrd_finish; or -1 if the image ends before a byte of the range, or `read` failed. It leaves
 * errno as `read` has set it. */
static LUKSRD_INLINE int luksrd_read(const struct luksrd_cipher *cipher, uint64_t image_len,
                                     luksrd_pread *read, void *from, uint64_t offset, uint8_t *to,
                                     size_t len)
{
  /* (more would leave the processor's cache before it is decrypted) */
  const size_t most = 262144;
  struct luksrd_step step;
  size_t done = 0;
  int status = (int)luksrd_plan(cipher, image_len, offset, len, &step);
  while (status == 0 && done < len) {
    const size_t piece = most - (size_t)((offset + done) % most), remaining = len - done;
    size_t got = 0;
    status = luksrd_read_step(cipher, image_len, read, from, offset + done, to + done,
                              remaining < piece ? remaining : piece, &got);
    done += got;
  }
  if (status != 0)
    luksrd_wipe(to, len);
  return status;
}

/* Decrypts whole sectors in place, from sector `first_sector` of the payload on.
 *
 * The bytes are those of the image from byte `offset + first_sector * sector_size` on: a caller
 * that read fewer bytes than it wanted must not pass the rest.
 *
 * Returns LUKSRD_OK. Or returns, with the bytes unchanged:
 *   - LUKSRD_BAD_VOLUME for a cipher of which no segment can be read, as one that is all zero. A
 *     struct that luksrd_prepare has filled is never refused;
 *   - otherwise LUKSRD_BAD_RANGE, exactly if `len` is not a multiple of the sector size, or
 *     `first_sector + len / sector_size` is above 2^64 - 1. */
uint32_t luksrd_decrypt(const struct luksrd_cipher *cipher, uint64_t first_sector, uint8_t *bytes,
                        size_t len) LUKSRD_CHECKED;

#ifdef __GNUC__
static __attribute__((noinline, unused)) void luksrd_wipe_below(void)
{
  uint8_t below[262144];
  luksrd_wipe(below, sizeof below);
}

static __attribute__((noinline, unused)) void luksrd_wipe_deep(void)
{
  /* When the loader looks up a function, it saves registers: here, where they are wiped. */
  uint8_t first;
  luksrd_wipe(&first, sizeof first);
  luksrd_wipe_below();
}

/* Fills the 256 KiB of stack below the caller with zeros, where functions that it called before
 * may have left copies of passphrases and keys: its own, and the loader. The library's functions
 * leave none. Call it from the function that called them, in the same thread. In a thread with a
 * smaller stack, do not call it: wipe that stack when the thread has ended. */
static __inline__ __attribute__((always_inline, unused)) void luksrd_wipe_stack(void)
{
  luksrd_wipe_deep();
#ifdef __x86_64__
  /* what is between the caller's frame and the array of luksrd_wipe_below */
  __asm__ volatile(".irp at, 8, 16, 24, 32, 40, 48, 56, 64, 72, 80, 88, 96, 104, 112, 120, 128\n\t"
                   "{movq $0, -\\at(%%rsp)|mov qword ptr [rsp-\\at], 0}\n\t"
                   ".endr" ::: "memory");
#endif
}
#endif

/* The status and the sentence of a code alone, without slot numbers, reasons and counts of bytes.
 * LUKSRD_OK has status 0 and an empty sentence. A number that is not a code has status 1 and the
 * sentence "luksrd: no such code". */
void luksrd_status_text(uint32_t code, struct luksrd_message *message) LUKSRD_NONNULL;

/* The version of this header. */
#define LUKSRD_VERSION 0x010300

/* The version of the library, as LUKSRD_VERSION: major * 65536 + minor * 256 + patch. */
uint32_t luksrd_version(void);

/* The size of each struct and the offset of each field, which never change while the shared library
 * has the same name. */
#if defined(__STDC_VERSION__) && __STDC_VERSION__ >= 201112L
_Static_assert(sizeof(struct luksrd_options) == 64, "layout");
_Static_assert(offsetof(struct luksrd_options, size) == 0, "layout");
_Static_assert(offsetof(struct luksrd_options, detached) == 4, "layout");
_Static_assert(offsetof(struct luksrd_options, has_key_slot) == 8, "layout");
_Static_assert(offsetof(struct luksrd_options, key_slot) == 12, "layout");
_Static_assert(offsetof(struct luksrd_options, max_iterations) == 16, "layout");
_Static_assert(offsetof(struct luksrd_options, argon2_memory_kib) == 20, "layout");
_Static_assert(offsetof(struct luksrd_options, argon2_fill_mib) == 24, "layout");
_Static_assert(offsetof(struct luksrd_options, no_argon2) == 28, "layout");
_Static_assert(offsetof(struct luksrd_options, reserved) == 32, "layout");
_Static_assert(sizeof(struct luksrd_volume) == 112, "layout");
_Static_assert(offsetof(struct luksrd_volume, offset) == 0, "layout");
_Static_assert(offsetof(struct luksrd_volume, size) == 8, "layout");
_Static_assert(offsetof(struct luksrd_volume, iv_tweak) == 16, "layout");
_Static_assert(offsetof(struct luksrd_volume, has_size) == 24, "layout");
_Static_assert(offsetof(struct luksrd_volume, sector_size) == 28, "layout");
_Static_assert(offsetof(struct luksrd_volume, mode) == 32, "layout");
_Static_assert(offsetof(struct luksrd_volume, key_size) == 36, "layout");
_Static_assert(offsetof(struct luksrd_volume, key_slot) == 40, "layout");
_Static_assert(offsetof(struct luksrd_volume, reserved) == 44, "layout");
_Static_assert(offsetof(struct luksrd_volume, key) == 48, "layout");
_Static_assert(sizeof(struct luksrd_cipher) == 16384, "layout");
_Static_assert(offsetof(struct luksrd_cipher, words) == 0, "layout");
_Static_assert(sizeof(struct luksrd_step) == 40, "layout");
_Static_assert(offsetof(struct luksrd_step, read_offset) == 0, "layout");
_Static_assert(offsetof(struct luksrd_step, read_len) == 8, "layout");
_Static_assert(offsetof(struct luksrd_step, first_sector) == 16, "layout");
_Static_assert(offsetof(struct luksrd_step, skip) == 24, "layout");
_Static_assert(offsetof(struct luksrd_step, count) == 32, "layout");
_Static_assert(sizeof(struct luksrd_message) == 1024, "layout");
_Static_assert(offsetof(struct luksrd_message, status) == 0, "layout");
_Static_assert(offsetof(struct luksrd_message, len) == 4, "layout");
_Static_assert(offsetof(struct luksrd_message, text) == 8, "layout");
#endif

#ifdef __cplusplus
}
#endif

#endif

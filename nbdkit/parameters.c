#include "parameters.h"
#include "volume.h"

#include <errno.h>
#include <malloc.h>
#include <stdio.h>
#include <stdlib.h>
#include <string.h>

#define NBDKIT_API_VERSION 2
#include <nbdkit-plugin.h>

/* Reads a number as luksrd's command line does: decimal digits and nothing else, no more than the
 * largest number of 32, 63 or 64 bits has. */
static int take_number(const char *key, const char *value, uint64_t min, uint64_t max,
                       uint64_t *number)
{
  const size_t max_digits = max > INT64_MAX ? 20 : max > UINT32_MAX ? 19 : 10;
  const size_t digits = strspn(value, "0123456789");
  errno = 0;
  const unsigned long long read = strtoull(value, NULL, 10);
  if (digits >= 1 && digits <= max_digits && value[digits] == '\0' && errno == 0 &&
      read >= min && read <= max) {
    *number = read;
    return 0;
  }
  nbdkit_error("%s=%s: not a number from %llu to %llu", key, value, (unsigned long long)min,
               (unsigned long long)max);
  return -1;
}

/* The same, for a number of 32 bits. */
static int take_number32(const char *key, const char *value, uint32_t min, uint32_t max,
                         uint32_t *number)
{
  uint64_t read = 0;
  const int status = take_number(key, value, min, max, &read);
  *number = (uint32_t)read;
  return status;
}

int take_name(const char *key, const char *value, char **name)
{
  if (*name) {
    nbdkit_error("%s= is given twice", key);
    return -1;
  }
  *name = strdup(value);
  if (!*name) {
    nbdkit_error("luksrd: out of memory");
    return -1;
  }
  return 0;
}

/* Writes over small blocks that were freed and that malloc keeps, by their size: M_PERTURB leaves
 * these as they are. */
static void wipe_freed(void)
{
  enum { SMALLEST = 24, LARGEST = 1032, APART = 16, KEPT = 7 };
  for (size_t size = SMALLEST; size <= LARGEST; size += APART) {
    void *blocks[KEPT];
    for (int i = 0; i < KEPT; i++) {
      blocks[i] = malloc(size);
      if (blocks[i])
        explicit_bzero(blocks[i], size);
    }
    for (int i = 0; i < KEPT; i++)
      free(blocks[i]);
  }
}

/* Moves the passphrase that nbdkit has read to memory of a length that is known: what nbdkit has
 * allocated may be longer. */
static int keep_passphrase(char *read, struct bytes *passphrase)
{
  const size_t len = strlen(read);
  const int status = allocate(passphrase, len);
  if (status == 0)
    memcpy(passphrase->at, read, len);
  explicit_bzero(read, len);
  free(read);
  return status;
}

/* Reads the passphrase as nbdkit does for all plugins. It leaves what it has read in freed memory,
 * in the buffer of standard input, on the stack and in registers: the second is not used, and the
 * others are overwritten. So is what comes after a zero byte, which ends the passphrase. */
static int take_passphrase(const char *value, struct bytes *passphrase)
{
  if (passphrase->at) {
    nbdkit_error("passphrase= is given twice");
    return -1;
  }
  if (strcmp(value, "-") == 0)
    setvbuf(stdin, NULL, _IONBF, 0);
  char *read = NULL;
  mallopt(M_PERTURB, 0xff);
  int status = nbdkit_read_password(value, &read);
  if (status == 0)
    status = keep_passphrase(read, passphrase);
  mallopt(M_PERTURB, 0);
  wipe_freed();
  forget_copies();
  return status;
}

static int take_key_slot(const char *key, const char *value, struct parameters *parameters)
{
  if (parameters->has_key_slot) {
    nbdkit_error("%s= is given twice", key);
    return -1;
  }
  parameters->has_key_slot = true;
  return take_number32(key, value, 0, 31, &parameters->key_slot);
}

static int take_limit(const char *key, const char *value, uint32_t *max_iterations)
{
  if (*max_iterations) {
    nbdkit_error("%s= is given twice", key);
    return -1;
  }
  return take_number32(key, value, 1, UINT32_MAX, max_iterations);
}

/* Reads a limit of Argon2, in whole units of so many bytes. */
static int take_argon2_limit(const char *key, const char *value, int64_t unit, uint32_t *limit)
{
  if (*limit) {
    nbdkit_error("%s= is given twice", key);
    return -1;
  }
  const int64_t size = nbdkit_parse_size(value);
  if (size >= unit && size / unit <= UINT32_MAX) {
    *limit = (uint32_t)(size / unit);
    return 0;
  }
  nbdkit_error("%s=%s: not a size from %lld to %lld bytes", key, value, (long long)unit,
               (long long)unit * UINT32_MAX);
  return -1;
}

/* Reads whether key slots by Argon2 are tried. */
static int take_argon2(const char *key, const char *value, struct parameters *parameters)
{
  if (parameters->has_argon2) {
    nbdkit_error("%s= is given twice", key);
    return -1;
  }
  const int is_tried = nbdkit_parse_bool(value);
  parameters->has_argon2 = true;
  parameters->no_argon2 = is_tried == 0;
  if (is_tried >= 0)
    return 0;
  nbdkit_error("%s=%s: neither yes nor no", key, value);
  return -1;
}

/* Reads a parameter for key slots by Argon2. */
static int take_argon2_parameter(struct parameters *parameters, const char *key, const char *value)
{
  if (strcmp(key, "argon2-memory") == 0)
    return take_argon2_limit(key, value, 1 << 10, &parameters->argon2_memory_kib);
  if (strcmp(key, "argon2-fill") == 0)
    return take_argon2_limit(key, value, 1 << 20, &parameters->argon2_fill_mib);
  if (strcmp(key, "argon2") == 0)
    return take_argon2(key, value, parameters);
  return 1;
}

/* The value stays where it is until nbdkit ends. */
static int take_cipher(const char *key, const char *value, const char **cipher)
{
  if (*cipher) {
    nbdkit_error("%s= is given twice", key);
    return -1;
  }
  *cipher = value;
  return 0;
}

/* Reads a number from 0 to `max`, and notes that there is one. */
static int take_once(const char *key, const char *value, uint64_t max, bool *is_given,
                     uint64_t *number)
{
  if (*is_given) {
    nbdkit_error("%s= is given twice", key);
    return -1;
  }
  *is_given = true;
  return take_number(key, value, 0, max, number);
}

static int take_sector_size(const char *key, const char *value, uint32_t *sector_size)
{
  if (*sector_size) {
    nbdkit_error("%s= is given twice", key);
    return -1;
  }
  if (take_number32(key, value, 512, 4096, sector_size) < 0)
    return -1;
  if ((*sector_size & (*sector_size - 1)) == 0)
    return 0;
  nbdkit_error("%s=%s: none of 512 1024 2048 4096", key, value);
  return -1;
}

/* Reads a parameter that goes with a volume key. */
static int take_key_parameter(struct parameters *parameters, const char *key, const char *value)
{
  if (strcmp(key, "volume-key-file") == 0)
    return take_name(key, value, &parameters->volume_key_file);
  if (strcmp(key, "cipher") == 0)
    return take_cipher(key, value, &parameters->cipher);
  if (strcmp(key, "payload-offset") == 0)
    return take_once(key, value, INT64_MAX, &parameters->has_payload_offset,
                     &parameters->payload_offset);
  if (strcmp(key, "iv-offset") == 0)
    return take_once(key, value, UINT64_MAX, &parameters->has_iv_offset, &parameters->iv_offset);
  if (strcmp(key, "size") == 0)
    return take_once(key, value, INT64_MAX, &parameters->has_size, &parameters->size);
  if (strcmp(key, "sector-size") == 0)
    return take_sector_size(key, value, &parameters->sector_size);
  return 1;
}

int take_parameter(struct parameters *parameters, const char *key, const char *value)
{
  if (strcmp(key, "header") == 0)
    return take_name(key, value, &parameters->header);
  if (strcmp(key, "key-file") == 0)
    return take_name(key, value, &parameters->key_file);
  if (strcmp(key, "passphrase") == 0)
    return take_passphrase(value, &parameters->passphrase);
  if (strcmp(key, "key-slot") == 0)
    return take_key_slot(key, value, parameters);
  if (strcmp(key, "max-iterations") == 0)
    return take_limit(key, value, &parameters->max_iterations);
  const int taken = take_argon2_parameter(parameters, key, value);
  return taken > 0 ? take_key_parameter(parameters, key, value) : taken;
}

/* Whether the parameters of a volume key go together; reports why not. */
static bool is_whole(const struct parameters *parameters)
{
  const uint32_t sector_size = parameters->sector_size > 0 ? parameters->sector_size : 512;
  if (parameters->key_file || parameters->passphrase.at || parameters->has_key_slot) {
    nbdkit_error("volume-key-file= does not go with key-file=, passphrase= or key-slot=");
    return false;
  }
  if (parameters->has_argon2 || parameters->argon2_memory_kib || parameters->argon2_fill_mib) {
    nbdkit_error("volume-key-file= does not go with argon2=, argon2-memory= or argon2-fill=");
    return false;
  }
  if (!parameters->has_payload_offset) {
    nbdkit_error("volume-key-file= needs payload-offset=");
    return false;
  }
  if (parameters->size % sector_size != 0) {
    nbdkit_error("size=%llu: not a multiple of the sector size, %u",
                 (unsigned long long)parameters->size, sector_size);
    return false;
  }
  return true;
}

/* Whether there is nothing that goes with a volume key alone; reports what is. */
static bool is_without_key(const struct parameters *parameters)
{
  const bool is_given = parameters->cipher || parameters->has_payload_offset ||
                        parameters->sector_size > 0 || parameters->has_iv_offset ||
                        parameters->has_size;
  if (is_given)
    nbdkit_error("cipher=, payload-offset=, sector-size=, iv-offset= and size= need "
                 "volume-key-file=");
  return !is_given;
}

int check_parameters(const struct parameters *parameters)
{
  if (parameters->volume_key_file)
    return is_whole(parameters) ? 0 : -1;
  if (!is_without_key(parameters))
    return -1;
  if (!parameters->key_file && !parameters->passphrase.at) {
    nbdkit_error("key-file=FILE or passphrase=PASSPHRASE is needed");
    return -1;
  }
  if (parameters->key_file && parameters->passphrase.at) {
    nbdkit_error("key-file= and passphrase= do not go together");
    return -1;
  }
  return 0;
}

void forget_passphrase(struct parameters *parameters)
{
  wipe(&parameters->passphrase);
}

const char *secret_file(const struct parameters *parameters)
{
  return parameters->volume_key_file ? parameters->volume_key_file : parameters->key_file;
}

int get_passphrase(struct parameters *parameters, int key_file, struct bytes *passphrase)
{
  const size_t longest = parameters->volume_key_file ? MAX_VOLUME_KEY : MAX_PASSPHRASE;
  if (secret_file(parameters))
    return read_first(secret_file(parameters), key_file, longest + 1, passphrase);
  *passphrase = parameters->passphrase;
  parameters->passphrase = (struct bytes){ 0 };
  return 0;
}

void free_parameters(struct parameters *parameters)
{
  forget_passphrase(parameters);
  free(parameters->header);
  free(parameters->key_file);
  free(parameters->volume_key_file);
  memset(parameters, 0, sizeof *parameters);
}

/* The parameters that the plugin and the filter share. */
#ifndef LUKSRD_NBDKIT_PARAMETERS_H
#define LUKSRD_NBDKIT_PARAMETERS_H

#include "input.h"

#include <stdbool.h>
#include <stdint.h>

struct parameters {
  char *header;            /* the file with the detached header, or NULL */
  char *key_file;          /* the file whose bytes are the passphrase, or NULL */
  struct bytes passphrase; /* the passphrase, or none; one of the two is given */
  bool has_key_slot;
  uint32_t key_slot;       /* the only key slot to try, if there is one */
  uint32_t max_iterations; /* the limit of iterations, or 0 */

  /* the limits of Argon2 for a key slot, or 0 */
  uint32_t argon2_memory_kib;
  uint32_t argon2_fill_mib; /* in all passes */
  bool has_argon2, no_argon2;

  /* in place of a passphrase, or NULL: the file with the volume key */
  char *volume_key_file;
  const char *cipher;      /* or NULL */
  bool has_payload_offset; /* if there is a volume key */
  uint64_t payload_offset; /* in bytes */
  uint32_t sector_size;    /* in bytes, or 0 */
  bool has_iv_offset;
  uint64_t iv_offset; /* the data unit number of the first sector, in units of 512 bytes */
  bool has_size;
  uint64_t size; /* of a payload of fixed size, in bytes */
};

/* What `nbdkit --help` calls both. */
#define LONG_NAME "luksrd: LUKS1 and LUKS2 volumes"

/* The help on them, after that on the plugin's own. */
#define PARAMETERS_HELP                                                                 \
  "key-file=FILE         The file whose bytes are the passphrase, all of them.\n"       \
  "passphrase=PASSPHRASE The passphrase: - asks for it, +FILE and -FD read it.\n"       \
  "header=FILE           The detached header.\n"                                        \
  "key-slot=N            Try this key slot alone, 0 to 31.\n"                           \
  "max-iterations=N      Skip key slots that ask for more iterations of PBKDF2.\n"      \
  "argon2-memory=SIZE    Skip key slots that need more memory for Argon2 (default: 4G).\n" \
  "argon2-fill=SIZE      The same for time * memory (default: 64G).\n"                   \
  "argon2=no             Skip all key slots by Argon2.\n"                               \
  "volume-key-file=FILE  The file with the volume key: no header is needed.\n"          \
  "payload-offset=N      With that: the first byte of the payload.\n"                   \
  "cipher=NAME           With that: aes-xts-plain64, or another of luksrd's.\n"         \
  "sector-size=N         With that: 512 (if it is not given) to 4096 bytes.\n"            \
  "iv-offset=N           With that: the data unit number of the first sector, or 0.\n"   \
  "size=N                With that: the payload's length, if it has a fixed one."

/* Reads one parameter. Returns 0; -1, and reports why not; or 1 if it is none of these. */
int take_parameter(struct parameters *parameters, const char *key, const char *value);

/* Stores the name of a file. Returns 0, or -1 and reports why not. */
int take_name(const char *key, const char *value, char **name);

/* Returns 0 if all parameters that a volume needs are given, or -1 and reports what is missing. */
int check_parameters(const struct parameters *parameters);

/* The file that has the passphrase or the volume key, or NULL. */
const char *secret_file(const struct parameters *parameters);

/* Moves the passphrase out of the parameters, or reads it, or the volume key, from the descriptor
 * of its file, up to one byte more than the longest one, so that a longer one is refused. Returns
 * 0; or -1 and reports why not, and then there are no bytes. */
int get_passphrase(struct parameters *parameters, int key_file, struct bytes *passphrase);

/* Wipes and frees the passphrase. */
void forget_passphrase(struct parameters *parameters);

/* Frees all parameters, and wipes the secret ones. */
void free_parameters(struct parameters *parameters);

#endif

/* What tests/test_library.py runs over luksrd.h, built with AddressSanitizer and under valgrind.
 *
 *     library IMAGE HEADER PASSPHRASE
 *
 * writes the plain text of a volume to standard output and luksrd's sentence to standard error, and
 * ends with luksrd's status. HEADER is - if it is not detached. On the way it reads each sector by
 * itself, and ranges by steps, from several threads at once, passes structs with any bytes, and
 * makes the calls that are refused; each argument is in memory of exactly its length.
 *
 *     library fields IMAGE PASSPHRASE LENGTH..
 *
 * prints each field of the open volume, and for an image of each length the number of bytes of
 * plain text that it has, and how its payload ends.
 *
 *     library key IMAGE HEADER KEY LIMIT
 *
 * prints what comparing a volume key with a header gives: the code, the status and the sentence.
 * LIMIT is that of the iterations, or 0.
 *
 *     library read IMAGE PASSPHRASE MOST FAILS OFFSET:LENGTH..
 *
 * writes these ranges of the plain text by luksrd_read, over a function that gives at most MOST
 * bytes at once and fails at its call number FAILS, if that is not 0; ends with 100 plus what
 * luksrd_read returns, if that is not 0.
 *
 *     library modes
 *
 * prints the modes that have names, and the numbers of these names.
 *
 *     library limited IMAGE HEADER PASSPHRASE SLOT MEMORY FILL NONE
 *
 * writes the plain text, too, within the limits of Argon2, which are the options in the order of
 * the struct. SLOT is the only key slot that is tried, or -.
 *
 *     library memory IMAGE PASSPHRASE
 *
 * prints how many KiB opening adds to the most that the process has had in memory. Then it waits
 * for a line from standard input, wipes what it has, prints one, and waits again. */
#include "library.h"

#include <errno.h>
#include <inttypes.h>
#include <pthread.h>

#define THREADS 4
#define RANGES 200
#define SEED "1" /* of the ranges, which are the same in each run */
#define GARBAGE 300

/* A volume, its expanded keys, its image and its plain text. */
struct job {
  const struct luksrd_volume *volume;
  const struct luksrd_cipher *cipher;
  struct bytes image;
  struct bytes plain;
};

/* Ends with luksrd's message. */
static void end_with(const struct luksrd_message *message)
{
  if (message->len > 0)
    fprintf(stderr, "%s\n", message->text);
  fflush(stdout);
  exit((int)message->status);
}

static bool all_zero(const void *at, size_t len)
{
  const uint8_t *bytes = at;
  for (size_t i = 0; i < len; i++)
    if (bytes[i] != 0)
      return false;
  return true;
}

/* Each sector by itself is its part of the plain text. */
static void *read_sectors(void *argument)
{
  const struct job *job = argument;
  const uint32_t size = job->volume->sector_size;
  for (uint64_t i = 0; i * size < job->plain.len; i++) {
    struct bytes sector = copy_of(job->image.at + job->volume->offset + i * size, size);
    must(luksrd_decrypt(job->cipher, i, sector.at, size) == LUKSRD_OK, "a sector");
    must(memcmp(sector.at, job->plain.at + i * size, size) == 0, "a sector's bytes");
    free(sector.at);
  }
  return NULL;
}

/* The next number of a sequence that is the same in each run. */
static uint64_t next_number(uint64_t *state)
{
  *state = *state * 6364136223846793005u + 1442695040888963407u;
  return *state >> 33;
}

/* The bytes that a step names, in memory of exactly their length. All of them are in sectors that
 * the range is in. */
static struct bytes stored_for(const struct job *job, const struct luksrd_step *step,
                               uint64_t offset, uint64_t len)
{
  const uint32_t size = job->volume->sector_size;
  const uint64_t start = job->volume->offset;
  must(step->read_len > 0 && step->read_len % size == 0, "whole sectors");
  must(step->read_offset == start + step->first_sector * size, "the place of the first sector");
  must(step->read_offset >= start + offset / size * size, "no sector before the range");
  must(step->read_offset + step->read_len <= start + (offset + len + size - 1) / size * size,
       "no sector after the range");
  must(step->read_len == step->count || step->read_len == size, "where the bytes are read to");
  return copy_of(job->image.at + step->read_offset, step->read_len);
}

/* A range, read by steps, is its part of the plain text. */
static void read_range(const struct job *job, uint64_t offset, uint64_t len)
{
  int steps = 0;
  while (len > 0) {
    struct luksrd_step step;
    must(luksrd_plan(job->cipher, job->image.len, offset, len, &step) == LUKSRD_OK, "a plan");
    struct bytes bytes = stored_for(job, &step, offset, len);
    must(luksrd_finish(job->cipher, &step, bytes.at, bytes.len) == LUKSRD_OK, "a step");
    must(step.count > 0 && step.count <= len && ++steps <= 3, "the length of a step");
    must(memcmp(bytes.at, job->plain.at + offset, step.count) == 0, "a step's bytes in the ranges of seed " SEED);
    must(all_zero(bytes.at + step.count, bytes.len - step.count), "the bytes after a step's");
    free(bytes.at);
    offset += step.count;
    len -= step.count;
  }
}

static void *read_ranges(void *argument)
{
  const struct job *job = argument;
  uint64_t state = strtoull(SEED, NULL, 10);
  for (int i = 0; i < RANGES; i++) {
    const uint64_t offset = next_number(&state) % (job->plain.len + 1);
    uint64_t len = next_number(&state) % (job->plain.len - offset + 1);
    if (i % 2)
      len %= 9000;
    read_range(job, offset, len);
  }
  read_range(job, 0, job->plain.len);
  return NULL;
}

static void read_by_threads(struct job *job)
{
  pthread_t threads[THREADS];
  for (int i = 0; i < THREADS; i++)
    must(pthread_create(&threads[i], NULL, i % 2 ? read_ranges : read_sectors, job) == 0,
         "a thread");
  for (int i = 0; i < THREADS; i++)
    pthread_join(threads[i], NULL);
}

/* Structs with any bytes, also with a sector size and a mode that are right, are refused or give
 * bytes; nothing else is touched (which AddressSanitizer and valgrind see). */
static void pass_garbage(const struct job *job)
{
  static struct luksrd_cipher cipher;
  static struct luksrd_volume volume;
  uint64_t state = 2;
  for (int i = 0; i < GARBAGE; i++) {
    struct luksrd_step step;
    uint8_t *at = (uint8_t *)&cipher;
    cipher = *job->cipher;
    const size_t from = i % 3 ? sizeof volume : 0, to = i % 3 == 1 ? sizeof cipher : from + 300;
    for (size_t j = from; j < to; j++)
      at[j] = (uint8_t)(i < 20 ? 255 : next_number(&state));
    struct bytes bytes = copy_of(job->image.at, job->image.len < 8192 ? job->image.len : 8192);
    (void)!luksrd_decrypt(&cipher, next_number(&state), bytes.at, bytes.len);
    if (luksrd_plan(&cipher, job->image.len, next_number(&state) % 9000, 5000, &step) != LUKSRD_OK)
      must(all_zero(&step, sizeof step), "a step that is refused");
    for (size_t j = 0; j < sizeof step; j++)
      ((uint8_t *)&step)[j] = (uint8_t)next_number(&state);
    step.skip %= 9000;
    step.count %= 9000;
    (void)!luksrd_finish(&cipher, &step, bytes.at, bytes.len);
    free(bytes.at);
    for (size_t j = 0; j < sizeof volume; j++)
      ((uint8_t *)&volume)[j] = (uint8_t)next_number(&state);
    if (luksrd_prepare(&volume, &cipher) != LUKSRD_OK)
      must(all_zero(&cipher, sizeof cipher), "a volume that is refused");
  }
}

/* A struct with other values than luksrd.h states is no volume, as far as a function uses them. */
static void refuse_fields(const struct job *job)
{
  static struct luksrd_cipher made;
  struct luksrd_message message;
  uint64_t bytes = 1;
  const uint64_t len = luksrd_len(job->volume, job->image.len);
  const uint32_t values[] = { 2, 256, UINT32_MAX };
  for (size_t i = 0; i < sizeof values / sizeof values[0]; i++) {
    struct luksrd_volume wrong = *job->volume;
    wrong.has_size = values[i];
    must(luksrd_prepare(&wrong, &made) == LUKSRD_BAD_VOLUME && all_zero(&made, sizeof made),
         "neither a fixed size nor none");
    must(luksrd_len(&wrong, job->image.len) == 0, "the length without either");
    must(luksrd_ending(&wrong, job->image.len, &bytes, &message) == LUKSRD_BAD_VOLUME && bytes == 0,
         "the ending without either");
    wrong = *job->volume;
    wrong.reserved = values[i];
    must(luksrd_prepare(&wrong, &made) == LUKSRD_BAD_VOLUME && all_zero(&made, sizeof made),
         "a reserved field");
    must(luksrd_len(&wrong, job->image.len) == len, "the length with a reserved field");
  }
}

/* Calls that no caller should make are refused, and change nothing. */
static void make_bad_calls(const struct job *job)
{
  static const struct luksrd_cipher no_cipher;
  static struct luksrd_cipher made;
  const struct luksrd_volume none = { 0 };
  struct luksrd_volume wrong = *job->volume;
  const struct luksrd_cipher *cipher = job->cipher;
  const uint32_t size = job->volume->sector_size;
  struct luksrd_message message;
  struct luksrd_step step;
  uint64_t bytes;
  struct bytes two = copy_of(job->image.at, 2 * (size_t)size);
  must(luksrd_decrypt(cipher, 0, two.at, size + 1) == LUKSRD_BAD_RANGE, "a part of a sector");
  must(luksrd_decrypt(cipher, UINT64_MAX, two.at, two.len) == LUKSRD_BAD_RANGE, "the last sector");
  must(luksrd_decrypt(&no_cipher, 0, two.at, size) == LUKSRD_BAD_VOLUME, "no cipher");
  step = (struct luksrd_step){ .read_len = two.len, .skip = size, .count = size + 1 };
  must(luksrd_finish(cipher, &step, two.at, two.len) == LUKSRD_BAD_RANGE, "a count too large");
  step.skip = UINT64_MAX;
  must(luksrd_finish(cipher, &step, two.at, two.len) == LUKSRD_BAD_RANGE, "a skip too large");
  step.skip = step.count = 0;
  must(luksrd_finish(cipher, &step, two.at, size - 1) == LUKSRD_BAD_RANGE, "a part for a step");
  must(luksrd_finish(&no_cipher, &step, two.at, size) == LUKSRD_BAD_VOLUME, "a step of no cipher");
  must(memcmp(two.at, job->image.at, two.len) == 0, "the bytes of refused calls");
  must(luksrd_decrypt(cipher, 7, two.at, 0) == LUKSRD_OK, "no sector");
  must(luksrd_plan(cipher, job->image.len, 1, job->plain.len, &step) == LUKSRD_BAD_RANGE &&
           all_zero(&step, sizeof step),
       "a range past the end");
  must(luksrd_plan(cipher, job->image.len, UINT64_MAX, 2, &step) == LUKSRD_BAD_RANGE, "a sum");
  must(luksrd_plan(&no_cipher, job->image.len, 0, 0, &step) == LUKSRD_BAD_VOLUME,
       "a plan of no cipher");
  must(luksrd_plan(cipher, job->image.len, job->plain.len, 0, &step) == LUKSRD_OK &&
           all_zero(&step, sizeof step),
       "no bytes");
  wrong.key_size = 48;
  must(luksrd_prepare(&wrong, &made) == LUKSRD_BAD_VOLUME, "no length of a key");
  must(luksrd_prepare(&none, &made) == LUKSRD_BAD_VOLUME && all_zero(&made, sizeof made),
       "no volume");
  refuse_fields(job);
  luksrd_wipe(two.at, two.len);
  must(all_zero(two.at, two.len), "bytes that are wiped");
  must(luksrd_len(&none, UINT64_MAX) == 0, "the length of no volume");
  must(luksrd_ending(&none, 0, &bytes, &message) == LUKSRD_BAD_VOLUME, "the ending of no volume");
  free(two.at);
}

/* A message has a status and a sentence, and zeros after it. */
static void check_message(const struct luksrd_message *message)
{
  must(message->status >= 1 && message->status <= 4, "a message's status");
  must(message->len > 8 && message->len < sizeof message->text, "a message's length");
  must(strlen(message->text) == message->len, "a message's end");
  must(memcmp(message->text, "luksrd: ", 8) == 0, "a message's prefix");
  must(all_zero(message->text + message->len, sizeof message->text - message->len),
       "the bytes after a message");
}

/* The sentences of all codes, and of others. */
static void read_texts(void)
{
  static const char none[] = "luksrd: no such code";
  struct luksrd_message message;
  luksrd_status_text(LUKSRD_OK, &message);
  must(all_zero(&message, sizeof message), "the text of LUKSRD_OK");
  for (uint32_t code = 1; code <= LUKSRD_NO_DIGEST; code++) {
    luksrd_status_text(code, &message);
    check_message(&message);
    must(strlen(none) != message.len || memcmp(message.text, none, message.len) != 0, "a code");
  }
  luksrd_status_text(LUKSRD_NO_DIGEST + 1, &message);
  check_message(&message);
  must(strlen(none) == message.len && memcmp(message.text, none, message.len) == 0, "no code");
}

/* Opens the volume; if it cannot be opened, ends with luksrd's message. */
static void open_volume(struct bytes header, struct bytes passphrase,
                        struct luksrd_options *options, struct luksrd_volume *volume)
{
  struct luksrd_message message;
  struct luksrd_options wrong[4] = { *options, *options, *options, *options };
  wrong[0].has_key_slot = 1;
  wrong[0].key_slot = 32;
  wrong[1].size--;
  wrong[2].reserved[0] = 1;
  wrong[3].reserved[31] = 1;
  for (int i = 0; i < 4; i++)
    must(luksrd_open(header.at, header.len, passphrase.at, passphrase.len, &wrong[i], volume,
                     &message) == LUKSRD_BAD_OPTIONS,
         "options");
  memset(volume, 255, sizeof *volume);
  if (luksrd_open(header.at, header.len, passphrase.at, passphrase.len, options, volume,
                  &message) != LUKSRD_OK) {
    must(all_zero(volume, sizeof *volume), "a volume that is not opened");
    check_message(&message);
    end_with(&message);
  }
  must(all_zero(&message, sizeof message), "the message of a volume that is open");
  must(all_zero(volume->key + volume->key_size, sizeof volume->key - volume->key_size),
       "the bytes after the key");
}

/* Reads the volume in all ways, and writes it. */
static void read_volume(struct job *job)
{
  static struct luksrd_cipher cipher;
  const size_t len = luksrd_len(job->volume, job->image.len);
  job->plain = copy_of(job->image.at + (len > 0 ? job->volume->offset : 0), len);
  must(luksrd_prepare(job->volume, &cipher) == LUKSRD_OK, "the keys");
  job->cipher = &cipher;
  must(luksrd_decrypt(&cipher, 0, job->plain.at, len) == LUKSRD_OK, "all sectors");
  read_by_threads(job);
  pass_garbage(job);
  if (job->image.len >= 2 * (size_t)job->volume->sector_size)
    make_bad_calls(job);
  must(fwrite(job->plain.at, 1, len, stdout) == len, "the output");
}

static void print_fields(const struct luksrd_volume *volume)
{
  printf("offset=%" PRIu64 " size=%" PRIu64 " iv_tweak=%" PRIu64, volume->offset, volume->size,
         volume->iv_tweak);
  printf(" has_size=%" PRIu32 " sector_size=%" PRIu32 " mode=%" PRIu32, volume->has_size,
         volume->sector_size, volume->mode);
  printf(" key_size=%" PRIu32 " key_slot=%" PRIu32 " reserved=%" PRIu32 " key=", volume->key_size,
         volume->key_slot, volume->reserved);
  for (size_t i = 0; i < sizeof volume->key; i++)
    printf("%02x", volume->key[i]);
  printf("\n");
}

/* How much plain text an image of this length has, and how its payload ends. */
static void print_ending(const struct luksrd_volume *volume, uint64_t image_len)
{
  struct luksrd_message message;
  uint64_t bytes = UINT64_MAX;
  const uint32_t code = luksrd_ending(volume, image_len, &bytes, &message);
  printf("%" PRIu64 ": len=%" PRIu64 " code=%" PRIu32 " bytes=%" PRIu64 " status=%" PRIu32 " %s\n",
         image_len, luksrd_len(volume, image_len), code, bytes, message.status, message.text);
}

/* Opens the volume by its key: all fields are the same, except that no key slot opened. */
static void open_again(struct bytes header, const struct luksrd_options *options,
                       const struct luksrd_volume *volume)
{
  struct luksrd_message message;
  struct luksrd_volume by_key;
  memset(&by_key, 0xff, sizeof by_key);
  must(luksrd_open_by_key(header.at, header.len, volume->key, volume->key_size, options, &by_key,
                          &message) == LUKSRD_OK,
       "the volume by its key");
  must(all_zero(&message, sizeof message), "the message of a volume that its key opens");
  must(by_key.key_slot == 0, "the key slot of a volume that its key opens");
  by_key.key_slot = volume->key_slot;
  must(memcmp(&by_key, volume, sizeof by_key) == 0, "the fields of a volume that its key opens");
}

static int print_volume(int lengths, char **argv)
{
  struct luksrd_options options = { .size = sizeof options };
  struct luksrd_volume volume;
  struct bytes header = header_in(argv[0]), passphrase = contents(argv[1]);
  open_volume(header, passphrase, &options, &volume);
  open_again(header, &options, &volume);
  print_fields(&volume);
  for (int i = 0; i < lengths; i++)
    print_ending(&volume, strtoull(argv[2 + i], NULL, 10));
  free(header.at);
  free(passphrase.at);
  return 0;
}

/* Opens the volume by a key, with the message that comparing it had; a refusal clears the struct. */
static uint32_t fill_by_key(struct bytes header, struct bytes key,
                            const struct luksrd_options *options,
                            const struct luksrd_message *compared)
{
  struct luksrd_message message;
  struct luksrd_volume volume;
  memset(&volume, 0xff, sizeof volume);
  const uint32_t code = luksrd_open_by_key(header.at, header.len, key.at, key.len, options, &volume,
                                           &message);
  must(memcmp(&message, compared, sizeof message) == 0, "the message of opening by a key");
  if (code == LUKSRD_OK)
    must(volume.key_size == key.len && memcmp(volume.key, key.at, key.len) == 0 &&
             volume.key_slot == 0,
         "the volume of a key that matches");
  else
    must(all_zero(&volume, sizeof volume), "a volume that its key does not open");
  return code;
}

/* Where the headers end, by so many first bytes of the image. */
static int print_headers(int lengths, char **argv)
{
  struct bytes header = header_in(argv[0]);
  for (int i = 0; i < lengths; i++) {
    const size_t len = strtoul(argv[1 + i], NULL, 10);
    must(len <= header.len, "the length");
    struct bytes first = copy_of(header.at, len);
    printf("%zu: %" PRIu64 "\n", len, luksrd_header_len(first.at, first.len));
    free(first.at);
  }
  free(header.at);
  return 0;
}

static int print_check(char **argv)
{
  struct luksrd_options options = {
    .size = sizeof options,
    .detached = strcmp(argv[1], "-") != 0,
    .max_iterations = (uint32_t)strtoul(argv[3], NULL, 10),
    /* (these are ignored) */
    .argon2_memory_kib = 1,
    .argon2_fill_mib = UINT32_MAX,
    .no_argon2 = 2,
  };
  struct bytes header = header_in(options.detached ? argv[1] : argv[0]), key = contents(argv[2]);
  struct luksrd_message message;
  struct luksrd_options wrong[4] = { options, options, options, options };
  wrong[0].has_key_slot = 1;
  wrong[1].size--;
  wrong[2].reserved[0] = 1;
  wrong[3].reserved[31] = 1;
  for (int i = 0; i < 4; i++)
    must(luksrd_check_key(header.at, header.len, key.at, key.len, &wrong[i], &message) ==
             LUKSRD_BAD_OPTIONS,
         "options for a key");
  const uint32_t code = luksrd_check_key(header.at, header.len, key.at, key.len, &options, &message);
  if (code == LUKSRD_OK)
    must(all_zero(&message, sizeof message), "the message of a key that matches");
  else
    check_message(&message);
  must(fill_by_key(header, key, &options, &message) == code, "the code of opening by the key");
  printf("%" PRIu32 " %" PRIu32 " %s\n", code, message.status, message.text);
  free(header.at);
  free(key.at);
  return 0;
}

/* An image, how many bytes of it a call gives at most, and the number of the call that fails. */
struct source {
  struct bytes image;
  int calls, fails;
  size_t most;
};

static int64_t read_source(void *from, uint8_t *to, size_t len, uint64_t offset)
{
  struct source *source = from;
  if (++source->calls == source->fails) {
    errno = EIO;
    return -1;
  }
  must(offset <= source->image.len && len <= source->image.len - offset, "a place in the image");
  if (len > source->most)
    len = source->most;
  memcpy(to, source->image.at + offset, len);
  return (int64_t)len;
}

/* A range that is not read has zeros alone; nothing after a range is written to. */
static int write_range(const struct luksrd_cipher *cipher, struct source *source, const char *range)
{
  char *colon;
  const uint64_t offset = strtoull(range, &colon, 10);
  const size_t len = strtoull(colon + 1, NULL, 10);
  struct bytes bytes = { malloc(len + 1), len };
  must(bytes.at != NULL, "memory");
  memset(bytes.at, 'x', len + 1);
  errno = 0;
  const int status =
      luksrd_read(cipher, source->image.len, read_source, source, offset, bytes.at, len);
  if (status < 0)
    perror("luksrd_read");
  must(status == 0 || all_zero(bytes.at, len), "a range that is not read");
  must(bytes.at[len] == 'x', "the byte after a range");
  must(status != 0 || fwrite(bytes.at, 1, len, stdout) == len, "the output");
  free(bytes.at);
  return status;
}

static int write_ranges(int ranges, char **argv)
{
  static struct luksrd_cipher cipher;
  struct luksrd_options options = { .size = sizeof options };
  struct luksrd_volume volume;
  struct bytes header = header_in(argv[0]), passphrase = contents(argv[1]);
  struct source source = {
    .image = contents(argv[0]),
    .most = strtoul(argv[2], NULL, 10),
    .fails = atoi(argv[3]),
  };
  int status = 0;
  open_volume(header, passphrase, &options, &volume);
  must(luksrd_prepare(&volume, &cipher) == LUKSRD_OK, "the keys");
  for (int i = 0; i < ranges && status == 0; i++)
    status = write_range(&cipher, &source, argv[4 + i]);
  free(header.at);
  free(passphrase.at);
  free(source.image.at);
  return status == 0 ? 0 : 100 + status;
}

static int print_modes(void)
{
  for (uint32_t mode = 0; mode < 1000; mode++)
    if (luksrd_mode_name(mode))
      printf("%" PRIu32 " %s %" PRIu32 "\n", mode, luksrd_mode_name(mode),
             luksrd_mode_of(luksrd_mode_name(mode)));
  printf("%" PRIu32 " %" PRIu32 "\n", luksrd_mode_of(""), luksrd_mode_of("aes-xts-plain65"));
  return 0;
}

static uint32_t number_in(const char *word)
{
  return (uint32_t)strtoul(word, NULL, 10);
}

/* Writes the plain text within limits. */
static int write_limited(char **argv)
{
  static struct luksrd_cipher cipher;
  struct luksrd_options options = {
    .size = sizeof options,
    .detached = strcmp(argv[1], "-") != 0,
    .has_key_slot = strcmp(argv[3], "-") != 0,
    .key_slot = number_in(argv[3]),
    .argon2_memory_kib = number_in(argv[4]),
    .argon2_fill_mib = number_in(argv[5]),
    .no_argon2 = number_in(argv[6]),
  };
  struct luksrd_volume volume;
  struct bytes image = contents(argv[0]), passphrase = contents(argv[2]);
  struct bytes header = header_in(options.detached ? argv[1] : argv[0]);
  open_volume(header, passphrase, &options, &volume);
  const size_t len = luksrd_len(&volume, image.len);
  must(luksrd_prepare(&volume, &cipher) == LUKSRD_OK &&
           luksrd_decrypt(&cipher, 0, image.at + volume.offset, len) == LUKSRD_OK &&
           fwrite(image.at + volume.offset, 1, len, stdout) == len,
       "the plain text");
  free(image.at);
  free(header.at);
  free(passphrase.at);
  return 0;
}

/* The most that the process has had in memory, in KiB. */
static long most_memory(void)
{
  char line[256];
  long most = -1;
  FILE *status = fopen("/proc/self/status", "r");
  must(status != NULL, "/proc/self/status");
  while (fgets(line, sizeof line, status))
    if (strncmp(line, "VmHWM:", 6) == 0)
      most = strtol(line + 6, NULL, 10);
  fclose(status);
  must(most > 0, "VmHWM");
  return most;
}

static int print_memory(char **argv)
{
  static struct luksrd_cipher cipher;
  static struct luksrd_volume volume;
  struct luksrd_options options = { .size = sizeof options };
  struct luksrd_message message;
  struct bytes header = header_in(argv[0]), passphrase = contents(argv[1]);
  setvbuf(stdout, NULL, _IOLBF, 0);
  setvbuf(stdin, NULL, _IONBF, 0);
  const long before = most_memory();
  must(luksrd_open(header.at, header.len, passphrase.at, passphrase.len, &options, &volume,
                   &message) == LUKSRD_OK,
       message.text);
  printf("%ld\n", most_memory() - before);
  must(luksrd_prepare(&volume, &cipher) == LUKSRD_OK && getchar() == '\n', "a line");
  luksrd_wipe(passphrase.at, passphrase.len);
  luksrd_wipe(&volume, sizeof volume);
  luksrd_wipe(&cipher, sizeof cipher);
  luksrd_wipe_stack();
  free(header.at);
  free(passphrase.at);
  printf("wiped\n");
  must(getchar() == '\n', "a line");
  return 0;
}

int main(int argc, char **argv)
{
  must(luksrd_version() == LUKSRD_VERSION, "the version");
  if (argc == 2 && strcmp(argv[1], "modes") == 0)
    return print_modes();
  if (argc > 6 && strcmp(argv[1], "read") == 0)
    return write_ranges(argc - 6, argv + 2);
  if (argc == 6 && strcmp(argv[1], "key") == 0)
    return print_check(argv + 2);
  if (argc == 9 && strcmp(argv[1], "limited") == 0)
    return write_limited(argv + 2);
  if (argc == 4 && strcmp(argv[1], "memory") == 0)
    return print_memory(argv + 2);
  if (argc > 3 && strcmp(argv[1], "headers") == 0)
    return print_headers(argc - 3, argv + 2);
  if (argc > 4 && strcmp(argv[1], "fields") == 0)
    return print_volume(argc - 4, argv + 2);
  must(argc == 4, "the arguments");
  read_texts();

  struct luksrd_options options = { .size = sizeof options, .detached = strcmp(argv[2], "-") != 0 };
  struct luksrd_volume volume;
  struct job job = { .volume = &volume, .image = contents(argv[1]) };
  struct bytes passphrase = contents(argv[3]);
  struct bytes header = header_in(options.detached ? argv[2] : argv[1]);
  open_volume(header, passphrase, &options, &volume);
  read_volume(&job);

  struct luksrd_message message;
  uint64_t bytes;
  (void)!luksrd_ending(&volume, job.image.len, &bytes, &message);
  free(job.plain.at);
  free(job.image.at);
  free(header.at);
  free(passphrase.at);
  end_with(&message);
}

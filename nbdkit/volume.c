#include "volume.h"

#include <errno.h>
#include <inttypes.h>
#include <pthread.h>
#include <signal.h>
#include <stdio.h>
#include <string.h>

#define NBDKIT_API_VERSION 2
#include <nbdkit-plugin.h>

/* Reports luksrd's own message on the file of this name, or on an image without a name. */
static void report(const char *name, const struct luksrd_message *message)
{
  nbdkit_error("%s%s%s", name ? name : "", name ? ": " : "", message->text);
}

/* Whether an image that starts with these bytes has its whole header in them: that of LUKS1, or both
 * of LUKS2. */
static bool has_headers(const struct bytes *start)
{
  return luksrd_header_len(start->at, start->len) <= start->len;
}

bool are_enough(const struct bytes *start, const struct parameters *parameters)
{
  return parameters->volume_key_file || has_headers(start);
}

int read_header(const char *name, int fd, const struct parameters *parameters, struct bytes *header)
{
  return read_some(name, fd, MAX_HEADER, header) || (header->at && are_enough(header, parameters))
             ? 0
             : -1;
}

/* The ciphers that are read, as luksrd_mode_name has them. */
#define CIPHERS "aes-xts-plain64 aes-xts-plain aes-cbc-essiv:sha256 aes-cbc-plain64"

/* The stack for a call of the library: luksrd.h states 257 KiB for the one that needs most, and the
 * rest is for what the C library keeps there itself. */
#define STACK (512 * 1024)

/* Calls the function on a thread with that stack, and waits for its end: `ulimit -s` may leave
 * nbdkit's own threads less. No signal is handled there, since the kernel would save registers,
 * with parts of keys. Returns 0; or -1 and reports that there is no such thread. */
static int call_on_stack(void *(*function)(void *), void *argument)
{
  pthread_attr_t attributes;
  pthread_t thread;
  sigset_t all, before;
  int error = pthread_attr_init(&attributes);
  if (error == 0) {
    sigfillset(&all);
    pthread_sigmask(SIG_SETMASK, &all, &before);
    error = pthread_attr_setstacksize(&attributes, STACK);
    if (error == 0)
      error = pthread_create(&thread, &attributes, function, argument);
    pthread_sigmask(SIG_SETMASK, &before, NULL);
    pthread_attr_destroy(&attributes);
  }
  if (error == 0)
    error = pthread_join(thread, NULL);
  if (error != 0)
    nbdkit_error("luksrd: no thread to derive keys on: %s", strerror(error));
  return error == 0 ? 0 : -1;
}

/* A call that derives or expands keys, and what it returns. Not each has all of these arguments. */
struct call {
  const struct bytes *header, *secret;
  const struct luksrd_options *options;
  struct volume *volume;
  struct luksrd_message *message;
  uint32_t code;
};

static void *call_prepare(void *argument)
{
  struct call *call = argument;
  call->code = luksrd_prepare(&call->volume->opened, &call->volume->cipher);
  forget_copies();
  return NULL;
}

static void *call_open(void *argument)
{
  struct call *call = argument;
  call->code = luksrd_open(call->header->at, call->header->len, call->secret->at,
                           call->secret->len, call->options, &call->volume->opened, call->message);
  if (call->code == LUKSRD_OK)
    call->code = luksrd_prepare(&call->volume->opened, &call->volume->cipher);
  forget_copies();
  return NULL;
}

static void *call_check_key(void *argument)
{
  struct call *call = argument;
  call->code = luksrd_check_key(call->header->at, call->header->len, call->secret->at,
                                call->secret->len, call->options, call->message);
  forget_copies();
  return NULL;
}

static void *call_open_by_key(void *argument)
{
  struct call *call = argument;
  call->code = luksrd_open_by_key(call->header->at, call->header->len, call->secret->at,
                                  call->secret->len, call->options, &call->volume->opened,
                                  call->message);
  forget_copies();
  return NULL;
}

/* Compares the volume key with the header, if one is there. A volume whose header is lost or
 * damaged is opened without that. This is reported, unless there is none and none was named. */
static enum outcome check_volume_key(const struct volume *volume, const struct bytes *header,
                                     const struct bytes *key, const struct parameters *parameters)
{
  const struct luksrd_options options = {
    .size = sizeof options,
    .detached = parameters->header != NULL,
    .max_iterations = parameters->max_iterations,
  };
  const char *name = parameters->header ? parameters->header : volume->name;
  struct luksrd_message message;
  struct call call = {
    .header = header,
    .secret = key,
    .options = &options,
    .message = &message,
  };
  if (call_on_stack(call_check_key, &call) < 0)
    return TRY_LATER;
  const uint32_t code = call.code;
  if (code == LUKSRD_OK || (code == LUKSRD_NOT_LUKS && !parameters->header))
    return OPENED;
  report(name, &message);
  if (code == LUKSRD_OTHER_KEY)
    return REFUSED;
  if (code == LUKSRD_OUT_OF_MEMORY)
    return TRY_LATER;
  nbdkit_error("%s: the volume key is not compared with a header", parameters->volume_key_file);
  return OPENED;
}

/* Opens a volume by its key, and by what the parameters say of its payload. */
static enum outcome use_volume_key(struct volume *volume, const struct bytes *header,
                                   const struct bytes *key, const struct parameters *parameters)
{
  struct luksrd_volume *opened = &volume->opened;
  if (key->len > sizeof opened->key) {
    nbdkit_error("%s: longer than the longest volume key, %zu bytes", parameters->volume_key_file,
                 sizeof opened->key);
    return REFUSED;
  }
  *opened = (struct luksrd_volume){
    .offset = parameters->payload_offset,
    .size = parameters->size,
    .iv_tweak = parameters->iv_offset,
    .has_size = parameters->has_size,
    .sector_size = parameters->sector_size > 0 ? parameters->sector_size : 512,
    .mode = parameters->cipher ? luksrd_mode_of(parameters->cipher) : LUKSRD_XTS_PLAIN64,
    .key_size = (uint32_t)key->len,
  };
  if (opened->mode == 0) {
    nbdkit_error("cipher=%s: none of " CIPHERS, parameters->cipher);
    return REFUSED;
  }
  memcpy(opened->key, key->at, key->len);
  struct call call = { .volume = volume };
  if (call_on_stack(call_prepare, &call) < 0)
    return TRY_LATER;
  if (call.code == LUKSRD_OK)
    return check_volume_key(volume, header, key, parameters);
  nbdkit_error("%s: a key of %zu bytes, this cipher and this sector size do not go together",
               parameters->volume_key_file, key->len);
  return REFUSED;
}

/* Whether the memory that was refused is Argon2's: the message then names the key slot, too. Header
 * and limits decide how much that is, and deriving the keys of the slots before may take minutes, so
 * such a volume is refused for good. */
static bool is_of_argon2(const struct luksrd_message *message)
{
  struct luksrd_message sentence;
  luksrd_status_text(LUKSRD_OUT_OF_MEMORY, &sentence);
  return message->len > sentence.len;
}

/* Opens a volume by a passphrase. */
static enum outcome use_passphrase(struct volume *volume, const struct bytes *header,
                                   const struct bytes *passphrase,
                                   const struct parameters *parameters)
{
  const struct luksrd_options options = {
    .size = sizeof options,
    .detached = parameters->header != NULL,
    .has_key_slot = parameters->has_key_slot,
    .key_slot = parameters->key_slot,
    .max_iterations = parameters->max_iterations,
    .argon2_memory_kib = parameters->argon2_memory_kib,
    .argon2_fill_mib = parameters->argon2_fill_mib,
    .no_argon2 = parameters->no_argon2,
  };
  struct luksrd_message message;
  struct call call = {
    .header = header,
    .secret = passphrase,
    .options = &options,
    .volume = volume,
    .message = &message,
  };
  if (call_on_stack(call_open, &call) < 0)
    return TRY_LATER;
  const uint32_t code = call.code;
  if (code == LUKSRD_OK)
    return OPENED;
  if (code == LUKSRD_KEY_FILE_LENGTH && parameters->key_file)
    report(parameters->key_file, &message);
  else
    report(parameters->header ? parameters->header : volume->name, &message);
  return code == LUKSRD_OUT_OF_MEMORY && !is_of_argon2(&message) ? TRY_LATER : REFUSED;
}

enum outcome unlock(struct volume *volume, const struct bytes *header, const struct bytes *secret,
                    const struct parameters *parameters)
{
  const enum outcome outcome = parameters->volume_key_file
                                   ? use_volume_key(volume, header, secret, parameters)
                                   : use_passphrase(volume, header, secret, parameters);
  if (outcome != OPENED)
    close_volume(volume);
  forget_copies();
  return outcome;
}

/* Whether a key and a payload are those of the open volume, whichever key slot opened it. */
static bool are_equal(const struct luksrd_volume *found, const struct luksrd_volume *opened)
{
  struct luksrd_volume other = *found;
  other.key_slot = opened->key_slot;
  const bool is_equal = memcmp(&other, opened, sizeof other) == 0; /* (there is no padding) */
  luksrd_wipe(&other, sizeof other);
  return is_equal;
}

enum outcome compare_header(const struct volume *volume, const struct bytes *header,
                            const struct parameters *parameters)
{
  const struct luksrd_options options = {
    .size = sizeof options,
    .max_iterations = parameters->max_iterations,
  };
  uint8_t key[MAX_VOLUME_KEY];
  const struct bytes secret = { .at = key, .len = volume->opened.key_size };
  struct volume found = { .name = volume->name };
  struct luksrd_message message;
  struct call call = {
    .header = header,
    .secret = &secret,
    .options = &options,
    .volume = &found,
    .message = &message,
  };
  enum outcome outcome = TRY_LATER;
  memcpy(key, volume->opened.key, sizeof key);
  if (call_on_stack(call_open_by_key, &call) == 0) {
    if (call.code == LUKSRD_OUT_OF_MEMORY)
      report(volume->name, &message);
    else
      outcome = call.code == LUKSRD_OK && are_equal(&found.opened, &volume->opened) ? OPENED : REFUSED;
  }
  luksrd_wipe(key, sizeof key);
  close_volume(&found);
  forget_copies();
  return outcome;
}

#ifdef __x86_64__
/* Clears the vector registers that this processor has: all have 16 of 128 bits, those with AVX
 * longer ones, and those with AVX-512 16 more. The assembler knows all of these, whatever processor
 * the compiler builds for. */
static void clear_registers(void)
{
#define CLEAR(number) \
  __asm__ volatile("pxor %%xmm" #number ", %%xmm" #number ::: "xmm" #number)
  CLEAR(0); CLEAR(1); CLEAR(2); CLEAR(3); CLEAR(4); CLEAR(5); CLEAR(6); CLEAR(7);
  CLEAR(8); CLEAR(9); CLEAR(10); CLEAR(11); CLEAR(12); CLEAR(13); CLEAR(14); CLEAR(15);
#undef CLEAR
  __builtin_cpu_init();
  if (__builtin_cpu_supports("avx"))
    __asm__ volatile("vzeroall" ::: "xmm0", "xmm1", "xmm2", "xmm3", "xmm4", "xmm5", "xmm6", "xmm7",
                     "xmm8", "xmm9", "xmm10", "xmm11", "xmm12", "xmm13", "xmm14", "xmm15");
  if (__builtin_cpu_supports("avx512f")) {
    /* those that `vzeroall` leaves, and that this code does not use */
#define CLEAR(number) \
  __asm__ volatile("vpxorq %zmm" #number ", %zmm" #number ", %zmm" #number)
    CLEAR(16); CLEAR(17); CLEAR(18); CLEAR(19); CLEAR(20); CLEAR(21); CLEAR(22); CLEAR(23);
    CLEAR(24); CLEAR(25); CLEAR(26); CLEAR(27); CLEAR(28); CLEAR(29); CLEAR(30); CLEAR(31);
#undef CLEAR
  }
}
#endif

/* How much of the stack of this thread is left below the caller, or 0 if that is not known. */
static size_t stack_left(void)
{
  const uintptr_t here = (uintptr_t)__builtin_frame_address(0);
  pthread_attr_t attributes;
  void *lowest;
  size_t size;
  if (pthread_getattr_np(pthread_self(), &attributes) != 0)
    return 0;
  const int error = pthread_attr_getstack(&attributes, &lowest, &size);
  pthread_attr_destroy(&attributes);
  return error == 0 && here > (uintptr_t)lowest ? here - (uintptr_t)lowest : 0;
}

static __attribute__((noinline)) void wipe_below(size_t len)
{
  uint8_t below[len];
  explicit_bzero(below, len);
}

void forget_copies(void)
{
  /* what luksrd_wipe_stack needs and what is around it, and what explicit_bzero needs */
  enum { WIPING = 272 * 1024, REST = 8 * 1024 };
  const size_t left = stack_left();
  if (left >= WIPING)
    luksrd_wipe_stack();
  else if (left > REST)
    wipe_below(left - REST);
#ifdef __x86_64__
  clear_registers();
#endif
}

uint64_t plain_len(const struct volume *volume, uint64_t image_len)
{
  return luksrd_len(&volume->opened, image_len);
}

uint64_t payload_offset(const struct volume *volume)
{
  return volume->opened.offset;
}

void report_ending(const struct volume *volume, uint64_t image_len)
{
  struct luksrd_message message;
  uint64_t bytes;
  if (luksrd_ending(&volume->opened, image_len, &bytes, &message) == LUKSRD_OK)
    return;
  report(volume->name, &message);
  nbdkit_error("%s: only its whole sectors are served: %" PRIu64 " bytes",
               volume->name ? volume->name : "luksrd", plain_len(volume, image_len));
}

/* Reports that bytes were not read or not decrypted. */
static void report_failure(const struct volume *volume, const char *what, uint64_t len,
                           uint64_t offset, const char *why)
{
  nbdkit_error("%s: %s %" PRIu64 " bytes at offset %" PRIu64 ": %s",
               volume->name ? volume->name : "luksrd", what, len, offset, why);
}

/* The image of a volume, for luksrd_read. */
struct source {
  const struct volume *volume;
  const struct image *image;
};

static int64_t read_source(void *from, uint8_t *to, size_t len, uint64_t offset)
{
  const struct source *source = from;
  if (source->image->read(source->image->from, to, len, offset))
    return (int64_t)len;
  report_failure(source->volume, "reading", len, offset,
                 errno ? strerror(errno) : "the image has become shorter");
  return -1;
}

int read_plain(const struct volume *volume, const struct image *image, uint8_t *to, uint32_t count,
               uint64_t offset)
{
  struct source source = { .volume = volume, .image = image };
  const int status =
      luksrd_read(&volume->cipher, image->len, read_source, &source, offset, to, count);
  if (status > 0)
    report_failure(volume, "decrypting", count, offset, "luksrd refuses the range");
  return status == 0 ? 0 : -1;
}

void close_volume(struct volume *volume)
{
  luksrd_wipe(&volume->opened, sizeof volume->opened);
  luksrd_wipe(&volume->cipher, sizeof volume->cipher);
}

void print_library(void)
{
  const uint32_t version = luksrd_version();
  printf("luksrd_library_version=%u.%u.%u\n", version >> 16, version >> 8 & 255, version & 255);
  printf("luksrd_formats=luks1 luks2\n");
  printf("luksrd_ciphers=" CIPHERS "\n");
}

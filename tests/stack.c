/* What tests/test_library.py runs to see what calls of luksrd.h do to the stack of their thread.
 *
 *     stack IMAGE PASSPHRASE DERIVED
 *
 * prints for each call, as it succeeds and as it is refused, whether it needs no more stack than
 * luksrd.h states, and what it leaves there: 8 bytes of the passphrase, of a key or of an expanded
 * key, or, if it writes over what it used, other bytes than zeros. DERIVED is a file with the key
 * that is derived for the key slot. */
#include "library.h"

#include <pthread.h>

enum {
  OPEN = 256 * 1024, /* the bytes of stack that luksrd.h states */
  PREPARE = 128 * 1024,
  READ = 32 * 1024,
  WIPE = 257 * 1024,

  STACK = 1 << 20,
  PART = 8,       /* the length of a part of a secret that is looked for */
  NEAR = 4096,    /* below the caller of a function: what the end of the thread writes over */
  UNUSED = 0xa5,  /* what the stack is filled with before */
  PARTS = 1 << 18 /* at most so many parts of secrets */
};

/* What calls with the volume in this image need. */
struct calls {
  struct bytes header, passphrase, another, longest; /* three passphrases: two do not open */
  struct luksrd_options options, bad_options;
  struct luksrd_volume volume, wrong, none; /* an open one, one that is refused, and one for refusals */
  struct luksrd_cipher cipher, no_cipher;
  struct luksrd_message message;
  struct luksrd_step step;
  uint8_t another_key[64], payload[2 * LUKSRD_SECTOR_BYTES];
};

/* ---- the calls */

#define CALL(name, call)                    \
  static uint32_t name(struct calls *calls) \
  {                                         \
    return call;                            \
  }
#define OPENING(header_len, key, with, opened)                                         \
  luksrd_open(calls->header.at, header_len, calls->key.at, calls->key.len, &calls->with, \
              &calls->opened, &calls->message)
#define OPENING_BY_KEY(key)                                                                \
  luksrd_open_by_key(calls->header.at, calls->header.len, calls->key, calls->volume.key_size, \
                     &calls->options, &calls->none, &calls->message)
#define CHECKING(header_len, key, with)                                                    \
  luksrd_check_key(calls->header.at, header_len, calls->key, calls->volume.key_size, &calls->with, \
                   &calls->message)

CALL(nothing, calls == NULL)
CALL(open_well, OPENING(calls->header.len, passphrase, options, volume))
CALL(open_by_another, OPENING(calls->header.len, another, options, none))
CALL(open_by_a_long_one, OPENING(calls->header.len, longest, options, none))
CALL(open_truncated, OPENING(80000, passphrase, options, none))
CALL(open_with_bad_options, OPENING(calls->header.len, passphrase, bad_options, none))
CALL(check_well, CHECKING(calls->header.len, volume.key, options))
CALL(check_another, CHECKING(calls->header.len, another_key, options))
CALL(check_without_a_header, CHECKING(0, volume.key, options))
CALL(check_with_bad_options, CHECKING(calls->header.len, volume.key, bad_options))
CALL(open_by_key_well, OPENING_BY_KEY(volume.key))
CALL(open_by_another_key, OPENING_BY_KEY(another_key))
CALL(header_len, luksrd_header_len(calls->header.at, calls->header.len) > calls->header.len)
CALL(prepare_well, luksrd_prepare(&calls->volume, &calls->cipher))
CALL(prepare_wrong, luksrd_prepare(&calls->wrong, &calls->no_cipher))
CALL(plan, luksrd_plan(&calls->cipher, UINT32_MAX, 1, 9000, &calls->step))
CALL(finish, luksrd_finish(&calls->cipher, &calls->step, calls->payload, calls->step.read_len))
CALL(decrypt_one, luksrd_decrypt(&calls->cipher, 0, calls->payload, calls->volume.sector_size))
CALL(decrypt_more, luksrd_decrypt(&calls->cipher, 0, calls->payload, sizeof calls->payload))
CALL(decrypt_a_part, luksrd_decrypt(&calls->cipher, 0, calls->payload, 100))

/* What the search has to find: parts of the volume key on the stack. One alone may be too uniform to be looked for. */
static __attribute__((noinline)) uint32_t leave_key(struct calls *calls)
{
  volatile uint8_t copy[6000];
  for (size_t i = 0; i < 2 * PART; i++)
    copy[i] = calls->volume.key[i];
  return copy[0] & 0;
}

static uint32_t leave_and_wipe(struct calls *calls)
{
  const uint32_t code = leave_key(calls);
  luksrd_wipe_stack();
  return code;
}

/* The same in a frame that is as short as that of luksrd_wipe_stack's own functions. */
static __attribute__((noinline)) uint32_t leave_nearby(struct calls *calls)
{
  volatile uint8_t copy[40];
  for (size_t i = 0; i < sizeof copy; i++)
    copy[i] = calls->volume.key[i % PART] | 1;
  return copy[0] & 0;
}

/* Whether the bytes right below the caller's frame are zeros: the thread's end writes over them. */
static inline __attribute__((always_inline)) bool is_wiped_nearby(void)
{
  const volatile uint8_t *top;
  __asm__ volatile("movq %%rsp, %0" : "=r"(top));
  uint8_t others = 0;
  for (int i = 1; i <= 128; i++)
    others |= top[-i];
  return others == 0;
}

static uint32_t leave_nearby_and_wipe(struct calls *calls)
{
  const uint32_t code = leave_nearby(calls);
  if (is_wiped_nearby())
    return 1;
  luksrd_wipe_stack();
  return is_wiped_nearby() ? code : 1;
}

/* A call by a thread, the code that it has to have, the bytes of stack that it may need, and where
 * the frame of its caller is. */
struct call {
  const char *name;
  uint32_t (*make)(struct calls *calls);
  uint32_t code;
  size_t most;
  bool is_wiped; /* it leaves only zeros */
  struct calls *calls;
  const uint8_t *frame;
};

static struct call calls_of_each[] = {
  { "nothing", nothing, 0, 0, false, 0, 0 },
  { "luksrd_open", open_well, LUKSRD_OK, OPEN, true, 0, 0 },
  { "luksrd_open, another passphrase", open_by_another, LUKSRD_NO_KEY, OPEN, true, 0, 0 },
  { "luksrd_open, a long passphrase", open_by_a_long_one, LUKSRD_KEY_FILE_LENGTH, OPEN, true, 0, 0 },
  { "luksrd_open, a truncated header", open_truncated, LUKSRD_TRUNCATED, OPEN, true, 0, 0 },
  { "luksrd_open, bad options", open_with_bad_options, LUKSRD_BAD_OPTIONS, OPEN, true, 0, 0 },
  { "luksrd_check_key", check_well, LUKSRD_OK, OPEN, true, 0, 0 },
  { "luksrd_check_key, another key", check_another, LUKSRD_OTHER_KEY, OPEN, true, 0, 0 },
  { "luksrd_check_key, no header", check_without_a_header, LUKSRD_NOT_LUKS, OPEN, true, 0, 0 },
  { "luksrd_check_key, bad options", check_with_bad_options, LUKSRD_BAD_OPTIONS, OPEN, true, 0, 0 },
  { "luksrd_open_by_key", open_by_key_well, LUKSRD_OK, OPEN, true, 0, 0 },
  { "luksrd_open_by_key, another key", open_by_another_key, LUKSRD_OTHER_KEY, OPEN, true, 0, 0 },
  { "luksrd_header_len", header_len, 0, READ, true, 0, 0 },
  { "luksrd_prepare", prepare_well, LUKSRD_OK, PREPARE, true, 0, 0 },
  { "luksrd_prepare, no volume", prepare_wrong, LUKSRD_BAD_VOLUME, PREPARE, true, 0, 0 },
  { "luksrd_plan", plan, LUKSRD_OK, READ, false, 0, 0 },
  { "luksrd_finish", finish, LUKSRD_OK, READ, false, 0, 0 },
  { "luksrd_decrypt", decrypt_more, LUKSRD_OK, READ, false, 0, 0 },
  { "luksrd_decrypt, one sector", decrypt_one, LUKSRD_OK, READ, false, 0, 0 },
  { "luksrd_decrypt, a part of a sector", decrypt_a_part, LUKSRD_BAD_RANGE, READ, false, 0, 0 },
  { "a copy", leave_key, 0, READ, false, 0, 0 },
  { "a copy, luksrd_wipe_stack", leave_and_wipe, 0, WIPE, false, 0, 0 },
  { "a copy nearby, luksrd_wipe_stack", leave_nearby_and_wipe, 0, WIPE, false, 0, 0 },
};

/* ---- the parts of secrets */

/* The parts of all secrets, in order. */
struct parts {
  uint64_t at[PARTS];
  size_t count;
};

/* Whether bytes look like those of a secret alone: they are random, or two bytes by turns, as in
 * round keys that are bitsliced, but not the 0 and 255 of masks. Others can be anywhere. */
static bool is_telling(const uint8_t *at)
{
  int repeated = 0;
  for (int i = 1; i < PART; i++)
    repeated += memchr(at, at[i], (size_t)i) != NULL;
  const bool is_sliced = at[0] != at[1] && memcmp(at, at + 2, PART - 2) == 0;
  return repeated <= 2 || (is_sliced && at[0] % 255 != 0 && at[1] % 255 != 0);
}

static uint64_t part_at(const uint8_t *at)
{
  uint64_t part;
  memcpy(&part, at, sizeof part);
  return part;
}

static int compare_parts(const void *a, const void *b)
{
  const uint64_t x = *(const uint64_t *)a, y = *(const uint64_t *)b;
  return (x > y) - (x < y);
}

/* Adds each part of a secret, at any place in it. */
static void add_secret(struct parts *parts, const void *secret, size_t len)
{
  const uint8_t *at = secret;
  for (size_t i = 0; i + PART <= len; i++)
    if (is_telling(at + i)) {
      must(parts->count < PARTS, "the number of parts");
      parts->at[parts->count++] = part_at(at + i);
    }
}

/* Adds a key, and its expanded forms for each mode that has keys of its length. */
static void add_key(struct parts *parts, const uint8_t *key, size_t len)
{
  static struct luksrd_cipher cipher;
  struct luksrd_volume volume = { .sector_size = 512, .key_size = (uint32_t)len };
  must(len >= 16 && len <= sizeof volume.key, "a key's length");
  memcpy(volume.key, key, len);
  add_secret(parts, key, len);
  for (volume.mode = LUKSRD_XTS_PLAIN64; volume.mode <= LUKSRD_CBC_PLAIN64; volume.mode++)
    if (luksrd_prepare(&volume, &cipher) == LUKSRD_OK)
      add_secret(parts, (const uint8_t *)&cipher + sizeof volume, sizeof cipher - sizeof volume);
}

/* ---- what a call does to the stack */

static void *make_call(void *argument)
{
  struct call *call = argument;
  call->frame = __builtin_frame_address(0);
  must(call->make(call->calls) == call->code, call->name);
  return NULL;
}

/* The stack of a thread, after it has made this call. */
static uint8_t *stack_after(struct call *call)
{
  pthread_attr_t attributes;
  pthread_t thread;
  uint8_t *stack = aligned_alloc(4096, STACK);
  must(stack != NULL, "a stack");
  memset(stack, UNUSED, STACK);
  must(pthread_attr_init(&attributes) == 0 &&
           pthread_attr_setstack(&attributes, stack, STACK) == 0 &&
           pthread_create(&thread, &attributes, make_call, call) == 0 &&
           pthread_join(thread, NULL) == 0,
       "a thread with a stack");
  return stack;
}

/* The bytes of a stack that were written to. */
static size_t used_of(const uint8_t *stack)
{
  size_t unused = 0;
  while (unused < STACK && stack[unused] == UNUSED)
    unused++;
  return STACK - unused;
}

/* What is left on a stack. */
static const char *left_on(const uint8_t *stack, const struct call *call, const struct parts *parts)
{
  for (size_t i = 0; i + PART <= STACK; i++) {
    const uint64_t part = part_at(stack + i);
    if (bsearch(&part, parts->at, parts->count, sizeof part, compare_parts))
      return "a part of a key";
  }
  size_t others = 0;
  for (const uint8_t *at = stack; at < call->frame - NEAR; at++)
    others += *at != 0 && *at != UNUSED;
  /* (the address where the last call returned to) */
  return call->is_wiped && others > sizeof(void *) ? "other bytes than zeros" : "no part of a key";
}

/* Opens the volume, and makes what each call needs. */
static void begin(struct calls *calls, char **argv)
{
  calls->options.size = sizeof calls->options;
  calls->header = header_in(argv[0]);
  calls->passphrase = contents(argv[1]);
  calls->another = copy_of(calls->passphrase.at, calls->passphrase.len);
  calls->another.at[0] ^= 1;
  calls->longest.len = LUKSRD_PASSPHRASE_BYTES + 1;
  calls->longest.at = calloc(1, calls->longest.len);
  must(calls->longest.at != NULL, "memory");
  memcpy(calls->longest.at, calls->passphrase.at, calls->passphrase.len);
  must(open_well(calls) == LUKSRD_OK, "the volume");
  memcpy(calls->another_key, calls->volume.key, sizeof calls->another_key);
  calls->another_key[0] ^= 1;
  calls->wrong = calls->volume;
  calls->wrong.reserved = 1;
}

static void end(struct calls *calls)
{
  free(calls->header.at);
  free(calls->passphrase.at);
  free(calls->another.at);
  free(calls->longest.at);
}

int main(int argc, char **argv)
{
  static struct calls calls;
  static struct parts parts;
  size_t least = 0;
  must(argc == 4, "the arguments");
  begin(&calls, argv + 1);
  struct bytes derived = contents(argv[3]);
  add_secret(&parts, calls.passphrase.at, calls.passphrase.len);
  add_key(&parts, calls.volume.key, calls.volume.key_size);
  add_key(&parts, derived.at, derived.len);
  qsort(parts.at, parts.count, sizeof parts.at[0], compare_parts);
  for (size_t i = 0; i < sizeof calls_of_each / sizeof calls_of_each[0]; i++) {
    struct call *call = &calls_of_each[i];
    call->calls = &calls;
    uint8_t *stack = stack_after(call);
    const size_t used = used_of(stack) - least;
    if (i == 0)
      least = used;
    else
      printf("%s: %s, %s\n", call->name, used <= call->most ? "enough" : "too little",
             left_on(stack, call, &parts));
    if (i > 0 && used > call->most)
      fprintf(stderr, "%s needs %zu bytes\n", call->name, used);
    free(stack);
  }
  free(derived.at);
  end(&calls);
  return 0;
}

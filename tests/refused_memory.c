/* Opens a volume while the library's request for memory number 1, 2, .. is refused, until none is.
 *
 *     refused_memory IMAGE PASSPHRASE
 *
 * prints a line for each: the code, the status and the message. It is linked with malloc, realloc
 * and free wrapped. What a call has taken is given back when it returns. */
#include "library.h"

#include <inttypes.h>

/* The requests until the one that is refused, -1 if none is, and how many pieces are held. */
static long until_refused = -1, held;

void *__real_malloc(size_t size);
void *__real_realloc(void *at, size_t size);
void __real_free(void *at);

static bool is_refused(void)
{
  if (until_refused < 0)
    return false;
  return until_refused-- == 0;
}

void *__wrap_malloc(size_t size)
{
  void *at = is_refused() ? NULL : __real_malloc(size);
  held += at != NULL;
  return at;
}

void *__wrap_realloc(void *before, size_t size)
{
  void *at = is_refused() ? NULL : __real_realloc(before, size);
  held += at != NULL && before == NULL;
  return at;
}

void __wrap_free(void *at)
{
  held -= at != NULL;
  __real_free(at);
}

int main(int argc, char **argv)
{
  must(argc == 3, "the arguments");
  struct bytes header = header_in(argv[1]), passphrase = contents(argv[2]);
  struct luksrd_options options = { .size = sizeof options };
  struct luksrd_volume volume;
  struct luksrd_message message;
  uint32_t code = LUKSRD_OUT_OF_MEMORY;
  for (long number = 0; code != LUKSRD_OK; number++) {
    const long before = held;
    memset(&volume, 255, sizeof volume);
    until_refused = number;
    code = luksrd_open(header.at, header.len, passphrase.at, passphrase.len, &options, &volume, &message);
    const bool came = until_refused < 0;
    until_refused = -1;
    must(held == before, "memory that is given back");
    must(came == (code != LUKSRD_OK), "a refusal that ends the call");
    must(code == LUKSRD_OK || (volume.key_size == 0 && volume.sector_size == 0), "no volume");
    printf("%" PRIu32 " %" PRIu32 " %s\n", code, message.status, message.text);
  }
  free(header.at);
  free(passphrase.at);
  return 0;
}

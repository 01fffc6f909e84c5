/* nbdkit-luksrd-plugin: the plaintext of a LUKS1 or LUKS2 volume as a network block device.
 *
 * This is glue: it reads files and calls luksrd's library (luksrd.h), whose functions are proved to
 * meet their contracts. The glue itself is tested, not proved. */
#define NBDKIT_API_VERSION 2
#include <nbdkit-plugin.h>

#include "input.h"
#include "parameters.h"
#include "volume.h"

#include <errno.h>
#include <fcntl.h>
#include <stdlib.h>
#include <string.h>
#include <unistd.h>

#define THREAD_MODEL NBDKIT_THREAD_MODEL_PARALLEL

static char *file;
static struct parameters parameters;
static struct volume volume;

static int image_fd = -1;

static bool read_image(void *from, uint8_t *to, size_t size, uint64_t offset)
{
  return read_at(*(const int *)from, to, size, offset);
}

static struct image image = { .read = read_image, .from = &image_fd };

static void unload(void)
{
  close_volume(&volume);
  if (image_fd >= 0)
    close(image_fd);
  free_parameters(&parameters);
  free(file);
}

static int config(const char *key, const char *value)
{
  const bool is_file = strcmp(key, "file") == 0;
  const int taken =
      is_file ? take_name(key, value, &file) : take_parameter(&parameters, key, value);
  if (taken == 0)
    return 0;
  if (taken > 0)
    nbdkit_error("unknown parameter '%s'", key);
  /* nbdkit ends, without unload() */
  forget_passphrase(&parameters);
  return -1;
}

static int config_complete(void)
{
  if (!file)
    nbdkit_error("file=IMAGE is needed");
  else if (check_parameters(&parameters) == 0)
    return 0;
  forget_passphrase(&parameters);
  return -1;
}

/* The inputs besides the image: a descriptor of the header, which is the image's own if the header
 * is not detached, and one of the key file, or -1. */
struct inputs {
  int header, key_file;
};

/* Opens the image and the other inputs, in the order in which luksrd does. */
static int open_inputs(struct inputs *inputs)
{
  image_fd = open_image(file, &image.len);
  if (image_fd < 0)
    return -1;
  inputs->header = parameters.header ? open_stream(parameters.header) : image_fd;
  if (inputs->header < 0)
    return -1;
  if (!secret_file(&parameters))
    return 0;
  inputs->key_file = open_stream(secret_file(&parameters));
  return inputs->key_file < 0 ? -1 : 0;
}

static void close_inputs(const struct inputs *inputs)
{
  if (inputs->header >= 0 && inputs->header != image_fd)
    close(inputs->header);
  if (inputs->key_file >= 0)
    close(inputs->key_file);
}

/* nbdkit forks after this: there is one key derivation, and its messages reach the terminal. */
static int get_ready(void)
{
  struct inputs inputs = { .header = -1, .key_file = -1 };
  struct bytes header = { 0 }, secret = { 0 };
  int status = -1;

  volume.name = file;
  if (open_inputs(&inputs) == 0 &&
      read_header(parameters.header ? parameters.header : file, inputs.header, &parameters,
                  &header) == 0 &&
      get_passphrase(&parameters, inputs.key_file, &secret) == 0 &&
      unlock(&volume, &header, &secret, &parameters) == OPENED)
    status = 0;
  wipe(&secret);
  forget_passphrase(&parameters);
  free(header.at);
  close_inputs(&inputs);
  if (status == 0)
    report_ending(&volume, image.len);
  return status;
}

static void *open_connection(int readonly)
{
  (void)readonly;
  return NBDKIT_HANDLE_NOT_NEEDED;
}

static int64_t get_size(void *handle)
{
  (void)handle;
  return (int64_t)plain_len(&volume, image.len);
}

/* Nothing is written, so that all connections see the same. */
static int can_multi_conn(void *handle)
{
  (void)handle;
  return 1;
}

/* The kernel reads ahead what a client names, without decrypting it. */
static int can_cache(void *handle)
{
  (void)handle;
  return NBDKIT_CACHE_NATIVE;
}

static int cache(void *handle, uint32_t count, uint64_t offset, uint32_t flags)
{
  (void)handle;
  (void)flags;
  posix_fadvise(image_fd, (off_t)(payload_offset(&volume) + offset), count, POSIX_FADV_WILLNEED);
  return 0;
}

/* Any range is served. For less than a sector, a whole sector is decrypted; no sector is longer
 * than a page. */
static int block_size(void *handle, uint32_t *minimum, uint32_t *preferred, uint32_t *maximum)
{
  (void)handle;
  *minimum = 1;
  *preferred = 4096;
  *maximum = UINT32_MAX;
  return 0;
}

static int pread_plain(void *handle, void *buf, uint32_t count, uint64_t offset, uint32_t flags)
{
  (void)handle;
  (void)flags;
  if (read_plain(&volume, &image, buf, count, offset) < 0) {
    nbdkit_set_error(EIO);
    return -1;
  }
  return 0;
}

static struct nbdkit_plugin plugin = {
  .name = "luksrd",
  .version = VERSION,
  .longname = LONG_NAME,
  .description = "Serves the plaintext of a LUKS1 or LUKS2 volume, read-only.",
  .config_help =
      "file=IMAGE            (required) The image of the volume, a file or a block device.\n"
      PARAMETERS_HELP,
  .magic_config_key = "file",
  .unload = unload,
  .dump_plugin = print_library,
  .config = config,
  .config_complete = config_complete,
  .get_ready = get_ready,
  .open = open_connection,
  .get_size = get_size,
  .can_multi_conn = can_multi_conn,
  .can_cache = can_cache,
  .cache = cache,
  .block_size = block_size,
  .pread = pread_plain,
};

NBDKIT_REGISTER_PLUGIN(plugin)

/* nbdkit-luksrd-filter: the plaintext of the LUKS1 or LUKS2 volume in what is below it, which is
 * another filter or a plugin.
 *
 * This is glue: it calls luksrd's library (luksrd.h), whose functions are proved to meet their
 * contracts. The glue itself is tested, not proved. */
#include "below.h"
#include "input.h"
#include "parameters.h"
#include "volume.h"

#include <errno.h>
#include <pthread.h>
#include <stdlib.h>
#include <string.h>
#include <unistd.h>

static struct parameters parameters;
static struct bytes passphrase;

/* The volume is opened by the first connection that can, or, if its header is detached, before
 * there is one. The others wait for that. Nobody holds the lock while bytes are read or keys are
 * derived, and once the volume is open, it does not change. A client chooses which export it
 * connects to, so that one that is refused ends nothing for the clients of others. */
enum state { NOT_OPEN, BEING_OPENED, IS_OPEN };
static pthread_mutex_t lock = PTHREAD_MUTEX_INITIALIZER;
static pthread_cond_t is_known = PTHREAD_COND_INITIALIZER;
static enum state state;
static char *served_name;   /* the export with the volume, or NULL before it is known */
static uint64_t served_len; /* the length in bytes of what is below that, if it is known */
static struct volume volume;

/* The first bytes of the image that was opened, if its header is in it, and all that decides about
 * the one that was refused last. Only the connection that opens the volume changes them, or one that
 * finds that the header has changed, which holds the lock. */
static struct start opened_start;
static struct bytes refused_header;

/* The first bytes of the changed header that was refused last. The lock guards them. */
static struct start refused_start;

/* A connection. */
struct connection {
  char *export_name;
  struct below below;
};

static void unload(void)
{
  close_volume(&volume);
  wipe(&passphrase);
  free_parameters(&parameters);
  free(refused_header.at);
  refused_header = (struct bytes){ 0 };
  free(served_name);
  served_name = NULL;
}

/* For nbdkit, which ends after an error without unload(). Returns -1. */
static int give_up(void)
{
  forget_passphrase(&parameters);
  wipe(&passphrase);
  return -1;
}

static int config(nbdkit_next_config *next, nbdkit_backend *backend, const char *key,
                  const char *value)
{
  /* (plugins below have a parameter of this name, too) */
  const bool is_below = strcmp(key, "size") == 0 && !parameters.volume_key_file;
  const int taken = is_below ? 1 : take_parameter(&parameters, key, value);
  const int status = taken > 0 ? next(backend, key, value) : taken;
  return status < 0 ? give_up() : status;
}

static int config_complete(nbdkit_next_config_complete *next, nbdkit_backend *backend)
{
  /* nbdkit loads a filter once, so two of them would share all that is above */
  static bool is_used;
  if (is_used) {
    nbdkit_error("luksrd: this filter can be used only once");
    return give_up();
  }
  is_used = true;
  return check_parameters(&parameters) < 0 || next(backend) < 0 ? give_up() : 0;
}

/* Reads the detached header. */
static int read_detached(struct bytes *header)
{
  const int fd = open_stream(parameters.header);
  if (fd < 0)
    return -1;
  const int status = read_header(parameters.header, fd, &parameters, header);
  close(fd);
  return status;
}

/* Reads the passphrase or the volume key from its file, or takes the passphrase that was given. */
static int take_secret(void)
{
  const char *name = secret_file(&parameters);
  const int fd = name ? open_stream(name) : -1;
  if (name && fd < 0)
    return -1;
  const int status = get_passphrase(&parameters, fd, &passphrase);
  if (fd >= 0)
    close(fd);
  forget_copies();
  return status;
}

/* Opens the volume by its detached header, without what is below. */
static int open_now(void)
{
  struct bytes header = { 0 };
  int status = read_detached(&header);
  if (status == 0)
    status = take_secret();
  if (status == 0 && unlock(&volume, &header, &passphrase, &parameters) != OPENED)
    status = -1;
  free(header.at);
  wipe(&passphrase);
  return status;
}

/* nbdkit forks after this: here relative names of files still lead to them. */
static int get_ready(int thread_model)
{
  (void)thread_model;
  const int status = parameters.header ? open_now() : take_secret();
  if (status < 0)
    return give_up();
  if (parameters.header)
    state = IS_OPEN;
  return 0;
}

static void *open_connection(nbdkit_next_open *next, nbdkit_context *context, int readonly,
                             const char *name, int is_tls)
{
  (void)readonly;
  (void)is_tls;
  if (next(context, 1, name) < 0)
    return NULL;
  struct connection *connection = calloc(1, sizeof *connection);
  if (connection)
    connection->export_name = strdup(name);
  if (connection && connection->export_name)
    return connection;
  nbdkit_error("luksrd: out of memory");
  free(connection);
  return NULL;
}

static void close_connection(void *handle)
{
  struct connection *connection = handle;
  pthread_mutex_lock(&lock);
  const bool is_kept = connection->export_name == served_name;
  pthread_mutex_unlock(&lock);
  if (!is_kept)
    free(connection->export_name);
  free(connection);
}

/* Tries the passphrase or the volume key on a header, but not again on the one that was refused
 * last: a client that comes back would cost the server a derivation of keys each time. */
static enum outcome try_header(const struct bytes *header)
{
  if (!refused_header.at || refused_header.len != header->len ||
      memcmp(refused_header.at, header->at, header->len) != 0)
    return unlock(&volume, header, &passphrase, &parameters);
  nbdkit_error("luksrd: this image was refused before");
  return REFUSED;
}

/* Reads the first bytes below that decide how a volume is opened. Returns whether they are enough; if
 * not, reports why. The caller frees them. */
static bool read_header_below(struct below *below, struct bytes *header)
{
  if (allocate(header, below->len < MAX_HEADER ? (size_t)below->len : MAX_HEADER) < 0)
    return false;
  const size_t wanted = header->len;
  header->len = read_first_below(below, header->at, wanted);
  if (header->len < wanted)
    nbdkit_error("luksrd: reading the first %zu bytes: after %zu: %s", wanted, header->len,
                 strerror(errno));
  return header->len == wanted || are_enough(header, &parameters);
}

/* Reads the header below, and opens the volume. */
static enum outcome open_below(struct below *below)
{
  struct bytes header = { 0 };
  enum outcome outcome = TRY_LATER;
  if (read_header_below(below, &header))
    outcome = try_header(&header);
  if (outcome == OPENED)
    keep_start(&opened_start, &header);
  if (outcome == REFUSED) {
    const struct bytes before = refused_header;
    refused_header = header;
    header = before;
  }
  free(header.at);
  return outcome;
}

/* Whether the export of this connection has the name of the one with the volume; the first one
 * has. The caller holds the lock. */
static bool has_volume(const struct connection *connection)
{
  if (!served_name) {
    served_name = connection->export_name;
    served_len = connection->below.len;
    report_ending(&volume, connection->below.len);
  }
  return strcmp(served_name, connection->export_name) == 0;
}

/* Opens the volume, for this connection and for all others. If this export is refused, that of a
 * later connection may be another one; if a read failed, or there was no memory but Argon2's, a later
 * connection tries again. Returns whether it is open. */
static bool open_for_all(struct connection *connection)
{
  const enum outcome outcome = open_below(&connection->below);
  if (outcome == OPENED)
    wipe(&passphrase);
  pthread_mutex_lock(&lock);
  state = outcome == OPENED ? IS_OPEN : NOT_OPEN;
  if (outcome == OPENED)
    has_volume(connection);
  pthread_cond_broadcast(&is_known);
  pthread_mutex_unlock(&lock);
  return outcome == OPENED;
}

/* Waits while another connection opens the volume. Returns whether it is open; if not, this
 * connection has to open it. */
static bool wait_for_volume(void)
{
  pthread_mutex_lock(&lock);
  while (state == BEING_OPENED)
    pthread_cond_wait(&is_known, &lock);
  const bool is_open = state == IS_OPEN;
  if (!is_open)
    state = BEING_OPENED;
  pthread_mutex_unlock(&lock);
  return is_open;
}

/* Tries the key of the open volume on a header with the same UUID that has changed: key slots may
 * have been added or removed, but after a reencryption the key would give noise. A header that was
 * refused is not tried again. */
static enum likeness compare_changed(struct below *below)
{
  struct bytes header = { 0 };
  struct start start = { .len = 0 };
  enum outcome outcome = TRY_LATER;
  if (read_header_below(below, &header)) {
    keep_start(&start, &header);
    pthread_mutex_lock(&lock);
    const bool was_refused = memcmp(&start, &refused_start, sizeof start) == 0;
    pthread_mutex_unlock(&lock);
    outcome = was_refused ? REFUSED : compare_header(&volume, &header, &parameters);
    errno = ENOMEM; /* (why it is tried later) */
  }
  free(header.at);
  pthread_mutex_lock(&lock);
  if (outcome == OPENED)
    opened_start = start;
  else if (outcome == REFUSED)
    refused_start = start;
  pthread_mutex_unlock(&lock);
  return outcome == OPENED ? SAME : outcome == REFUSED ? OTHER : UNREAD;
}

/* Compares what is below with the volume that is open: another image would give noise with this
 * key. One that starts with the same bytes is the same image, whatever its export's name is, as if
 * what is below does not look at names. If they begin no header, an export of another name has to
 * have the same length, too. If an export of the same name has the same UUID, but another header,
 * the key decides. */
static enum likeness compare_volumes(struct below *below, bool is_same_name)
{
  pthread_mutex_lock(&lock);
  const struct start opened = opened_start;
  pthread_mutex_unlock(&lock);
  const bool has_uuid = has_magic(&opened);
  if (!is_same_name && !has_uuid && below->len != served_len)
    return OTHER;
  /* (if the header is detached, these are no bytes) */
  const enum likeness likeness = compare_start(below, &opened);
  if (likeness != OTHER || !is_same_name || !has_uuid)
    return likeness;
  const enum likeness uuid = compare_uuid(below, &opened);
  return uuid == SAME ? compare_changed(below) : uuid;
}

/* Whether this connection is served; reports why not. */
static bool is_served(struct connection *connection)
{
  pthread_mutex_lock(&lock);
  const bool is_same_name = has_volume(connection);
  pthread_mutex_unlock(&lock);
  const enum likeness likeness = compare_volumes(&connection->below, is_same_name);
  if (likeness == UNREAD)
    nbdkit_error("luksrd: comparing the header with that of the open volume: %s", strerror(errno));
  else if (likeness == OTHER && is_same_name)
    nbdkit_error("luksrd: the export has another volume than the one that is open, or it was "
                 "reencrypted: start nbdkit again");
  else if (likeness == OTHER)
    nbdkit_error("luksrd: this server has opened another export, and serves no second one");
  return likeness == SAME;
}

static int prepare(nbdkit_next *next, void *handle, int readonly)
{
  struct connection *connection = handle;
  (void)readonly;
  if (look_below(&connection->below, next) < 0)
    return -1;
  const bool is_prepared = wait_for_volume() ? is_served(connection) : open_for_all(connection);
  return is_prepared ? 0 : -1;
}

static int64_t get_size(nbdkit_next *next, void *handle)
{
  const struct connection *connection = handle;
  (void)next;
  return (int64_t)plain_len(&volume, connection->below.len);
}

static int no(nbdkit_next *next, void *handle)
{
  (void)next;
  (void)handle;
  return 0;
}

/* Any range is served, whatever the blocks of what is below. */
static int block_size(nbdkit_next *next, void *handle, uint32_t *minimum, uint32_t *preferred,
                      uint32_t *maximum)
{
  const struct connection *connection = handle;
  (void)next;
  *minimum = 1;
  *preferred = connection->below.preferred > 4096 ? connection->below.preferred : 4096;
  *maximum = UINT32_MAX;
  return 0;
}

/* If this is emulated, then below: nothing is decrypted for it. */
static int can_cache(nbdkit_next *next, void *handle)
{
  const int found = next->can_cache(next);
  (void)handle;
  return found == NBDKIT_CACHE_EMULATE ? NBDKIT_CACHE_NATIVE : found;
}

static int cache(nbdkit_next *next, void *handle, uint32_t count, uint64_t offset, uint32_t flags,
                 int *err)
{
  const struct connection *connection = handle;
  const struct blocks blocks =
      blocks_of(&connection->below, count, payload_offset(&volume) + offset);
  return next->cache(next, blocks.count, blocks.offset, flags, err);
}

/* A hole stays a hole, but what it contains is not zero: zeros are decrypted too. */
static int add_extents(struct nbdkit_extents *extents, const struct nbdkit_extents *found)
{
  const uint64_t start = payload_offset(&volume);
  for (size_t i = 0; i < nbdkit_extents_count(found); i++) {
    const struct nbdkit_extent extent = nbdkit_get_extent(found, i);
    const uint64_t before = extent.offset < start ? start - extent.offset : 0;
    if (extent.length > before &&
        nbdkit_add_extent(extents, extent.offset + before - start, extent.length - before,
                          extent.type & NBDKIT_EXTENT_HOLE) < 0)
      return -1;
  }
  return 0;
}

/* The extents of the blocks that contain this range. nbdkit aborts if it gets none of the range, and
 * the first extents of a block that begins before it may end before it, too: then all extents of
 * that block alone. */
static struct nbdkit_extents *find_extents(nbdkit_next *next, const struct below *below,
                                           uint32_t count, uint64_t offset, uint32_t flags,
                                           int *err)
{
  const struct blocks blocks = blocks_of(below, count, offset);
  if (blocks.offset < offset)
    return nbdkit_extents_full(next, blocks_of(below, 1, offset).count, blocks.offset, flags, err);
  struct nbdkit_extents *found = nbdkit_extents_new(blocks.offset, below->len);
  if (!found) {
    *err = errno;
    return NULL;
  }
  if (next->extents(next, blocks.count, blocks.offset, flags, found, err) == 0)
    return found;
  nbdkit_extents_free(found);
  return NULL;
}

static int extents_plain(nbdkit_next *next, void *handle, uint32_t count, uint64_t offset,
                         uint32_t flags, struct nbdkit_extents *extents, int *err)
{
  const struct connection *connection = handle;
  struct nbdkit_extents *found = find_extents(next, &connection->below, count,
                                              payload_offset(&volume) + offset, flags, err);
  if (!found)
    return -1;
  const int status = add_extents(extents, found);
  if (status < 0)
    *err = errno;
  nbdkit_extents_free(found);
  return status;
}

static int pread_plain(nbdkit_next *next, void *handle, void *buf, uint32_t count, uint64_t offset,
                       uint32_t flags, int *err)
{
  struct connection *connection = handle;
  (void)next;
  (void)flags;
  const struct image image = {
    .len = connection->below.len,
    .read = read_below,
    .from = &connection->below,
  };
  if (read_plain(&volume, &image, buf, count, offset) < 0) {
    *err = EIO;
    return -1;
  }
  return 0;
}

static struct nbdkit_filter filter = {
  .name = "luksrd",
  .longname = LONG_NAME,
  .description = "Serves the plaintext of the LUKS volume in what is below it, read-only.",
  .config_help = PARAMETERS_HELP,
  .unload = unload,
  .config = config,
  .config_complete = config_complete,
  .get_ready = get_ready,
  .open = open_connection,
  .close = close_connection,
  .prepare = prepare,
  .get_size = get_size,
  .block_size = block_size,
  .can_write = no,
  .can_flush = no,
  .can_trim = no,
  .can_zero = no,
  .can_fast_zero = no,
  .can_fua = no,
  .can_cache = can_cache,
  .cache = cache,
  .extents = extents_plain,
  .pread = pread_plain,
};

NBDKIT_REGISTER_FILTER(filter)

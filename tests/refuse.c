/* Refuses one call of a program that is run with this library loaded before the C library: of the requests for memory, or of
   the calls of the name that FAIL_CALL says, the one whose number FAIL_AT says, with the error FAIL_ERROR or EIO. Where there
   was such a call, the file that HIT_FILE names is made at the end. */
#define _GNU_SOURCE
#include <dlfcn.h>
#include <errno.h>
#include <fcntl.h>
#include <stdarg.h>
#include <stdlib.h>
#include <string.h>
#include <sys/stat.h>
#include <unistd.h>

static long left = -1;
static const char *name;
static int hit;
static int wrong = EIO;

__attribute__((constructor)) static void begin(void) {
  const char *at = getenv("FAIL_AT");
  left = at ? atol(at) : 0;
  name = getenv("FAIL_CALL");
  const char *error = getenv("FAIL_ERROR");
  wrong = error ? atoi(error) : EIO;
}

__attribute__((destructor)) static void end(void) {
  const char *file = getenv("HIT_FILE");
  if (hit && file)
    creat(file, 0644);
}

static int is_counted_out(int error) {
  if (left <= 0 || --left > 0)
    return 0;
  hit = 1;
  errno = error;
  return 1;
}

static int refused(void) { return !name && is_counted_out(ENOMEM); }

static int fails(const char *call) { return name && !strcmp(name, call) && is_counted_out(wrong); }

/* A call of the C library that may be told to fail. */
#define CALL(type, call, failure, parameters, arguments)                                                                       \
  type call parameters {                                                                                                       \
    type(*real) parameters = dlsym(RTLD_NEXT, #call);                                                                          \
    return fails(#call) ? failure : real arguments;                                                                            \
  }

CALL(ssize_t, read, -1, (int file, void *bytes, size_t count), (file, bytes, count))
CALL(off_t, lseek, -1, (int file, off_t at, int from), (file, at, from))
CALL(ssize_t, write, -1, (int file, const void *bytes, size_t count), (file, bytes, count))
CALL(int, statx, -1, (int folder, const char *path, int flags, unsigned mask, struct statx *found), (folder, path, flags, mask, found))
CALL(int, flock, -1, (int file, int how), (file, how))
CALL(int, fchmod, -1, (int file, mode_t mode), (file, mode))
CALL(int, fsync, -1, (int file), (file))
CALL(int, link, -1, (const char *from, const char *to), (from, to))
CALL(int, rename, -1, (const char *from, const char *to), (from, to))
CALL(char *, realpath, 0, (const char *path, char *found), (path, found))

int open(const char *path, int flags, ...) {
  int (*real)(const char *, int, ...) = dlsym(RTLD_NEXT, "open");
  va_list more;
  va_start(more, flags);
  mode_t mode = flags & O_CREAT ? va_arg(more, mode_t) : 0;
  va_end(more);
  return fails("open") ? -1 : real(path, flags, mode);
}

void *malloc(size_t size) {
  void *(*real)(size_t) = dlsym(RTLD_NEXT, "malloc");
  return refused() ? 0 : real(size);
}

void *realloc(void *old, size_t size) {
  void *(*real)(void *, size_t) = dlsym(RTLD_NEXT, "realloc");
  return refused() ? 0 : real(old, size);
}

void *aligned_alloc(size_t align, size_t size) {
  void *(*real)(size_t, size_t) = dlsym(RTLD_NEXT, "aligned_alloc");
  return refused() ? 0 : real(align, size);
}

int posix_memalign(void **place, size_t align, size_t size) {
  int (*real)(void **, size_t, size_t) = dlsym(RTLD_NEXT, "posix_memalign");
  return refused() ? ENOMEM : real(place, align, size);
}

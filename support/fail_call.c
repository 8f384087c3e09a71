// Put before the C library, this has one call on a file fail. FAIL_CALL=N names the N-th call of pwrite, fdatasync,
// fsync or ftruncate. It says so on standard error. FAIL_HOW says how the call fails:
//
//   EIO, ENOSPC   by this error; a further call on the same file ends the process by a signal
//   EINTR         by this error, as if a signal had interrupted it
//   short         it isn't a failure: each pwrite from then on takes 3 bytes at most
//   hang          it doesn't return, until the process is killed

#define _GNU_SOURCE
#include <dlfcn.h>
#include <errno.h>
#include <stdio.h>
#include <stdlib.h>
#include <string.h>
#include <unistd.h>

static int calls, failed_file = -1;

static const char *how(void) {
  const char *text = getenv("FAIL_HOW");
  return text ? text : "EIO";
}

// Whether this call fails, by which error, or 0.
static int failure(int file) {
  const char *nth = getenv("FAIL_CALL");
  if (file == failed_file) abort();
  if (++calls != (nth ? atoi(nth) : 0)) return 0;
  fprintf(stderr, "fail_call: call %d, %s\n", calls, how());
  if (!strcmp(how(), "EINTR")) return EINTR;
  if (!strcmp(how(), "short")) return 0;
  while (!strcmp(how(), "hang")) pause();
  failed_file = file;
  return strcmp(how(), "ENOSPC") ? EIO : ENOSPC;
}

static int is_short(void) { return !strcmp(how(), "short") && calls >= atoi(getenv("FAIL_CALL")); }

#define REAL(type, name, ...) \
  static type (*real)(__VA_ARGS__); \
  if (!real) real = (type (*)(__VA_ARGS__))dlsym(RTLD_NEXT, name)

#define FAIL_OR(file, call) \
  int error = failure(file); \
  if (error) { errno = error; return -1; } \
  return call

ssize_t pwrite(int file, const void *bytes, size_t count, off_t at) {
  REAL(ssize_t, "pwrite", int, const void *, size_t, off_t);
  FAIL_OR(file, real(file, bytes, is_short() && count > 3 ? 3 : count, at));
}

ssize_t pwrite64(int file, const void *bytes, size_t count, off_t at) { return pwrite(file, bytes, count, at); }

int fdatasync(int file) {
  REAL(int, "fdatasync", int);
  FAIL_OR(file, real(file));
}

int fsync(int file) {
  REAL(int, "fsync", int);
  FAIL_OR(file, real(file));
}

int ftruncate(int file, off_t length) {
  REAL(int, "ftruncate", int, off_t);
  FAIL_OR(file, real(file, length));
}

int ftruncate64(int file, off_t length) { return ftruncate(file, length); }

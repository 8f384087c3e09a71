// Put before the C library, this notes each call that changes a file of the folder NOTE_FOLDER, or puts it on the disk, and each
// write to standard output. It appends the notes to the file NOTE_FILE, in the order of the calls. A note is a line:
//
//   make NAME, find NAME, remove NAME      the file was made, was opened, was removed
//   write NAME AT COUNT TAKEN              behind the line stand the COUNT bytes that were to be written; TAKEN is -1 if it failed
//   cut NAME LENGTH ANSWER                 ANSWER is 0, or -1 if it failed
//   sync NAME ANSWER                       NAME is . for the folder
//   print COUNT                            so many bytes went to standard output
//
// It also has each read of standard input take one line at most, so that a program answers a line before it reads the next one.

#define _GNU_SOURCE
#include <dlfcn.h>
#include <errno.h>
#include <fcntl.h>
#include <limits.h>
#include <stdarg.h>
#include <stdio.h>
#include <stdlib.h>
#include <string.h>
#include <sys/syscall.h>
#include <unistd.h>

#define REAL(type, name, ...) \
  static type (*real)(__VA_ARGS__); \
  if (!real) real = (type (*)(__VA_ARGS__))dlsym(RTLD_NEXT, name)

static void put(const void *bytes, size_t count) {
  REAL(ssize_t, "write", int, const void *, size_t);
  static int notes = -1;
  if (notes < 0) {
    // Far above the numbers that the program's own files get.
    int opened = (int)syscall(SYS_openat, AT_FDCWD, getenv("NOTE_FILE"), O_WRONLY | O_CREAT | O_APPEND, 0600);
    notes = fcntl(opened, F_DUPFD, 500);
    close(opened);
  }
  if (real(notes, bytes, count) != (ssize_t)count) abort();
}

// The program sees the error of its own call.
static void note(const char *format, ...) {
  int error = errno;
  char line[PATH_MAX + 100];
  va_list words;
  va_start(words, format);
  put(line, (size_t)vsnprintf(line, sizeof line, format, words));
  va_end(words);
  errno = error;
}

// The name of a path in the folder, '.' for the folder itself, or nothing.
static const char *name_in_folder(const char *path) {
  const char *folder = getenv("NOTE_FOLDER");
  size_t length = folder ? strlen(folder) : 0;
  if (!length || strncmp(path, folder, length)) return NULL;
  return !path[length] ? "." : path[length] == '/' ? path + length + 1 : NULL;
}

static const char *name_of(int file) {
  static char path[PATH_MAX];
  int error = errno;
  char link[40];
  snprintf(link, sizeof link, "/proc/self/fd/%d", file);
  ssize_t length = readlink(link, path, sizeof path - 1);
  path[length < 0 ? 0 : length] = 0;
  errno = error;
  return name_in_folder(path);
}

static int noted_open(const char *path, int flags, mode_t mode) {
  REAL(int, "open", const char *, int, ...);
  int is_new = (flags & O_CREAT) && access(path, F_OK);
  int file = real(path, flags, mode);
  const char *name = file < 0 ? NULL : name_of(file);
  if (name && *name != '.') note("%s %s\n", is_new ? "make" : "find", name);
  return file;
}

#define MODE_OF(flags) \
  mode_t mode = 0; \
  va_list more; \
  va_start(more, flags); \
  if ((flags) & O_CREAT) mode = va_arg(more, mode_t); \
  va_end(more)

int open(const char *path, int flags, ...) {
  MODE_OF(flags);
  return noted_open(path, flags, mode);
}

int open64(const char *path, int flags, ...) {
  MODE_OF(flags);
  return noted_open(path, flags, mode);
}

int unlink(const char *path) {
  REAL(int, "unlink", const char *);
  int answer = real(path);
  const char *name = answer ? NULL : name_in_folder(path);
  if (name) note("remove %s\n", name);
  return answer;
}

ssize_t pwrite(int file, const void *bytes, size_t count, off_t at) {
  REAL(ssize_t, "pwrite", int, const void *, size_t, off_t);
  ssize_t taken = real(file, bytes, count, at);
  const char *name = name_of(file);
  if (name) {
    note("write %s %lld %zu %zd\n", name, (long long)at, count, taken);
    put(bytes, count);
  }
  return taken;
}

ssize_t pwrite64(int file, const void *bytes, size_t count, off_t at) { return pwrite(file, bytes, count, at); }

int ftruncate(int file, off_t length) {
  REAL(int, "ftruncate", int, off_t);
  int answer = real(file, length);
  const char *name = name_of(file);
  if (name) note("cut %s %lld %d\n", name, (long long)length, answer);
  return answer;
}

int ftruncate64(int file, off_t length) { return ftruncate(file, length); }

static int noted_sync(int file, int answer) {
  const char *name = name_of(file);
  if (name) note("sync %s %d\n", name, answer);
  return answer;
}

int fsync(int file) {
  REAL(int, "fsync", int);
  return noted_sync(file, real(file));
}

int fdatasync(int file) {
  REAL(int, "fdatasync", int);
  return noted_sync(file, real(file));
}

ssize_t write(int file, const void *bytes, size_t count) {
  REAL(ssize_t, "write", int, const void *, size_t);
  ssize_t taken = real(file, bytes, count);
  if (file == STDOUT_FILENO && taken > 0 && getenv("NOTE_FOLDER")) note("print %zd\n", taken);
  return taken;
}

ssize_t read(int file, void *bytes, size_t count) {
  REAL(ssize_t, "read", int, void *, size_t);
  if (file != STDIN_FILENO) return real(file, bytes, count);
  size_t taken = 0;
  char *line = bytes;
  while (taken < count && real(file, line + taken, 1) == 1)
    if (line[taken++] == '\n') break;
  return (ssize_t)taken;
}

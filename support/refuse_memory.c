/* Loaded in front of the C library: counts the requests for memory that a program makes from its `main` on, and refuses
   those from the number REFUSE_FROM to the number REFUSE_TO, counted from 1. The file REFUSE_REPORT gets two numbers, how
   many requests there were and how many of them were refused: at the first refusal, and again where the program ends by
   itself. It counts on one thread. */
#define _GNU_SOURCE
#include <errno.h>
#include <fcntl.h>
#include <stddef.h>
#include <stdio.h>
#include <stdlib.h>
#include <sys/syscall.h>
#include <unistd.h>

extern void *__libc_malloc(size_t size);
extern void *__libc_calloc(size_t count, size_t size);
extern void *__libc_realloc(void *memory, size_t size);
extern void *__libc_memalign(size_t alignment, size_t size);

static int counting = 0;
static unsigned long from = 0, to = 0, requests = 0, refused = 0;

static _Noreturn void leave(int status) {
  syscall(SYS_exit_group, status);
  __builtin_unreachable();
}

static unsigned long number_in(const char *name) {
  const char *text = getenv(name);
  return text ? strtoul(text, NULL, 10) : 0;
}

static void report(void) {
  const char *path = getenv("REFUSE_REPORT");
  if (!path) return;
  int file = open(path, O_WRONLY | O_CREAT | O_TRUNC, 0600);
  if (file < 0) return;
  char text[64];
  int length = snprintf(text, sizeof text, "%lu %lu\n", requests, refused);
  if (write(file, text, (size_t)length) != length) leave(3);
  close(file);
}

__attribute__((constructor)) static void begin(void) {
  from = number_in("REFUSE_FROM");
  to = number_in("REFUSE_TO");
  counting = 1;
}

__attribute__((destructor)) static void end(void) {
  counting = 0;
  report();
}

/* A program may end by this call, which runs no destructor. */
void _exit(int status) {
  end();
  leave(status);
}

static int is_refused(void) {
  if (!counting) return 0;
  requests += 1;
  if (requests < from || requests > to) return 0;
  refused += 1;
  if (refused == 1) report();
  errno = ENOMEM;
  return 1;
}

void *malloc(size_t size) { return is_refused() ? NULL : __libc_malloc(size); }

void *calloc(size_t count, size_t size) { return is_refused() ? NULL : __libc_calloc(count, size); }

void *realloc(void *memory, size_t size) { return is_refused() ? NULL : __libc_realloc(memory, size); }

void *reallocarray(void *memory, size_t count, size_t size) {
  size_t bytes;
  if (__builtin_mul_overflow(count, size, &bytes)) {
    errno = ENOMEM;
    return NULL;
  }
  return realloc(memory, bytes);
}

void *memalign(size_t alignment, size_t size) { return is_refused() ? NULL : __libc_memalign(alignment, size); }

void *aligned_alloc(size_t alignment, size_t size) { return memalign(alignment, size); }

int posix_memalign(void **memory, size_t alignment, size_t size) {
  void *given = memalign(alignment, size);
  if (!given) return ENOMEM;
  *memory = given;
  return 0;
}

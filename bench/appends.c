// Appends texts to a file by hand, each on the disk before the next one: what a journal does, without the program.
//
//   appends FILE SYNCS TEXTS BYTES    prints the nanoseconds of so many appends of so many bytes each
//
// With 2 as SYNCS it keeps the rules of a journal: length, text and a closed gate are written behind a closed gate and
// synced, and then the gate is opened and synced. With 1 it writes length and text, and syncs once.

#include <fcntl.h>
#include <stdint.h>
#include <stdio.h>
#include <stdlib.h>
#include <string.h>
#include <time.h>
#include <unistd.h>

static void fail(const char *what) {
  perror(what);
  exit(1);
}

static void write_at(int file, const unsigned char *bytes, size_t count, off_t at) {
  while (count > 0) {
    ssize_t taken = pwrite(file, bytes, count, at);
    if (taken <= 0) fail("pwrite");
    bytes += taken, count -= taken, at += taken;
  }
}

static void sync_file(int file) {
  if (fdatasync(file)) fail("fdatasync");
}

static uint64_t now(void) {
  struct timespec time;
  clock_gettime(CLOCK_MONOTONIC, &time);
  return time.tv_sec * 1000000000ull + time.tv_nsec;
}

int main(int count, char **words) {
  if (count != 5) return 2;
  int syncs = atoi(words[2]), texts = atoi(words[3]);
  uint32_t bytes = atoi(words[4]);
  int file = open(words[1], O_CREAT | O_EXCL | O_RDWR, 0666);
  if (file < 0) fail("open");
  unsigned char *frame = malloc(bytes + 5);
  if (!frame) fail("malloc");
  frame[0] = bytes >> 24, frame[1] = bytes >> 16, frame[2] = bytes >> 8, frame[3] = bytes;
  memset(frame + 4, '.', bytes);
  frame[bytes + 4] = 0;
  write_at(file, (const unsigned char *)"", 1, 0);
  sync_file(file);
  uint64_t start = now();
  off_t end = 0;
  for (int text = 0; text < texts; text++) {
    if (syncs == 2) {
      write_at(file, frame, bytes + 5, end + 1);
      sync_file(file);
      write_at(file, (const unsigned char *)"\1", 1, end);
      sync_file(file);
      end += bytes + 5;
    } else {
      write_at(file, frame, bytes + 4, end);
      sync_file(file);
      end += bytes + 4;
    }
  }
  printf("%llu\n", (unsigned long long)(now() - start));
  return 0;
}

/* Stands before the C library for a trial: counts allocations and calls of read and write on standard input and output, and lets one of them fail.
   REFUSE=N refuses the Nth allocation. FAIL=N, SHORT=N and INTERRUPT=N let the Nth call of read or write fail with EIO, take one byte, or be interrupted.
   COUNTED=FILE keeps both counts in a file of two numbers of eight bytes, while the program runs. */
#define _GNU_SOURCE
#include <dlfcn.h>
#include <errno.h>
#include <fcntl.h>
#include <stdlib.h>
#include <sys/mman.h>
#include <sys/types.h>
#include <unistd.h>

static long own[2];
static volatile long *counts = own;
static long refuse, fail, brief, interrupt;
static void *(*next_malloc)(size_t);
static void *(*next_realloc)(void *, size_t);
static ssize_t (*next_read)(int, void *, size_t);
static ssize_t (*next_write)(int, const void *, size_t);

static long setting(const char *name) {
  const char *text = getenv(name);
  return text ? atol(text) : 0;
}

__attribute__((constructor)) static void begin(void) {
  refuse = setting("REFUSE");
  fail = setting("FAIL");
  brief = setting("SHORT");
  interrupt = setting("INTERRUPT");
  const char *path = getenv("COUNTED");
  int file = path ? open(path, O_RDWR | O_CREAT, 0600) : -1;
  if (file >= 0 && ftruncate(file, sizeof own) == 0) {
    void *at = mmap(0, sizeof own, PROT_READ | PROT_WRITE, MAP_SHARED, file, 0);
    if (at != MAP_FAILED) counts = at;
    close(file);
  }
  counts[0] = counts[1] = 0;
}

static int refused(void) { return ++counts[0] == refuse; }

void *malloc(size_t size) {
  if (!next_malloc) next_malloc = dlsym(RTLD_NEXT, "malloc");
  if (refused()) return errno = ENOMEM, NULL;
  return next_malloc(size);
}

void *realloc(void *old, size_t size) {
  if (!next_realloc) next_realloc = dlsym(RTLD_NEXT, "realloc");
  if (refused()) return errno = ENOMEM, NULL;
  return next_realloc(old, size);
}

/* The size of this call, or -1 where it fails. */
static ssize_t allowed(size_t size) {
  long number = ++counts[1];
  if (number == fail) return errno = EIO, -1;
  if (number == interrupt) return errno = EINTR, -1;
  return number == brief && size > 1 ? 1 : (ssize_t)size;
}

ssize_t read(int file, void *into, size_t size) {
  if (!next_read) next_read = dlsym(RTLD_NEXT, "read");
  ssize_t some = file == 0 ? allowed(size) : (ssize_t)size;
  return some < 0 ? -1 : next_read(file, into, some);
}

ssize_t write(int file, const void *from, size_t size) {
  if (!next_write) next_write = dlsym(RTLD_NEXT, "write");
  ssize_t some = file == 1 ? allowed(size) : (ssize_t)size;
  return some < 0 ? -1 : next_write(file, from, some);
}

ssize_t __write(int file, const void *from, size_t size) { return write(file, from, size); }

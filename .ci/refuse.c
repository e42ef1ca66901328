// Makes one call of the C library go wrong, for the sweeps of .ci/sweep: the growth, the read or the write with the number that
// SWEEP_GROWTH, SWEEP_READ or SWEEP_WRITE names, counted from 1. A growth is refused; of a read or a write SWEEP_HOW says what
// becomes of it: it fails (the default), is interrupted, moves nothing, or moves one byte. When the program ends it writes to the
// file of SWEEP_COUNTS how many growths, reads and writes there were; writes to standard error do not count.
#define _GNU_SOURCE
#include <dlfcn.h>
#include <errno.h>
#include <stdatomic.h>
#include <stdio.h>
#include <stdlib.h>
#include <string.h>
#include <sys/syscall.h>
#include <unistd.h>

static atomic_long growths, reads, writes;
static long refused_growth, odd_read, odd_write;
static const char *how = "fails";
static int ready;

static long number(const char *name) {
  const char *text = getenv(name);
  return text ? atol(text) : 0;
}

__attribute__((constructor)) static void start(void) {
  refused_growth = number("SWEEP_GROWTH");
  odd_read = number("SWEEP_READ");
  odd_write = number("SWEEP_WRITE");
  if (getenv("SWEEP_HOW")) how = getenv("SWEEP_HOW");
  ready = 1;
}

// The program ends by this call, which runs no destructor.
void _exit(int status) {
  ready = 0;
  const char *path = getenv("SWEEP_COUNTS");
  FILE *file = path ? fopen(path, "w") : NULL;
  if (file) {
    fprintf(file, "%ld %ld %ld\n", growths, reads, writes);
    fclose(file);
  }
  syscall(SYS_exit_group, status);
  __builtin_unreachable();
}

static int refuses_growth(void) {
  if (!ready || ++growths != refused_growth) return 0;
  errno = ENOMEM;
  return 1;
}

extern void *__libc_malloc(size_t);
extern void *__libc_calloc(size_t, size_t);
extern void *__libc_realloc(void *, size_t);

void *malloc(size_t size) { return refuses_growth() ? NULL : __libc_malloc(size); }

void *calloc(size_t count, size_t size) { return refuses_growth() ? NULL : __libc_calloc(count, size); }

void *realloc(void *old, size_t size) { return refuses_growth() ? NULL : __libc_realloc(old, size); }

// What an odd read or write of so many bytes answers, or how many bytes it may move.
static ssize_t odd(size_t *count) {
  if (!strcmp(how, "short")) {
    *count = *count ? 1 : 0;
    return 1;
  }
  if (!strcmp(how, "nothing")) return 0;
  errno = strcmp(how, "interrupted") ? EIO : EINTR;
  return -1;
}

ssize_t read(int fd, void *bytes, size_t count) {
  static ssize_t (*next)(int, void *, size_t);
  if (!next) next = dlsym(RTLD_NEXT, "read");
  ssize_t answer = ready && ++reads == odd_read ? odd(&count) : 1;
  return answer > 0 ? next(fd, bytes, count) : answer;
}

ssize_t pread(int fd, void *bytes, size_t count, off_t at) {
  static ssize_t (*next)(int, void *, size_t, off_t);
  if (!next) next = dlsym(RTLD_NEXT, "pread");
  ssize_t answer = ready && ++reads == odd_read ? odd(&count) : 1;
  return answer > 0 ? next(fd, bytes, count, at) : answer;
}

ssize_t write(int fd, const void *bytes, size_t count) {
  static ssize_t (*next)(int, const void *, size_t);
  if (!next) next = dlsym(RTLD_NEXT, "write");
  ssize_t answer = ready && fd != 2 && ++writes == odd_write ? odd(&count) : 1;
  return answer > 0 ? next(fd, bytes, count) : answer;
}

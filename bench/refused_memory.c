/* A library for LD_PRELOAD that refuses memory: the allocation of number REFUSE_AT, from 1, and those after it where REFUSE_ON is "on".
   It counts the allocations in the first 8 bytes of the file REFUSE_COUNT, where the count is still found when the program has ended. */
#define _GNU_SOURCE
#include <errno.h>
#include <fcntl.h>
#include <stdlib.h>
#include <string.h>
#include <sys/mman.h>
#include <unistd.h>

extern void *__libc_malloc(size_t), *__libc_calloc(size_t, size_t), *__libc_realloc(void *, size_t), *__libc_memalign(size_t, size_t);

static long *count, at;
static int on;

__attribute__((constructor)) static void start(void) {
  int file = open(getenv("REFUSE_COUNT"), O_RDWR);
  long *shared = mmap(NULL, sizeof *count, PROT_READ | PROT_WRITE, MAP_SHARED, file, 0);
  close(file);
  at = getenv("REFUSE_AT") ? atol(getenv("REFUSE_AT")) : 0;
  on = getenv("REFUSE_ON") && !strcmp(getenv("REFUSE_ON"), "on");
  if (shared == MAP_FAILED) abort();
  count = shared;
}

static int refused(void) {
  if (!count) return 0;
  long n = ++*count;
  if (!at || n < at || (!on && n > at)) return 0;
  errno = ENOMEM;
  return 1;
}

void *malloc(size_t size) { return refused() ? NULL : __libc_malloc(size); }
void *calloc(size_t n, size_t size) { return refused() ? NULL : __libc_calloc(n, size); }
void *realloc(void *old, size_t size) { return refused() ? NULL : __libc_realloc(old, size); }
void *memalign(size_t align, size_t size) { return refused() ? NULL : __libc_memalign(align, size); }
void *aligned_alloc(size_t align, size_t size) { return memalign(align, size); }
int posix_memalign(void **out, size_t align, size_t size) { return (*out = memalign(align, size)) ? 0 : ENOMEM; }

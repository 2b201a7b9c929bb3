/* Stands before the allocator of the C library, by LD_PRELOAD, and refuses requests for memory by their number, counted from 1: the one in REFUSE_AT, or
   all from it on where REFUSE_ON is set. It keeps how many requests there were and how many it refused in the file that REFUSE_COUNTS names. */
#define _GNU_SOURCE
#include <errno.h>
#include <fcntl.h>
#include <stdint.h>
#include <stdlib.h>
#include <sys/mman.h>
#include <unistd.h>

extern void *__libc_malloc(size_t size);
extern void *__libc_calloc(size_t count, size_t size);
extern void *__libc_realloc(void *block, size_t size);
extern void *__libc_memalign(size_t align, size_t size);

static struct { uint64_t requests, refused; } unwatched, *counts = &unwatched;
static uint64_t at;
static int on;

__attribute__((constructor)) static void begin(void) {
  const char *name = getenv("REFUSE_COUNTS"), *number = getenv("REFUSE_AT");
  int file = name == NULL ? -1 : open(name, O_RDWR | O_CLOEXEC);
  void *shared = file < 0 ? MAP_FAILED : mmap(NULL, sizeof unwatched, PROT_READ | PROT_WRITE, MAP_SHARED, file, 0);
  if (file >= 0) close(file);
  if (shared == MAP_FAILED || number == NULL) _exit(120);
  counts = shared;
  at = strtoull(number, NULL, 10);
  on = getenv("REFUSE_ON") != NULL;
}

static int refuses(void) {
  uint64_t number = ++counts->requests;
  if (at == 0 || counts == (void *)&unwatched || !(number == at || (on && number > at))) return 0;
  counts->refused++;
  errno = ENOMEM;
  return 1;
}

void *malloc(size_t size) { return refuses() ? NULL : __libc_malloc(size); }

void *calloc(size_t count, size_t size) { return refuses() ? NULL : __libc_calloc(count, size); }

void *realloc(void *block, size_t size) { return refuses() ? NULL : __libc_realloc(block, size); }

void *memalign(size_t align, size_t size) { return refuses() ? NULL : __libc_memalign(align, size); }

void *aligned_alloc(size_t align, size_t size) { return memalign(align, size); }

int posix_memalign(void **block, size_t align, size_t size) {
  void *taken = memalign(align, size);
  if (taken == NULL) return ENOMEM;
  *block = taken;
  return 0;
}

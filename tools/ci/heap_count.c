/* Counts the blocks that a program takes of the heap and gives back. Preloaded (LD_PRELOAD), it writes at the end one line into the file that HEAP_REPORT
 * names: how many were taken, how many of them were not given back, the largest one's size in bytes, the most bytes that all blocks held together had at any
 * time, and how often a block, or a larger one, was asked for. Where HEAP_MOST is set, a block of more bytes is refused; where HEAP_PEAK is set, a block with
 * which all would have more bytes; where HEAP_REFUSED is set, what is asked for at that time, counted from 1. A program that it is linked into may ask
 * what all blocks have now (heap_held), as bench/memory.c does. */
#include <errno.h>
#include <fcntl.h>
#include <malloc.h>
#include <stdint.h>
#include <stdio.h>
#include <stdlib.h>
#include <unistd.h>

void *__libc_malloc(size_t size);
void *__libc_calloc(size_t count, size_t size);
void *__libc_realloc(void *block, size_t size);
void *__libc_memalign(size_t alignment, size_t size);
void __libc_free(void *block);
unsigned long heap_held(void);

static unsigned long taken, given, largest, held, peak, asked, most = SIZE_MAX, peak_limit = SIZE_MAX, refused_at = SIZE_MAX;

unsigned long heap_held(void) { return held; }

static unsigned long limit_of(const char *name) {
  const char *limit = getenv(name);
  return limit ? strtoul(limit, NULL, 10) : SIZE_MAX;
}

__attribute__((constructor)) static void begin(void) {
  most = limit_of("HEAP_MOST");
  peak_limit = limit_of("HEAP_PEAK");
  refused_at = limit_of("HEAP_REFUSED");
}

/* Whether a block of this size is refused, with which all hold `more` bytes more than now. */
static int refused_growth(size_t size, size_t more) {
  asked++;
  if (asked != refused_at && size <= most && more <= peak_limit && held <= peak_limit - more) return 0;
  errno = ENOMEM;
  return 1;
}

static int refused(size_t size) { return refused_growth(size, size); }

static void *counted(void *block, size_t size) {
  if (!block) return NULL;
  taken++;
  held += malloc_usable_size(block);
  if (size > largest) largest = size;
  if (held > peak) peak = held;
  return block;
}

void *malloc(size_t size) { return refused(size) ? NULL : counted(__libc_malloc(size), size); }

void *calloc(size_t count, size_t size) {
  if (size != 0 && count > SIZE_MAX / size) return __libc_calloc(count, size);
  return refused(count * size) ? NULL : counted(__libc_calloc(count, size), count * size);
}

void *realloc(void *block, size_t size) {
  if (!block) return malloc(size);
  size_t old = malloc_usable_size(block);
  if (refused_growth(size, size > old ? size - old : 0)) return NULL;
  void *moved = __libc_realloc(block, size);
  if (!moved) return NULL;
  given++;
  held -= old;
  return counted(moved, size);
}

void *memalign(size_t alignment, size_t size) { return refused(size) ? NULL : counted(__libc_memalign(alignment, size), size); }

void *aligned_alloc(size_t alignment, size_t size) { return memalign(alignment, size); }

int posix_memalign(void **block, size_t alignment, size_t size) {
  void *made = memalign(alignment, size);
  if (!made) return ENOMEM;
  *block = made;
  return 0;
}

void free(void *block) {
  if (block) {
    given++;
    held -= malloc_usable_size(block);
  }
  __libc_free(block);
}

__attribute__((destructor)) static void end(void) {
  const char *place = getenv("HEAP_REPORT");
  char line[160];
  if (!place) return;
  int file = open(place, O_WRONLY | O_CREAT | O_TRUNC, 0644);
  int length = snprintf(line, sizeof line, "taken %lu kept %lu largest %lu peak %lu asked %lu\n", taken, taken - given, largest, peak, asked);
  if (file >= 0 && write(file, line, (size_t)length) == length) close(file);
}

/* The heap of a program that refuses growths: it counts the blocks that are in use, and gives none where `is_refused` says so, which the program
 * defines. The program is linked with --wrap=malloc,--wrap=calloc,--wrap=realloc,--wrap=free. */
#ifndef COUNTED_HEAP_H
#define COUNTED_HEAP_H

#include <stdbool.h>
#include <stddef.h>

static bool is_refused(void);

static long blocks;

void *__real_malloc(size_t size);
void *__real_calloc(size_t count, size_t size);
void *__real_realloc(void *block, size_t size);
void __real_free(void *block);
void *__wrap_malloc(size_t size);
void *__wrap_calloc(size_t count, size_t size);
void *__wrap_realloc(void *block, size_t size);
void __wrap_free(void *block);

void *__wrap_malloc(size_t size) {
  void *block = is_refused() ? NULL : __real_malloc(size);
  if (block != NULL) blocks++;
  return block;
}

/* A compiler may make one call of a malloc and the memset behind it. */
void *__wrap_calloc(size_t count, size_t size) {
  void *block = is_refused() ? NULL : __real_calloc(count, size);
  if (block != NULL) blocks++;
  return block;
}

void *__wrap_realloc(void *block, size_t size) {
  void *grown = is_refused() ? NULL : __real_realloc(block, size);
  if (grown != NULL && block == NULL) blocks++;
  return grown;
}

void __wrap_free(void *block) {
  if (block != NULL) blocks--;
  __real_free(block);
}

#endif

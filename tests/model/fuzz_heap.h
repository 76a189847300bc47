/* The heap that fuzz.c gives the library (fuzz_malloc, fuzz_realloc, fuzz_free), which can refuse a growth, and memory that ends at a page that nobody may
 * touch. Included by one file of a program, behind its `must` and `counts`. */
#ifndef FUZZ_HEAP_H
#define FUZZ_HEAP_H

#if defined(__has_feature)
#if __has_feature(address_sanitizer)
#define HAS_ASAN 1
#endif
#elif defined(__SANITIZE_ADDRESS__)
#define HAS_ASAN 1
#endif
#ifdef HAS_ASAN
#include <sanitizer/asan_interface.h>
#else
#define ASAN_POISON_MEMORY_REGION(at, size)   ((void)(at), (void)(size))
#define ASAN_UNPOISON_MEMORY_REGION(at, size) ((void)(at), (void)(size))
#endif

/* The heap of the library. Each block has a wall before and behind it; a block that grows always moves; fresh and freed bytes are junk. */

typedef struct wall {
  uint64_t size, bricks;
} wall;

static const uint64_t BRICKS = 0xA5A5C3C35A5A3C3C;
static size_t blocks, block_bytes;
static long refuse_in; /* the growth that is refused, from 1; 0: none */
static bool refuse_all_then, was_refused;

static bool is_refused(void) {
  counts.requests++;
  if (refuse_in == 0) return false;
  if (refuse_in > 1) {
    refuse_in--;
    return false;
  }
  if (!refuse_all_then) refuse_in = 0;
  was_refused = true;
  counts.refused++;
  return true;
}

static void *take(size_t size) {
  uint8_t *block = malloc(size + 2 * sizeof(wall));
  if (block == NULL) return NULL;
  wall front = {size, BRICKS}, back = {~(uint64_t)size, BRICKS};
  memcpy(block, &front, sizeof front);
  memset(block + sizeof front, 0xB6, size);
  memcpy(block + sizeof front + size, &back, sizeof back);
  ASAN_POISON_MEMORY_REGION(block, sizeof front);
  ASAN_POISON_MEMORY_REGION(block + sizeof front + size, sizeof back);
  blocks++;
  block_bytes += size;
  return block + sizeof front;
}

static size_t look_at_walls(uint8_t *bytes) {
  wall front, back;
  ASAN_UNPOISON_MEMORY_REGION(bytes - sizeof front, sizeof front);
  memcpy(&front, bytes - sizeof front, sizeof front);
  must(front.bricks == BRICKS, "the wall before a block stands");
  ASAN_UNPOISON_MEMORY_REGION(bytes + front.size, sizeof back);
  memcpy(&back, bytes + front.size, sizeof back);
  must(back.bricks == BRICKS && back.size == ~front.size, "the wall behind a block stands");
  return (size_t)front.size;
}

void *fuzz_malloc(size_t size);
void *fuzz_realloc(void *bytes, size_t size);
void fuzz_free(void *bytes);

void *fuzz_malloc(size_t size) { return is_refused() ? NULL : take(size); }

void fuzz_free(void *bytes) {
  if (bytes == NULL) return;
  size_t size = look_at_walls(bytes);
  memset((uint8_t *)bytes - sizeof(wall), 0xDD, size + 2 * sizeof(wall));
  blocks--;
  block_bytes -= size;
  free((uint8_t *)bytes - sizeof(wall));
}

void *fuzz_realloc(void *bytes, size_t size) {
  if (is_refused()) return NULL;
  if (bytes == NULL) return take(size);
  uint8_t *moved = take(size);
  if (moved == NULL) return NULL;
  wall front;
  ASAN_UNPOISON_MEMORY_REGION((uint8_t *)bytes - sizeof front, sizeof front);
  memcpy(&front, (uint8_t *)bytes - sizeof front, sizeof front);
  memcpy(moved, bytes, front.size < size ? (size_t)front.size : size);
  fuzz_free(bytes);
  return moved;
}

/* Memory between two pages that nobody may touch: for a text that is sent, a buffer that is filled, and a struct that says where that is. */

enum { PAGE = 4096, ROOM = 4 * PAGE };

static uint8_t *rooms[3];

static uint8_t *guarded(int which) {
  if (rooms[which] == NULL) {
    uint8_t *all = mmap(NULL, ROOM + 2 * PAGE, PROT_NONE, MAP_PRIVATE | MAP_ANONYMOUS, -1, 0);
    must(all != MAP_FAILED && mprotect(all + PAGE, ROOM, PROT_READ | PROT_WRITE) == 0, "there is guarded memory");
    rooms[which] = all + PAGE;
  }
  return rooms[which];
}

/* A place for `size` bytes that end, or begin, at such a page. */
static uint8_t *place_for(int which, size_t size, bool at_end) {
  must(size <= ROOM, "a text fits the guarded memory");
  return guarded(which) + (at_end ? ROOM - size : 0);
}

#if !defined(HAS_ASAN) && !defined(LIBFUZZER)
/* Whether an address is in one of the pages around guarded memory. */
static bool is_at_guard(const void *address) {
  for (int i = 0; i < 3; i++) {
    uintptr_t at = (uintptr_t)address, room = (uintptr_t)rooms[i];
    if (rooms[i] != NULL && at - (room - PAGE) < ROOM + 2 * PAGE && at - room >= ROOM) return true;
  }
  return false;
}

/* Where no sanitizer tells of a touched page, this does, and of a crash at any other address. */
static void on_fault(int signal_number, siginfo_t *info, void *context) {
  (void)context;
  signal(signal_number, SIG_DFL);
  fail(is_at_guard(info->si_addr) ? "memory that nobody may touch" : "a crash");
}

static void catch_faults(int signal_number) {
  struct sigaction caught;
  memset(&caught, 0, sizeof caught);
  caught.sa_sigaction = on_fault;
  caught.sa_flags = SA_SIGINFO;
  sigaction(signal_number, &caught, NULL);
}
#endif

#endif

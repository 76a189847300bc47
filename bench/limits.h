/* What the machine takes for the memory that some jobs touch, which bounds every library from below. A part of messages.c. */
#ifndef LIMITS_H
#define LIMITS_H

enum { ALL = 16 * MEBIBYTE, FAR_EDITS = 200, LOADS = 1000000 };

/* A limit: it answers how many of its unit were done. */
typedef struct limit {
  const char *name, *unit;
  long (*run)(void);
} limit;

static long copy_bytes(void) {
  memcpy(buffer, text, ALL);
  return ALL;
}

static long compare_bytes(void) {
  must(memcmp(buffer, text, ALL) == 0, "a copy differs");
  return ALL;
}

static long find_no_byte(void) {
  must(memchr(text, '~', ALL) == NULL, "found what is not there");
  return ALL;
}

/* A copy, and a look for each line end, as for a text that is opened. */
static long copy_and_count_lines(void) {
  long count = 0;
  copy_bytes();
  for (const char *at = text; (at = memchr(at, '\n', (size_t)(text + ALL - at))) != NULL; at++) count++;
  must(count == ALL / LINE, "a line is missing");
  return ALL;
}

static long set_bytes(void) {
  memset(buffer, 'x', ALL);
  return ALL;
}

/* Moves a gap of 64 bytes to a place, with what lies between. */
static size_t move_gap(size_t gap, size_t place) {
  if (place > gap) memmove(buffer + gap, buffer + gap + 64, place - gap);
  else memmove(buffer + place + 64, buffer + place, gap - place);
  return place;
}

static long move_gap_anywhere(void) {
  size_t gap = 0;
  for (long i = 0; i < FAR_EDITS; i++) gap = move_gap(gap, (size_t)below(ALL));
  return FAR_EDITS;
}

static long move_gap_to_ends(void) {
  size_t gap = 0;
  for (long i = 0; i < FAR_EDITS; i++) gap = move_gap(gap, i % 2 == 0 ? ALL : 0);
  return FAR_EDITS;
}

/* Each load says where the next one is. */
static long load_far(void) {
  const uint32_t *nexts = (const uint32_t *)(const void *)buffer;
  uint32_t at = 0;
  for (long i = 0; i < LOADS; i++) at = nexts[at];
  notified += at;
  return LOADS;
}

/* One cycle through all, in no order. */
static void make_cycle(void) {
  uint32_t *nexts = (uint32_t *)(void *)buffer, count = ALL / sizeof *nexts;
  for (uint32_t i = 0; i < count; i++) nexts[i] = i;
  for (uint32_t i = count - 1; i > 0; i--) {
    uint32_t other = (uint32_t)below(i), kept = nexts[i];
    nexts[i] = nexts[other];
    nexts[other] = kept;
  }
}

static const limit limits[] = {{"memcpy", "byte", copy_bytes},
                               {"memcmp of equal bytes", "byte", compare_bytes},
                               {"memchr of a byte that is not there", "byte", find_no_byte},
                               {"opened: memcpy, and memchr of each line end", "byte", copy_and_count_lines},
                               {"memset", "byte", set_bytes},
                               {"edits anywhere: memmove of what is between", "edit", move_gap_anywhere},
                               {"edits at both ends in turn: memmove", "edit", move_gap_to_ends}};

static const limit load_limit = {"a load that misses the caches", "load", load_far};

#endif

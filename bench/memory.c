/* What the heap holds of documents, histories and views, in this library and in Scintilla: bytes for each byte, line, marker and so on. `main` says how it
 * is called. Each figure is made in a process of its own, so that it counts no spare capacity that another left. tools/ci/heap_count.c counts the heap of the
 * process, by what its blocks can hold. */
#define _POSIX_C_SOURCE 200809L
#include <hongpilas_scintilla.h>

#include <dlfcn.h>
#include <stdio.h>
#include <stdlib.h>
#include <string.h>
#include <sys/wait.h>
#include <unistd.h>

enum { LINE = 40, MEBIBYTE = 1 << 20, SIZE = 16 * MEBIBYTE, LINES = SIZE / LINE, EACH = 100000, VIEWS = 100, MATCHES = 400000 };

#include "sides.h"

#include "work.h"

unsigned long heap_held(void); /* of heap_count.c */

static input one_line = {SIZE, make_one_line, NULL}, lines = {SIZE, make_lines, NULL}, source = {SIZE, make_source, NULL}, empty = {0, make_one_line, NULL},
             one_word = {6, make_one_line, NULL};

/* ---- What is counted ---- */

static unsigned long held_before;

static void begin_to_count(void) { held_before = heap_held(); }

/* What the heap holds more than when it began to be counted, for each of so many units. */
static double held_for_each(double units) { return ((double)heap_held() - (double)held_before) / units; }

/* ---- Text ---- */

static double loaded_at_once(const side *s) {
  renew(s, &one_line);
  begin_to_count();
  open_at_once(s, &one_line);
  return held_for_each(SIZE);
}

static double loaded_in_pieces(const side *s) {
  renew(s, &one_line);
  begin_to_count();
  open_in_pieces(s, &one_line);
  return held_for_each(SIZE);
}

static double styled(const side *s) {
  renew(s, &one_line);
  begin_to_count();
  open_at_once(s, &one_line);
  ask(s, SCI_STARTSTYLING, 0);
  for (long i = 0; i < LINES; i++) s->send(SCI_SETSTYLING, LINE, 1 + i % 5, NULL, 0);
  return held_for_each(SIZE);
}

/* ---- Lines ---- */

/* What the same bytes hold more where they have line ends. */
static double line_starts(const side *s) {
  double without = loaded_at_once(s) * SIZE;
  renew(s, &lines);
  begin_to_count();
  open_at_once(s, &lines);
  return (held_for_each(1) - without) / LINES;
}

/* What lines hold more once a message was sent about each line from `first` on. */
static double of_each_line(const side *s, uint32_t number, int64_t first, int64_t value) {
  load_at_once(s, &lines);
  begin_to_count();
  for (int64_t line = first; line < LINES; line++) s->send(number, line, value, NULL, 0);
  return held_for_each(LINES);
}

static double levels(const side *s) { return of_each_line(s, SCI_SETFOLDLEVEL, 0, SC_FOLDLEVELBASE + 1); }
static double last_level(const side *s) { return of_each_line(s, SCI_SETFOLDLEVEL, LINES - 1, SC_FOLDLEVELBASE + 1); }
static double states(const side *s) { return of_each_line(s, SCI_SETLINESTATE, 0, 1); }
static double last_state(const side *s) { return of_each_line(s, SCI_SETLINESTATE, LINES - 1, 1); }

/* One on each tenth line. */
static double markers(const side *s) {
  load_at_once(s, &lines);
  begin_to_count();
  for (int64_t line = 0; line < LINES; line += 10) s->send(SCI_MARKERADD, line, 1, NULL, 0);
  return held_for_each(LINES / 10);
}

static double contracted(const side *s) {
  load_highlighted(s, &source);
  double count = (double)ask(s, SCI_GETLINECOUNT, 0);
  begin_to_count();
  fold(s, SC_FOLDACTION_CONTRACT);
  return held_for_each(count);
}

/* ---- Indicators ---- */

static double ranges(const side *s) {
  load_at_once(s, &lines);
  ask(s, SCI_SETINDICATORCURRENT, 8);
  begin_to_count();
  for (int64_t i = 0; i < EACH; i++) s->send(SCI_INDICATORFILLRANGE, i * (SIZE / EACH), 9, NULL, 0);
  return held_for_each(EACH);
}

/* ---- Histories ---- */

static void type_in_a_row(const side *s) {
  for (long i = 0; i < EACH; i++) s->send(SCI_ADDTEXT, 1, 0, "x", 1);
}

/* None begins where the one before ended. */
static void insert_apart(const side *s) {
  for (int64_t i = 0; i < EACH; i++) s->send(SCI_INSERTTEXT, i * (SIZE / EACH), 0, "x", 1);
}

/* What edits hold more where they are collected for undo. */
static double history_of(const side *s, void (*edit)(const side *s)) {
  double held[2];
  for (int64_t is_collecting = 0; is_collecting < 2; is_collecting++) {
    load_at_once(s, &lines);
    ask(s, SCI_SETUNDOCOLLECTION, is_collecting);
    begin_to_count();
    edit(s);
    held[is_collecting] = held_for_each(EACH);
  }
  return held[1] - held[0];
}

static double typed_bytes(const side *s) { return history_of(s, type_in_a_row); }
static double insertions(const side *s) { return history_of(s, insert_apart); }

/* ---- Views ---- */

static double views_of(const side *s, input *of) {
  load_at_once(s, of);
  begin_to_count();
  s->attach(VIEWS, SC_MODEVENTMASKALL);
  return held_for_each(VIEWS);
}

static double views_of_empty(const side *s) { return views_of(s, &empty); }
static double views_of_large(const side *s) { return views_of(s, &source); }

/* ---- All is replaced ---- */

static double highlighted(const side *s) {
  renew(s, &source);
  begin_to_count();
  load_highlighted(s, &source);
  return held_for_each(SIZE);
}

static double replaced(const side *s) {
  static const replacement longer = {"e", "ee", SCFIND_MATCHCASE, MATCHES};
  highlighted(s);
  must(replace_each(s, &longer) == MATCHES, "matches are missing");
  return held_for_each(SIZE);
}

static double undone(const side *s) {
  replaced(s);
  ask(s, SCI_UNDO, 0);
  must(ask(s, SCI_GETLENGTH, 0) == SIZE, "not all was undone");
  return held_for_each(SIZE);
}

static double forgotten(const side *s) {
  undone(s);
  ask(s, SCI_EMPTYUNDOBUFFER, 0);
  return held_for_each(SIZE);
}

/* ---- The table ---- */

/* A figure: what the bytes are for. The page puts those into one row that say the same before their colon. */
typedef struct row {
  const char *name;
  double (*held)(const side *s);
} row;

static const row rows[] = {
    {"byte: loaded", loaded_at_once},
    {"byte: loaded in pieces", loaded_in_pieces},
    {"byte: styled", styled},
    {"line: start", line_starts},
    {"line: level", levels},
    {"line: state", states},
    {"line: folded", contracted},
    {"line, only the last set: level", last_level},
    {"line, only the last set: state", last_state},
    {"marker", markers},
    {"range of an indicator", ranges},
    {"undo: typed byte", typed_bytes},
    {"undo: insertion apart", insertions},
    {"view: empty document", views_of_empty},
    {"view: 16 MiB", views_of_large},
    {"highlighted byte: loaded", highlighted},
    {"highlighted byte: 400,000 replaced", replaced},
    {"highlighted byte: undone", undone},
    {"highlighted byte: EMPTYUNDOBUFFER", forgotten},
};

/* Uses a view for the first time, so that what it then makes once and keeps, such as fonts, is not counted. Scintilla's toolkit does what it has put off. */
static void use_once(const side *s, bool is_theirs) {
  load_at_once(s, &one_word);
  ask(s, SCI_GOTOPOS, 3);
  ask(s, SCI_CHARRIGHT, 0);
  s->attach(1, SC_MODEVENTMASKALL);
  renew(s, &one_word);
  if (!is_theirs) return;
  int (*iterate)(void *context, int may_block);
  *(void **)&iterate = dlsym(dlopen("libglib-2.0.so.0", RTLD_NOW), "g_main_context_iteration");
  while (iterate(NULL, 0)) continue;
}

/* What a row says of a side, found in a process of its own. */
static double found_alone(const row *r, int which, const char *library) {
  int ends[2], status = 0;
  double found = 0;
  must(pipe(ends) == 0, "no pipe");
  fflush(stdout);
  pid_t child = fork();
  must(child >= 0, "no process");
  if (child == 0) {
    if (which == OURS) open_ours();
    else must(open_theirs(library), "Scintilla's library could not be used");
    use_once(&sides[which], which == THEIRS);
    found = r->held(&sides[which]);
    must(write(ends[1], &found, sizeof found) == sizeof found, "a figure was lost");
    _exit(0);
  }
  close(ends[1]);
  bool is_read = read(ends[0], &found, sizeof found) == sizeof found;
  close(ends[0]);
  must(waitpid(child, &status, 0) == child && status == 0 && is_read, r->name);
  return found;
}

/* memory [LIBSCINTILLA]: the table, beside Scintilla where its library is named. */
int main(int count, char **words) {
  const char *library = count > 1 && words[1][0] != '\0' ? words[1] : NULL;
  buffer = calloc(SIZE, 1);
  must(buffer != NULL, "out of memory");
  bytes_of(&one_line), bytes_of(&lines), bytes_of(&source), bytes_of(&empty), bytes_of(&one_word);
  printf("| %-34s |       ours | Scintilla |\n|---|---|---|\n", "Bytes held for each");
  for (size_t i = 0; i < sizeof rows / sizeof *rows; i++) {
    printf("| %-34s | %10.2f |", rows[i].name, found_alone(&rows[i], OURS, NULL));
    if (library != NULL) printf(" %9.2f |", found_alone(&rows[i], THEIRS, library));
    putchar('\n');
  }
  return 0;
}

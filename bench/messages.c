/* The same work through this library, the Scintilla-compatible interface over it and, where its shared library is named, Scintilla's message call.
 * Each row's runs alternate; the tables have the least and the median of processor times, in nanoseconds for each operation. `main` says how it is called. */
#define _POSIX_C_SOURCE 200809L
#include <hongpilas_scintilla.h>

#include <dlfcn.h>
#include <math.h>
#include <stdio.h>
#include <stdlib.h>
#include <string.h>
#include <time.h>

/* `instructions` wants one run of each row at the lower size. */
#ifndef BENCH_RUNS
#define BENCH_RUNS  5
#define BENCH_SIZES 2
#endif

enum { RUNS = BENCH_RUNS, SIZES = BENCH_SIZES, LINE = 40, MEBIBYTE = 1 << 20 };

#include "sides.h"

#include "texts.h"

static char *text;  /* lines of 40 bytes, with their ends */
static size_t room; /* how many bytes of it there are */
static size_t size; /* how many of them the document has at first */

/* ---- The work ---- */

static uint64_t seed;

static int64_t below(int64_t bound) {
  seed ^= seed << 13;
  seed ^= seed >> 7;
  seed ^= seed << 17;
  return (int64_t)(seed % (uint64_t)bound);
}

static void load(const side *s, long count) {
  (void)count;
  s->send(SCI_SETDOCPOINTER, 0, 0, NULL, 0);
  s->send(SCI_SETMODEVENTMASK, 0, 0, NULL, 0);
  char kept = text[size];
  text[size] = '\0';
  if (size > 0) s->send(SCI_INSERTTEXT, 0, 0, text, size);
  text[size] = kept;
  s->send(SCI_GOTOPOS, (int64_t)size / 2, 0, NULL, 0);
}

static void load_empty(const side *s, long count) {
  (void)count;
  s->send(SCI_SETDOCPOINTER, 0, 0, NULL, 0);
  s->send(SCI_SETMODEVENTMASK, 0, 0, NULL, 0);
}

static void type(const side *s, long count) {
  for (long i = 0; i < count; i++) s->send(SCI_ADDTEXT, 1, 0, i % LINE == LINE - 1 ? "\n" : "x", 1);
}

static void insert(const side *s, long count) {
  for (long i = 0; i < count; i++) s->send(SCI_INSERTTEXT, below((int64_t)size), 0, "inserted", 8);
}

static void delete (const side *s, long count) {
  for (long i = 0; i < count; i++) s->send(SCI_DELETERANGE, below((int64_t)size - 8 * count), 8, NULL, 0);
}

static void append(const side *s, long count) {
  for (long i = 0; i < count; i++) s->send(SCI_APPENDTEXT, LINE, 0, line_text, LINE);
}

static void at_top(const side *s, long count) {
  for (long i = 0; i < count; i++) s->send(SCI_INSERTTEXT, 0, 0, line_text, LINE);
}

static void line_from_position(const side *s, long count) {
  for (long i = 0; i < count; i++) s->send(SCI_LINEFROMPOSITION, below((int64_t)size), 0, NULL, 0);
}

static void position_from_line(const side *s, long count) {
  for (long i = 0; i < count; i++) s->send(SCI_POSITIONFROMLINE, below((int64_t)size / LINE), 0, NULL, 0);
}

static void char_at(const side *s, long count) {
  for (long i = 0; i < count; i++) s->send(SCI_GETCHARAT, below((int64_t)size), 0, NULL, 0);
}

static void length(const side *s, long count) {
  for (long i = 0; i < count; i++) s->send(SCI_GETLENGTH, 0, 0, NULL, 0);
}

static void range_of_line(const side *s, long count) {
  for (long i = 0; i < count; i++) {
    int64_t start = below((int64_t)size / LINE) * LINE;
    s->text_range(start, start + LINE);
  }
}

static void lent_line(const side *s, long count) {
  for (long i = 0; i < count; i++) {
    int64_t start = below((int64_t)size / LINE) * LINE;
    s->lent_range(start, start + LINE);
  }
}

static void insert_all(const side *s, long count) {
  (void)count;
  char kept = text[size];
  text[size] = '\0';
  s->send(SCI_INSERTTEXT, 0, 0, text, size);
  text[size] = kept;
}

static void set_text(const side *s, long count) {
  (void)count;
  char kept = text[size];
  text[size] = '\0';
  s->send(SCI_SETTEXT, 0, 0, text, size);
  text[size] = kept;
}

static void get_text(const side *s, long count) {
  for (long i = 0; i < count; i++) s->whole_text();
}

/* Lines typed at places of their own, so that each is a transaction. */
static void load_typed(const side *s, long count) {
  load(s, count);
  for (long i = 0; i < count / LINE; i++) {
    s->send(SCI_GOTOPOS, (i % 2 + 1) * (int64_t)(size / 4), 0, NULL, 0);
    type(s, LINE);
  }
}

static void undo(const side *s, long count) {
  (void)count;
  while (s->send(SCI_CANUNDO, 0, 0, NULL, 0) && s->send(SCI_GETLENGTH, 0, 0, NULL, 0) > (int64_t)size) s->send(SCI_UNDO, 0, 0, NULL, 0);
}

/* Container actions that join the typing before them, and typing that goes on behind them. */
static void add_container_actions(const side *s, long count) {
  s->send(SCI_ADDTEXT, 1, 0, "x", 1);
  for (long i = 0; i < count; i++) s->send(SCI_ADDUNDOACTION, i, UNDO_MAY_COALESCE, NULL, 0);
  s->send(SCI_ADDTEXT, 1, 0, "x", 1);
}

static void add_markers(const side *s, long count) {
  for (long i = 0; i < count; i++) s->send(SCI_MARKERADD, below((int64_t)size / LINE), i % 8, NULL, 0);
}

static void load_marked(const side *s, long count) {
  load(s, count);
  add_markers(s, 1000);
}

static void get_markers(const side *s, long count) {
  for (long i = 0; i < count; i++) s->send(SCI_MARKERGET, below((int64_t)size / LINE), 0, NULL, 0);
}

static void next_marker(const side *s, long count) {
  for (long i = 0; i < count; i++) s->send(SCI_MARKERNEXT, below((int64_t)size / LINE), 1 << 3, NULL, 0);
}

static void style(const side *s, long count) {
  s->send(SCI_STARTSTYLING, 0, 0, NULL, 0);
  for (long i = 0; i < count; i++) s->send(SCI_SETSTYLING, 5, i % 20, NULL, 0);
}

static void style_lines(const side *s, long count) {
  s->send(SCI_STARTSTYLING, 0, 0, NULL, 0);
  for (long i = 0; i < count; i++) s->send(SCI_SETSTYLINGEX, LINE, 0, line_text, LINE);
}

static void load_styled(const side *s, long count) {
  load(s, count);
  style_lines(s, (long)size / LINE);
}

static void style_at(const side *s, long count) {
  for (long i = 0; i < count; i++) s->send(SCI_GETSTYLEAT, below((int64_t)size), 0, NULL, 0);
}

static void fill_indicators(const side *s, long count) {
  s->send(SCI_SETINDICATORCURRENT, 8, 0, NULL, 0);
  s->send(SCI_SETINDICATORVALUE, 3, 0, NULL, 0);
  for (long i = 0; i < count; i++) s->send(SCI_INDICATORFILLRANGE, below((int64_t)size - 5), 5, NULL, 0);
}

static void load_indicated(const side *s, long count) {
  load(s, count);
  fill_indicators(s, 5000);
}

static void indicator_at(const side *s, long count) {
  for (long i = 0; i < count; i++) s->send(SCI_INDICATORVALUEAT, 8, below((int64_t)size), NULL, 0);
}

static void indicator_end(const side *s, long count) {
  for (long i = 0; i < count; i++) s->send(SCI_INDICATOREND, 8, below((int64_t)size), NULL, 0);
}

static void search_with(const side *s, long count, int64_t flags) {
  s->send(SCI_SETSEARCHFLAGS, flags, 0, NULL, 0);
  for (long i = 0; i < count; i++) {
    s->send(SCI_SETTARGETRANGE, 0, (int64_t)size, NULL, 0);
    must(s->send(SCI_SEARCHINTARGET, 8, 0, "Nowhere.", 8) == -1, "found what is not there");
  }
}

static void search(const side *s, long count) { search_with(s, count, SCFIND_MATCHCASE); }
static void search_folded(const side *s, long count) { search_with(s, count, 0); }

static void search_backwards(const side *s, long count) {
  s->send(SCI_SETSEARCHFLAGS, SCFIND_MATCHCASE, 0, NULL, 0);
  for (long i = 0; i < count; i++) {
    s->send(SCI_SETTARGETRANGE, (int64_t)size, 0, NULL, 0);
    must(s->send(SCI_SEARCHINTARGET, 8, 0, "Nowhere.", 8) == -1, "found what is not there");
  }
}

static void replace_target(const side *s, long count) {
  for (long i = 0; i < count; i++) {
    int64_t start = (int64_t)size / 2 + i * LINE;
    s->send(SCI_SETTARGETRANGE, start, start + 5, NULL, 0);
    s->send(SCI_REPLACETARGET, 7, 0, "another", 7);
  }
}

static void convert_ends(const side *s, long count) {
  (void)count;
  s->send(SCI_CONVERTEOLS, SC_EOL_CRLF, 0, NULL, 0);
}

static void set_levels(const side *s, long count) {
  for (long i = 0; i < count; i++) s->send(SCI_SETFOLDLEVEL, i, i % 8 == 0 ? SC_FOLDLEVELBASE | SC_FOLDLEVELHEADERFLAG : SC_FOLDLEVELBASE + 1, NULL, 0);
}

static void load_levels(const side *s, long count) {
  load(s, count);
  set_levels(s, (long)size / LINE);
}

static void contract(const side *s, long count) {
  for (long i = 0; i < count; i++) s->send(SCI_FOLDLINE, i * 8, SC_FOLDACTION_CONTRACT, NULL, 0);
}

static void load_contracted(const side *s, long count) {
  load_levels(s, count);
  contract(s, 1000);
}

static void expand(const side *s, long count) {
  for (long i = 0; i < count; i++) s->send(SCI_FOLDLINE, i * 8, SC_FOLDACTION_EXPAND, NULL, 0);
}

static void row_of_line(const side *s, long count) {
  for (long i = 0; i < count; i++) s->send(SCI_VISIBLEFROMDOCLINE, below((int64_t)size / LINE), 0, NULL, 0);
}

static void line_of_row(const side *s, long count) {
  for (long i = 0; i < count; i++) s->send(SCI_DOCLINEFROMVISIBLE, below((int64_t)size / LINE / 2), 0, NULL, 0);
}

static void fold_parent(const side *s, long count) {
  for (long i = 0; i < count; i++) s->send(SCI_GETFOLDPARENT, below((int64_t)size / LINE), 0, NULL, 0);
}

static void load_listening(const side *s, long count) {
  load(s, count);
  s->send(SCI_SETMODEVENTMASK, SC_MODEVENTMASKALL, 0, NULL, 0);
}

static void load_typed_listening(const side *s, long count) {
  load_typed(s, count);
  s->send(SCI_SETMODEVENTMASK, SC_MODEVENTMASKALL, 0, NULL, 0);
}

/* A row: how many operations at 1 and at 16 MiB, 0 for none. */
typedef struct row {
  const char *name;
  long counts[2];
  void (*prepare)(const side *s, long count);
  void (*run)(const side *s, long count);
} row;

static const row quiet_rows[] = {
    {"typing, a line end each 40", {50000, 50000}, load, type},
    {"typing from empty", {200000, 0}, load_empty, type},
    {"8 bytes in at random", {1000, 40}, load, insert},
    {"8 bytes out at random", {1000, 40}, load, delete},
    {"a line appended", {20000, 20000}, load, append},
    {"a line at the top", {10000, 3000}, load, at_top},
    {"LINEFROMPOSITION", {200000, 200000}, load, line_from_position},
    {"POSITIONFROMLINE", {200000, 200000}, load, position_from_line},
    {"GETCHARAT", {300000, 300000}, load, char_at},
    {"GETLENGTH", {300000, 0}, load, length},
    {"GETTEXTRANGE of a line", {200000, 200000}, load, range_of_line},
    {"a line lent (GETRANGEPOINTER)", {200000, 200000}, load, lent_line},
    {"INSERTTEXT of all", {1, 1}, load_empty, insert_all},
    {"SETTEXT", {1, 1}, load, set_text},
    {"GETTEXT", {20, 2}, load, get_text},
    {"undo of typing, a byte", {20000, 2000}, load_typed, undo},
    {"ADDUNDOACTION that coalesces", {20000, 0}, load, add_container_actions},
    {"REPLACETARGET, 5 by 7", {10000, 10000}, load, replace_target},
    {"MARKERADD", {5000, 5000}, load, add_markers},
    {"MARKERGET", {200000, 200000}, load_marked, get_markers},
    {"MARKERNEXT", {5000, 200}, load_marked, next_marker},
    {"SETSTYLING of 5 bytes", {100000, 100000}, load, style},
    {"SETSTYLINGEX of a line", {26000, 26000}, load, style_lines},
    {"GETSTYLEAT", {200000, 200000}, load_styled, style_at},
    {"INDICATORFILLRANGE", {5000, 5000}, load, fill_indicators},
    {"INDICATORVALUEAT", {200000, 200000}, load_indicated, indicator_at},
    {"INDICATOREND", {200000, 200000}, load_indicated, indicator_end},
    {"SEARCHINTARGET, all of it", {20, 2}, load, search},
    {"the same without case", {4, 1}, load, search_folded},
    {"the same backwards", {2, 1}, load, search_backwards},
    {"CONVERTEOLS", {1, 0}, load, convert_ends},
    {"SETFOLDLEVEL", {26000, 26000}, load, set_levels},
    {"FOLDLINE, contract", {1000, 500}, load_levels, contract},
    {"FOLDLINE, expand", {1000, 1000}, load_contracted, expand},
    {"VISIBLEFROMDOCLINE", {200000, 200000}, load_contracted, row_of_line},
    {"DOCLINEFROMVISIBLE", {200000, 200000}, load_contracted, line_of_row},
    {"GETFOLDPARENT", {5000, 200}, load_levels, fold_parent},
};

/* The frequent changes again, in a view that listens for all modifications and whose notifications are read. */
static const row notified_rows[] = {
    {"typing, notified", {50000, 50000}, load_listening, type},
    {"undo of typing, notified", {20000, 2000}, load_typed_listening, undo},
    {"MARKERADD, notified", {5000, 5000}, load_listening, add_markers},
    {"SETSTYLING of 5 bytes, notified", {100000, 100000}, load_listening, style},
    {"SETFOLDLEVEL, notified", {26000, 26000}, load_listening, set_levels},
};

#include "more.h"

#include "jobs.h"

#include "limits.h"

/* ---- The tables ---- */

static double now(void) {
  struct timespec time;
  clock_gettime(CLOCK_PROCESS_CPUTIME_ID, &time);
  return (double)time.tv_sec * 1e9 + (double)time.tv_nsec;
}

static int by_size(const void *a, const void *b) {
  double left = *(const double *)a, right = *(const double *)b;
  return left < right ? -1 : left > right;
}

/* What is wanted: the sides that are there, and a part of the name of rows, or `=` and a whole one. */
static const side *present[SIDES];
static int side_count;
static bool has_theirs;
static const char *wanted = "";

static bool is_wanted(const char *name) { return wanted[0] == '=' ? strcmp(name, wanted + 1) == 0 : strstr(name, wanted) != NULL; }

static double timed(const side *s, const row *r, long count) {
  seed = 88172645463325252u;
  r->prepare(s, count);
  double before = now();
  r->run(s, count);
  return (now() - before) / (double)count;
}

static double log_sum;
static int compared;

/* The cells of each side, and then the ratios to Scintilla's time, which is the last. */
static void print_times(double times[SIDES][RUNS], int runs) {
  for (int i = 0; i < side_count; i++) {
    qsort(times[i], (size_t)runs, sizeof times[i][0], by_size);
    int decimals = times[i][0] < 10 ? 2 : 1;
    printf(" %11.*f (%11.*f) |", decimals, times[i][0], decimals, times[i][runs / 2]);
  }
  for (int i = 0; has_theirs && i < side_count - 1; i++) printf(" %5.2f |", times[i][0] / times[side_count - 1][0]);
  if (has_theirs) {
    log_sum += log(times[0][0] / times[side_count - 1][0]);
    compared++;
  }
  putchar('\n');
  fflush(stdout);
}

static void print_row(const row *r, int mebibytes, long count) {
  double times[SIDES][RUNS];
  for (int run = 0; run < RUNS; run++)
    for (int k = 0; k < side_count; k++) {
      int i = (run + k) % side_count;
      times[i][run] = timed(present[i], r, count);
    }
  printf("| %-31s | %2d |", r->name, mebibytes);
  print_times(times, RUNS);
}

static void print_sizes(const row *r) {
  for (int large = 0; large < SIZES; large++) {
    size = (size_t)(large ? 16 : 1) * MEBIBYTE;
    if (r->counts[large] > 0 && is_wanted(r->name)) print_row(r, large ? 16 : 1, r->counts[large]);
  }
}

static void print_rows(const row *rows, size_t count) {
  for (size_t i = 0; i < count; i++) print_sizes(&rows[i]);
}

/* A part's name: what it does, and what its job says. */
static const char *name_of(const job *j, const part *p) {
  static char name[96];
  snprintf(name, sizeof name, "%s%s", p->name, j->about);
  return name;
}

/* How many parts of a job are to be done: those up to the last one that is wanted. */
static int count_of_parts(const job *j) {
  int count = 0;
  for (int i = 0; j->parts[i].name != NULL; i++)
    if (is_wanted(name_of(j, &j->parts[i]))) count = i + 1;
  must(count <= MOST_PARTS, j->parts[0].name);
  return count;
}

static double job_times[MOST_PARTS][SIDES][RUNS];
static long job_units[MOST_PARTS];

/* Does the first parts of a job once by each side. */
static void time_job(const job *j, int parts, int run) {
  for (int k = 0; k < side_count; k++) {
    int i = (run + k) % side_count;
    seed = 88172645463325252u;
    j->prepare(present[i], j->text);
    for (int at = 0; at < parts; at++) {
      double before = now();
      job_units[at] = j->parts[at].run(present[i], j->text);
      job_times[at][i][run] = (now() - before) / (double)job_units[at];
    }
  }
}

static void print_jobs(const job *list, size_t count) {
  for (size_t at = 0; at < count; at++) {
    const job *j = &list[at];
    int parts = count_of_parts(j);
    if (parts == 0) continue;
    bytes_of(j->text);
    for (int run = 0; run < JOB_RUNS; run++) time_job(j, parts, run);
    for (int i = 0; i < parts; i++) {
      const char *name = name_of(j, &j->parts[i]);
      if (!is_wanted(name)) continue;
      printf("| %-62s | %8ld %-7s |", name, job_units[i], j->parts[i].unit);
      print_times(job_times[i], JOB_RUNS);
    }
    if (at + 1 == count || list[at + 1].text != j->text) forget(j->text);
  }
}

static void print_limit(const limit *l) {
  double times[RUNS];
  long units = 0;
  if (!is_wanted(l->name)) return;
  for (int run = 0; run < JOB_RUNS; run++) {
    seed = 88172645463325252u;
    double before = now();
    units = l->run();
    times[run] = (now() - before) / (double)units;
  }
  qsort(times, JOB_RUNS, sizeof times[0], by_size);
  printf("| %-62s | %8ld %-7s | %11.2f (%11.2f) |\n", l->name, units, l->unit, times[0], times[JOB_RUNS / 2]);
}

static void print_limits(void) {
  puts("| Limits of the machine, ns a unit | how many | least (median) |\n|---|---|---|");
  copy_bytes(); /* which are compared */
  for (size_t i = 0; i < sizeof limits / sizeof *limits; i++) print_limit(&limits[i]);
  if (is_wanted(load_limit.name)) make_cycle();
  print_limit(&load_limit);
}

/* Whether each view listens, and what it hears is read. Scintilla's signal stays connected: a mask of 0 lets nothing through. */
static void listen(bool on) {
  static bool is_connected = false;
  for (int i = 0; i < side_count; i++)
    if (present[i] == &sides[OURS] || present[i] == &ours_notified) present[i] = on ? &ours_notified : &sides[OURS];
  listen_to_compatible(on);
  if (on && has_theirs && !is_connected) listen_to_theirs();
  is_connected = is_connected || on;
}

/* The head of a table, whose first two columns are named. */
static void print_head(const char *columns) {
  printf("| %s |", columns);
  for (int i = 0; i < side_count; i++) printf(" %s: least (median)%*s |", present[i]->name, (int)(9 - strlen(present[i]->name)), "");
  for (int i = 0; has_theirs && i < side_count - 1; i++) printf(side_count == 2 ? " ratio |" : " %s/S |", present[i]->name);
  printf("\n|---|---|");
  for (int i = 0; i < side_count + (has_theirs ? side_count - 1 : 0); i++) printf("---|");
  putchar('\n');
}

/* The rows of the page, whose mean is that of the rows without notifications. With `all`, those that the page has not, too. */
static void print_messages(bool all) {
  print_head("Work, ns an operation           | MiB");
  print_rows(quiet_rows, sizeof quiet_rows / sizeof *quiet_rows);
  double quiet_sum = log_sum;
  int quiet_count = compared;
  for (size_t i = 0; all && i < sizeof more_rows / sizeof *more_rows; i++) {
    asked = more_rows[i].number;
    print_sizes(&more_rows[i].row);
  }
  listen(true);
  print_rows(notified_rows, sizeof notified_rows / sizeof *notified_rows);
  listen(false);
  if (quiet_count > 0) printf("Geometric mean of %d ratios without notifications: %.2f\n", quiet_count, exp(quiet_sum / quiet_count));
}

static void print_both_jobs(void) {
  print_head("Jobs, ns a unit | how many");
  print_jobs(jobs, sizeof jobs / sizeof *jobs);
  listen(true);
  print_jobs(notified_jobs, sizeof notified_jobs / sizeof *notified_jobs);
  print_limits();
}

static void make_text(void) {
  size_t most = log_50.size + 1; /* the longest text that comes back */
  room = 16 * MEBIBYTE + 1;
  text = malloc(room);
  buffer = malloc(most);
  must(text != NULL && buffer != NULL, "out of memory");
  make_lines(text, room);
  memset(buffer, 0, most); /* its memory is there before it is timed */
}

static bool is_option(const char *word, const char *option) { return word != NULL && strcmp(word, option) == 0; }

/* bench [--all | --jobs | --ours | --compatible] [LIBSCINTILLA [WORK]]: the page's table; with the Scintilla-compatible interface all rows and the jobs, or the
 * jobs alone; or all of them by one side alone. An empty name is no library, and WORK is a part of the name of the rows wanted, or `=` and the whole
 * name of one. */
int main(int count, char **words) {
  bool all = is_option(words[1], "--all"), only_jobs = is_option(words[1], "--jobs"), only_ours = is_option(words[1], "--ours"),
       only_compatible = is_option(words[1], "--compatible"), is_page = !all && !only_jobs && !only_ours && !only_compatible;
  if (!is_page) words++, count--;
  bool is_named = count > 1 && words[1][0] != '\0';
  wanted = count > 2 ? words[2] : "";
  open_ours();
  open_compatible();
  make_text();
  has_theirs = is_named && open_theirs(words[1]);
  if (!has_theirs) puts(is_named ? "Scintilla's library could not be used: without it." : "No library of Scintilla: without it.");
  if (!only_compatible) present[side_count++] = &sides[OURS];
  if (!is_page && !only_ours) present[side_count++] = &sides[COMPATIBLE];
  if (has_theirs) present[side_count++] = &sides[THEIRS];
  if (!only_jobs) print_messages(!is_page);
  if (!is_page) print_both_jobs();
  must(hongpilas_direct(compatible_view, SCI_GETSTATUS, 0, 0) == SC_STATUS_OK, "a message through the Scintilla-compatible interface was refused");
  hongpilas_scintilla_free(component);
  hongpilas_free(session);
  return 0;
}

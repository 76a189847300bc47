/* fuzz: bytes become calls over two sessions with up to four views each and a handful of documents, and each answer, value, text and note is compared
 * with that of the plain model (model.h), which is C++17 and linked beside this file. What the headers promise beside that is looked at, too: what a
 * refusal leaves, how long lent bytes stand, which calls take memory, what is given back. Allocations are refused at random, and each text that is
 * sent and each buffer that is filled ends, or begins, at a page that nobody may touch.
 *
 * There are two ways in: the calls of hongpilas.h (fuzz_calls.h) and the Scintilla-compatible interface (fuzz_scintilla.h). FUZZ_WAY in the environment
 * says which: `calls`, as without it, `scintilla`, or `both`, one session each. The same input makes the same messages of the model by both, but for
 * what the interface takes as an int or up to a NUL. Some records are done by another thread, as the headers allow.
 *
 * With -DLIBFUZZER it is a target of libFuzzer. Else it is a program:
 *   fuzz [--seed N] [--calls N] [--seconds N]    drawn by a generator of its own, for so many calls or seconds
 *   fuzz FILE..                                  these inputs, as a corpus or a failure has them
 * A difference is told on standard error, the input is written to fuzz.failed, and the program aborts.
 *
 * It is linked with a copy of the library, and of the interface, that takes its memory by fuzz_malloc, fuzz_realloc and fuzz_free, so that nothing else in
 * the program does; see fuzzing. */
#define _GNU_SOURCE
#include "../random.h"
#include "fuzz_draw.h"
#include "model.h"
#include "questions.h"

#include <hongpilas_scintilla.h>
#include <inttypes.h>
#include <pthread.h>
#include <signal.h>
#include <stdio.h>
#include <stdlib.h>
#include <string.h>
#include <sys/mman.h>
#include <time.h>

/* A call is drawn of a record of so many bytes. */
enum { RECORD = 8, SIDES = 2, VIEWS = 4, LONGEST = 512, LOOK_EVERY = 64, INPUT_CALLS = 4000 };

/* A view as the interface has it: what its status and its refusal have to be, and whether it has a callback. `told` is the latter at the note that is
 * compared. No view where `id`, the model's, is 0. */
typedef struct ear {
  struct side *of;
  uint32_t id;
  sptr_t view;
  int status;
  const char *refusal;
  bool hears, told;
} ear;

/* A session, as its way in has it, and that of the model; and the views. */
typedef struct side {
  const struct way *by;
  model *plain;
  uint32_t views[VIEWS];
  size_t view_count;
  hongpilas_session *session;
  hongpilas_scintilla *component;
  ear ears[VIEWS];
  uint32_t turns;      /* how often the last reply was looked at */
  const uint8_t *text; /* where the last reply's text lies */
  const uint8_t *lent; /* bytes that were lent and stand, or NULL */
  size_t lent_count;
  uint8_t lent_copy[2 * LONGEST + MOST_TEXT];
} side;

typedef struct record {
  uint8_t operation, who, w_kind, w, l_kind, l, t_kind, t;
} record;

/* A message. Its text is placed at the end or at the beginning of its page; `how` chooses between forms of a call that are worth the same. */
typedef struct message {
  uint32_t view, number;
  int64_t w, l;
  const uint8_t *text;
  size_t length;
  bool at_end;
  uint8_t how;
} message;

/* A way in: what a session is asked for, each compared with the model. Where a call answers, the model is not asked as yet. */
typedef struct way {
  const char *name;
  hongpilas_answer (*open)(side *s, const hongpilas_limits *limits);
  void (*close)(side *s);
  hongpilas_answer (*new_view)(side *s, uint32_t *view);
  hongpilas_answer (*close_view)(side *s, uint32_t view);
  hongpilas_answer (*send)(side *s, const message *m); /* the model is sent it, too */
  void (*lend)(side *s, uint32_t view, uint64_t start, uint64_t count, bool copies);
  void (*compare_last)(side *s, bool stays); /* what the last message left; `stays` where it has to lie where it lay */
  void (*read_last)(side *s, uint32_t view, const record *r);
  void (*ask_names)(side *s, uint32_t view, const record *r);
  void (*try_edges)(side *s, uint32_t view, const record *r); /* null pointers */
} way;

static side sides[SIDES];

static struct {
  const uint8_t *data;
  size_t size, at;   /* the input, and where the record that goes on begins */
  uint64_t sent;     /* messages since the input began */
  const char *doing; /* what is done, for a failure */
  uint32_t number;   /* the message */
  int64_t w, l;
} now;

/* What was done: records, those of them that another thread did, messages that were sent, all calls; of them refused for memory; requests for memory, and
 * refused ones. Through the Scintilla-compatible interface: notifications that were heard, and messages that were sent while they were told. */
static struct { uint64_t inputs, records, moved, messages, calls, out_of_memory, requests, refused, looks, answers[8], heard, meddled; } counts;

static void fail(const char *what) {
  fprintf(stderr, "fuzz: FAILED by call %" PRIu64 ", record %zu of its input: %s; doing %s, message %" PRIu32 " %" PRId64 " %" PRId64 "\n", counts.records,
          now.at / RECORD, what, now.doing, now.number, now.w, now.l);
#ifndef LIBFUZZER
  FILE *file = fopen("fuzz.failed", "wb");
  if (file != NULL) {
    fwrite(now.data, 1, now.size, file);
    fclose(file);
  }
#endif
  abort();
}

static void must(bool holds, const char *what) {
  if (!holds) fail(what);
}

#include "fuzz_heap.h"

/* Comparing. */

static void must_be(int64_t found, int64_t wanted, const char *what) {
  if (found == wanted) return;
  fprintf(stderr, "fuzz: %s is %" PRId64 ", and %" PRId64 " in the model\n", what, found, wanted);
  fail(what);
}

static void must_be_text(const uint8_t *found, size_t found_length, const uint8_t *wanted, size_t length, const char *what) {
  must_be((int64_t)found_length, (int64_t)length, what);
  if (length > 0 && memcmp(found, wanted, length) != 0) fail(what);
}

/* Bytes that were lent stand until the next call: they are read once more, and then given up. */
static void give_up_lent(side *s) {
  if (s->lent != NULL) must(memcmp(s->lent, s->lent_copy, s->lent_count) == 0, "lent bytes stand");
  s->lent = NULL;
}

static void keep_lent(side *s, const uint8_t *bytes, size_t count) {
  if (count == 0 || count > sizeof s->lent_copy) return;
  s->lent = bytes;
  s->lent_count = count;
  memcpy(s->lent_copy, bytes, count);
}

/* The names of answers, as PROFILE and the header have them. */
static const char *const answer_names[] = {"done",          "out of memory", "no such view", "unknown message", "no such document",
                                           "text too long", "bad argument",  "too many"};

/* Memory ran out in a call: a growth was refused, and the model, which is not told, would have done the message. */
static void look_at_refused_growth(const side *s, const message *m) {
  int64_t value = 0;
  const char *marks = model_marks(m->number);
  bool is_recorded = false;
  hongpilas_note_data note;
  counts.out_of_memory++;
  counts.answers[1]++;
  must(was_refused, "memory runs out only where a growth was refused");
  must(marks != NULL, "an unknown message takes no memory");
  model *aside = model_copy(s->plain);
  must_be(model_send(aside, m->view, m->number, m->w, m->l, m->text, m->length, &value), HONGPILAS_DONE,
          "what is refused otherwise takes no memory: the answer");
  if (model_note(aside, 0, &note)) is_recorded = note.code == SCN_MACRORECORD;
  must(strchr(marks, 'N') == NULL || is_recorded, "a message that is marked N takes no memory");
  model_free(aside);
}

static void begin_message(side *s, const message *m, const char *doing) {
  now.doing = doing;
  now.number = m->number;
  now.w = m->w;
  now.l = m->l;
  now.sent++;
  give_up_lent(s);
  was_refused = false;
  counts.messages++;
  counts.calls++;
}

#include "fuzz_calls.h"
#include "fuzz_scintilla.h"

/* Sending what has two numbers alone. */

static hongpilas_answer send_numbers(side *s, uint32_t view, uint32_t number, int64_t w, int64_t l) {
  static const uint8_t none = 0;
  message m = {view, number, w, l, &none, 0, now.sent % 2 == 0, (uint8_t)(now.sent * 167 >> 2)};
  return s->by->send(s, &m);
}

static int64_t ask(side *s, uint32_t view, uint32_t number, int64_t w, int64_t l) {
  counts.looks++;
  return send_numbers(s, view, number, w, l) == HONGPILAS_DONE ? model_value(s->plain) : 0;
}

/* Asks each question that is asked of `of` alone and answers a number. */
static void ask_each(side *s, uint32_t view, domain of, int64_t w) {
  static const question asked[] = {NUMBER_QUESTIONS(QUESTION)};
  for (size_t i = 0; i < sizeof asked / sizeof *asked; i++)
    if (asked[i].w == of && asked[i].l == NOTHING) ask(s, view, asked[i].number, w, 0);
}

/* Looking at a whole view: text, styles and what has no argument; then lines, places and indicators, `most` of each. */
static void look_at(side *s, uint32_t view, int64_t most) {
  int64_t length = ask(s, view, SCI_GETLENGTH, 0, 0), lines = ask(s, view, SCI_GETLINECOUNT, 0, 0);
  ask(s, view, SCI_GETTEXT, length, 0);
  ask_each(s, view, NOTHING, 0);
  ask(s, view, SCI_GETSTYLEDTEXT, 0, -1);
  for (int64_t line = 0, step = lines / most + 1; line < lines; line += step) {
    ask_each(s, view, LINES, line);
    ask(s, view, SCI_GETLASTCHILD, line, -1);
  }
  for (int64_t handle = model_peek(s->plain, view, SCI_MARKERADD), end = handle - most; handle > end; handle--)
    ask(s, view, SCI_MARKERLINEFROMHANDLE, handle, 0);
  for (int64_t place = 0, step = length / most + 1; place < length; place += step) {
    ask_each(s, view, POSITIONS, place);
    /* A mask may be an int, whose highest bit is its sign. */
    int64_t mask = (int64_t)(uint32_t)ask(s, view, SCI_INDICATORALLONFOR, place, 0);
    for (int64_t indicator = 0; indicator < 32; indicator++) {
      if ((mask >> indicator & 1) == 0) continue;
      ask(s, view, SCI_INDICATORVALUEAT, indicator, place);
      ask(s, view, SCI_INDICATORSTART, indicator, place);
      ask(s, view, SCI_INDICATOREND, indicator, place);
    }
  }
}

static void look_at_all(side *s, int64_t most) {
  for (size_t i = 0; i < s->view_count; i++) look_at(s, s->views[i], most);
}

/* Calls that are no messages. */

static void open_view(side *s) {
  uint32_t view = 0xFFFFFFFF, wanted = 0xFFFFFFFF;
  now.doing = "opening a view";
  give_up_lent(s);
  was_refused = false;
  hongpilas_answer answer = s->by->new_view(s, &view);
  refuse_in = 0;
  counts.calls++;
  if (answer == HONGPILAS_OUT_OF_MEMORY) {
    counts.out_of_memory++;
    must(was_refused, "memory runs out only where a growth was refused");
    must(view == 0xFFFFFFFF, "a refused call leaves the view's id");
    model *aside = model_copy(s->plain);
    must_be(model_new_view(aside, &wanted), HONGPILAS_DONE, "a view that is refused otherwise takes no memory: the answer");
    model_free(aside);
  } else {
    must_be(answer, model_new_view(s->plain, &wanted), "the answer");
    must_be(view, wanted, "the view's id");
    if (answer == HONGPILAS_DONE) s->views[s->view_count++] = view;
  }
  s->by->compare_last(s, true);
}

static void close_view(side *s, uint32_t view, size_t slot) {
  now.doing = "closing a view";
  give_up_lent(s);
  uint64_t requests = counts.requests;
  must_be(s->by->close_view(s, view), model_close_view(s->plain, view), "the answer");
  must(requests == counts.requests, "closing a view takes no memory");
  refuse_in = 0;
  counts.calls++;
  if (slot < s->view_count) s->views[slot] = s->views[--s->view_count];
  s->by->compare_last(s, true);
}

/* Opens a session, with limits that are drawn: first at times with one that is out of range, which has to be refused; then low ones, or none. */
static void open_session(side *s, const way *by, const record *r, bool is_low) {
  hongpilas_limits limits = HONGPILAS_GREATEST_LIMITS;
  hongpilas_answer answer = HONGPILAS_DONE;
  memset(s, 0x5C, sizeof *s); /* anything may stand there before */
  memset(s->ears, 0, sizeof s->ears);
  s->by = by;
  s->view_count = 0;
  s->lent = NULL;
  s->text = NULL;
  now.doing = "opening a session";
  if (r->l % 8 == 0) {
    hongpilas_limits wrong = limits;
    uint64_t *all[] = {&wrong.doc_bytes, &wrong.large_bytes, &wrong.handles, &wrong.ids, &wrong.refs, &wrong.views, &wrong.depth};
    uint64_t *one = all[r->w % 7];
    *one = r->t % 3 == 0 ? 0 : r->t % 3 == 1 ? *one + 1 : UINT64_MAX;
    counts.calls++;
    was_refused = false;
    must_be(s->by->open(s, &wrong), HONGPILAS_BAD_ARGUMENT, "wrong limits");
    must(model_new(&wrong) == NULL, "wrong limits in the model");
  }
  if (is_low) {
    limits.doc_bytes = 1 + r->w;
    limits.large_bytes = 1 + r->w / 2;
    limits.handles = 1 + r->l % 32;
    limits.ids = 2 + r->t % 14;
    limits.refs = 1 + r->t_kind % 6;
    limits.views = 1 + r->l_kind % 4;
    limits.depth = 1 + r->w_kind % 4;
  }
  counts.calls++;
  do {
    was_refused = false;
    answer = s->by->open(s, is_low ? &limits : NULL);
    must(answer == HONGPILAS_DONE || (answer == HONGPILAS_OUT_OF_MEMORY && was_refused), "a session opens");
    refuse_in = 0;
  } while (answer != HONGPILAS_DONE);
  s->plain = model_new(&limits);
  must(s->plain != NULL, "a session of the model opens");
  s->by->compare_last(s, false);
  open_view(s);
}

static void close_session(side *s) {
  now.doing = "giving a session back";
  give_up_lent(s);
  s->by->close(s);
  s->view_count = 0;
  model_free(s->plain);
  counts.calls++;
}

/* A record becomes a call. */

static void send_drawn(side *s, uint32_t view, uint32_t number, const record *r) {
  uint8_t drawn[MOST_TEXT];
  /* A search has a short text. What leaves no line is rarer than others: one of these in four is what it is, and each other inserts. */
  bool is_sweeping = number == SCI_CLEARALL || number == SCI_SETTEXT || number == SCI_SETDOCPOINTER;
  if (is_sweeping && r->who % 64 >= 16) number = SCI_APPENDTEXT;
  size_t length = draw_text(number == SCI_SEARCHINTARGET ? r->t_kind % 108 : r->t_kind, r->t, drawn);
  around a = {model_peek(s->plain, view, SCI_GETLENGTH), model_peek(s->plain, view, SCI_GETLINECOUNT), model_peek(s->plain, view, SCI_GETCURRENTPOS),
              (int64_t)length, model_peek(s->plain, view, SCI_MARKERADD)};
  const char *shape = shape_of(number);
  int64_t w = draw_number(shape[0], r->w_kind, r->w, number == SCI_SETSTYLING ? model_peek(s->plain, view, SCI_GETENDSTYLED) : 0, &a);
  message m = {view, number, w, draw_number(shape[1], r->l_kind, r->l, w, &a), drawn, length, r->t % 2 == 0, r->t_kind};
  if (r->who >= 208) {
    refuse_in = 1 + (r->who >> 3) % 3;
    refuse_all_then = (r->who >> 5) % 2 == 1;
  }
  if (s->by->send(s, &m) == HONGPILAS_OUT_OF_MEMORY) {
    if (r->t % 8 == 0) look_at_all(s, 4);
    else look_at(s, view, 2);
  }
  int64_t grown = model_peek(s->plain, view, SCI_GETLENGTH);
  if (grown > LONGEST) send_numbers(s, view, SCI_DELETERANGE, grown / 8, grown / 2 + grown / 4);
}

/* Gives lines levels, one in the other, and at times markers and states; and folds some. */
static void dress(side *s, uint32_t view, const record *r) {
  uint32_t mixed = (uint32_t)(r->w * 256 + r->l) * 2654435761u + r->t;
  int64_t lines = model_peek(s->plain, view, SCI_GETLINECOUNT);
  for (int64_t line = 0; line < lines; line++) {
    mixed = mixed * 1664525u + 1013904223u;
    int64_t level = 0x400 + (mixed >> 16) % 4;
    if ((mixed >> 20) % 8 < 5) level |= SC_FOLDLEVELHEADERFLAG;
    send_numbers(s, view, SCI_SETFOLDLEVEL, line, level);
    if ((mixed >> 23) % 8 == 0) send_numbers(s, view, SCI_MARKERADDSET, line, mixed >> 24);
    if ((mixed >> 26) % 8 == 0) send_numbers(s, view, SCI_SETLINESTATE, line, mixed >> 28);
  }
  for (int64_t line = 0; line < lines; line++) {
    mixed = mixed * 1664525u + 1013904223u;
    if ((mixed >> 16) % 3 == 0) send_numbers(s, view, SCI_FOLDLINE, (mixed >> 18) % lines, (mixed >> 28) % 3);
    if ((mixed >> 21) % 16 == 0) send_numbers(s, view, SCI_ENSUREVISIBLE, (mixed >> 18) % lines, 0);
  }
}

static void do_lend(side *s, uint32_t view, const record *r) {
  int64_t length = model_peek(s->plain, view, SCI_GETLENGTH);
  around a = {length, 1, 0, 0, 1};
  int64_t start = draw_number('p', r->w_kind, r->w, 0, &a), count = draw_number(r->t % 2 == 0 ? 's' : 'p', r->l_kind, r->l, start, &a);
  /* A copy is told of no more room than there is. */
  bool copies = r->operation > 234 && count >= 0 && count <= PAGE;
  if (r->t % 4 == 1 && start >= 0 && start <= length) count = count < 0 || count > length - start ? length - start : count;
  s->by->lend(s, r->t == 255 ? 77777 : view, (uint64_t)start, (uint64_t)count, copies);
}

static void do_record(side *s, const record *r) {
  size_t count;
  const uint32_t *numbers = model_numbers(&count);
  counts.records++;
  now.number = 0;
  now.w = now.l = 0;
  if (s->view_count == 0) open_view(s);
  if (s->view_count == 0) { /* ids are used up */
    close_session(s);
    open_session(s, s->by, r, true);
  }
  if (s->view_count == 0) return;
  uint32_t view = s->views[(r->who >> 1) % s->view_count];
  if (r->operation < count) send_drawn(s, view, numbers[r->operation], r);
  else if (r->operation < 224) send_drawn(s, view, favoured[r->operation % (sizeof favoured / sizeof *favoured)], r);
  else switch (r->operation) {
      case 224:
      case 225:
      case 226:
        if (s->view_count < VIEWS) {
          if (r->who >= 208) refuse_in = 1 + r->who % 3, refuse_all_then = r->who % 2 == 0;
          open_view(s);
          int64_t document = model_peek(s->plain, s->views[0], SCI_GETDOCPOINTER);
          if (r->w % 4 != 0) send_numbers(s, s->views[s->view_count - 1], SCI_SETDOCPOINTER, 0, document);
        }
        break;
      case 227:
        if (r->w % 2 == 0) close_view(s, view, (r->who >> 1) % s->view_count);
        break;
      case 228: close_view(s, s->view_count < VIEWS ? 1000 + r->w : 0, VIEWS); break;
      case 229:
      case 230:
      case 231:
      case 232:
      case 233:
      case 234:
      case 235:
      case 236:
      case 237:
      case 238: do_lend(s, view, r); break;
      case 239:
      case 240:
      case 241:
      case 242: s->by->read_last(s, view, r); break;
      case 243: s->by->ask_names(s, view, r); break;
      case 244: /* a number that is no message, and a view that is none */
        send_drawn(s, view, r->w_kind < 128 ? 2000u + r->w * 9u % 2100u : (uint32_t)hostile_number(r->w_kind, r->w, &(around){0}), r);
        break;
      case 245: send_numbers(s, 5000 + r->w, numbers[r->l % count], r->w, r->l); break;
      case 246: s->by->try_edges(s, view, r); break;
      case 247: /* a new session in place of this one */
        if (r->who < 64) {
          close_session(s);
          open_session(s, s->by, r, r->t_kind % 2 == 0);
        }
        break;
      case 248:
      case 249:
      case 250:
      case 251: dress(s, view, r); break;
      default: look_at(s, view, 4); break;
    }
  if (counts.records % LOOK_EVERY == 0 && s->view_count > 0) look_at(s, s->views[(r->who >> 1) % s->view_count], 8);
}

/* A session may be used by any thread, while no calls on it overlap: one record in 64 is done by a thread of its own, which ends before the next one. */

typedef struct errand {
  side *s;
  const record *r;
} errand;

static void *run_errand(void *given) {
  const errand *it = given;
  do_record(it->s, it->r);
  return NULL;
}

static bool is_for_a_thread(const record *r) {
  uint64_t mixed;
  memcpy(&mixed, r, sizeof mixed);
  return mixed * 0x9E3779B97F4A7C15 >> 58 == 0;
}

static void do_in_a_thread(side *s, const record *r) {
  errand it = {s, r};
  pthread_t thread;
  must(pthread_create(&thread, NULL, run_errand, &it) == 0 && pthread_join(thread, NULL) == 0, "a thread begins and ends");
  counts.moved++;
}

/* The ways in of the sessions. Where both are taken, the input says which session has which. */

static const way *ways[SIDES];

static void choose_ways(void) {
  const char *chosen = getenv("FUZZ_WAY");
  if (chosen == NULL) chosen = "calls";
  ways[0] = strcmp(chosen, "scintilla") == 0 ? &way_by_scintilla : &way_by_calls;
  ways[1] = strcmp(chosen, "both") == 0 ? &way_by_scintilla : ways[0];
}

int LLVMFuzzerTestOneInput(const uint8_t *data, size_t size);

int LLVMFuzzerTestOneInput(const uint8_t *data, size_t size) {
  record first = {0, 0, 0, 63, 0, 15, 0, 7};
  if (ways[0] == NULL) choose_ways();
  now.data = data;
  now.size = size;
  now.at = now.sent = 0;
  refuse_in = 0;
  counts.inputs++;
  /* The first record has the limits of the second session. */
  if (size >= RECORD) memcpy(&first, data, RECORD);
  size_t which = first.operation % SIDES;
  open_session(&sides[0], ways[which], &first, false);
  open_session(&sides[1], ways[1 - which], &first, true);
  for (now.at = RECORD; now.at + RECORD <= size; now.at += RECORD) {
    record r;
    memcpy(&r, data + now.at, RECORD);
    if (is_for_a_thread(&r)) do_in_a_thread(&sides[r.who % SIDES], &r);
    else do_record(&sides[r.who % SIDES], &r);
  }
  for (size_t i = 0; i < SIDES; i++) {
    look_at_all(&sides[i], 6);
    close_session(&sides[i]);
  }
  must(blocks == 0 && block_bytes == 0, "all memory is given back");
  return 0;
}

#ifndef LIBFUZZER

static void run_file(const char *path) {
  static uint8_t bytes[1 << 20];
  FILE *file = fopen(path, "rb");
  if (file == NULL) {
    fprintf(stderr, "fuzz: %s does not open\n", path);
    exit(2);
  }
  size_t size = fread(bytes, 1, sizeof bytes, file);
  fclose(file);
  LLVMFuzzerTestOneInput(bytes, size);
}

static void print_counts(double seconds) {
  if (ways[0] == NULL) choose_ways();
  printf("fuzz: by %s%s%s: %" PRIu64 " inputs, %" PRIu64 " calls drawn, %" PRIu64 " of them in other threads, %" PRIu64 " messages sent (%" PRIu64
         " of them to look), %" PRIu64 " calls in all, in %.0f seconds\n",
         ways[0]->name, ways[0] == ways[1] ? "" : " and ", ways[0] == ways[1] ? "" : ways[1]->name, counts.inputs, counts.records, counts.moved,
         counts.messages, counts.looks, counts.calls, seconds);
  printf("fuzz: answers of messages: done %" PRIu64 ", out of memory %" PRIu64 ", no such view %" PRIu64 ", unknown message %" PRIu64
         ", no such document %" PRIu64 ", too long %" PRIu64 ", bad argument %" PRIu64 ", too many %" PRIu64 "\n",
         counts.answers[0], counts.answers[1], counts.answers[2], counts.answers[3], counts.answers[4], counts.answers[5], counts.answers[6],
         counts.answers[7]);
  printf("fuzz: requests for memory: %" PRIu64 ", refused %" PRIu64 "; calls that were refused for it %" PRIu64 "\n", counts.requests, counts.refused,
         counts.out_of_memory);
  if (counts.heard > 0) printf("fuzz: notifications heard: %" PRIu64 "; messages sent while they were told: %" PRIu64 "\n", counts.heard, counts.meddled);
}

static double seconds_now(void) {
  struct timespec t;
  clock_gettime(CLOCK_MONOTONIC, &t);
  return (double)t.tv_sec + (double)t.tv_nsec / 1e9;
}

int main(int count, char **words) {
  uint64_t seed = 1, most_calls = UINT64_MAX;
  double most_seconds = 1e18, begun = seconds_now();
  bool draws = count == 1;
#ifndef HAS_ASAN
  catch_faults(SIGSEGV);
  catch_faults(SIGBUS);
#endif
  for (int i = 1; i < count; i++) {
    if (strncmp(words[i], "--", 2) != 0) {
      run_file(words[i]);
      continue;
    }
    draws = true;
    if (i + 1 == count) return 2;
    if (strcmp(words[i], "--seed") == 0) seed = strtoull(words[++i], NULL, 10);
    else if (strcmp(words[i], "--calls") == 0) most_calls = strtoull(words[++i], NULL, 10);
    else if (strcmp(words[i], "--seconds") == 0) most_seconds = strtod(words[++i], NULL);
    else return 2;
  }
  if (draws) printf("fuzz: seed %" PRIu64 "\n", seed);
  uint64_t state = seed, next_told = 1000000;
  while (draws && counts.records < most_calls && seconds_now() - begun < most_seconds) {
    static uint64_t input[INPUT_CALLS];
    size_t records = 1 + (size_t)(next_random(&state) % INPUT_CALLS);
    for (size_t i = 0; i < records; i++) input[i] = next_random(&state);
    LLVMFuzzerTestOneInput((const uint8_t *)input, records * RECORD);
    if (counts.records < next_told) continue;
    next_told = counts.records - counts.records % 1000000 + 1000000;
    print_counts(seconds_now() - begun);
    fflush(stdout);
  }
  print_counts(seconds_now() - begun);
  return 0;
}

#endif

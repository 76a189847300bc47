/* threads COUNT NUMBER..: sessions answer COUNT random messages each, first one after the other, and then in threads: two sessions at the same time, in a thread
 * each; one session that three threads hand to each other under a lock; and sixteen sessions, which a pool of four threads takes up and lays down. Every answer,
 * value, text and note has to be the same. The numbers are those that are sent. */
#define _POSIX_C_SOURCE 200809L
#include <hongpilas.h>
#include <pthread.h>
#include <sched.h>
#include <stddef.h>
#include <stdio.h>
#include <stdlib.h>
#include <string.h>

/* A session is opened anew after so many messages. Its texts and its ids are few, so that bounds are met too. */
enum {
  SESSIONS = 16,
  BESIDE = 2,
  HANDS = 3,
  WORKERS = 4,
  MOST_BATCH = 50,
  MOST_THREADS = 4,
  MOST_NUMBERS = 1000,
  LIFE = 5000,
  MOST_TEXT = 12,
  MOST_COPIED = 32,
  DOC_BYTES = 1500,
  IDS = 300,
  VIEWS = 4
};
static const hongpilas_limits limits = {DOC_BYTES, 2 * DOC_BYTES, 200, IDS, 20, VIEWS, 6};

static uint32_t numbers[MOST_NUMBERS];
static size_t number_count;

/* What one session does: `seen` has a digest for each message, of all that it answered; `done` counts those that were not refused. `chance` is where the
 * row of random numbers stands. */
typedef struct run {
  uint64_t chance;
  size_t count;
  uint64_t *seen;
  size_t done, made;
  hongpilas_session *session;
  uint32_t last_view;
} run;

static void must(bool holds, const char *what) {
  if (holds) return;
  fprintf(stderr, "threads: %s\n", what);
  exit(1);
}

/* ---- Chance (xorshift) ---- */

static uint64_t next(run *it) {
  it->chance ^= it->chance << 13;
  it->chance ^= it->chance >> 7;
  it->chance ^= it->chance << 17;
  return it->chance;
}

static uint64_t below(run *it, uint64_t bound) { return (next(it) >> 16) % bound; }

/* Mostly a place or a small number; now and then what is far outside. */
static int64_t any_argument(run *it) {
  static const int64_t far[] = {-1, -2, INT64_MIN, INT64_MAX, 0x7FFFFFFF, 0x7FFFFF, 0x100, 0x2400};
  switch (below(it, 8)) {
    case 0: return far[below(it, sizeof far / sizeof *far)];
    case 1:
    case 2:
    case 3: return (int64_t)below(it, 8);
    case 4: return (int64_t)below(it, 40);
    default: return (int64_t)below(it, DOC_BYTES);
  }
}

static size_t any_text(run *it, uint8_t *into) {
  static const char bytes[] = "ab \t\r\n\n_Z\xC2\x85\xE2\x80\xA8\0";
  size_t length = below(it, MOST_TEXT + 1);
  for (size_t i = 0; i < length; i++) into[i] = (uint8_t)bytes[below(it, sizeof bytes)];
  return length;
}

/* ---- Digests ---- */

static uint64_t with_bytes(uint64_t digest, const void *bytes, size_t count) {
  const uint8_t *at = bytes;
  for (size_t i = 0; i < count; i++) digest = (digest ^ at[i]) * 0x100000001B3;
  return digest;
}

static uint64_t with_number(uint64_t digest, uint64_t number) { return (digest ^ number) * 0x9E3779B97F4A7C15; }

/* The last reply's text and notes. */
static uint64_t with_reply(run *it, uint64_t digest) {
  const uint8_t *text = NULL;
  size_t length = hongpilas_text_unchecked(it->session, &text), count = hongpilas_note_count_unchecked(it->session);
  digest = with_bytes(with_number(digest, length), text, length);
  digest = with_number(digest, (uint64_t)hongpilas_value_unchecked(it->session));
  for (size_t i = 0; i < count; i++) {
    hongpilas_note_data note;
    must(hongpilas_note_unchecked(it->session, i, &note), "there is each note");
    digest = with_bytes(digest, &note, offsetof(hongpilas_note_data, text));
    digest = with_bytes(with_number(digest, note.text_length), note.text, note.text_length);
  }
  return digest;
}

/* ---- A run ---- */

static void open_session(run *it) {
  must(hongpilas_new_with_limits(&it->session, &limits, sizeof limits) == HONGPILAS_DONE, "a session opens");
  must(hongpilas_new_view(it->session, &it->last_view) == HONGPILAS_DONE, "a view opens");
}

static uint64_t send(run *it) {
  uint8_t text[MOST_TEXT];
  int64_t value = 0, w = any_argument(it), l = any_argument(it);
  uint32_t view = (uint32_t)below(it, 8) < 7 ? it->last_view : (uint32_t)below(it, 6), number = numbers[below(it, number_count)];
  size_t length = any_text(it, text);
  hongpilas_answer answer = hongpilas_send(it->session, view, number, w, l, text, length, &value);
  if (answer == HONGPILAS_DONE) it->done++;
  return with_reply(it, with_number(with_number(0, answer), (uint64_t)value));
}

static uint64_t look_at_range(run *it) {
  uint8_t copied[MOST_COPIED] = {0};
  const uint8_t *bytes = NULL;
  size_t start = below(it, DOC_BYTES), count = below(it, MOST_COPIED + 1);
  hongpilas_answer lent = hongpilas_lend_range(it->session, it->last_view, start, count, &bytes), answer;
  uint64_t digest = with_bytes(with_number(0, lent), bytes, lent == HONGPILAS_DONE ? count : 0);
  answer = hongpilas_copy_range(it->session, it->last_view, start, copied, count);
  return with_bytes(with_number(digest, answer), copied, sizeof copied);
}

static uint64_t change_views(run *it) {
  uint32_t view = 0;
  hongpilas_answer answer;
  if (below(it, 2) == 0) {
    answer = hongpilas_close_view(it->session, it->last_view - 1);
    return with_number(1, answer);
  }
  answer = hongpilas_new_view(it->session, &view);
  if (answer == HONGPILAS_DONE) it->last_view = view;
  return with_number(with_number(2, answer), view);
}

/* The name of an answer is no session's: both threads read it. */
static uint64_t read_name(run *it) {
  const char *name = hongpilas_answer_name((hongpilas_answer)below(it, 9));
  return with_bytes(0, name, strlen(name));
}

/* A question beside the reply, in both forms. */
static uint64_t ask_beside(run *it) {
  const uint8_t *text = NULL;
  size_t length = 0;
  int64_t value = 0, other = 0, w = any_argument(it), l = any_argument(it);
  uint32_t number = numbers[below(it, number_count)];
  hongpilas_answer answer = hongpilas_ask(it->session, it->last_view, number, w, l, &value);
  must(hongpilas_read(it->session, it->last_view, number, w, l, &text, &length, &other) == answer && value == other, "both forms answer the same");
  return with_reply(it, with_bytes(with_number(with_number(3, answer), (uint64_t)value), text, length));
}

static uint64_t make_call(run *it) {
  switch (below(it, 32)) {
    case 0: return look_at_range(it);
    case 1: return change_views(it);
    case 2: return read_name(it);
    case 3:
    case 4: return ask_beside(it);
    default: return send(it);
  }
}

/* Makes the next calls, as many as are left. */
static void make_calls(run *it, size_t count) {
  for (; count > 0 && it->made < it->count; count--, it->made++) {
    if (it->made % LIFE == 0) {
      hongpilas_free(it->session);
      open_session(it);
    }
    it->seen[it->made] = make_call(it);
  }
}

static void begin(run *it, size_t session, size_t count) {
  memset(it, 0, sizeof *it);
  it->chance = 0x2545F4914F6CDD1D + session;
  it->count = count;
  it->seen = malloc(count * sizeof *it->seen);
  must(it->seen != NULL, "there is memory for what is seen");
}

/* How many messages answered otherwise than alone; the first is told. */
static size_t end(run *it, const run *alone, size_t session, const char *how) {
  size_t found = 0;
  for (size_t i = 0; i < it->count; i++) {
    if (it->seen[i] == alone->seen[i]) continue;
    if (found++ == 0) printf("FAILED  session %zu, message %zu: another answer %s\n", session + 1, i + 1, how);
  }
  hongpilas_free(it->session);
  free(it->seen);
  return found;
}

/* ---- Threads ---- */

typedef struct work {
  pthread_mutex_t lock;
  pthread_barrier_t start;
  run *waiting[SESSIONS]; /* those that no thread has */
  size_t waits, left;     /* and how many have calls left */
  size_t hands;           /* which thread took the session up last, and how often it was another one */
  size_t handed;
  run *runs;
  size_t next;
} work;

static void lock(work *w) { must(pthread_mutex_lock(&w->lock) == 0, "a lock is taken"); }
static void unlock(work *w) { must(pthread_mutex_unlock(&w->lock) == 0, "a lock is given back"); }

/* A session of its own. */
static void *go_beside(void *given) {
  work *w = given;
  run *own;
  lock(w);
  own = &w->runs[w->next++];
  unlock(w);
  pthread_barrier_wait(&w->start);
  make_calls(own, own->count);
  return NULL;
}

/* One session, which is used under the lock. */
static void *go_handing(void *given) {
  work *w = given;
  run *it = &w->runs[0];
  size_t own, batch = 1;
  lock(w);
  own = ++w->next;
  unlock(w);
  pthread_barrier_wait(&w->start);
  for (bool is_left = true; is_left; batch = batch % MOST_BATCH + 1) {
    lock(w);
    w->handed += w->hands != own;
    w->hands = own;
    make_calls(it, batch);
    is_left = it->made < it->count;
    unlock(w);
    sched_yield();
  }
  return NULL;
}

/* Sessions that lie in a heap from which each thread takes one. Only the heap is locked. */
static void *go_in_pool(void *given) {
  work *w = given;
  size_t batch = 1;
  pthread_barrier_wait(&w->start);
  for (;;) {
    run *it = NULL;
    bool is_over;
    lock(w);
    is_over = w->left == 0;
    if (w->waits > 0) {
      it = w->waiting[0];
      memmove(w->waiting, w->waiting + 1, --w->waits * sizeof *w->waiting);
    }
    unlock(w);
    if (is_over) return NULL;
    if (it == NULL) {
      sched_yield();
      continue;
    }
    make_calls(it, batch);
    batch = batch % MOST_BATCH + 1;
    lock(w);
    if (it->made < it->count) w->waiting[w->waits++] = it;
    else w->left--;
    unlock(w);
  }
}

/* Runs sessions in threads, and returns how many messages answered otherwise. */
static size_t try_threads(const char *how, void *(*go)(void *), size_t thread_count, size_t session_count, const run *alone) {
  static run runs[SESSIONS];
  pthread_t threads[MOST_THREADS];
  work w;
  size_t found = 0, done = 0;
  memset(&w, 0, sizeof w);
  w.runs = runs;
  must(pthread_barrier_init(&w.start, NULL, (unsigned int)thread_count) == 0 && pthread_mutex_init(&w.lock, NULL) == 0, "there is a barrier, and a lock");
  for (size_t i = 0; i < session_count; i++) {
    begin(&runs[i], i, alone[i].count);
    w.waiting[w.waits++] = &runs[i];
  }
  w.left = w.waits;
  for (size_t i = 0; i < thread_count; i++) must(pthread_create(&threads[i], NULL, go, &w) == 0, "a thread begins");
  for (size_t i = 0; i < thread_count; i++) must(pthread_join(threads[i], NULL) == 0, "a thread ends");
  for (size_t i = 0; i < session_count; i++) {
    must(runs[i].made == runs[i].count, "all messages are sent");
    done += runs[i].done;
    found += end(&runs[i], &alone[i], i, how);
  }
  pthread_barrier_destroy(&w.start);
  pthread_mutex_destroy(&w.lock);
  must(go != go_handing || w.handed > 1, "the session was handed over");
  printf("threads: %zu sessions %s, %zu messages each, %zu of them done, %zu answered otherwise than one after the other\n", session_count, how, alone[0].count,
         done, found);
  return found;
}

int main(int count, char **words) {
  static run alone[SESSIONS];
  long messages = count > 2 ? strtol(words[1], NULL, 10) : 0;
  size_t found = 0;
  for (int i = 2; i < count && number_count < MOST_NUMBERS; i++) numbers[number_count++] = (uint32_t)strtoul(words[i], NULL, 10);
  must(messages > 0, "threads COUNT NUMBER..");
  /* Sessions of the pool send fewer each, which makes as many in all. */
  for (size_t i = 0; i < SESSIONS; i++) {
    begin(&alone[i], i, i < BESIDE ? (size_t)messages : (size_t)messages / (SESSIONS / BESIDE) + 1);
    make_calls(&alone[i], alone[i].count);
    hongpilas_free(alone[i].session);
  }
  found += try_threads("in two threads", go_beside, BESIDE, BESIDE, alone);
  found += try_threads("handed from thread to thread", go_handing, HANDS, 1, alone);
  for (size_t i = 0; i < BESIDE; i++) alone[i].count = alone[SESSIONS - 1].count;
  found += try_threads("in a pool of four threads", go_in_pool, WORKERS, SESSIONS, alone);
  for (size_t i = 0; i < SESSIONS; i++) free(alone[i].seen);
  return found == 0 ? 0 : 1;
}

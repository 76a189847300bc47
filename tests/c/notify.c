/* What may happen inside a notify function of the Scintilla-compatible interface: questions, messages whose notifications join the queue, each message that does
 * not edit the text, views that are opened and closed, the component freed, memory refused, long texts, and a longjmp out of it, also in a thread that ends. It is linked as counted_heap.h says, and with
 * -pthread. */
#include "../model/manners.h"
#include "counted_heap.h"

#include <pthread.h>
#include <setjmp.h>
#include <stdio.h>
#include <stdlib.h>
#include <string.h>

static long growths_left = -1; /* below 0: no end of them */

static bool is_refused(void) {
  if (growths_left > 0) growths_left--;
  else if (growths_left == 0) return true;
  return false;
}

static void must(bool holds, const char *what) {
  if (holds) return;
  printf("FAILED  %s\n", what);
  exit(1);
}

static sptr_t send(sptr_t view, unsigned int message, uptr_t w, sptr_t l) { return hongpilas_direct(view, message, w, l); }
static bool is_ok(sptr_t view) { return send(view, SCI_GETSTATUS, 0, 0) == SC_STATUS_OK; }

/* What was notified, as a word: I and D for the text, b before it, S for styles, M for markers, L and R for the save point, N for styles that are needed, r for
 * a recorded message; behind the name of the view. */
enum { MOST = 256 };
static char heard[MOST];

static char letter_of(const SCNotification *note) {
  int kind = note->modificationType;
  switch (note->nmhdr.code) {
    case SCN_STYLENEEDED: return 'N';
    case SCN_SAVEPOINTREACHED: return 'R';
    case SCN_SAVEPOINTLEFT: return 'L';
    case SCN_MACRORECORD: return 'r';
    default: break;
  }
  if ((kind & (SC_MOD_BEFOREINSERT | SC_MOD_BEFOREDELETE)) != 0) return 'b';
  if ((kind & SC_MOD_INSERTTEXT) != 0) return 'I';
  if ((kind & SC_MOD_DELETETEXT) != 0) return 'D';
  if ((kind & SC_MOD_CHANGESTYLE) != 0) return 'S';
  return (kind & SC_MOD_CHANGEMARKER) != 0 ? 'M' : '?';
}

static void keep(const SCNotification *note, const char *name) {
  size_t length = strlen(heard);
  must(length + 3 < MOST, "there is room for what is heard");
  heard[length] = *name;
  heard[length + 1] = letter_of(note);
  heard[length + 2] = ' ';
  heard[length + 3] = '\0';
}

static void must_have_heard(const char *wanted, const char *what) {
  if (strcmp(heard, wanted) != 0) printf("heard \"%s\", and not \"%s\"\n", heard, wanted);
  must(strcmp(heard, wanted) == 0, what);
  *heard = '\0';
}

static void hear(SCNotification *note, void *data) { keep(note, (const char *)data); }

/* A component with two views on one document. */
static hongpilas_scintilla *component;
static sptr_t a, b;
static int running;

static void open_both(hongpilas_notify first, hongpilas_notify second) {
  static char names[] = "ab";
  component = hongpilas_scintilla_new();
  must(component != NULL, "a component opens");
  a = hongpilas_scintilla_open(component);
  b = hongpilas_scintilla_open(component);
  must(a != 0 && b != 0, "two views open");
  send(b, SCI_SETDOCPOINTER, 0, send(a, SCI_GETDOCPOINTER, 0, 0));
  hongpilas_set_notify(a, first, names);
  hongpilas_set_notify(b, second, names + 1);
  *heard = '\0';
}

static void free_all(void) {
  hongpilas_scintilla_free(component);
  must(blocks == 0, "all blocks are given back");
}

/* ---- Questions ---- */

static void ask(SCNotification *note, void *data) {
  char text[8] = "";
  struct Sci_TextRange range = {{0, -1}, text};
  keep(note, (const char *)data);
  must(send(a, SCI_GETLENGTH, 0, 0) == 2 && send(b, SCI_GETLENGTH, 0, 0) == 2, "a length is answered to both views");
  must(send(a, SCI_LINEFROMPOSITION, 1, 0) == 0 && send(a, SCI_GETCHARAT, 1, 0) == 'y', "so is a line, and a byte");
  must(send(a, SCI_GETTEXT, 8, (sptr_t)text) == 2 && strcmp(text, "xy") == 0, "so is the text");
  must(send(a, SCI_GETSTYLEDTEXT, 0, (sptr_t)&range) == 4 && memcmp(text, "x\0y\0\0\0", 6) == 0, "so is the styled text");
  must(send(a, SCI_GETEOLMODE, 0, 0) == SC_EOL_LF && send(a, SCI_GETDOCPOINTER, 0, 0) == send(b, SCI_GETDOCPOINTER, 0, 0), "so are others");
  must(memcmp((const char *)send(a, SCI_GETRANGEPOINTER, 0, 2), "xy", 2) == 0, "the text is lent");
  must(is_ok(a) && is_ok(b), "nothing was refused");
  must(note->text == NULL || memcmp(note->text, "xy", 2) == 0, "a notification's text stands");
}

static void try_questions(void) {
  open_both(ask, ask);
  send(a, SCI_ADDTEXT, 2, (sptr_t) "xy");
  must_have_heard("ab bb aL bL aI bI ", "each notification came once, in its order");
  free_all();
}

/* ---- Messages that join the queue ---- */

static void mark(SCNotification *note, void *data) {
  sptr_t view = *(const char *)data == 'a' ? a : b;
  char text[512];
  size_t length = note->text == NULL ? 0 : (size_t)note->length;
  must(running++ == 0, "no function is called inside another");
  keep(note, (const char *)data);
  must(length <= sizeof text, "a text has room");
  if (length > 0) memcpy(text, note->text, length);
  if (letter_of(note) == 'I' && view == a) {
    must(send(view, SCI_MARKERADD, 0, 1) > 0, "a marker is added inside");
    must(send(view, SCI_MARKERGET, 0, 0) == 2, "and is there at once");
    send(view, SCI_STARTSTYLING, 0, 0);
    send(view, SCI_SETSTYLING, 1, 5);
    must(send(view, SCI_GETSTYLEAT, 0, 0) == 5, "a style is set inside");
    must(send(view, SCI_GETLENGTH, 0, 0) == note->length, "a question in the midst of them");
    must(is_ok(view), "nothing was refused");
  }
  if (letter_of(note) == 'M' && view == b) send(view, SCI_COLOURISE, 0, -1);
  must(length == 0 || memcmp(text, note->text, length) == 0, "a notification's text stands, whatever is sent");
  running--;
}

static void try_queue(void) {
  static const size_t lengths[] = {1, 2, 255, 256, 257, 400};
  char text[400];
  memset(text, 'x', sizeof text);
  for (size_t i = 0; i < sizeof lengths / sizeof *lengths; i++) {
    open_both(mark, mark);
    send(a, SCI_ADDTEXT, lengths[i], (sptr_t)text);
    must_have_heard("ab bb aL bL aI bI aM bM aS bS bN ", "what is sent inside is told behind what was there");
    send(a, SCI_GETLENGTH, 0, 0);
    must_have_heard("", "and once");
    free_all();
  }
}

/* A recorded message inside: l is a text of the interface's own. */
static void move(SCNotification *note, void *data) {
  keep(note, (const char *)data);
  if (letter_of(note) == 'r') must(note->message == SCI_ADDTEXT ? memcmp((const char *)note->lParam, "xy", 2) == 0 : note->lParam == 0, "what was recorded");
  if (letter_of(note) == 'I' && *(const char *)data == 'a') send(a, SCI_CHARRIGHT, 0, 0);
}

static void try_recorded(void) {
  open_both(move, hear);
  send(a, SCI_STARTRECORD, 0, 0);
  send(a, SCI_ADDTEXT, 2, (sptr_t) "xy");
  must_have_heard("ar ab bb aL bL aI bI ar ", "a message that is sent inside is recorded");
  free_all();
}

/* ---- Each message that does not edit the text ---- */

/* A message, and what it comes to: its answer, its status, why it was refused, what it writes, what is notified, and how the view answers all queries then. */
typedef struct trial {
  unsigned int number;
  sptr_t w, l, answer;
  int status;
  char refusal[64], written[64], heard[MOST];
  uptr_t behind;
} trial;

static trial *to_send; /* what is sent inside; NULL for nothing */
static unsigned int queries[MOST];
static size_t query_count;

static sptr_t send_any(unsigned int number, sptr_t w, sptr_t l, char *written, int *status) {
  static char text[] = "xy";
  struct Sci_TextRange range = {{(Sci_PositionCR)w, (Sci_PositionCR)l}, written};
  char letter = manners_of(number)[1];
  if (letter == 't' || letter == 'u') l = (sptr_t)&range;
  else if (takes_buffer(letter)) l = (sptr_t)written;
  else if (strchr("nNZe", letter) != NULL) l = (sptr_t)text;
  return hongpilas_direct_status(a, number, (uptr_t)w, l, status);
}

static void send_trial(trial *t) {
  t->answer = send_any(t->number, t->w, t->l, t->written, &t->status);
  snprintf(t->refusal, sizeof t->refusal, "%s", hongpilas_refusal(a));
}

static void send_at_insertion(SCNotification *note, void *data) {
  trial *t = to_send;
  keep(note, (const char *)data);
  if (letter_of(note) != 'I' || t == NULL) return;
  to_send = NULL;
  send_trial(t);
}

/* Sends it inside a function, while a notification waits, or behind the call. */
static void take_trial(trial *t, bool is_inside) {
  open_both(send_at_insertion, hear);
  to_send = is_inside ? t : NULL;
  send(a, SCI_ADDTEXT, 5, (sptr_t) "xy\nzw");
  if (!is_inside) send_trial(t);
  snprintf(t->heard, sizeof t->heard, "%s", heard);
  for (size_t i = 0; i < 3 * query_count; i++) {
    char written[64] = "";
    int status = 0;
    t->behind = t->behind * 31 + (uptr_t)send_any(queries[i / 3], (sptr_t)(i % 3), 1, written, &status);
    for (size_t j = 0; j < sizeof written; j++) t->behind = t->behind * 31 + (unsigned char)written[j];
  }
  free_all();
}

static bool are_equal(const trial *one, const trial *other) {
  return one->answer == other->answer && one->status == other->status && strcmp(one->refusal, other->refusal) == 0 &&
         memcmp(one->written, other->written, sizeof one->written) == 0 && strcmp(one->heard, other->heard) == 0 && one->behind == other->behind;
}

/* Each is performed inside as it is outside. Its notifications come behind those that wait. */
static void try_each(void) {
  static const sptr_t arguments[] = {0, 1, 2, -1};
  enum { ARGUMENTS = sizeof arguments / sizeof *arguments };
  int tried = 0;
  for (unsigned int number = 2000; number < 5000; number++)
    if ((hongpilas_message_marks(number) & HONGPILAS_MARK_Q) != 0 && query_count < MOST) queries[query_count++] = number;
  for (unsigned int number = 2000; number < 5000; number++) {
    const char *name = hongpilas_message_name(number);
    if (name == NULL || (hongpilas_message_marks(number) & HONGPILAS_MARK_E) != 0) continue;
    tried++;
    for (int i = 0; i < ARGUMENTS * ARGUMENTS; i++) {
      trial in = {number, arguments[i % ARGUMENTS], arguments[i / ARGUMENTS], 0, 0, "", "", "", 0}, out = in;
      take_trial(&in, true);
      take_trial(&out, false);
      if (!are_equal(&in, &out))
        printf("%s %ld %ld: %ld and %ld, heard \"%s\" and \"%s\"\n", name, (long)in.w, (long)in.l, (long)in.answer, (long)out.answer, in.heard, out.heard);
      must(are_equal(&in, &out), "what does not edit the text is performed inside as it is outside");
    }
  }
  must(tried > 100, "all messages were tried that do not edit the text");
}

/* ---- Views that come and go ---- */

static sptr_t opened;

static void open_inside(SCNotification *note, void *data) {
  keep(note, (const char *)data);
  if (letter_of(note) != 'I') return;
  opened = hongpilas_scintilla_open(component);
  must(opened != 0 && send(opened, SCI_GETLENGTH, 0, 0) == 0, "a view opens inside, on a document of its own");
  hongpilas_set_notify(opened, hear, (void *)(uintptr_t) "c");
  send(opened, SCI_SETDOCPOINTER, 0, send(a, SCI_GETDOCPOINTER, 0, 0));
  send(opened, SCI_MARKERADD, 0, 1);
  hongpilas_scintilla_close(b);
}

static void close_itself(SCNotification *note, void *data) {
  keep(note, (const char *)data);
  if (letter_of(note) == 'L') hongpilas_scintilla_close(a);
}

static void try_views(void) {
  int status = -1;
  open_both(open_inside, hear);
  send(a, SCI_ADDTEXT, 2, (sptr_t) "xy");
  must_have_heard("ab bb aL bL aI aM cM ", "a view that is opened inside is notified, and one that is closed is not");
  free_all();
  open_both(close_itself, hear);
  must(hongpilas_direct_status(a, SCI_ADDTEXT, 2, (sptr_t) "xy", &status) == 0 && status == SC_STATUS_OK, "a view may close itself");
  must_have_heard("ab bb aL bL bI ", "and is notified no more");
  must(send(b, SCI_GETLENGTH, 0, 0) == 2, "its document stays with the other");
  free_all();
}

static void free_inside(SCNotification *note, void *data) {
  keep(note, (const char *)data);
  if (letter_of(note) == 'L') hongpilas_scintilla_free(component);
}

static void try_free(void) {
  int status = -1;
  open_both(hear, free_inside);
  must(hongpilas_direct_status(a, SCI_ADDTEXT, 2, (sptr_t) "xy", &status) == 0 && status == SC_STATUS_OK, "the call returns as usual");
  must_have_heard("ab bb aL bL ", "nobody is notified of what was freed");
  must(blocks == 0, "all blocks are given back");
}

/* Many views, each of which hears its own. */
static void count_own(SCNotification *note, void *data) {
  sptr_t *view = (sptr_t *)data;
  must(note->nmhdr.hwndFrom == (void *)*view, "a notification finds its view");
  running++;
}

static void try_many(void) {
  enum { VIEWS = 1024 };
  static sptr_t views[VIEWS];
  component = hongpilas_scintilla_new();
  for (int i = 0; i < VIEWS; i++) {
    views[i] = hongpilas_scintilla_open(component);
    must(views[i] != 0, "so many views open");
    hongpilas_set_notify(views[i], count_own, &views[i]);
    if (i > 0) send(views[i], SCI_SETDOCPOINTER, 0, send(views[0], SCI_GETDOCPOINTER, 0, 0));
  }
  must(hongpilas_scintilla_open(component) == 0, "and no more");
  for (int i = 0; i < VIEWS; i += 3) hongpilas_scintilla_close(views[i]);
  running = 0;
  send(views[1], SCI_ADDTEXT, 1, (sptr_t) "x");
  must(running == 3 * (VIEWS - (VIEWS + 2) / 3), "those that are open are notified");
  running = 0;
  free_all();
}

/* ---- Memory ---- */

static int refusals;

/* Sends what needs the queue kept, with no memory, and then with memory. */
static void want_memory(SCNotification *note, void *data) {
  int status = -1;
  keep(note, (const char *)data);
  if (letter_of(note) != 'I' || *(const char *)data != 'a') return;
  growths_left = 0;
  must(send(a, SCI_GETLENGTH, 0, 0) == note->length && is_ok(a), "a question needs no memory");
  must(hongpilas_direct_status(a, SCI_GOTOPOS, 0, 0, &status) == 0 && status == SC_STATUS_BADALLOC, "what is no question is refused");
  must(strcmp(hongpilas_refusal(a), "out of memory") == 0 && send(a, SCI_GETCURRENTPOS, 0, 0) == note->length, "and nothing was done");
  send(a, SCI_SETSTATUS, SC_STATUS_OK, 0);
  growths_left = -1;
  send(a, SCI_GOTOPOS, 0, 0);
  refusals += !is_ok(a);
  send(a, SCI_SETSTATUS, SC_STATUS_OK, 0);
}

/* The text is too long for the place that a component has, and then there is no memory for its copy: no reply is replaced while it is told. */
static void refuse_copies(SCNotification *note, void *data) {
  if (letter_of(note) == 'L' && *(const char *)data == 'b') growths_left = 0;
  want_memory(note, data);
}

static void try_memory(void) {
  char text[400];
  memset(text, 'x', sizeof text);
  open_both(want_memory, hear);
  refusals = 0;
  send(a, SCI_ADDTEXT, 2, (sptr_t) "xy");
  must_have_heard("ab bb aL bL aI bI ", "nothing is lost for want of memory");
  must(refusals == 0 && send(a, SCI_GETCURRENTPOS, 0, 0) == 0, "with memory it is done");
  free_all();
  open_both(hear, hear);
  send(a, SCI_ADDTEXT, sizeof text, (sptr_t)text);
  send(a, SCI_CLEARALL, 0, 0);
  send(a, SCI_SETSAVEPOINT, 0, 0);
  *heard = '\0';
  hongpilas_set_notify(a, refuse_copies, (void *)(uintptr_t) "a");
  hongpilas_set_notify(b, refuse_copies, (void *)(uintptr_t) "b");
  hongpilas_scintilla_close(hongpilas_scintilla_open(component));
  send(a, SCI_ADDTEXT, sizeof text, (sptr_t)text);
  growths_left = -1;
  must_have_heard("ab bb aL bL aI bI ", "nor for want of memory for a text");
  free_all();
}

/* ---- Long texts ---- */

static void hush(SCNotification *note, void *data) { must(note != NULL && data != NULL, "a notification comes with the data of its view"); }

/* How many blocks are in use once a text was inserted and deleted. */
static long blocks_after(size_t length, hongpilas_notify notify) {
  static char text[1 << 20];
  long left;
  open_both(notify, NULL);
  send(a, SCI_SETUNDOCOLLECTION, 0, 0);
  send(a, SCI_ADDTEXT, length, (sptr_t)text);
  send(a, SCI_CLEARALL, 0, 0);
  left = blocks;
  free_all();
  return left;
}

static void try_long(void) {
  must(blocks_after(400, hush) == blocks_after(400, NULL) + 1, "the place for the text of a notification stays");
  must(blocks_after(1 << 20, hush) == blocks_after(1 << 20, NULL), "but not that for a long one");
}

/* ---- Out of a notify function by longjmp ---- */

static jmp_buf outside;
static int jumps_at;

static void jump(SCNotification *note, void *data) {
  keep(note, (const char *)data);
  if (--jumps_at == 0) longjmp(outside, 1);
}

static void send_and_jump(int at) {
  jumps_at = at;
  if (setjmp(outside) == 0) {
    send(a, SCI_ADDTEXT, 2, (sptr_t) "xy");
    must(false, "the function was left");
  }
}

/* A call from far down the stack, where the frames of the call that was left are covered by a local that is not written. */
static sptr_t send_from_below(int depth, unsigned int message, uptr_t w, sptr_t l) {
  volatile char pad[1024];
  pad[0] = (char)depth;
  return depth == 0 ? send(a, message, w, l) : send_from_below(depth - 1, message, w, l) + pad[0] - (char)depth;
}

static void try_jumps(void) {
  static const char *const first[] = {"", "ab ", "ab bb ", "ab bb aL ", "ab bb aL bL ", "ab bb aL bL aI ", "ab bb aL bL aI bI "};
  static const char *const rest[] = {"", "bb aL bL aI bI ", "aL bL aI bI ", "bL aI bI ", "aI bI ", "bI ", ""};
  char wanted[MOST];
  for (int at = 1; at <= 6; at++)
    for (int depth = 0; depth < 40; depth += 13) {
      open_both(jump, jump);
      send_and_jump(at);
      must_have_heard(first[at], "a function is left");
      must(send_from_below(depth, SCI_GETLENGTH, 0, 0) == 2 && is_ok(a), "a question is answered");
      must_have_heard("", "and tells nothing");
      must(send_from_below(depth, SCI_GOTOPOS, 0, 0) == 0 && is_ok(a), "the next message is done");
      must_have_heard(rest[at], "and what was left in the queue is told");
      free_all();
      open_both(jump, jump);
      send_and_jump(at);
      *heard = '\0';
      send_from_below(depth, SCI_DELETERANGE, 0, 1);
      must(is_ok(a) && send(a, SCI_GETLENGTH, 0, 0) == 1, "the text is edited");
      snprintf(wanted, sizeof wanted, "%sab bb aD bD ", rest[at]);
      must_have_heard(wanted, "with its notifications behind those");
      free_all();
      open_both(jump, jump);
      send_and_jump(at);
      free_all();
    }
}

/* A thread leaves the function and ends, and its stack is unmapped, since the C library keeps none that is so large. Then another, whose stack lies below, makes the
 * next call, or frees the component. */
static pthread_mutex_t first_may = PTHREAD_MUTEX_INITIALIZER, second_may = PTHREAD_MUTEX_INITIALIZER;

static void *jump_in_thread(void *unused) {
  pthread_mutex_lock(&first_may);
  send_and_jump(2);
  pthread_mutex_unlock(&first_may);
  return unused;
}

static void *go_on(void *frees) {
  pthread_mutex_lock(&second_may);
  if (frees == NULL) {
    send(a, SCI_DELETERANGE, 0, 1);
    must(is_ok(a), "the next message is done, in another thread");
  }
  if (frees != NULL) free_all();
  pthread_mutex_unlock(&second_may);
  return frees;
}

static void try_threads(bool frees) {
  pthread_attr_t large;
  pthread_t first, second;
  open_both(jump, jump);
  pthread_mutex_lock(&first_may);
  pthread_mutex_lock(&second_may);
  pthread_attr_init(&large);
  must(pthread_attr_setstacksize(&large, (size_t)64 << 20) == 0, "a stack may be large");
  must(pthread_create(&first, &large, jump_in_thread, NULL) == 0, "a thread begins");
  must(pthread_create(&second, NULL, go_on, frees ? &large : NULL) == 0, "and another");
  pthread_mutex_unlock(&first_may);
  must(pthread_join(first, NULL) == 0, "the first ends");
  must_have_heard("ab bb ", "having left a function");
  pthread_mutex_unlock(&second_may);
  must(pthread_join(second, NULL) == 0, "so does the second");
  must_have_heard(frees ? "" : "aL bL aI bI ab bb aD bD ", "which is told the rest");
  if (!frees) free_all();
  pthread_attr_destroy(&large);
}

int main(void) {
  try_questions();
  try_queue();
  try_recorded();
  try_each();
  try_views();
  try_free();
  try_many();
  try_memory();
  try_long();
  try_jumps();
  try_threads(false);
  try_threads(true);
  printf("questions, messages, views, a component freed, memory refused, long texts and jumps inside a notify function\n");
  return 0;
}

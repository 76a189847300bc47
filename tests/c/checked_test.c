/* checked_test NUMBER..: gives each checked call each null and each length past the addressable. Each is refused by name, and touches nothing: places for
 * answers and the last reply are as they were, and the session answers all questions, whose numbers are the arguments, as before. Then each call is made
 * as it is meant. */
#include <hongpilas.h>
#include <stddef.h>
#include <stdio.h>
#include <stdlib.h>
#include <string.h>

enum { BUFFER = 16, MOST_QUESTIONS = 200, BEYOND = 3 };
static const size_t past_the_addressable[] = {(size_t)1 << 63, (size_t)-1};

static hongpilas_session *session;
static uint32_t view;
static uint32_t questions[MOST_QUESTIONS];
static size_t question_count;
static int failures;

/* Every place that a call may set. */
static struct places {
  hongpilas_session *session;
  uint32_t view;
  int64_t value;
  const uint8_t *bytes;
  size_t count;
  hongpilas_note_data note;
  uint8_t buffer[BUFFER];
} places;

static void must(bool holds, const char *what) {
  if (holds) return;
  failures++;
  printf("FAILED  %s\n", what);
}

/* Digests. */

static uint64_t with_bytes(uint64_t digest, const void *bytes, size_t count) {
  const uint8_t *at = bytes;
  for (size_t i = 0; i < count; i++) digest = (digest ^ at[i]) * 0x100000001B3;
  return digest;
}

/* The last reply, looked at by the calls that test nothing. What only reads takes a const session. */
static uint64_t with_reply(uint64_t digest) {
  const hongpilas_session *it = session;
  const uint8_t *text;
  int64_t value = hongpilas_value_unchecked(it);
  size_t length = hongpilas_text_unchecked(it, &text);
  hongpilas_note_data note;
  memset(&note, 0, sizeof note);
  digest = with_bytes(with_bytes(digest, &value, sizeof value), text, length);
  for (size_t i = 0; hongpilas_note_unchecked(it, i, &note); i++) {
    digest = with_bytes(digest, &note, offsetof(hongpilas_note_data, text));
    digest = with_bytes(digest, note.text, note.text_length);
  }
  return digest;
}

/* All questions of the view, over all positions and lines and some beside. */
static uint64_t asked(void) {
  static const uint8_t none;
  uint64_t digest = 0;
  int64_t length = 0;
  must(hongpilas_send_unchecked(session, view, SCI_GETLENGTH, 0, 0, &none, 0, &length) == HONGPILAS_DONE, "the view is there");
  for (size_t i = 0; i < question_count; i++)
    for (int64_t w = -1; w < length + BEYOND; w++)
      for (int64_t l = -1; l < length + BEYOND; l++) {
        int64_t value = 0;
        hongpilas_answer answer = hongpilas_send_unchecked(session, view, questions[i], w, l, &none, 0, &value);
        digest = with_bytes(digest, &answer, sizeof answer);
        if (answer == HONGPILAS_DONE) digest = with_reply(with_bytes(digest, &value, sizeof value));
      }
  return digest;
}

/* Leaves a reply with a text, or one with a note; neither message changes the session. */
static void leave_reply(bool has_note) {
  int64_t value = 0;
  uint32_t number = has_note ? SCI_COLOURISE : SCI_GETTEXT;
  must(hongpilas_ask(session, view, SCI_GETENDSTYLED, 0, 0, &value) == HONGPILAS_DONE, "the end of the styled text is there");
  must(hongpilas_send(session, view, number, value, -1, NULL, 0, NULL) == HONGPILAS_DONE, "a reply is left");
}

static void print_answer(const char *what, hongpilas_answer answer) { printf("%s: %s\n", what, hongpilas_answer_name(answer)); }

/* A call is tried behind a reply with a text and behind one with a note. */
static struct trial {
  const char *what;
  struct places before;
  uint64_t reply;
  hongpilas_answer answers[2];
} trial;

static void begin(const char *what, int round) {
  trial.what = what;
  memset(&places, 0xA5 + round, sizeof places);
  memcpy(&trial.before, &places, sizeof places);
  leave_reply(round == 1);
  trial.reply = with_reply(0);
}

static void end(int round, hongpilas_answer answer) {
  trial.answers[round] = answer;
  must(memcmp(&trial.before, &places, sizeof places) == 0, "a place for an answer was set");
  must(trial.reply == with_reply(0), "the last reply was touched");
  if (round == 0) return;
  must(trial.answers[0] == answer, "both times the same is answered");
  print_answer(trial.what, answer);
}

#define REFUSES(what, call) \
  for (int round = 0; round < 2; round++) begin(what, round), end(round, call)

static void try_null_session(void) {
  hongpilas_session *null = NULL;
  printf("-- the session null\n");
  REFUSES("new_view", hongpilas_new_view(null, &places.view));
  REFUSES("close_view", hongpilas_close_view(null, view));
  REFUSES("send", hongpilas_send(null, view, SCI_UNDO, 0, 0, places.buffer, 0, &places.value));
  REFUSES("send without a value", hongpilas_send(null, view, SCI_UNDO, 0, 0, NULL, 0, NULL));
  REFUSES("ask", hongpilas_ask(null, view, SCI_GETLENGTH, 0, 0, &places.value));
  REFUSES("read", hongpilas_read(null, view, SCI_GETTEXT, 0, 0, &places.bytes, &places.count, &places.value));
  REFUSES("value", hongpilas_value(null, &places.value));
  REFUSES("text", hongpilas_text(null, &places.bytes, &places.count));
  REFUSES("copy_text", hongpilas_copy_text(null, 0, places.buffer, BUFFER, &places.count));
  REFUSES("note_count", hongpilas_note_count(null, &places.count));
  REFUSES("note", hongpilas_note(null, 0, &places.note, sizeof places.note));
  REFUSES("copy_note_text", hongpilas_copy_note_text(null, 0, 0, places.buffer, BUFFER, &places.count));
  REFUSES("lend_range", hongpilas_lend_range(null, view, 0, 1, &places.bytes));
  REFUSES("copy_range", hongpilas_copy_range(null, view, 0, places.buffer, 1));
  hongpilas_free(null);
}

/* A null session and a null place together: the session comes first. */
static void try_all_null(void) {
  printf("-- everything null\n");
  REFUSES("new", hongpilas_new(NULL));
  REFUSES("new_with_limits", hongpilas_new_with_limits(NULL, NULL, 0));
  REFUSES("new_view", hongpilas_new_view(NULL, NULL));
  REFUSES("send", hongpilas_send(NULL, view, SCI_UNDO, 0, 0, NULL, 1, NULL));
  REFUSES("ask", hongpilas_ask(NULL, view, SCI_UNDO, 0, 0, NULL));
  REFUSES("read", hongpilas_read(NULL, view, SCI_UNDO, 0, 0, NULL, NULL, NULL));
  REFUSES("value", hongpilas_value(NULL, NULL));
  REFUSES("text", hongpilas_text(NULL, NULL, NULL));
  REFUSES("copy_text", hongpilas_copy_text(NULL, 0, NULL, 1, NULL));
  REFUSES("note_count", hongpilas_note_count(NULL, NULL));
  REFUSES("note", hongpilas_note(NULL, 0, NULL, 0));
  REFUSES("copy_note_text", hongpilas_copy_note_text(NULL, 0, 0, NULL, 1, NULL));
  REFUSES("lend_range", hongpilas_lend_range(NULL, view, 0, 1, NULL));
  REFUSES("copy_range", hongpilas_copy_range(NULL, view, 0, NULL, 1));
}

static void try_null_places(void) {
  hongpilas_limits limits = HONGPILAS_GREATEST_LIMITS;
  printf("-- one null\n");
  REFUSES("new_with_limits, the session", hongpilas_new_with_limits(NULL, &limits, sizeof limits));
  REFUSES("new_with_limits, the limits", hongpilas_new_with_limits(&places.session, NULL, sizeof limits));
  REFUSES("new_view, the id", hongpilas_new_view(session, NULL));
  REFUSES("send, the text", hongpilas_send(session, view, SCI_ADDTEXT, 1, 0, NULL, 1, &places.value));
  REFUSES("ask, the value", hongpilas_ask(session, view, SCI_GETLENGTH, 0, 0, NULL));
  REFUSES("read, the text", hongpilas_read(session, view, SCI_GETTEXT, 0, 0, NULL, &places.count, &places.value));
  REFUSES("read, the length", hongpilas_read(session, view, SCI_GETTEXT, 0, 0, &places.bytes, NULL, &places.value));
  REFUSES("value, the value", hongpilas_value(session, NULL));
  REFUSES("text, the text", hongpilas_text(session, NULL, &places.count));
  REFUSES("text, the length", hongpilas_text(session, &places.bytes, NULL));
  REFUSES("copy_text, the buffer", hongpilas_copy_text(session, 0, NULL, 1, &places.count));
  REFUSES("copy_text, the count", hongpilas_copy_text(session, 0, places.buffer, BUFFER, NULL));
  REFUSES("note_count, the count", hongpilas_note_count(session, NULL));
  REFUSES("note, the note", hongpilas_note(session, 0, NULL, sizeof places.note));
  REFUSES("copy_note_text, the buffer", hongpilas_copy_note_text(session, 0, 0, NULL, 1, &places.count));
  REFUSES("copy_note_text, the count", hongpilas_copy_note_text(session, 0, 0, places.buffer, BUFFER, NULL));
  REFUSES("lend_range, the bytes", hongpilas_lend_range(session, view, 0, 1, NULL));
  REFUSES("copy_range, the buffer", hongpilas_copy_range(session, view, 0, NULL, 1));
}

static void try_length(size_t length) {
  printf("-- length %#zx\n", length);
  REFUSES("send", hongpilas_send(session, view, SCI_SETTEXT, 0, 0, places.buffer, length, &places.value));
  REFUSES("send, the text null too", hongpilas_send(session, view, SCI_SETTEXT, 0, 0, NULL, length, &places.value));
  REFUSES("copy_text", hongpilas_copy_text(session, 0, places.buffer, length, &places.count));
  REFUSES("copy_note_text", hongpilas_copy_note_text(session, 0, 0, places.buffer, length, &places.count));
  REFUSES("copy_range", hongpilas_copy_range(session, view, 0, places.buffer, length));
  REFUSES("lend_range of so many", hongpilas_lend_range(session, view, 1, length, &places.bytes));
  REFUSES("lend_range from there", hongpilas_lend_range(session, view, length, 1, &places.bytes));
  REFUSES("note with that index", hongpilas_note(session, length, &places.note, sizeof places.note));
  REFUSES("copy_note_text of that note", hongpilas_copy_note_text(session, length, 0, places.buffer, BUFFER, &places.count));
}

/* Sizes of structs. A round with a notification has one with the index 0. */
static void try_sizes(void) {
  hongpilas_limits limits = HONGPILAS_GREATEST_LIMITS;
  printf("-- sizes of structs\n");
  REFUSES("new_with_limits, too short", hongpilas_new_with_limits(&places.session, &limits, sizeof limits - 1));
  REFUSES("new_with_limits, too long", hongpilas_new_with_limits(&places.session, &limits, sizeof limits + 8));
  REFUSES("new_with_limits, of no bytes", hongpilas_new_with_limits(&places.session, &limits, 0));
  REFUSES("note, too short", hongpilas_note(session, 0, &places.note, sizeof places.note - 1));
  REFUSES("note, of no bytes", hongpilas_note(session, 0, &places.note, 0));
}

/* What the proved call refuses. */
static void try_other_refusals(void) {
  hongpilas_limits none = {0, 0, 0, 0, 0, 0, 0};
  printf("-- what the call itself refuses\n");
  REFUSES("new_with_limits", hongpilas_new_with_limits(&places.session, &none, sizeof none));
  REFUSES("close_view", hongpilas_close_view(session, view + 1));
  REFUSES("send", hongpilas_send(session, view, 9999, 0, 0, NULL, 0, &places.value));
  REFUSES("ask, no question", hongpilas_ask(session, view, SCI_UNDO, 0, 0, &places.value));
  REFUSES("ask, no message", hongpilas_ask(session, view, 9999, 0, 0, &places.value));
  REFUSES("ask, no view", hongpilas_ask(session, view + 1, SCI_GETLENGTH, 0, 0, &places.value));
  REFUSES("read, no question", hongpilas_read(session, view, SCI_COLOURISE, 0, 0, &places.bytes, &places.count, &places.value));
  REFUSES("read, a range past the end", hongpilas_read(session, view, SCI_GETTEXTRANGE, 7, 99, &places.bytes, &places.count, &places.value));
  REFUSES("read, no view", hongpilas_read(session, view + 1, SCI_GETTEXT, 0, 0, &places.bytes, &places.count, &places.value));
  REFUSES("lend_range", hongpilas_lend_range(session, view, 7, 99, &places.bytes));
  REFUSES("copy_range", hongpilas_copy_range(session, view + 1, 0, places.buffer, 1));
}

static void print_count(const char *what, hongpilas_answer answer, size_t count) {
  must(answer == HONGPILAS_DONE, what);
  printf("%s: %zu\n", what, count);
}

static void print_bytes(const char *what, hongpilas_answer answer, const uint8_t *bytes, size_t count) {
  must(answer == HONGPILAS_DONE, what);
  printf("%s: \"%.*s\"\n", what, (int)count, (const char *)bytes);
}

/* A program with a later version of the struct: what this version does not have is 0. */
static void try_longer_note(void) {
  struct {
    hongpilas_note_data note;
    int64_t later[2];
  } longer;
  leave_reply(true);
  memset(&longer, 0xA5, sizeof longer);
  must(hongpilas_note(session, 0, &longer.note, sizeof longer) == HONGPILAS_DONE, "a longer struct is filled");
  printf("a longer note: %s, and %lld, %lld\n", hongpilas_note_name(longer.note.code), (long long)longer.later[0], (long long)longer.later[1]);
}

/* All questions beside the reply, over all positions and lines and some beside: each is answered as hongpilas_send does, and leaves the reply. What
 * hongpilas_read lent stays through messages. */
static void try_asking(void) {
  const hongpilas_session *read_only = session;
  static const uint8_t none;
  int64_t length = 0;
  size_t done = 0;
  must(hongpilas_ask(session, view, SCI_GETLENGTH, 0, 0, &length) == HONGPILAS_DONE, "the view is there");
  for (size_t i = 0; i < question_count; i++)
    for (int64_t w = -1; w < length + BEYOND; w++)
      for (int64_t l = -1; l < length + BEYOND; l++) {
        const uint8_t *text = NULL, *sent = NULL;
        size_t text_length = 77;
        int64_t value = 77, asked = 77, read = 77;
        uint64_t before = with_reply(0);
        hongpilas_answer by_asking = hongpilas_ask(read_only, view, questions[i], w, l, &asked), by_sending;
        hongpilas_answer by_reading = hongpilas_read(session, view, questions[i], w, l, &text, &text_length, &read);
        must(before == with_reply(0), "a question beside the reply leaves it");
        by_sending = hongpilas_send_unchecked(session, view, questions[i], w, l, &none, 0, &value);
        must(by_asking == by_sending && by_reading == by_sending, "questions beside the reply are answered, or refused, as messages are");
        must(asked == value && read == value, "with the same value");
        if (by_sending != HONGPILAS_DONE) {
          must(text == NULL && text_length == 77, "a refused one touches nothing");
          continue;
        }
        must(hongpilas_text_unchecked(session, &sent) == text_length && (text_length == 0 || memcmp(sent, text, text_length) == 0), "and the same text");
        done++;
      }
  must(done > 1000, "questions were asked");
  printf("questions beside the reply: all are answered as messages are\n");
}

/* Each call as it is meant; with a null text and a null buffer where nothing is to be read or written, and a const session where that is only read. */
static void try_meant(void) {
  const hongpilas_session *read_only = session;
  hongpilas_answer answer;
  printf("-- as it is meant\n");
  memset(&places, 0, sizeof places);
  answer = hongpilas_send(session, view, SCI_APPENDTEXT, 3, 0, (const uint8_t *)"...", 3, &places.value);
  print_count("send", answer, (size_t)places.value);
  answer = hongpilas_note_count(read_only, &places.count);
  print_count("note_count", answer, places.count);
  answer = hongpilas_note(read_only, places.count - 1, &places.note, sizeof places.note);
  print_bytes("note", answer, places.note.text, places.note.text_length);
  answer = hongpilas_copy_note_text(read_only, places.count - 1, 1, places.buffer, BUFFER, &places.count);
  print_bytes("copy_note_text", answer, places.buffer, places.count);
  answer = hongpilas_copy_note_text(read_only, 0, 0, NULL, 0, &places.count);
  print_count("copy_note_text of nothing", answer, places.count);
  answer = hongpilas_send(session, view, SCI_GETTEXT, 0, 0, NULL, 0, &places.value);
  print_count("send, no text", answer, (size_t)places.value);
  places.value = 0;
  answer = hongpilas_value(read_only, &places.value);
  print_count("value", answer, (size_t)places.value);
  answer = hongpilas_text(read_only, &places.bytes, &places.count);
  print_bytes("text", answer, places.bytes, places.count);
  answer = hongpilas_copy_text(read_only, 7, places.buffer, BUFFER, &places.count);
  print_bytes("copy_text", answer, places.buffer, places.count);
  answer = hongpilas_copy_text(read_only, 0, NULL, 0, &places.count);
  print_count("copy_text of nothing", answer, places.count);
  answer = hongpilas_lend_range(session, view, 2, 4, &places.bytes);
  print_bytes("lend_range", answer, places.bytes, 4);
  answer = hongpilas_copy_range(session, view, 3, places.buffer, 5);
  print_bytes("copy_range", answer, places.buffer, 5);
  print_answer("copy_range of nothing", hongpilas_copy_range(session, view, 3, NULL, 0));
  try_longer_note();
  try_asking();
  answer = hongpilas_new_view(session, &places.view);
  print_count("new_view", answer, places.view);
  print_answer("close_view", hongpilas_close_view(session, places.view));
}

/* Each query has a name and its mark, and what is no message, or no notification, has neither. */
static void try_names(void) {
  for (size_t i = 0; i < question_count; i++) {
    const char *name = hongpilas_message_name(questions[i]);
    must(name != NULL && strncmp(name, "SCI_", 4) == 0, "a query has a name");
    must((hongpilas_message_marks(questions[i]) & HONGPILAS_MARK_Q) != 0, "and its mark");
  }
  must(strcmp(hongpilas_message_name(SCI_UNDO), "SCI_UNDO") == 0 && strcmp(hongpilas_note_name(SCN_MODIFIED), "SCN_MODIFIED") == 0,
       "names are those of Scintilla");
  must(hongpilas_message_name(9999) == NULL && hongpilas_message_marks(9999) == 0 && hongpilas_note_name(9999) == NULL, "what is not here has no name");
}

static void open_session(void) {
  static const char text[] = "hello,\nworld";
  must(hongpilas_new(&session) == HONGPILAS_DONE, "a session opens");
  must(hongpilas_new_view(session, &view) == HONGPILAS_DONE, "a view opens");
  must(hongpilas_send(session, view, SCI_INSERTTEXT, 0, 0, text, strlen(text), NULL) == HONGPILAS_DONE, "a text is there");
  must(hongpilas_send(session, view, SCI_MARKERADD, 1, 3, NULL, 0, NULL) == HONGPILAS_DONE, "a marker is there");
  must(hongpilas_send(session, view, SCI_SETSEL, 2, 5, NULL, 0, NULL) == HONGPILAS_DONE, "a selection is there");
}

int main(int count, char **words) {
  hongpilas_limits low = HONGPILAS_GREATEST_LIMITS;
  uint64_t before;

  for (int i = 1; i < count && i <= MOST_QUESTIONS; i++) questions[question_count++] = (uint32_t)strtoul(words[i], NULL, 10);
  must(question_count > 0, "there are questions");
  try_names();
  open_session();
  before = asked();
  try_null_session();
  try_all_null();
  try_null_places();
  for (size_t i = 0; i < sizeof past_the_addressable / sizeof *past_the_addressable; i++) try_length(past_the_addressable[i]);
  try_sizes();
  try_other_refusals();
  must(before == asked(), "the session answers as before");
  try_meant();

  hongpilas_free(session);
  low.views = 1;
  print_answer("new_with_limits", hongpilas_new_with_limits(&session, &low, sizeof low));
  print_answer("new_view", hongpilas_new_view(session, &places.view));
  print_answer("another", hongpilas_new_view(session, &places.view));
  hongpilas_free(session);
  return failures == 0 ? 0 : 1;
}

/* Opens a session, writes a text, reads it back in each way, and closes. */
#include <hongpilas.h>
#include <stdio.h>
#include <string.h>

static hongpilas_session *session;

/* Says what was answered; a refusal by its name. */
static void say(const char *what, hongpilas_answer answer, int64_t value) { printf("%s: %s, %lld\n", what, hongpilas_answer_name(answer), (long long)value); }

static void send(uint32_t view, const char *what, uint32_t number, int64_t w, int64_t l, const char *text) {
  int64_t value = 0;
  hongpilas_answer answer = hongpilas_send(session, view, number, w, l, text, text == NULL ? 0 : strlen(text), &value);
  say(what, answer, value);
}

/* Shows the notifications of the last reply. A query that is sent by hongpilas_ask leaves them where they are. */
static void show_notes(void) {
  hongpilas_note_data note;
  int64_t length = 0;
  for (size_t i = 0; hongpilas_note(session, i, &note, sizeof note) == HONGPILAS_DONE; i++) {
    hongpilas_answer asked = hongpilas_ask(session, note.view, SCI_GETLENGTH, 0, 0, &length);
    printf("  %s of view %u: kind %u, position %lld, length %lld, lines %lld, \"%.*s\"; the text has %lld bytes: %s\n", hongpilas_note_name(note.code),
           (unsigned)note.view, (unsigned)note.kind, (long long)note.position, (long long)note.length, (long long)note.lines, (int)note.text_length,
           note.text_length > 0 ? (const char *)note.text : "", (long long)length, hongpilas_answer_name(asked));
  }
}

/* Reads the last reply's text, the text of a query beside it, and bytes of the document, lent and copied. */
static void read_back(uint32_t view) {
  const uint8_t *bytes = NULL;
  uint8_t buffer[8];
  size_t length = 0, notes = 0;
  int64_t value = 0;

  send(view, "GETTEXT", SCI_GETTEXT, 0, 0, NULL);
  if (hongpilas_text(session, &bytes, &length) == HONGPILAS_DONE) printf("  lent %zu bytes: \"%.*s\"\n", length, (int)length, (const char *)bytes);
  if (hongpilas_copy_text(session, 7, buffer, sizeof buffer, &length) == HONGPILAS_DONE)
    printf("  copied %zu bytes: \"%.*s\"\n", length, (int)length, (const char *)buffer);
  if (hongpilas_read(session, view, SCI_GETLINE, 0, 0, &bytes, &length, NULL) == HONGPILAS_DONE)
    printf("  read %zu bytes beside it: \"%.*s\"\n", length, (int)length - 1, (const char *)bytes);
  if (hongpilas_value(session, &value) == HONGPILAS_DONE && hongpilas_note_count(session, &notes) == HONGPILAS_DONE)
    printf("  value %lld, %zu notifications\n", (long long)value, notes);

  if (hongpilas_lend_range(session, view, 3, 6, &bytes) == HONGPILAS_DONE) printf("lent range: \"%.*s\"\n", 6, (const char *)bytes);
  if (hongpilas_copy_range(session, view, 7, buffer, 5) == HONGPILAS_DONE) printf("copied range: \"%.*s\"\n", 5, (const char *)buffer);
}

/* What is refused says why, and changes nothing. */
static void try_refusals(uint32_t view) {
  const uint8_t *bytes;
  int64_t value = 0;

  say("range past the end", hongpilas_lend_range(session, view, 7, 6, &bytes), 0);
  send(view, "no such message", 9999, 0, 0, NULL);
  send(view + 1, "no such view", SCI_GETLENGTH, 0, 0, NULL);
  say("null text", hongpilas_send(session, view, SCI_INSERTTEXT, 0, 0, NULL, 1, NULL), 0);
  say("null session", hongpilas_send(NULL, view, SCI_UNDO, 0, 0, NULL, 0, NULL), 0);
  say("no query", hongpilas_ask(session, view, SCI_UNDO, 0, 0, &value), value);
}

/* Whether the profile has a message, and what it is marked. */
static void show_message(uint32_t number) {
  const char *name = hongpilas_message_name(number);
  uint32_t marks = hongpilas_message_marks(number);
  printf("message %u: %s%s%s\n", (unsigned)number, name == NULL ? "not here" : name, (marks & HONGPILAS_MARK_Q) != 0 ? ", a query" : "",
         (marks & HONGPILAS_MARK_E) != 0 ? ", edits the text" : "");
}

/* A session with lower limits. */
static bool try_limits(void) {
  hongpilas_limits low = HONGPILAS_GREATEST_LIMITS, none = HONGPILAS_GREATEST_LIMITS;
  uint32_t view = 0;

  low.doc_bytes = 10;
  none.doc_bytes = 0;
  say("a limit of 0", hongpilas_new_with_limits(&session, &none, sizeof none), 0);
  if (hongpilas_new_with_limits(&session, &low, sizeof low) != HONGPILAS_DONE) return false;
  if (hongpilas_new_view(session, &view) == HONGPILAS_DONE) {
    send(view, "eleven bytes where ten may be", SCI_INSERTTEXT, 0, 0, "hello world");
    send(view, "GETLENGTH", SCI_GETLENGTH, 0, 0, NULL);
  }
  hongpilas_free(session);
  return true;
}

int main(void) {
  uint8_t buffer[3];
  uint32_t view = 0;
  size_t length = 0, none = 0;
  hongpilas_answer copied;

  /* An addition raises the minor number, and is no reason to stop. */
  if (hongpilas_version() / 1000 != HONGPILAS_VERSION / 1000) return 1;
  if (hongpilas_new(&session) != HONGPILAS_DONE) return 1;
  hongpilas_answer opened = hongpilas_new_view(session, &view);
  say("view", opened, view);

  send(view, "INSERTTEXT", SCI_INSERTTEXT, 0, 0, "hello,\nworld");
  show_notes();
  if (hongpilas_copy_note_text(session, 2, 3, buffer, sizeof buffer, &length) == HONGPILAS_DONE)
    printf("  copied %zu bytes of notification 2: \"%.*s\"\n", length, (int)length, (const char *)buffer);
  copied = hongpilas_copy_note_text(session, 3, 0, buffer, sizeof buffer, &none);
  say("  of notification 3", copied, (int64_t)none);
  send(view, "GETLENGTH", SCI_GETLENGTH, 0, 0, NULL);
  send(view, "LINEFROMPOSITION", SCI_LINEFROMPOSITION, 9, 0, NULL);
  read_back(view);
  try_refusals(view);
  show_message(SCI_GETLENGTH);
  show_message(SCI_CONVERTEOLS);
  show_message(2600);
  say("close", hongpilas_close_view(session, view), 0);
  say("close again", hongpilas_close_view(session, view), 0);
  hongpilas_free(session);

  return try_limits() ? 0 : 1;
}

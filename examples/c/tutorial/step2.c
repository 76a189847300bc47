/* An editor in six steps, step 2: types, and draws what changed. step2 FILE, and orders on standard input. */
#include <hongpilas.h>
#include <stdio.h>
#include <stdlib.h>
#include <string.h>

enum { ROWS = 6 };

static hongpilas_session *session;
static uint32_t view;
static int64_t top; /* the line in the window's first row */
static bool is_modified;

/* What is to be drawn again: the lines of the bytes from `from` to `to`, and all lines below, if lines came or went. */
static struct {
  int64_t from, to;
  bool is_below;
} stale = {0, 0, true};

static int64_t least(int64_t a, int64_t b) { return a < b ? a : b; }
static int64_t greatest(int64_t a, int64_t b) { return a > b ? a : b; }

/* A refused call has changed nothing: an editor says why, and goes on. These programs end. */
static void must(hongpilas_answer answer) {
  if (answer == HONGPILAS_DONE) return;
  fprintf(stderr, "refused: %s\n", hongpilas_answer_name(answer));
  exit(1);
}

/* The same of a file. */
static void must_file(bool is_done, const char *name) {
  if (is_done) return;
  perror(name);
  exit(1);
}

/* Asks a query. */
static int64_t ask(uint32_t number, int64_t w) {
  int64_t value = 0;
  must(hongpilas_ask(session, view, number, w, 0, &value));
  return value;
}

/* Takes up a change of a range. A message may make several steps: what is stale already moves with each of them. */
static void mark_stale(const hongpilas_note_data *note) {
  bool is_insertion = (note->kind & SC_MOD_INSERTTEXT) != 0, is_deletion = (note->kind & SC_MOD_DELETETEXT) != 0;
  if (stale.to > note->position) stale.to += is_insertion ? note->length : is_deletion ? -note->length : 0;
  stale.from = least(stale.from, note->position);
  stale.to = greatest(stale.to, note->position + (is_deletion ? 0 : note->length));
  stale.is_below |= note->lines != 0;
}

/* Reads the notifications of the last reply. */
static void read_notes(void) {
  hongpilas_note_data note;
  for (size_t i = 0; hongpilas_note(session, i, &note, sizeof note) == HONGPILAS_DONE; i++) {
    if (note.code == SCN_SAVEPOINTLEFT) is_modified = true;
    if (note.code == SCN_SAVEPOINTREACHED) is_modified = false;
    if (note.code == SCN_MODIFIED) mark_stale(&note);
  }
}

/* Sends a message, and reads its notifications. */
static int64_t send_text(uint32_t number, int64_t w, int64_t l, const char *text, size_t length) {
  int64_t value = 0;
  must(hongpilas_send(session, view, number, w, l, text, length, &value));
  read_notes();
  return value;
}

static int64_t send(uint32_t number, int64_t w, int64_t l) { return send_text(number, w, l, NULL, 0); }

/* Appends a file to the document, part by part. Nobody can undo it, and it counts as saved. */
static void open_file(const char *name) {
  char part[4096];
  FILE *file = fopen(name, "rb");
  must_file(file != NULL, name);
  send(SCI_SETUNDOCOLLECTION, false, 0);
  for (size_t count; (count = fread(part, 1, sizeof part, file)) > 0;) send_text(SCI_APPENDTEXT, (int64_t)count, 0, part, count);
  must_file(ferror(file) == 0, name);
  send(SCI_SETUNDOCOLLECTION, true, 0);
  send(SCI_SETSAVEPOINT, 0, 0);
  fclose(file);
}

/* Draws a line: its number, and its bytes where they lie in the component. */
static void draw_line(int64_t line) {
  const uint8_t *bytes = NULL;
  int64_t start = ask(SCI_POSITIONFROMLINE, line), length = ask(SCI_GETLINEENDPOSITION, line) - start;
  must(hongpilas_lend_range(session, view, (size_t)start, (size_t)length, &bytes));
  printf("%2lld  ", (long long)line + 1);
  fwrite(bytes, 1, (size_t)length, stdout);
  putchar('\n');
}

static void draw_caret(void) {
  int64_t caret = ask(SCI_GETCURRENTPOS, 0), line = ask(SCI_LINEFROMPOSITION, caret);
  printf("-- line %lld, byte %lld%s\n", (long long)line + 1, (long long)(caret - ask(SCI_POSITIONFROMLINE, line)), is_modified ? ", changed" : "");
}

/* Draws the rows of the window that are stale, and where the caret is. */
static void draw(void) {
  int64_t lines = ask(SCI_GETLINECOUNT, 0), first = ask(SCI_LINEFROMPOSITION, stale.from);
  int64_t last = stale.is_below ? lines : ask(SCI_LINEFROMPOSITION, stale.to);
  for (int64_t line = top; line < top + ROWS && line < lines; line++)
    if (first <= line && line <= last) draw_line(line);
  stale.from = INT64_MAX;
  stale.to = -1;
  stale.is_below = false;
  draw_caret();
}

/* Has all lines from a position on drawn again. */
static void draw_from(int64_t position) {
  stale.from = least(stale.from, position);
  stale.to = greatest(stale.to, position);
  stale.is_below = true;
}

static void scroll(int64_t line) {
  top = line;
  draw_from(0);
}

static void type(const char *text) { send_text(SCI_REPLACESEL, 0, 0, text, strlen(text)); }

static bool is(const char *name, const char *wanted) { return strcmp(name, wanted) == 0; }

/* Runs an order, as a key or a menu would: its name, and what stands behind it. */
static void run(const char *name, const char *rest) {
  int64_t line = strtoll(rest, NULL, 10) - 1;
  if (is(name, "top") && line >= 0) scroll(line);
  if (is(name, "line")) send(SCI_GOTOLINE, line, 0);
  if (is(name, "end")) send(SCI_LINEEND, 0, 0);
  if (is(name, "type")) type(rest);
  if (is(name, "return")) send(SCI_NEWLINE, 0, 0);
}

int main(int argument_count, char **arguments) {
  char order[256];
  if (argument_count != 2) {
    fprintf(stderr, "name one file; orders come on standard input, and Ctrl-D ends them\n");
    return 2;
  }
  must(hongpilas_new(&session));
  must(hongpilas_new_view(session, &view));
  send(SCI_SETMODEVENTMASK, SC_MOD_INSERTTEXT | SC_MOD_DELETETEXT, 0);
  open_file(arguments[1]);
  draw();
  while (fgets(order, sizeof order, stdin) != NULL) {
    printf("> %s", order);
    order[strcspn(order, "\n")] = '\0';
    char *rest = order + strcspn(order, " ");
    if (*rest != '\0') *rest++ = '\0';
    run(order, rest);
    draw();
  }
  hongpilas_free(session);
  return 0;
}

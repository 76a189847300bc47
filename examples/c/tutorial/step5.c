/* An editor in six steps, step 5: bookmarks, and folds by indentation. step5 FILE, and orders on standard input. */
#include <hongpilas.h>
#include <pthread.h>
#include <stdio.h>
#include <stdlib.h>
#include <string.h>

enum { ROWS = 6, BOOKMARK = 1, DEEPEST = 1000 };

static hongpilas_session *session;
static uint32_t view;
static int64_t top; /* the display line in the window's first row */
static bool is_modified;

/* What is to be drawn again: the lines of the bytes from `from` to `to`, and all lines below, if lines came or went. */
static struct {
  int64_t from, to;
  bool is_below;
} stale = {0, 0, true};

static int64_t least(int64_t a, int64_t b) { return a < b ? a : b; }
static int64_t greatest(int64_t a, int64_t b) { return a > b ? a : b; }

/* A refused call has changed nothing: an editor says why, and goes on. These programs end. */
static void must(hongpilas_answer answer) {
  if (answer == HONGPILAS_DONE) return;
  fprintf(stderr, "refused: %s\n", hongpilas_answer_name(answer));
  exit(1);
}

/* The same of a file. */
static void must_file(bool is_done, const char *name) {
  if (is_done) return;
  perror(name);
  exit(1);
}

/* Asks a query. */
static int64_t ask(uint32_t number, int64_t w) {
  int64_t value = 0;
  must(hongpilas_ask(session, view, number, w, 0, &value));
  return value;
}

/* Takes up a change of a range. A message may make several steps: what is stale already moves with each of them. */
static void mark_stale(const hongpilas_note_data *note) {
  bool is_insertion = (note->kind & SC_MOD_INSERTTEXT) != 0, is_deletion = (note->kind & SC_MOD_DELETETEXT) != 0;
  if (stale.to > note->position) stale.to += is_insertion ? note->length : is_deletion ? -note->length : 0;
  stale.from = least(stale.from, note->position);
  stale.to = greatest(stale.to, note->position + (is_deletion ? 0 : note->length));
  stale.is_below |= note->lines != 0;
}

/* Reads the notifications of the last reply. */
static void read_notes(void) {
  hongpilas_note_data note;
  for (size_t i = 0; hongpilas_note(session, i, &note, sizeof note) == HONGPILAS_DONE; i++) {
    if (note.code == SCN_SAVEPOINTLEFT) is_modified = true;
    if (note.code == SCN_SAVEPOINTREACHED) is_modified = false;
    if (note.code == SCN_MODIFIED) mark_stale(&note);
  }
}

/* Sends a message, and reads its notifications. */
static int64_t send_text(uint32_t number, int64_t w, int64_t l, const char *text, size_t length) {
  int64_t value = 0;
  must(hongpilas_send(session, view, number, w, l, text, length, &value));
  read_notes();
  return value;
}

static int64_t send(uint32_t number, int64_t w, int64_t l) { return send_text(number, w, l, NULL, 0); }

/* Appends a file to the document, part by part. Nobody can undo it, and it counts as saved. */
static void open_file(const char *name) {
  char part[4096];
  FILE *file = fopen(name, "rb");
  must_file(file != NULL, name);
  send(SCI_SETUNDOCOLLECTION, false, 0);
  for (size_t count; (count = fread(part, 1, sizeof part, file)) > 0;) send_text(SCI_APPENDTEXT, (int64_t)count, 0, part, count);
  must_file(ferror(file) == 0, name);
  send(SCI_SETUNDOCOLLECTION, true, 0);
  send(SCI_SETSAVEPOINT, 0, 0);
  fclose(file);
}

/* Writes the text, which the component lends in one piece. */
static void save(const char *name) {
  const uint8_t *bytes = NULL;
  size_t length = (size_t)ask(SCI_GETLENGTH, 0);
  must(hongpilas_lend_range(session, view, 0, length, &bytes));
  FILE *file = fopen(name, "wb");
  must_file(file != NULL && fwrite(bytes, 1, length, file) == length && fclose(file) == 0, name);
  send(SCI_SETSAVEPOINT, 0, 0);
}

/* How many blanks a line begins with, or -1 if there is nothing else. */
static int64_t indentation(int64_t line) {
  int64_t start = ask(SCI_POSITIONFROMLINE, line), end = ask(SCI_GETLINEENDPOSITION, line), at = start;
  while (at < end && ask(SCI_GETCHARAT, at) == ' ') at++;
  return at == end ? -1 : least(at - start, DEEPEST);
}

/* Sets the fold levels of lines that changed, and of those above up to one with text: a line is a header if the next one is deeper. Returns the
 * first line that is to be drawn again. */
static int64_t set_levels(int64_t first, int64_t last) {
  int64_t drawn = first, next = ask(SCI_GETFOLDLEVEL, last + 1) & SC_FOLDLEVELNUMBERMASK;
  for (int64_t line = last, blanks = -1; line >= 0 && (line >= first - 1 || blanks < 0); line--) {
    blanks = indentation(line);
    int64_t number = blanks < 0 ? next : SC_FOLDLEVELBASE + blanks;
    int64_t level = number | (blanks < 0 ? SC_FOLDLEVELWHITEFLAG : next > number ? SC_FOLDLEVELHEADERFLAG : 0);
    if (level != ask(SCI_GETFOLDLEVEL, line)) {
      send(SCI_SETFOLDLEVEL, line, level);
      drawn = least(drawn, line);
    }
    next = number;
  }
  return drawn;
}

static bool is_marked(int64_t line) { return (ask(SCI_MARKERGET, line) >> BOOKMARK & 1) != 0; }
static bool is_header(int64_t line) { return (ask(SCI_GETFOLDLEVEL, line) & SC_FOLDLEVELHEADERFLAG) != 0; }

/* Draws a line: a bookmark, its number, a fold's sign, and its bytes where they lie in the component. */
static void draw_line(int64_t line) {
  const uint8_t *bytes = NULL;
  int64_t start = ask(SCI_POSITIONFROMLINE, line), length = ask(SCI_GETLINEENDPOSITION, line) - start;
  must(hongpilas_lend_range(session, view, (size_t)start, (size_t)length, &bytes));
  printf("%c%2lld%c ", is_marked(line) ? '*' : ' ', (long long)line + 1, !is_header(line) ? ' ' : ask(SCI_GETFOLDEXPANDED, line) ? '-' : '+');
  fwrite(bytes, 1, (size_t)length, stdout);
  putchar('\n');
}

static void draw_caret(void) {
  int64_t caret = ask(SCI_GETCURRENTPOS, 0), line = ask(SCI_LINEFROMPOSITION, caret);
  printf("-- line %lld, byte %lld%s\n", (long long)line + 1, (long long)(caret - ask(SCI_POSITIONFROMLINE, line)), is_modified ? ", changed" : "");
}

/* Draws the rows of the window that are stale, and where the caret is. */
static void draw(void) {
  int64_t lines = ask(SCI_GETLINECOUNT, 0), first = ask(SCI_LINEFROMPOSITION, stale.from);
  int64_t last = stale.is_below ? lines : ask(SCI_LINEFROMPOSITION, stale.to);
  if (stale.from <= stale.to) first = set_levels(first, ask(SCI_LINEFROMPOSITION, stale.to));
  for (int64_t row = top; row < top + ROWS; row++) {
    int64_t line = ask(SCI_DOCLINEFROMVISIBLE, row);
    if (first <= line && line <= last && line < lines) draw_line(line);
  }
  stale.from = INT64_MAX;
  stale.to = -1;
  stale.is_below = false;
  draw_caret();
}

/* Has all lines from a position on drawn again. */
static void draw_from(int64_t position) {
  stale.from = least(stale.from, position);
  stale.to = greatest(stale.to, position);
  stale.is_below = true;
}

static void scroll(int64_t line) {
  top = line;
  draw_from(0);
}

static void type(const char *text) { send_text(SCI_REPLACESEL, 0, 0, text, strlen(text)); }

/* A line end, and the blanks with which the line begins: a group, so that one undo takes all of it back. */
static void new_line(void) {
  int64_t caret = ask(SCI_GETCURRENTPOS, 0), at = ask(SCI_POSITIONFROMLINE, ask(SCI_LINEFROMPOSITION, caret));
  send(SCI_BEGINUNDOACTION, 0, 0);
  send(SCI_NEWLINE, 0, 0);
  for (; at < caret && ask(SCI_GETCHARAT, at) == ' '; at++) type(" ");
  send(SCI_ENDUNDOACTION, 0, 0);
}

static int64_t search(const char *needle) { return send_text(SCI_SEARCHINTARGET, (int64_t)strlen(needle), 0, needle, strlen(needle)); }

/* Selects the next match behind the selection. */
static void find_next(const char *needle) {
  send(SCI_SETTARGETRANGE, ask(SCI_GETSELECTIONEND, 0), ask(SCI_GETLENGTH, 0));
  int64_t found = search(needle);
  if (found >= 0) send(SCI_SETSEL, found, ask(SCI_GETTARGETEND, 0));
  else printf("not found\n");
}

/* Replaces each match. What was found, and then what is put in, becomes the target. */
static void replace_all(const char *needle, const char *by) {
  if (needle[0] == '\0') return; /* an empty text is found everywhere, without an end */
  send(SCI_BEGINUNDOACTION, 0, 0);
  send(SCI_TARGETWHOLEDOCUMENT, 0, 0);
  while (search(needle) >= 0) {
    send_text(SCI_REPLACETARGET, (int64_t)strlen(by), 0, by, strlen(by));
    send(SCI_SETTARGETRANGE, ask(SCI_GETTARGETEND, 0), ask(SCI_GETLENGTH, 0));
  }
  send(SCI_ENDUNDOACTION, 0, 0);
}

/* A copy of the text, and the thread that counts the words of it. */
static struct {
  pthread_t thread;
  char *bytes;
  size_t length, words;
  bool is_running;
} copy;

static bool is_blank(char byte) { return byte == ' ' || byte == '\n'; }

/* What the thread does: it has the copy to itself, and makes no call on the session. */
static void *count_words(void *unused) {
  copy.words = 0;
  for (size_t i = 0; i < copy.length; i++) copy.words += !is_blank(copy.bytes[i]) && (i == 0 || is_blank(copy.bytes[i - 1]));
  return unused;
}

/* Waits for the thread, if there is one, and says what it counted. */
static void end_count(void) {
  if (copy.is_running && pthread_join(copy.thread, NULL) == 0) printf("%zu words were copied\n", copy.words);
  copy.is_running = false;
  free(copy.bytes);
  copy.bytes = NULL;
}

static void start_count(void) {
  end_count();
  copy.length = (size_t)ask(SCI_GETLENGTH, 0);
  copy.bytes = malloc(copy.length + 1);
  if (copy.bytes == NULL) return;
  must(hongpilas_copy_range(session, view, 0, copy.bytes, copy.length));
  copy.is_running = pthread_create(&copy.thread, NULL, count_words, NULL) == 0;
}

static int64_t caret_line(void) { return ask(SCI_LINEFROMPOSITION, ask(SCI_GETCURRENTPOS, 0)); }

static void next_bookmark(void) {
  int64_t line = send(SCI_MARKERNEXT, caret_line() + 1, 1 << BOOKMARK);
  if (line >= 0) send(SCI_GOTOLINE, line, 0);
}

/* Contracts or expands. What a view hides concerns that view alone, and sends no notification. */
static void fold(int64_t line) {
  send(SCI_FOLDLINE, line, SC_FOLDACTION_TOGGLE);
  draw_from(ask(SCI_POSITIONFROMLINE, line));
}

static bool is(const char *name, const char *wanted) { return strcmp(name, wanted) == 0; }

/* Runs an order, as a key or a menu would: its name, and what stands behind it. */
static void run(const char *name, const char *rest) {
  int64_t line = strtoll(rest, NULL, 10) - 1;
  if (is(name, "top") && line >= 0) scroll(line);
  if (is(name, "line")) send(SCI_GOTOLINE, line, 0);
  if (is(name, "end")) send(SCI_LINEEND, 0, 0);
  if (is(name, "type")) type(rest);
  if (is(name, "return")) new_line();
  if (is(name, "undo")) send(SCI_UNDO, 0, 0);
  if (is(name, "redo")) send(SCI_REDO, 0, 0);
  if (is(name, "save")) save(rest);
  if (is(name, "find")) find_next(rest);
  if (is(name, "mark")) send(is_marked(caret_line()) ? SCI_MARKERDELETE : SCI_MARKERADD, caret_line(), BOOKMARK);
  if (is(name, "next")) next_bookmark();
  if (is(name, "fold")) fold(caret_line());
  if (is(name, "count")) start_count();
  if (is(name, "counted")) end_count();
  char needle[64], by[64];
  if (is(name, "replace") && sscanf(rest, "%63s %63s", needle, by) == 2) replace_all(needle, by);
}

int main(int argument_count, char **arguments) {
  char order[256];
  if (argument_count != 2) {
    fprintf(stderr, "name one file; orders come on standard input, and Ctrl-D ends them\n");
    return 2;
  }
  must(hongpilas_new(&session));
  must(hongpilas_new_view(session, &view));
  send(SCI_SETMODEVENTMASK, SC_MOD_INSERTTEXT | SC_MOD_DELETETEXT | SC_MOD_CHANGEMARKER, 0);
  send(SCI_SETSEARCHFLAGS, SCFIND_MATCHCASE | SCFIND_WHOLEWORD, 0);
  open_file(arguments[1]);
  draw();
  while (fgets(order, sizeof order, stdin) != NULL) {
    printf("> %s", order);
    order[strcspn(order, "\n")] = '\0';
    char *rest = order + strcspn(order, " ");
    if (*rest != '\0') *rest++ = '\0';
    run(order, rest);
    draw();
  }
  end_count();
  hongpilas_free(session);
  return 0;
}

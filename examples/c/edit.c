/* A small terminal editor: edit [FILE]. F1 shows its keys. It keeps no text of its own: all that it shows it asks of the component.
 * Each character is taken to be one column wide. */
#define _DEFAULT_SOURCE
#include <hongpilas.h>

#include <errno.h>
#include <fcntl.h>
#include <limits.h>
#include <stdio.h>
#include <stdlib.h>
#include <string.h>
#include <sys/stat.h>
#include <unistd.h>

#include "terminal.h"

enum { TAB_COLUMNS = 4, MARGIN = 8, BOOKMARK = 1, DEEPEST = 1000 };

/* A view, and what part of it is shown. */
typedef struct pane {
  uint32_t view;
  int64_t top;  /* the display line in the first row */
  int64_t left; /* the text's column in the first column */
} pane;

static hongpilas_session *session;
static pane panes[2], bottom; /* bottom is the last row, whose text has a view of its own */
static int pane_count = 1, active = 0;
static int64_t goal = -1, goal_before = -1; /* the column that moves by rows keep to, of this key and the one before; or -1 */
static char file_name[4096], needle[256], notice[256];
static bool is_over;

/* What the notes said. The bytes from `from` to `to` changed since their fold levels were set. */
static struct {
  bool is_modified;
  int64_t lines, position, from, to;
} known = {false, 1, 0, INT64_MAX, -1};

#define say(...) snprintf(notice, sizeof notice, __VA_ARGS__)

/* ---- The component ---- */

static void add_change(const hongpilas_note_data *note) {
  bool is_deletion = (note->kind & SC_MOD_DELETETEXT) != 0;
  known.lines += note->lines;
  known.position = note->position;
  known.from = least(known.from, note->position);
  known.to = is_deletion ? greatest(known.to - note->length, note->position) : greatest(known.to, note->position) + note->length;
}

/* Reads the notifications of the last reply, as far as they are the first view's: each view of the document is notified of the same. */
static void read_notes(void) {
  hongpilas_note_data note;
  for (size_t i = 0; hongpilas_note(session, i, &note, sizeof note) == HONGPILAS_DONE; i++) {
    if (note.view != panes[0].view) continue;
    if (note.code == SCN_SAVEPOINTLEFT) known.is_modified = true;
    if (note.code == SCN_SAVEPOINTREACHED) known.is_modified = false;
    if (note.code == SCN_MODIFIED && (note.kind & (SC_MOD_INSERTTEXT | SC_MOD_DELETETEXT))) add_change(&note);
  }
}

/* Whether a call was done; the notice is why it was not. */
static bool is_done(hongpilas_answer answer) {
  if (answer != HONGPILAS_DONE) say("Refused: %s", hongpilas_answer_name(answer));
  return answer == HONGPILAS_DONE;
}

static int64_t send_text(const pane *to, uint32_t number, int64_t w, int64_t l, const void *text, size_t length) {
  int64_t value = 0;
  if (!is_done(hongpilas_send(session, to->view, number, w, l, text, length, &value))) return 0;
  read_notes();
  return value;
}

/* A query, of any view. */
static int64_t ask_of(const pane *p, uint32_t number, int64_t w) {
  int64_t value = 0;
  return hongpilas_ask(session, p->view, number, w, 0, &value) == HONGPILAS_DONE ? value : 0;
}

/* A query, and a command, of the active view. */
static int64_t ask(uint32_t number, int64_t w) { return ask_of(&panes[active], number, w); }
static int64_t command(uint32_t number, int64_t w, int64_t l) { return send_text(&panes[active], number, w, l, NULL, 0); }

static int64_t line_at(const pane *p, int64_t position) { return ask_of(p, SCI_LINEFROMPOSITION, position); }
static int64_t start_of(const pane *p, int64_t line) { return ask_of(p, SCI_POSITIONFROMLINE, line); }
static int64_t end_of(const pane *p, int64_t line) { return ask_of(p, SCI_GETLINEENDPOSITION, line); }
static int64_t caret_line(void) { return line_at(&panes[active], ask(SCI_GETCURRENTPOS, 0)); }
static int64_t last_row(const pane *p) { return ask_of(p, SCI_VISIBLEFROMDOCLINE, ask_of(p, SCI_GETLINECOUNT, 0) - 1); }

/* Goes past characters, of which the first begins at this column, up to `end`, or to one that would end behind the column `most`. ASCII is read
 * where it lies, since a line may be long. Where another character ends the component is asked, and then lends the bytes behind it. */
static int64_t pass(const pane *p, int64_t at, int64_t end, int64_t most, int64_t *column) {
  const uint8_t *byte = NULL;
  for (int64_t next; at < end; *column = next) {
    if (byte == NULL && hongpilas_lend_range(session, p->view, (size_t)at, (size_t)(end - at), &byte) != HONGPILAS_DONE) break;
    next = *byte == '\t' ? (*column / TAB_COLUMNS + 1) * TAB_COLUMNS : *column + 1;
    if (next > most) break;
    bool is_ascii = *byte < 0x80;
    at = is_ascii ? at + 1 : ask_of(p, SCI_POSITIONAFTER, at);
    byte = is_ascii ? byte + 1 : NULL;
  }
  return at;
}

static int64_t column_of(const pane *p, int64_t position) {
  int64_t column = 0;
  pass(p, start_of(p, line_at(p, position)), position, INT64_MAX, &column);
  return column;
}

static int64_t position_in(const pane *p, int64_t line, int64_t column) {
  int64_t behind = 0;
  return pass(p, start_of(p, line), end_of(p, line), column, &behind);
}

static bool is_blank(const pane *p, int64_t position) {
  int64_t byte = ask_of(p, SCI_GETCHARAT, position);
  return byte == ' ' || byte == '\t';
}

/* The column where a line's text begins, or -1 if it has none. */
static int64_t indentation(const pane *p, int64_t line) {
  int64_t at = start_of(p, line), column = 0;
  while (is_blank(p, at)) at = pass(p, at, at + 1, INT64_MAX, &column);
  return at == end_of(p, line) ? -1 : least(column, DEEPEST);
}

/* ---- Folding by indentation ---- */

/* What is no header is expanded in each view, so that none is contracted where it becomes one. */
static void set_level(int64_t line, int64_t level) {
  if (ask(SCI_GETFOLDLEVEL, line) == level) return;
  command(SCI_SETFOLDLEVEL, line, level);
  for (int i = 0; i < pane_count && !(level & SC_FOLDLEVELHEADERFLAG); i++) send_text(&panes[i], SCI_SETFOLDEXPANDED, line, true, NULL, 0);
}

/* In each view, hidden are the lines that have a contracted header above them, and no others. Makes it so again from a line on, after levels
 * or lines changed up to `last`; behind that all is well from the first line on that is visible and stays so. */
static void hide_and_show(const pane *p, int64_t line, int64_t last) {
  int64_t above = -1; /* the number of the outermost contracted header above, or -1 */
  for (int64_t up = ask_of(p, SCI_GETFOLDPARENT, line); up >= 0; up = ask_of(p, SCI_GETFOLDPARENT, up))
    if (!ask_of(p, SCI_GETFOLDEXPANDED, up)) above = ask_of(p, SCI_GETFOLDLEVEL, up) & SC_FOLDLEVELNUMBERMASK;
  for (; line < known.lines; line++) {
    int64_t number = ask_of(p, SCI_GETFOLDLEVEL, line) & SC_FOLDLEVELNUMBERMASK;
    bool is_visible = number <= above || above < 0;
    if (is_visible != (ask_of(p, SCI_GETLINEVISIBLE, line) != 0)) send_text(p, is_visible ? SCI_SHOWLINES : SCI_HIDELINES, line, line, NULL, 0);
    else if (is_visible && line > last) return;
    if (is_visible) above = ask_of(p, SCI_GETFOLDEXPANDED, line) ? -1 : number;
  }
}

/* Levels of the lines that changed, and of those before them up to a line with text. A line without text has the level of the next one with text. */
static void set_levels(void) {
  const pane *p = &panes[active];
  if (known.from > known.to) return;
  int64_t first = line_at(p, known.from), last = line_at(p, known.to);
  while (first > 0 && indentation(p, --first) < 0) continue;
  int64_t next = -1;
  for (int64_t line = last + 1; line < known.lines && next < 0; line++) next = indentation(p, line);
  next = greatest(next, 0);
  for (int64_t line = last; line >= first; line--) {
    int64_t own = indentation(p, line);
    int64_t flags = own < 0 ? SC_FOLDLEVELWHITEFLAG : next > own ? SC_FOLDLEVELHEADERFLAG : 0;
    if (own >= 0) next = own;
    set_level(line, (SC_FOLDLEVELBASE + next) | flags);
  }
  for (int i = 0; i < pane_count; i++) hide_and_show(&panes[i], first, last);
  known.from = INT64_MAX;
  known.to = -1;
}

/* Brings the caret out of what was hidden, to the header that hides it. */
static void leave_hidden(void) {
  int64_t line = caret_line();
  if (ask(SCI_GETLINEVISIBLE, line)) return;
  while (line >= 0 && !ask(SCI_GETLINEVISIBLE, line)) line = ask(SCI_GETFOLDPARENT, line);
  command(SCI_GOTOLINE, greatest(line, 0), 0);
}

static void fold(int64_t action) {
  command(SCI_FOLDLINE, caret_line(), action);
  leave_hidden();
}

/* Contracts every header, or expands every one if some line is hidden. */
static void fold_all(int64_t none) {
  int64_t action = ask(SCI_GETALLLINESVISIBLE, none) ? SC_FOLDACTION_CONTRACT : SC_FOLDACTION_EXPAND;
  for (int64_t line = 0; line < known.lines; line++)
    if (ask(SCI_GETFOLDLEVEL, line) & SC_FOLDLEVELHEADERFLAG) command(SCI_FOLDLINE, line, action);
  leave_hidden();
}

/* ---- The screen ---- */

/* A line's text from the pane's first column on, with what is selected in reverse. */
static void draw_text(const pane *p, int64_t line, int64_t width) {
  int64_t from = ask_of(p, SCI_GETSELECTIONSTART, 0), to = ask_of(p, SCI_GETSELECTIONEND, 0);
  int64_t line_end = end_of(p, line), column = 0, shown = p->left, end = p->left + width;
  int64_t position = pass(p, start_of(p, line), line_end, p->left, &column);
  bool is_reverse = false;
  const uint8_t *bytes;
  while (position < line_end && column < end) {
    int64_t behind = pass(p, position, position + 1, INT64_MAX, &column);
    size_t count = (size_t)(behind - position);
    bool is_selected = from <= position && position < to;
    if (hongpilas_lend_range(session, p->view, (size_t)position, count, &bytes) != HONGPILAS_DONE) break;
    if (is_selected != is_reverse) fputs(is_selected ? "\x1b[7m" : "\x1b[27m", stdout);
    is_reverse = is_selected;
    draw_character(bytes, count, least(column, end) - shown);
    shown = least(column, end);
    position = behind;
  }
  if (is_reverse) fputs("\x1b[27m", stdout);
}

/* A line with its margin: a bookmark, its number, and whether it is a header, contracted or not. */
static void draw_line(const pane *p, int64_t line, int64_t width) {
  bool is_marked = (ask_of(p, SCI_MARKERGET, line) >> BOOKMARK & 1) != 0;
  bool is_header = (ask_of(p, SCI_GETFOLDLEVEL, line) & SC_FOLDLEVELHEADERFLAG) != 0;
  char sign = !is_header ? ' ' : ask_of(p, SCI_GETFOLDEXPANDED, line) ? '-' : '+';
  printf("%c%5lld%c ", is_marked ? '*' : ' ', (long long)(line + 1) % 100000, sign);
  draw_text(p, line, width - MARGIN);
}

static void draw_pane(pane *p, int first_column, int64_t width) {
  int64_t last = last_row(p);
  p->top = least(p->top, last);
  for (int row = 0; row < rows - 1; row++) {
    printf("\x1b[%d;%dH\x1b[K", row + 1, first_column + 1);
    if (p->top + row <= last) draw_line(p, ask_of(p, SCI_DOCLINEFROMVISIBLE, p->top + row), width);
    else putchar('~');
  }
}

/* Shows a text in the last row: of one that is longer, the beginning in reverse or the end as it is. */
static void draw_bottom(const char *text, bool is_reverse) {
  int64_t length = (int64_t)strlen(text), width = columns - 1;
  send_text(&bottom, SCI_SETTEXT, 0, 0, text, strlen(text));
  send_text(&bottom, SCI_SETSEL, 0, is_reverse ? length : 0, NULL, 0);
  bottom.left = is_reverse ? 0 : greatest(0, column_of(&bottom, length) - width);
  printf("\x1b[%d;1H\x1b[K", rows);
  draw_text(&bottom, 0, width);
}

static void draw_status(int64_t line, int64_t column) {
  char text[sizeof file_name + 1024];
  const char *name = file_name + greatest(0, (int64_t)strlen(file_name) - columns / 3);
  while ((*name & 0xC0) == 0x80) name++;
  snprintf(text, sizeof text, "%s%s%s%s  line %lld of %lld, column %lld, last change at %lld%*s", notice, notice[0] == '\0' ? "" : "  ",
           *name == '\0' ? "no name" : name, known.is_modified ? ", changed" : "", (long long)line + 1, (long long)known.lines, (long long)column + 1,
           (long long)known.position, columns, "");
  draw_bottom(text, true);
}

static void draw(void) {
  if (is_resized) take_size();
  pane *p = &panes[active];
  int64_t width = pane_count == 1 ? columns : columns / 2 - 1, line = caret_line();
  int64_t caret = ask(SCI_GETCURRENTPOS, 0), column = column_of(p, caret);
  command(SCI_ENSUREVISIBLE, line, 0);
  int64_t row = ask(SCI_VISIBLEFROMDOCLINE, line);
  p->top = greatest(least(p->top, row), row - (rows - 2));
  p->left = greatest(least(p->left, column), column - (width - MARGIN - 1));
  fputs("\x1b[?25l", stdout);
  for (int i = 0; i < pane_count; i++) draw_pane(&panes[i], i * (int)(width + 2), width);
  for (int i = 1; pane_count == 2 && i < rows; i++) printf("\x1b[%d;%dH||", i, (int)width + 1);
  draw_status(line, column);
  printf("\x1b[%d;%dH\x1b[?25h", (int)(row - p->top) + 1, (int)(column - p->left) + MARGIN + 1 + active * (int)(width + 2));
}

/* ---- Questions ---- */

/* Asks in the last row. False where Escape leaves it. */
static bool prompt(const char *question, char *answer, size_t room) {
  char text[sizeof file_name + 64];
  for (;;) {
    if (is_resized) draw();
    snprintf(text, sizeof text, "%s%s", question, answer);
    draw_bottom(text, false);
    if (!read_key() || is_key("^[")) return false;
    if (is_key("^M")) return true;
    int64_t asked = (int64_t)strlen(question), end = asked + (int64_t)strlen(answer);
    if (is_key("^?") || is_key("^H")) answer[greatest(0, ask_of(&bottom, SCI_POSITIONBEFORE, end) - asked)] = '\0';
    if (is_text() && strlen(answer) + strlen(key) < room) strcat(answer, key);
  }
}

/* ---- Views ---- */

/* Puts a view on the active one's document. False where that is refused. */
static bool attach(const pane *p) {
  int64_t document = ask(SCI_GETDOCPOINTER, 0);
  send_text(p, SCI_SETDOCPOINTER, 0, document, NULL, 0);
  return ask_of(p, SCI_GETDOCPOINTER, 0) == document;
}

static void close_other_view(void) {
  is_done(hongpilas_close_view(session, panes[1 - active].view));
  panes[0] = panes[active];
  active = 0;
  pane_count = 1;
}

/* A second view of the document beside the first, or the active one alone. */
static void split(int64_t none) {
  if (pane_count == 2) {
    close_other_view();
    return;
  }
  int64_t caret = ask(SCI_GETCURRENTPOS, none);
  panes[1] = panes[0];
  if (!is_done(hongpilas_new_view(session, &panes[1].view))) return;
  pane_count = 2;
  if (attach(&panes[1])) send_text(&panes[1], SCI_GOTOPOS, caret, 0, NULL, 0);
  else close_other_view();
}

static void other_view(int64_t by) { active = (active + (int)by) % pane_count; }

/* ---- Files ---- */

/* The line end that is made is that of the first line. */
static void take_line_end(void) {
  int64_t end = end_of(&panes[active], 0);
  int64_t lone = ask(SCI_GETCHARAT, end) == '\r' ? SC_EOL_CR : SC_EOL_LF;
  command(SCI_SETEOLMODE, lone == SC_EOL_CR && ask(SCI_GETCHARAT, end + 1) == '\n' ? SC_EOL_CRLF : lone, 0);
}

/* Puts all views on a new document. False where that is refused, and the old one stays. */
static bool renew_document(void) {
  int64_t old = ask(SCI_GETDOCPOINTER, 0);
  command(SCI_SETDOCPOINTER, 0, 0);
  if (ask(SCI_GETDOCPOINTER, 0) == old) return false;
  if (pane_count == 2 && !attach(&panes[1 - active])) close_other_view();
  for (int i = 0; i < pane_count; i++) panes[i].top = panes[i].left = 0;
  known.is_modified = false;
  known.lines = 1;
  known.from = known.to = 0;
  return true;
}

/* Appends what is in a file. False, with a notice, where that is not all of it. */
static bool append(FILE *file) {
  static char part[1 << 16];
  int64_t total = 0;
  while (!feof(file) && !ferror(file) && ask(SCI_GETLENGTH, 0) == total) {
    size_t count = fread(part, 1, sizeof part, file);
    send_text(&panes[active], SCI_APPENDTEXT, (int64_t)count, 0, part, count);
    total += (int64_t)count;
  }
  if (feof(file) && ask(SCI_GETLENGTH, 0) == total) return true;
  say("Not read to its end: %s", ferror(file) ? strerror(errno) : "no room");
  return false;
}

/* Puts a file into a new document of all views: into an empty one where it is not there yet, and into none where it cannot be read. Its name is
 * kept only where all of it was read: else saving asks for one, and puts no part in the place of the whole. */
static void load(const char *name) {
  FILE *file = fopen(name, "rb");
  int first = file == NULL ? EOF : getc(file);
  if (file == NULL ? errno != ENOENT : ferror(file)) {
    say("%s: %.100s", strerror(errno), name);
  } else if (renew_document()) {
    if (file == NULL) say("A new file");
    else ungetc(first, file);
    command(SCI_SETUNDOCOLLECTION, false, 0);
    bool is_whole = file == NULL || append(file);
    command(SCI_SETUNDOCOLLECTION, true, 0);
    command(SCI_EMPTYUNDOBUFFER, 0, 0);
    take_line_end();
    known.position = 0;
    snprintf(file_name, sizeof file_name, "%s", is_whole ? name : "");
  }
  if (file != NULL) fclose(file);
}

static bool agree(const char *question) {
  char answer[4] = "";
  return prompt(question, answer, sizeof answer) && answer[0] == 'y';
}

/* Puts bytes into the file that a name leads to, or into a new one. They are written beside it, with its owner and mode, and take its place once
 * they are all there, so that it stays as it was where something fails. Answers 0, or the first reason as errno has it. */
static int write_file(const char *name, const uint8_t *bytes, size_t length) {
  char place[PATH_MAX], beside[PATH_MAX + 16];
  struct stat old;
  bool is_new = access(name, F_OK) != 0;
  int found = open(name, O_WRONLY | O_CREAT | O_NONBLOCK, 0666);
  if (found < 0 || fstat(found, &old) != 0 || close(found) != 0 || realpath(name, place) == NULL) return errno;
  if (!S_ISREG(old.st_mode)) return ENOTSUP;
  snprintf(beside, sizeof beside, "%.*s/.edit-XXXXXX", (int)(strrchr(place, '/') - place), place);
  int made = mkstemp(beside);
  FILE *file = made < 0 ? NULL : fdopen(made, "wb");
  bool is_written = file != NULL && (length == 0 || fwrite(bytes, 1, length, file) == length) && fflush(file) == 0 &&
                    fchown(made, old.st_uid, old.st_gid) == 0 && fchmod(made, old.st_mode & 07777) == 0 && fsync(made) == 0 && rename(beside, place) == 0;
  int reason = is_written ? 0 : errno;
  if (!is_written && made >= 0) unlink(beside);
  if (!is_written && is_new) unlink(place);
  if (file != NULL) fclose(file);
  return reason;
}

/* Saves the text, by a name that is asked for where there is none or another is wanted; it is kept once it was written to. */
static void save(int64_t is_asking) {
  char name[sizeof file_name];
  const uint8_t *bytes;
  memcpy(name, file_name, sizeof name);
  if ((is_asking || name[0] == '\0') && (!prompt("Save as: ", name, sizeof name) || name[0] == '\0')) return;
  bool is_other = strcmp(name, file_name) != 0 && access(name, F_OK) == 0;
  if (is_other && !agree("That file is there. Replace it? (y) ")) return;
  size_t length = (size_t)ask(SCI_GETLENGTH, 0);
  if (!is_done(hongpilas_lend_range(session, panes[active].view, 0, length, &bytes))) return;
  int reason = write_file(name, bytes, length);
  say("%s%s", reason == 0 ? "Saved" : "Not saved: ", reason == 0 ? "" : strerror(reason));
  if (reason != 0) return;
  memcpy(file_name, name, sizeof name);
  command(SCI_SETSAVEPOINT, 0, 0);
}

/* Leaves the text, for another file or for good. */
static void leave(int64_t is_for_good) {
  char name[sizeof file_name] = "";
  if (known.is_modified && !agree("Changes are not saved. Leave them? (y) ")) return;
  if (is_for_good) is_over = true;
  else if (prompt("Open: ", name, sizeof name) && name[0] != '\0') load(name);
}

/* ---- Moves and edits ---- */

static void plain(int64_t number) { command((uint32_t)number, 0, 0); }

static void to_row(int64_t by, bool is_extending) {
  pane *p = &panes[active];
  int64_t caret = ask(SCI_GETCURRENTPOS, 0);
  goal = goal_before < 0 ? column_of(p, caret) : goal_before;
  int64_t row = ask(SCI_VISIBLEFROMDOCLINE, line_at(p, caret)) + by;
  int64_t line = ask(SCI_DOCLINEFROMVISIBLE, least(greatest(row, 0), last_row(p)));
  command(is_extending ? SCI_SETCURRENTPOS : SCI_GOTOPOS, position_in(p, line, goal), 0);
}

static void go_rows(int64_t by) { to_row(by, false); }
static void extend_rows(int64_t by) { to_row(by, true); }
static void go_pages(int64_t by) { to_row(by * (rows - 1), false); }
static void extend_pages(int64_t by) { to_row(by * (rows - 1), true); }

static void go_to_line(int64_t first) {
  char answer[16] = "";
  if (prompt("Line: ", answer, sizeof answer)) command(SCI_GOTOLINE, strtoll(answer, NULL, 10) - first, 0);
}

static int64_t find(int64_t from, int64_t to) {
  command(SCI_SETTARGETRANGE, from, to);
  return send_text(&panes[active], SCI_SEARCHINTARGET, (int64_t)strlen(needle), 0, needle, strlen(needle));
}

static void search(int64_t direction) {
  int64_t length = ask(SCI_GETLENGTH, 0), far = direction > 0 ? length : 0;
  if (needle[0] == '\0') return;
  command(SCI_SETSEARCHFLAGS, strpbrk(needle, "ABCDEFGHIJKLMNOPQRSTUVWXYZ") != NULL ? SCFIND_MATCHCASE : 0, 0);
  int64_t found = find(ask(direction > 0 ? SCI_GETSELECTIONEND : SCI_GETSELECTIONSTART, 0), far);
  if (found < 0) {
    say("From the other end");
    found = find(length - far, far);
  }
  if (found < 0) say("Not found: %.200s", needle);
  else command(SCI_SETSEL, found, ask(SCI_GETTARGETEND, 0));
}

static void search_for(int64_t direction) {
  char answer[sizeof needle] = "";
  if (!prompt(direction > 0 ? "Search: " : "Search backwards: ", answer, sizeof answer)) return;
  if (answer[0] != '\0') memcpy(needle, answer, sizeof needle);
  search(direction);
}

static void toggle_bookmark(int64_t number) {
  int64_t line = caret_line();
  bool is_marked = (ask(SCI_MARKERGET, line) >> number & 1) != 0;
  command(is_marked ? SCI_MARKERDELETE : SCI_MARKERADD, line, number);
}

static void go_to_bookmark(int64_t direction) {
  uint32_t number = direction > 0 ? SCI_MARKERNEXT : SCI_MARKERPREVIOUS;
  int64_t line = command(number, caret_line() + direction, 1 << BOOKMARK);
  if (line < 0) line = command(number, direction > 0 ? 0 : known.lines - 1, 1 << BOOKMARK);
  if (line < 0) say("No bookmark");
  else command(SCI_GOTOLINE, line, 0);
}

static void type_text(const void *text, size_t length) { send_text(&panes[active], SCI_REPLACESEL, 0, 0, text, length); }

/* A line end, and the blanks that the line begins with: one transaction. */
static void new_line(int64_t none) {
  const pane *p = &panes[active];
  int64_t end = ask(SCI_GETSELECTIONSTART, none);
  command(SCI_BEGINUNDOACTION, 0, 0);
  command(SCI_NEWLINE, 0, 0);
  for (int64_t at = start_of(p, line_at(p, end)); at < end && is_blank(p, at); at++) type_text(ask(SCI_GETCHARAT, at) == '\t' ? "\t" : " ", 1);
  command(SCI_ENDUNDOACTION, 0, 0);
}

/* ---- Commands ---- */

static void show_keys(int64_t none);

/* What each key does; F1 lists those with a name, which come first. Keys are spelled as they are sent, with `[` for the O of `^[O`. */
static const struct {
  const char *key;
  void (*run)(int64_t argument);
  int64_t argument;
  const char *name;
} commands[] = {
    // clang-format off
    {"^[[P", show_keys, 0, "F1       these keys"},
    {"^O", leave, 0, "Ctrl-O   open a file"},
    {"^S", save, 0, "Ctrl-S   save"},
    {"^E", save, 1, "Ctrl-E   save under another name"},
    {"^Q", leave, 1, "Ctrl-Q   quit"},
    {"^Z", plain, SCI_UNDO, "Ctrl-Z   undo"},
    {"^Y", plain, SCI_REDO, "Ctrl-Y   redo"},
    {"^X", plain, SCI_CUT, "Ctrl-X   cut"},
    {"^C", plain, SCI_COPY, "Ctrl-C   copy"},
    {"^V", plain, SCI_PASTE, "Ctrl-V   paste"},
    {"^A", plain, SCI_SELECTALL, "Ctrl-A   select all"},
    {"^F", search_for, 1, "Ctrl-F   search; F3 again"},
    {"^R", search_for, -1, "Ctrl-R   search backwards; Shift-F3 again"},
    {"^G", go_to_line, 1, "Ctrl-G   go to a line"},
    {"^B", toggle_bookmark, BOOKMARK, "Ctrl-B   bookmark; F2 the next, Shift-F2 the one before"},
    {"^T", fold, SC_FOLDACTION_TOGGLE, "Ctrl-T   fold or unfold; Ctrl-U all"},
    {"^W", split, 0, "Ctrl-W   a second view, or one; F6 the other"},
    {"^[[D", plain, SCI_CHARLEFT, "Arrows, Home, End, Page Up, Page Down; with Shift to select"},
    {"^[[1;5H", plain, SCI_DOCUMENTSTART, "Ctrl-Home, Ctrl-End: the start and the end"},
    {"^[[1;5F", plain, SCI_DOCUMENTEND, NULL},  {"^[[1;2D", plain, SCI_CHARLEFTEXTEND, NULL},
    {"^[[C", plain, SCI_CHARRIGHT, NULL},       {"^[[1;2C", plain, SCI_CHARRIGHTEXTEND, NULL},
    {"^[[A", go_rows, -1, NULL},                {"^[[1;2A", extend_rows, -1, NULL},
    {"^[[B", go_rows, 1, NULL},                 {"^[[1;2B", extend_rows, 1, NULL},
    {"^[[5~", go_pages, -1, NULL},              {"^[[5;2~", extend_pages, -1, NULL},
    {"^[[6~", go_pages, 1, NULL},               {"^[[6;2~", extend_pages, 1, NULL},
    {"^[[H", plain, SCI_HOME, NULL},            {"^[[1;2H", plain, SCI_HOMEEXTEND, NULL},
    {"^[[F", plain, SCI_LINEEND, NULL},         {"^[[1;2F", plain, SCI_LINEENDEXTEND, NULL},
    {"^[[1~", plain, SCI_HOME, NULL},           {"^[[1;6H", plain, SCI_DOCUMENTSTARTEXTEND, NULL},
    {"^[[4~", plain, SCI_LINEEND, NULL},        {"^[[1;6F", plain, SCI_DOCUMENTENDEXTEND, NULL},
    {"^?", plain, SCI_DELETEBACK, NULL},        {"^[[3~", plain, SCI_CLEAR, NULL},
    {"^H", plain, SCI_DELETEBACK, NULL},        {"^M", new_line, 0, NULL},
    {"^[[Q", go_to_bookmark, 1, NULL},          {"^[[1;2Q", go_to_bookmark, -1, NULL},
    {"^[[R", search, 1, NULL},                  {"^[[1;2R", search, -1, NULL},
    {"^U", fold_all, 0, NULL},                  {"^[[17~", other_view, 1, NULL},
    {"^[[[A", show_keys, 0, NULL}, {"^[[[B", go_to_bookmark, 1, NULL}, {"^[[[C", search, 1, NULL}, /* F1 to F3 of Linux's console */
    // clang-format on
};

static void run_key(void) {
  size_t i = 0, count = sizeof commands / sizeof *commands;
  goal_before = goal;
  goal = -1;
  while (i < count && !is_key(commands[i].key)) i++;
  if (i < count) commands[i].run(commands[i].argument);
  else if (is_text()) type_text(key, strlen(key));
}

/* Lists the keys, a screen at a time. */
static void show_keys(int64_t none) {
  int row = (int)none;
  for (size_t i = 0; commands[i].name != NULL; i++) {
    printf("%s\x1b[%d;3H%s", row == 0 ? "\x1b[2J" : "", row + 1, commands[i].name);
    row = (row + 1) % rows;
    if (row == 0 || commands[i + 1].name == NULL) read_key();
  }
}

/* ---- The program ---- */

static void edit(const char *name) {
  send_text(&bottom, SCI_SETUNDOCOLLECTION, false, 0, NULL, 0);
  if (name != NULL) load(name);
  while (!is_over) {
    set_levels();
    draw();
    notice[0] = '\0';
    if (!read_key()) return;
    run_key();
  }
}

int main(int argument_count, char **arguments) {
  const char *fault = "out of memory";
  bool is_open = hongpilas_new(&session) == HONGPILAS_DONE;
  if (is_open && is_done(hongpilas_new_view(session, &panes[0].view)) && is_done(hongpilas_new_view(session, &bottom.view)))
    fault = take_terminal() ? NULL : "needs a terminal";
  if (fault != NULL) fprintf(stderr, "edit: %s\n", fault);
  else edit(argument_count > 1 ? arguments[1] : NULL);
  if (is_open) hongpilas_free(session);
  return fault != NULL || is_ended;
}

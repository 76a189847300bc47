/* The parts of the jobs that change a text or look through it: files, edits, undo, searches. A part of jobs.h. */
#ifndef EDITS_H
#define EDITS_H

enum { APART = 100, STEPS = 1000, ACTIONS = 5000, INDENTED = 30000, MOVED = 5000, MOVED_BY = 30, KEYS = 2000 };

/* ---- Undo ---- */

static long changes; /* how many units the last change had */

static void must_be_as_loaded(const side *s, input *of) { must(ask(s, SCI_GETLENGTH, 0) == (int64_t)of->size, "not all was undone"); }

static long undo_change(const side *s, input *of) {
  ask(s, SCI_UNDO, 0);
  must_be_as_loaded(s, of);
  return changes;
}

static long redo_change(const side *s, input *of) {
  (void)of;
  ask(s, SCI_REDO, 0);
  return changes;
}

static long undo_steps(const side *s, input *of) {
  long steps = 0;
  for (; ask(s, SCI_CANUNDO, 0); steps++) ask(s, SCI_UNDO, 0);
  must_be_as_loaded(s, of);
  return steps;
}

static long redo_steps(const side *s, input *of) {
  long steps = 0;
  (void)of;
  for (; ask(s, SCI_CANREDO, 0); steps++) ask(s, SCI_REDO, 0);
  return steps;
}

/* Bytes that do not join, at two places. */
static long type_steps(const side *s, input *of) {
  for (int64_t i = 0; i < STEPS; i++) s->send(SCI_INSERTTEXT, (i % 2 + 1) * (int64_t)of->size / 3, 0, "x", 1);
  return changes = STEPS;
}

static long type_group(const side *s, input *of) {
  (void)of;
  ask(s, SCI_BEGINUNDOACTION, 0);
  for (long i = 0; i < STEPS; i++) s->send(SCI_ADDTEXT, 1, 0, "x", 1);
  ask(s, SCI_ENDUNDOACTION, 0);
  return changes = STEPS;
}

static long forget_history(const side *s, input *of) {
  (void)of;
  ask(s, SCI_EMPTYUNDOBUFFER, 0);
  return changes;
}

static long type_key(const side *s, input *of) {
  (void)of;
  s->send(SCI_ADDTEXT, 1, 0, "x", 1);
  return 1;
}

static long add_joining_actions(const side *s, input *of) {
  (void)of;
  for (long i = 0; i < ACTIONS; i++) s->send(SCI_ADDUNDOACTION, i, UNDO_MAY_COALESCE, NULL, 0);
  return ACTIONS;
}

/* A step of the text is before them. */
static void load_typed_key(const side *s, input *of) {
  load_input(s, of);
  type_key(s, of);
}

/* ---- Files ---- */

static long close_it(const side *s, input *of) {
  renew(s, of);
  return (long)of->size;
}

static long set_all(const side *s, input *of) {
  s->send(SCI_SETTEXT, 0, 0, bytes_of(of), of->size);
  return changes = (long)of->size;
}

static long save(const side *s, input *of) {
  for (size_t at = 0; at < of->size; at += PIECE) s->copied_range((int64_t)at, (int64_t)(at + PIECE < of->size ? at + PIECE : of->size));
  return (long)of->size;
}

static long take_all(const side *s, input *of) {
  s->copied_range(0, (int64_t)of->size);
  return (long)of->size;
}

/* ---- Edits far apart ---- */

static long insert_anywhere(const side *s, input *of) {
  for (long i = 0; i < APART; i++) s->send(SCI_INSERTTEXT, below((int64_t)of->size), 0, "inserted", 8);
  return APART;
}

static int64_t end_in_turn(input *of, int64_t i) { return i % 2 == 0 ? 0 : (int64_t)of->size; }

static long insert_at_ends(const side *s, input *of) {
  for (int64_t i = 0; i < APART; i++) s->send(SCI_INSERTTEXT, end_in_turn(of, i), 0, "inserted", 8);
  return APART;
}

static long insert_lines_anywhere(const side *s, input *of) {
  for (long i = 0; i < APART; i++) s->send(SCI_INSERTTEXT, below((int64_t)of->size), 0, line_text, strlen(line_text));
  return APART;
}

static long borrow_and_type(const side *s, input *of) {
  for (long i = 0; i < APART; i++) {
    s->lent_range(0, (int64_t)of->size);
    s->send(SCI_INSERTTEXT, (int64_t)of->size / 2, 0, "x", 1);
  }
  return APART;
}

/* ---- All is replaced ---- */

static long replace_words(const side *s, input *of) {
  static const replacement longer = {"length", "extents", SCFIND_MATCHCASE, LONG_MAX};
  (void)of;
  return changes = replace_each(s, &longer);
}

static long replace_whole_words(const side *s, input *of) {
  static const replacement longer = {"Length", "extents", SCFIND_WHOLEWORD, LONG_MAX};
  (void)of;
  return changes = replace_each(s, &longer);
}

static long replace_bytes(const side *s, input *of) {
  static const replacement capital = {"e", "E", SCFIND_MATCHCASE, LONG_MAX};
  (void)of;
  return changes = replace_each(s, &capital);
}

/* ---- Lines are changed ---- */

static void indent_line(const side *s, int64_t line) { s->send(SCI_INSERTTEXT, ask(s, SCI_POSITIONFROMLINE, line), 0, "  ", 2); }

static long indent(const side *s, input *of) {
  (void)of;
  ask(s, SCI_BEGINUNDOACTION, 0);
  for (int64_t line = 0; line < INDENTED; line++) indent_line(s, line);
  ask(s, SCI_ENDUNDOACTION, 0);
  return changes = INDENTED;
}

static long indent_backwards(const side *s, input *of) {
  (void)of;
  ask(s, SCI_BEGINUNDOACTION, 0);
  for (int64_t line = INDENTED; line-- > 0;) indent_line(s, line);
  ask(s, SCI_ENDUNDOACTION, 0);
  return changes = INDENTED;
}

static long outdent(const side *s, input *of) {
  (void)of;
  ask(s, SCI_BEGINUNDOACTION, 0);
  for (int64_t line = 0; line < INDENTED; line++) s->send(SCI_DELETERANGE, ask(s, SCI_POSITIONFROMLINE, line), 2, NULL, 0);
  ask(s, SCI_ENDUNDOACTION, 0);
  return changes = INDENTED;
}

/* Each is taken out, and put in some lines further on. */
static long move_lines(const side *s, input *of) {
  (void)of;
  for (int64_t line = 0; line < MOVED; line++) {
    int64_t start = ask(s, SCI_POSITIONFROMLINE, line), length = ask(s, SCI_LINELENGTH, line);
    s->copied_range(start, start + length);
    buffer[length] = '\0';
    s->send(SCI_DELETERANGE, start, length, NULL, 0);
    s->send(SCI_INSERTTEXT, ask(s, SCI_POSITIONFROMLINE, line + MOVED_BY), 0, buffer, (size_t)length);
  }
  return MOVED;
}

static long convert_to(const side *s, int64_t ends) {
  ask(s, SCI_CONVERTEOLS, ends);
  return changes = (long)ask(s, SCI_GETLINECOUNT, 0);
}

static long convert_to_crlf(const side *s, input *of) {
  (void)of;
  return convert_to(s, SC_EOL_CRLF);
}

static long convert_to_lf(const side *s, input *of) {
  (void)of;
  return convert_to(s, SC_EOL_LF);
}

static long clear_all(const side *s, input *of) {
  (void)of;
  changes = (long)ask(s, SCI_GETLINECOUNT, 0);
  ask(s, SCI_CLEARALL, 0);
  return changes;
}

static long delete_half(const side *s, input *of) {
  int64_t before = ask(s, SCI_GETLINECOUNT, 0);
  s->send(SCI_DELETERANGE, (int64_t)of->size / 4, (int64_t)of->size / 2, NULL, 0);
  return changes = (long)(before - ask(s, SCI_GETLINECOUNT, 0));
}

/* ---- Keys ---- */

/* A byte that is typed, at places in some order, and what a lexer then does for its line. */
static long press_keys(const side *s, input *of) {
  int64_t place = (int64_t)of->size / 2;
  for (long i = 0; i < KEYS; i++) {
    if (i % 50 == 0) ask(s, SCI_GOTOPOS, place + i / 50 % 8 * 3000);
    s->send(SCI_ADDTEXT, 1, 0, "x", 1);
    int64_t line = ask(s, SCI_LINEFROMPOSITION, ask(s, SCI_GETCURRENTPOS, 0)), start = ask(s, SCI_POSITIONFROMLINE, line);
    int depth = line > 0 ? (int)ask(s, SCI_GETLINESTATE, line - 1) : 0;
    ask(s, SCI_STARTSTYLING, start);
    style_line_of(s, line, start, &depth);
  }
  return KEYS;
}

static long type_keys(const side *s, long count) {
  for (long i = 0; i < count; i++) s->send(SCI_ADDTEXT, 1, 0, "x", 1);
  return count;
}

static long type_1000(const side *s, input *of) {
  (void)of;
  return type_keys(s, 1000);
}

static long type_40(const side *s, input *of) {
  (void)of;
  return type_keys(s, 40);
}

/* ---- Searches ---- */

/* All of the text is looked through for what is not there. */
static long search_none(const side *s, input *of, const char *what, int64_t flags, bool is_backwards) {
  int64_t length = (int64_t)strlen(what), end = (int64_t)of->size;
  ask(s, SCI_SETSEARCHFLAGS, flags);
  s->send(SCI_SETTARGETRANGE, is_backwards ? end : 0, is_backwards ? 0 : end, NULL, 0);
  must(s->send(SCI_SEARCHINTARGET, length, 0, what, (size_t)length) == -1, "found what is not there");
  return (long)end;
}

static long none_with_case(const side *s, input *of) { return search_none(s, of, "lengthen", SCFIND_MATCHCASE, false); }
static long none(const side *s, input *of) { return search_none(s, of, "lengthen", 0, false); }
static long none_of_words(const side *s, input *of) { return search_none(s, of, "lengthen", SCFIND_WHOLEWORD, false); }
static long none_backwards_with_case(const side *s, input *of) { return search_none(s, of, "lengthen", SCFIND_MATCHCASE, true); }
static long none_backwards(const side *s, input *of) { return search_none(s, of, "lengthen", 0, true); }
static long none_of_rare_byte(const side *s, input *of) { return search_none(s, of, "~length", SCFIND_MATCHCASE, false); }
static long none_of_one_byte(const side *s, input *of) { return search_none(s, of, "~", SCFIND_MATCHCASE, false); }

/* In a text of one byte alone, these match but for their last or their middle byte, or are no whole word. */
#define FORTY "aaaaaaaaaaaaaaaaaaaaaaaaaaaaaaaaaaaaaaaa"
static long near_with_case(const side *s, input *of) { return search_none(s, of, FORTY FORTY "b", SCFIND_MATCHCASE, false); }
static long near(const side *s, input *of) { return search_none(s, of, FORTY FORTY "b", 0, false); }
static long near_in_midst(const side *s, input *of) { return search_none(s, of, FORTY "b" FORTY, 0, false); }
static long near_word(const side *s, input *of) { return search_none(s, of, FORTY, SCFIND_WHOLEWORD, false); }

/* Each match in turn. */
static long find_all(const side *s, input *of, const char *what, int64_t flags) {
  int64_t length = (int64_t)strlen(what), from = 0;
  long count = 0;
  ask(s, SCI_SETSEARCHFLAGS, flags);
  for (;; count++) {
    s->send(SCI_SETTARGETRANGE, from, (int64_t)of->size, NULL, 0);
    int64_t found = s->send(SCI_SEARCHINTARGET, length, 0, what, (size_t)length);
    if (found < 0) return count;
    from = found + length;
  }
}

static long find_with_case(const side *s, input *of) { return find_all(s, of, "length", SCFIND_MATCHCASE); }
static long find(const side *s, input *of) { return find_all(s, of, "Length", 0); }
static long find_words(const side *s, input *of) { return find_all(s, of, "length", SCFIND_MATCHCASE | SCFIND_WHOLEWORD); }
static long find_bytes(const side *s, input *of) { return find_all(s, of, "e", SCFIND_MATCHCASE); }

#endif

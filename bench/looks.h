/* The parts of the jobs that leave a text as it is: styles, what a window shows, folds, markers, indicators. A part of jobs.h. */
#ifndef LOOKS_H
#define LOOKS_H

enum { FRAME = 50, WINDOWS = 300, FOLDED_WINDOWS = 1000, JUMPS = 200, COVERED = 100000, KINDS = 8, INDICATORS = 32, RUNS_OF_EACH = 10000 };

static long all_lines(const side *s) { return (long)ask(s, SCI_GETLINECOUNT, 0); }

/* Sends a message about each line. */
static long for_each_line(const side *s, uint32_t number) {
  long count = all_lines(s);
  for (int64_t line = 0; line < count; line++) ask(s, number, line);
  return count;
}

/* ---- Styles ---- */

static long highlight_tokens(const side *s, input *of) {
  const char *bytes = bytes_of(of);
  long tokens = 0;
  ask(s, SCI_STARTSTYLING, 0);
  for (size_t at = 0; at < of->size; tokens++) {
    char style = SPACE;
    size_t count = token_of(bytes + at, of->size - at, &style);
    s->send(SCI_SETSTYLING, (int64_t)count, style, NULL, 0);
    at += count;
  }
  return tokens;
}

/* Styles that change from byte to byte. Those from the second one on differ from them everywhere. */
static char changing_styles[65536 + 1];

static void load_to_style(const side *s, input *of) {
  load_input(s, of);
  for (size_t i = 0; i < sizeof changing_styles; i++) changing_styles[i] = (char)(i % 20);
}

static long style_in_pieces(const side *s, input *of, size_t piece, const char *styles_of_piece) {
  ask(s, SCI_STARTSTYLING, 0);
  for (size_t at = 0; at < of->size; at += piece) {
    size_t count = of->size - at < piece ? of->size - at : piece;
    s->send(SCI_SETSTYLINGEX, (int64_t)count, 0, styles_of_piece, count);
  }
  return (long)of->size;
}

static long style_4_kib(const side *s, input *of) { return style_in_pieces(s, of, 4096, changing_styles); }
static long style_64_kib(const side *s, input *of) { return style_in_pieces(s, of, 65536, changing_styles + 1); }

static long style_each_line(const side *s, input *of) {
  ask(s, SCI_STARTSTYLING, 0);
  for (int64_t line = 0, count = all_lines(s); line < count; line++) {
    int64_t length = ask(s, SCI_LINELENGTH, line);
    if (length > 0) s->send(SCI_SETSTYLINGEX, length, 0, changing_styles, (size_t)length);
  }
  return (long)of->size;
}

static long level_each_line(const side *s, input *of) {
  long count = all_lines(s);
  (void)of;
  for (int64_t line = 0; line < count; line++) s->send(SCI_SETFOLDLEVEL, line, SC_FOLDLEVELBASE + line % 5, NULL, 0);
  return count;
}

static long take_lines(const side *s, input *of) {
  for (int64_t line = 0, count = all_lines(s); line < count; line++) s->copied_line(line);
  return (long)of->size;
}

static long take_styled_lines(const side *s, input *of) {
  int64_t start = 0;
  for (int64_t line = 0, count = all_lines(s); line < count; line++) {
    int64_t end = start + ask(s, SCI_LINELENGTH, line);
    s->styled_range(start, end);
    start = end;
  }
  return (long)of->size;
}

/* ---- A window is drawn ---- */

static void load_to_draw(const side *s, input *of) {
  load_input(s, of);
  int64_t lines = all_lines(s);
  ask(s, SCI_STARTSTYLING, 0);
  for (int64_t line = 0; line < lines; line++) s->send(SCI_SETSTYLING, ask(s, SCI_LINELENGTH, line), line % 5, NULL, 0);
  ask(s, SCI_SETINDICATORCURRENT, 8);
  for (int64_t i = 0; i < 20000; i++) s->send(SCI_INDICATORFILLRANGE, i * 2500, 9, NULL, 0);
  for (int64_t i = 0; i < 1000; i++) s->send(SCI_MARKERADD, i * 500, 1, NULL, 0);
}

/* Where the text of a line begins and ends. */
typedef struct span {
  int64_t start, end;
} span;

static span drawn_rows[WINDOWS * FRAME];

static span look_at_row(const side *s, int64_t row) {
  int64_t line = ask(s, SCI_DOCLINEFROMVISIBLE, row);
  span of_row = {ask(s, SCI_POSITIONFROMLINE, line), ask(s, SCI_GETLINEENDPOSITION, line)};
  ask(s, SCI_MARKERGET, line);
  ask(s, SCI_GETFOLDLEVEL, line);
  return of_row;
}

static void look_at_indicators(const side *s, span of_row) {
  for (int64_t place = of_row.start; place < of_row.end;) {
    int64_t next = s->send(SCI_INDICATOREND, 8, place, NULL, 0);
    ask(s, SCI_INDICATORALLONFOR, place);
    place = next > place ? next : of_row.end;
  }
}

static int64_t first_of_window(const side *s) { return below(ask(s, SCI_VISIBLEFROMDOCLINE, all_lines(s) - 1) - FRAME); }

static long draw_windows(const side *s, input *of) {
  (void)of;
  for (long i = 0; i < WINDOWS; i++)
    for (int64_t first = first_of_window(s), row = first; row < first + FRAME; row++) {
      span of_row = look_at_row(s, row);
      s->styled_range(of_row.start, of_row.end);
      look_at_indicators(s, of_row);
    }
  return WINDOWS;
}

/* Keeps where the rows are for the next two. */
static long draw_rows(const side *s, input *of) {
  (void)of;
  for (long i = 0, at = 0; i < WINDOWS; i++)
    for (int64_t first = first_of_window(s), row = first; row < first + FRAME; row++) drawn_rows[at++] = look_at_row(s, row);
  return WINDOWS;
}

static long draw_styles(const side *s, input *of) {
  (void)of;
  for (long at = 0; at < WINDOWS * FRAME; at++) s->styled_range(drawn_rows[at].start, drawn_rows[at].end);
  return WINDOWS;
}

static long draw_indicators(const side *s, input *of) {
  (void)of;
  for (long at = 0; at < WINDOWS * FRAME; at++) look_at_indicators(s, drawn_rows[at]);
  return WINDOWS;
}

/* ---- All is folded ---- */

static long fold_all(const side *s, input *of) {
  (void)of;
  return fold(s, SC_FOLDACTION_CONTRACT);
}

static long unfold_all(const side *s, input *of) {
  (void)of;
  return fold(s, SC_FOLDACTION_EXPAND);
}

static long fold_backwards(const side *s, input *of) {
  long headers = 0;
  (void)of;
  for (int64_t line = all_lines(s); line-- > 0;) {
    if ((ask(s, SCI_GETFOLDLEVEL, line) & SC_FOLDLEVELHEADERFLAG) == 0) continue;
    s->send(SCI_FOLDLINE, line, SC_FOLDACTION_CONTRACT, NULL, 0);
    headers++;
  }
  return headers;
}

/* As SciTE folds all: the lines of a header are hidden. */
static long fold_by_hiding(const side *s, input *of) {
  long headers = 0;
  (void)of;
  for (int64_t line = 0, count = all_lines(s); line < count; line++) {
    if ((ask(s, SCI_GETFOLDLEVEL, line) & SC_FOLDLEVELHEADERFLAG) == 0) continue;
    int64_t last = s->send(SCI_GETLASTCHILD, line, -1, NULL, 0);
    s->send(SCI_SETFOLDEXPANDED, line, 0, NULL, 0);
    if (last > line) s->send(SCI_HIDELINES, line + 1, last, NULL, 0);
    headers++;
  }
  return headers;
}

static void load_folded(const side *s, input *of) {
  load_highlighted(s, of);
  fold_all(s, of);
}

static long row_of_each_line(const side *s, input *of) {
  (void)of;
  return for_each_line(s, SCI_VISIBLEFROMDOCLINE);
}

static long visibility_of_each_line(const side *s, input *of) {
  (void)of;
  return for_each_line(s, SCI_GETLINEVISIBLE);
}

static long lines_of_windows(const side *s, input *of) {
  (void)of;
  for (long i = 0; i < FOLDED_WINDOWS; i++)
    for (int64_t first = first_of_window(s), row = first; row < first + FRAME; row++) ask(s, SCI_DOCLINEFROMVISIBLE, row);
  return FOLDED_WINDOWS;
}

static long jump(const side *s, input *of) {
  int64_t count = all_lines(s);
  (void)of;
  for (long i = 0; i < JUMPS; i++) ask(s, SCI_ENSUREVISIBLE, below(count));
  return JUMPS;
}

static long show_lines(const side *s, input *of) {
  (void)of;
  s->send(SCI_SHOWLINES, 0, all_lines(s) - 1, NULL, 0);
  return all_lines(s);
}

static long hide_lines(const side *s, input *of) {
  (void)of;
  s->send(SCI_HIDELINES, 0, all_lines(s) - 1, NULL, 0);
  return all_lines(s);
}

/* ---- A nest of headers, with nine lines in each ---- */

static long depth_of_nest;

static void load_nest_of(const side *s, input *of, long depth) {
  load_input(s, of);
  depth_of_nest = depth;
  for (int64_t i = 0; i < depth * 10; i++) {
    int64_t level = SC_FOLDLEVELBASE + i / 10;
    s->send(SCI_SETFOLDLEVEL, i, i % 10 == 0 ? level | SC_FOLDLEVELHEADERFLAG : level + 1, NULL, 0);
  }
}

static void load_nest_100(const side *s, input *of) { load_nest_of(s, of, 100); }
static void load_nest_1000(const side *s, input *of) { load_nest_of(s, of, 1000); }

static long fold_inner_first(const side *s, input *of) {
  (void)of;
  for (int64_t i = depth_of_nest; i-- > 0;) s->send(SCI_FOLDLINE, i * 10, SC_FOLDACTION_CONTRACT, NULL, 0);
  return depth_of_nest;
}

static long fold_outer_first_by(const side *s, int64_t action) {
  for (int64_t i = 0; i < depth_of_nest; i++) s->send(SCI_FOLDLINE, i * 10, action, NULL, 0);
  return depth_of_nest;
}

static long fold_outer_first(const side *s, input *of) {
  (void)of;
  return fold_outer_first_by(s, SC_FOLDACTION_CONTRACT);
}

static long unfold_outer_first(const side *s, input *of) {
  (void)of;
  return fold_outer_first_by(s, SC_FOLDACTION_EXPAND);
}

static long jump_to_innermost(const side *s, input *of) {
  (void)of;
  ask(s, SCI_ENSUREVISIBLE, depth_of_nest * 10 - 1);
  return 1;
}

static long parent_of_each_line(const side *s, input *of) {
  (void)of;
  for (int64_t line = 0; line < depth_of_nest * 10; line++) ask(s, SCI_GETFOLDPARENT, line);
  return depth_of_nest * 10;
}

static long last_child_of_each_header(const side *s, input *of) {
  (void)of;
  for (int64_t i = 0; i < depth_of_nest; i++) s->send(SCI_GETLASTCHILD, i * 10, -1, NULL, 0);
  return depth_of_nest;
}

/* ---- Markers of a coverage tool ---- */

static int64_t handles[COVERED];

static long mark_in_order(const side *s, input *of) {
  (void)of;
  for (int64_t i = 0; i < COVERED; i++) handles[i] = s->send(SCI_MARKERADD, i, i % KINDS, NULL, 0);
  return COVERED;
}

static long mark_backwards(const side *s, input *of) {
  (void)of;
  for (int64_t i = COVERED; i-- > 0;) s->send(SCI_MARKERADD, i, i % KINDS, NULL, 0);
  return COVERED;
}

/* Each line once: the step has no factor with the number of lines. */
static long for_marks_in_disorder(const side *s, uint32_t number) {
  for (int64_t i = 0; i < COVERED; i++) s->send(number, i * 61803 % COVERED, i % KINDS, NULL, 0);
  return COVERED;
}

static long mark_in_disorder(const side *s, input *of) {
  (void)of;
  return for_marks_in_disorder(s, SCI_MARKERADD);
}

static long unmark_in_disorder(const side *s, input *of) {
  (void)of;
  return for_marks_in_disorder(s, SCI_MARKERDELETE);
}

static long next_of_each_mark(const side *s, input *of) {
  int64_t line = -1;
  (void)of;
  for (long i = 0; i < COVERED; i++) line = s->send(SCI_MARKERNEXT, line + 1, (1 << KINDS) - 1, NULL, 0);
  must(line == COVERED - 1, "a marker is missing");
  return COVERED;
}

static long newlines_at_top(const side *s, input *of) {
  (void)of;
  for (long i = 0; i < APART; i++) s->send(SCI_INSERTTEXT, 0, 0, "\n", 1);
  return APART;
}

static long newlines_at_ends(const side *s, input *of) {
  for (int64_t i = 0; i < APART; i++) s->send(SCI_INSERTTEXT, end_in_turn(of, i), 0, "\n", 1);
  return APART;
}

static long lines_of_handles(const side *s, input *of) {
  (void)of;
  for (long i = 0; i < JUMPS; i++) must(ask(s, SCI_MARKERLINEFROMHANDLE, handles[below(COVERED)]) >= 0, "a marker is missing");
  return JUMPS;
}

static long unmark_one_kind(const side *s, input *of) {
  (void)of;
  ask(s, SCI_MARKERDELETEALL, 3);
  return COVERED / KINDS;
}

static long unmark_all(const side *s, input *of) {
  (void)of;
  ask(s, SCI_MARKERDELETEALL, -1);
  return COVERED - COVERED / KINDS;
}

/* ---- Indicators ---- */

static long fill_all_indicators(const side *s, input *of) {
  int64_t each = (int64_t)of->size / RUNS_OF_EACH;
  for (int64_t indicator = 0; indicator < INDICATORS; indicator++) {
    ask(s, SCI_SETINDICATORCURRENT, indicator);
    for (int64_t i = 0; i < RUNS_OF_EACH; i++) s->send(SCI_INDICATORFILLRANGE, i * each + indicator, 20, NULL, 0);
  }
  return INDICATORS * RUNS_OF_EACH;
}

static long clear_all_indicators(const side *s, input *of) {
  (void)of;
  for (int64_t indicator = 0; indicator < INDICATORS; indicator++) {
    ask(s, SCI_SETINDICATORCURRENT, indicator);
    s->send(SCI_INDICATORCLEARRANGE, 0, ask(s, SCI_GETLENGTH, 0), NULL, 0);
  }
  return INDICATORS * RUNS_OF_EACH;
}

static void load_indicated_input(const side *s, input *of) {
  load_highlighted(s, of);
  fill_all_indicators(s, of);
}

static long indicators_anywhere(const side *s, input *of) {
  enum { PLACES = 20000 };
  for (long i = 0; i < PLACES; i++) ask(s, SCI_INDICATORALLONFOR, below((int64_t)of->size));
  return PLACES;
}

/* ---- Several views ---- */

static void load_views(const side *s, input *of, int count, int64_t mask) {
  load_input(s, of);
  s->attach(count - 1, mask);
  ask(s, SCI_SETMODEVENTMASK, mask);
}

static void load_2_views(const side *s, input *of) { load_views(s, of, 2, 0); }
static void load_16_views(const side *s, input *of) { load_views(s, of, 16, 0); }
static void load_256_views(const side *s, input *of) { load_views(s, of, 256, 0); }
static void load_1000_views(const side *s, input *of) { load_views(s, of, MOST_VIEWS, 0); }
static void load_1_notified(const side *s, input *of) { load_views(s, of, 1, SC_MODEVENTMASKALL); }
static void load_2_notified(const side *s, input *of) { load_views(s, of, 2, SC_MODEVENTMASKALL); }
static void load_16_notified(const side *s, input *of) { load_views(s, of, 16, SC_MODEVENTMASKALL); }
static void load_256_notified(const side *s, input *of) { load_views(s, of, 256, SC_MODEVENTMASKALL); }
static void load_1000_notified(const side *s, input *of) { load_views(s, of, MOST_VIEWS, SC_MODEVENTMASKALL); }

static void load_heard(const side *s, input *of) {
  load_highlighted(s, of);
  ask(s, SCI_SETMODEVENTMASK, SC_MODEVENTMASKALL);
}

static void load_input_heard(const side *s, input *of) {
  load_input(s, of);
  ask(s, SCI_SETMODEVENTMASK, SC_MODEVENTMASKALL);
}

#endif

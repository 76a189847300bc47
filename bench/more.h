/* Rows of messages.c that the page's table has not: single messages, by each of the three sides. A part of messages.c. */
#ifndef MORE_H
#define MORE_H

static uint32_t asked; /* the number of the row's message */

/* Any message that takes nothing, a position or a line. */
static void send_plain(const side *s, long count) {
  for (long i = 0; i < count; i++) s->send(asked, 0, 0, NULL, 0);
}

static void send_place(const side *s, long count) {
  for (long i = 0; i < count; i++) s->send(asked, below((int64_t)size), 0, NULL, 0);
}

static void send_line(const side *s, long count) {
  for (long i = 0; i < count; i++) s->send(asked, below((int64_t)size / LINE), 0, NULL, 0);
}

/* Each line in order. */
static void send_lines(const side *s, long count) {
  for (long i = 0; i < count; i++) s->send(asked, i, 0, NULL, 0);
}

static void set_target_range(const side *s, long count) {
  for (long i = 0; i < count; i++) s->send(SCI_SETTARGETRANGE, below((int64_t)size), 5, NULL, 0);
}

static void set_indicator(const side *s, long count) {
  for (long i = 0; i < count; i++) s->send(SCI_SETINDICATORCURRENT, i % 32, 0, NULL, 0);
}

static void copied_20(const side *s, long count) {
  for (long i = 0; i < count; i++) {
    int64_t from = below((int64_t)size - 20);
    s->copied_range(from, from + 20);
  }
}

static void styled_20(const side *s, long count) {
  for (long i = 0; i < count; i++) {
    int64_t from = below((int64_t)size - 20);
    s->styled_range(from, from + 20);
  }
}

static void styled_1000(const side *s, long count) {
  for (long i = 0; i < count; i++) {
    int64_t from = below((int64_t)size - 1000);
    s->styled_range(from, from + 1000);
  }
}

static void copied_lines(const side *s, long count) {
  for (long i = 0; i < count; i++) s->copied_line(below((int64_t)size / LINE));
}

/* ---- What changes nothing ---- */

static void set_states(const side *s, long count) {
  for (long i = 0; i < count; i++) s->send(SCI_SETLINESTATE, i, i % 7, NULL, 0);
}

static void load_states(const side *s, long count) {
  load(s, count);
  set_states(s, count);
}

static void load_same_levels(const side *s, long count) {
  load(s, count);
  set_levels(s, count);
}

static void set_level_5(const side *s, long count) {
  for (long i = 0; i < count; i++) s->send(SCI_SETFOLDLEVEL, 5, SC_FOLDLEVELBASE + 1, NULL, 0);
}

static void load_same_styles(const side *s, long count) {
  load(s, count);
  style(s, count);
}

/* ---- Styles ---- */

static void style_all(const side *s, long count) {
  s->send(SCI_STARTSTYLING, 0, 0, NULL, 0);
  s->send(SCI_SETSTYLING, count, 7, NULL, 0);
}

/* ---- Markers ---- */

enum { MANY = 100000 };

static void load_many_markers(const side *s, long count) {
  load(s, count);
  for (long i = 0; i < MANY; i++) s->send(SCI_MARKERADD, i * 4, 1, NULL, 0);
}

static void add_anywhere(const side *s, long count) {
  for (long i = 0; i < count; i++) s->send(SCI_MARKERADD, below(MANY) * 4, 2, NULL, 0);
}

static void delete_anywhere(const side *s, long count) {
  for (long i = 0; i < count; i++) s->send(SCI_MARKERDELETE, below(MANY) * 4, 1, NULL, 0);
}

static void move_anywhere(const side *s, long count) {
  for (long i = 0; i < count; i++) {
    s->send(SCI_MARKERDELETE, below(MANY) * 4, 1, NULL, 0);
    s->send(SCI_MARKERADD, below(MANY) * 4, 1, NULL, 0);
  }
}

static void each_next(const side *s, long count) {
  int64_t line = 0;
  for (long i = 0; i < count; i++) {
    line = s->send(SCI_MARKERNEXT, line, 2, NULL, 0) + 1;
    must(line > 0, "a marker is missing");
  }
}

/* ---- Indicators ---- */

static void load_all_indicators(const side *s, long count) {
  load(s, count);
  for (int64_t indicator = 0; indicator < 32; indicator++) {
    s->send(SCI_SETINDICATORCURRENT, indicator, 0, NULL, 0);
    for (int64_t i = 0; i < 10000; i++) s->send(SCI_INDICATORFILLRANGE, i * 1600 + indicator, 20, NULL, 0);
  }
}

/* ---- Folding ---- */

static void load_all_contracted(const side *s, long count) {
  load_levels(s, count);
  contract(s, (long)size / LINE / 8);
}

enum { NEST = 100 };

/* A nest of headers, with nine lines in each. */
static void load_nest(const side *s, long count) {
  load(s, count);
  for (long i = 0; i < NEST * 10; i++)
    s->send(SCI_SETFOLDLEVEL, i, i % 10 == 0 ? (SC_FOLDLEVELBASE + i / 10) | SC_FOLDLEVELHEADERFLAG : SC_FOLDLEVELBASE + i / 10 + 1, NULL, 0);
}

/* ---- Searches ---- */

/* Each byte in turn: all lines have it. */
static void find_each(const side *s, long count) {
  int64_t from = 0;
  s->send(SCI_SETSEARCHFLAGS, SCFIND_MATCHCASE, 0, NULL, 0);
  for (long i = 0; i < count; i++) {
    s->send(SCI_SETTARGETRANGE, from, (int64_t)size, NULL, 0);
    from = s->send(SCI_SEARCHINTARGET, 1, 0, "e", 1) + 1;
    must(from > 0, "a match is missing");
  }
}

/* A word that each line has. */
static void find_near(const side *s, long count) {
  s->send(SCI_SETSEARCHFLAGS, SCFIND_MATCHCASE, 0, NULL, 0);
  for (long i = 0; i < count; i++) {
    s->send(SCI_SETTARGETRANGE, below((int64_t)size - 2 * LINE), (int64_t)size, NULL, 0);
    must(s->send(SCI_SEARCHINTARGET, 5, 0, "forty", 5) >= 0, "a match is missing");
  }
}

/* ---- A container's steps ---- */

static void add_actions(const side *s, long count) {
  for (long i = 0; i < count; i++) s->send(SCI_ADDUNDOACTION, i, UNDO_MAY_COALESCE, NULL, 0);
}

/* A step of the text is before them. */
static void load_typed_byte(const side *s, long count) {
  (void)count;
  load(s, 0);
  type(s, 1);
}

/* A row whose function sends the message with a number. */
typedef struct asked_row {
  row row;
  uint32_t number;
} asked_row;

static const asked_row more_rows[] = {
    {{"GETCURRENTPOS", {200000, 200000}, load, send_plain}, SCI_GETCURRENTPOS},
    {{"GETSELECTIONSTART", {200000, 200000}, load, send_plain}, SCI_GETSELECTIONSTART},
    {{"GETLINECOUNT", {200000, 200000}, load, send_plain}, SCI_GETLINECOUNT},
    {{"GETENDSTYLED", {200000, 200000}, load, send_plain}, SCI_GETENDSTYLED},
    {{"CANUNDO", {200000, 200000}, load, send_plain}, SCI_CANUNDO},
    {{"GETMODIFY", {200000, 200000}, load, send_plain}, SCI_GETMODIFY},
    {{"GETREADONLY", {200000, 200000}, load, send_plain}, SCI_GETREADONLY},
    {{"GETTARGETEND", {200000, 200000}, load, send_plain}, SCI_GETTARGETEND},
    {{"GETEOLMODE", {200000, 200000}, load, send_plain}, SCI_GETEOLMODE},
    {{"GETSEARCHFLAGS", {200000, 200000}, load, send_plain}, SCI_GETSEARCHFLAGS},
    {{"GETLINEENDPOSITION", {200000, 200000}, load, send_line}, SCI_GETLINEENDPOSITION},
    {{"LINELENGTH", {200000, 200000}, load, send_line}, SCI_LINELENGTH},
    {{"POSITIONAFTER", {200000, 200000}, load, send_place}, SCI_POSITIONAFTER},
    {{"POSITIONBEFORE", {200000, 200000}, load, send_place}, SCI_POSITIONBEFORE},
    {{"MARKERGET, no marker", {200000, 200000}, load, send_line}, SCI_MARKERGET},
    {{"GETFOLDLEVEL, none set", {200000, 0}, load, send_line}, SCI_GETFOLDLEVEL},
    {{"GETFOLDLEVEL", {200000, 200000}, load_levels, send_line}, SCI_GETFOLDLEVEL},
    {{"GETLINESTATE, none set", {200000, 200000}, load, send_line}, SCI_GETLINESTATE},
    {{"GETLINEVISIBLE, nothing folded", {200000, 200000}, load, send_line}, SCI_GETLINEVISIBLE},
    {{"GETFOLDEXPANDED, nothing folded", {200000, 200000}, load, send_line}, SCI_GETFOLDEXPANDED},
    {{"VISIBLEFROMDOCLINE, nothing folded", {200000, 200000}, load, send_line}, SCI_VISIBLEFROMDOCLINE},
    {{"DOCLINEFROMVISIBLE, nothing folded", {200000, 200000}, load, send_line}, SCI_DOCLINEFROMVISIBLE},
    {{"VISIBLEFROMDOCLINE of each, all contracted", {26000, 400000}, load_all_contracted, send_lines}, SCI_VISIBLEFROMDOCLINE},
    {{"GETFOLDPARENT of each in a nest of 100", {1000, 0}, load_nest, send_lines}, SCI_GETFOLDPARENT},
    {{"INDICATORALLONFOR, none in use", {200000, 200000}, load, send_place}, SCI_INDICATORALLONFOR},
    {{"INDICATORALLONFOR, 32 of 10,000 runs", {0, 20000}, load_all_indicators, send_place}, SCI_INDICATORALLONFOR},
    {{"INDICATORVALUEAT, none in use", {200000, 200000}, load, indicator_at}, 0},
    {{"20 bytes copied", {200000, 200000}, load, copied_20}, 0},
    {{"20 bytes with their styles", {200000, 200000}, load_styled, styled_20}, 0},
    {{"1,000 bytes with their styles", {20000, 20000}, load_styled, styled_1000}, 0},
    {{"GETLINE", {200000, 200000}, load, copied_lines}, 0},
    {{"SETEMPTYSELECTION anywhere", {2000, 2000}, load, send_place}, SCI_SETEMPTYSELECTION},
    {{"GOTOPOS anywhere", {30, 30}, load, send_place}, SCI_GOTOPOS},
    {{"CHARRIGHT", {200, 200}, load, send_plain}, SCI_CHARRIGHT},
    {{"SETTARGETSTART", {200000, 200000}, load, send_place}, SCI_SETTARGETSTART},
    {{"SETTARGETRANGE", {200000, 200000}, load, set_target_range}, 0},
    {{"STARTSTYLING", {200000, 200000}, load, send_place}, SCI_STARTSTYLING},
    {{"SETINDICATORCURRENT", {200000, 200000}, load, set_indicator}, 0},
    {{"SETLINESTATE of each line", {26000, 400000}, load, set_states}, 0},
    {{"SETLINESTATE, the same again", {26000, 0}, load_states, set_states}, 0},
    {{"SETFOLDLEVEL, the same again", {26000, 0}, load_same_levels, set_levels}, 0},
    {{"SETFOLDLEVEL of line 5, the same again", {26000, 26000}, load_levels, set_level_5}, 0},
    {{"SETSTYLING of 5 bytes, the same again", {100000, 0}, load_same_styles, style}, 0},
    {{"SETSTYLING of all in one, a byte", {1048576, 16777216}, load, style_all}, 0},
    {{"MARKERADD among 100,000, anywhere", {0, 2000}, load_many_markers, add_anywhere}, 0},
    {{"MARKERDELETE among 100,000, anywhere", {0, 2000}, load_many_markers, delete_anywhere}, 0},
    {{"a marker of 100,000 moved", {0, 2000}, load_many_markers, move_anywhere}, 0},
    {{"MARKERNEXT from each to the next", {0, MANY}, load_many_markers, each_next}, 0},
    {{"SETTARGETRANGE, SEARCHINTARGET of a near word", {20000, 20000}, load, find_near}, 0},
    {{"find each of a frequent byte", {50000, 0}, load, find_each}, 0},
    {{"ADDUNDOACTION that coalesces", {5000, 0}, load_typed_byte, add_actions}, 0},
};

#endif

/* Calls that are drawn at random, in short episodes: each begins with new views, and ends where the states part. */
#include "../random.h"
#include "beside.h"

#include <stdlib.h>
#include <string.h>

enum { CALLS = 80, RARELY = 60 };

static uint64_t seed;

static int64_t below(int64_t bound) { return (int64_t)(next_shifted(&seed) % (uint64_t)bound); }

static int64_t between(int64_t from, int64_t to) { return from + below(to - from + 1); }
static bool one_in(int64_t count) { return below(count) == 0; }

// clang-format off
static const struct piece { const char *bytes; size_t length; } pieces[] = {
    {"a", 1}, {"b", 1}, {"A", 1}, {"ab", 2}, {"x_1", 3}, {" ", 1}, {"\t", 1}, {"\n", 1}, {"\n", 1}, {"\r", 1}, {"\r\n", 2}, {"e\n", 2},
    {"\xC3\xA9", 2}, {"\xE2\x82\xAC", 3}, {"\xF0\x9D\x84\x9E", 4}, {"\xC3", 1}, {"\xFF", 1}, {"\xE2\x80\xA8", 3}, {"\xC2\x85", 2}, {"\0", 1},
};
// clang-format on

/* A text of a few pieces: `closed` without NULs; at times one of the document's own. */
static void draw_text(const trial *t, call *c, bool is_closed) {
  int64_t count = one_in(8) ? 0 : between(1, one_in(4) ? 6 : 2), kinds = (int64_t)(sizeof pieces / sizeof *pieces) - 1;
  c->length = 0;
  if (t->length > 0 && c->of->number == SCI_SEARCHINTARGET && !one_in(3)) {
    struct Sci_TextRange range = {{0, 0}, c->text};
    range.chrg.cpMin = (Sci_PositionCR)below(t->length);
    range.chrg.cpMax = (Sci_PositionCR)between(range.chrg.cpMin, range.chrg.cpMin + 4 < t->length ? range.chrg.cpMin + 4 : t->length);
    c->length = (size_t)ask(t->ours, c->view, SCI_GETTEXTRANGE, 0, (sptr_t)&range);
    return;
  }
  for (; count > 0; count--) {
    const struct piece *p = &pieces[below(is_closed || !one_in(10) ? kinds : kinds + 1)];
    memcpy(c->text + c->length, p->bytes, p->length);
    c->length += p->length;
  }
  c->text[c->length] = '\0';
}

/* A number from 0 to `most`, or seldom one beside it. */
static int64_t near(int64_t most) {
  static const int64_t far[] = {-1, -2, -1000, (int64_t)1 << 31, -((int64_t)1 << 31), ((int64_t)1 << 31) - 1};
  if (!one_in(RARELY)) return between(0, most);
  return one_in(2) ? most + between(1, 3) : far[below(one_in(4) ? 6 : 2)];
}

/* The same of lines. Far ones are not drawn: Scintilla tries each number down from one, or makes room for all lines up to it. */
static int64_t near_line(int64_t last) { return one_in(RARELY) ? (one_in(2) ? last + between(1, 3) : -between(1, 3)) : between(0, last); }

static int64_t draw(const trial *t, const call *c, place p) {
  static const int64_t masks[] = {SC_MODEVENTMASKALL, SC_MODEVENTMASKALL, 0, SC_MOD_INSERTTEXT | SC_MOD_DELETETEXT, 0x2F00, 0x3FFFFF};
  static const int64_t flags[] = {0, SCFIND_MATCHCASE, SCFIND_WHOLEWORD, SCFIND_WORDSTART, SCFIND_MATCHCASE | SCFIND_WHOLEWORD};
  switch (p) {
    case POSITION: return near(t->length);
    case LINE: return near_line(t->lines - 1);
    case FLAG: return one_in(4) ? between(0, 1) : 1;
    case MARKER: return one_in(6) ? near(31) : between(0, 3);
    case MASK: return one_in(8) ? below((int64_t)1 << 32) : between(0, 15);
    case HANDLE: return near(6);
    case STYLE: return one_in(6) ? near(255) : between(0, 3);
    case INDICATOR: return one_in(8) ? near(31) : between(0, 2);
    case VALUE: return near(5);
    case LEVEL: return SC_FOLDLEVELBASE + between(0, 3) + (one_in(2) ? SC_FOLDLEVELHEADERFLAG : 0) + (one_in(20) ? SC_FOLDLEVELWHITEFLAG : 0);
    case STATE: return one_in(8) ? between(-5, 5) : between(0, 9);
    case MODE: return near(2);
    case ACTION: return near(2);
    case TOKEN: return near(5);
    case STEP: return near(1);
    case OPTIONS: return one_in(2) ? 0 : one_in(2) ? SC_DOCUMENTOPTION_STYLES_NONE : SC_DOCUMENTOPTION_TEXT_LARGE;
    case SEARCH: return flags[below(5)];
    case EVENTS: return masks[below(6)];
    case TYPES: return one_in(3) ? 1 : 0;
    case ROOM: return one_in(3) ? between(0, t->length) : t->length + between(0, 3);
    case DOCUMENT: return one_in(3) ? 0 : between(1, t->ours->document_count);
    default: return c->l;
  }
}

/* What of the arguments hangs on another one. */
static void draw_count(const trial *t, call *c) {
  int64_t styled = ask(t->ours, c->view, SCI_GETENDSTYLED, 0, 0), left = c->w < 0 || c->w > t->length ? 0 : t->length - c->w;
  if (c->of->l == COUNT) c->l = near(left);
  if (c->of->w == COUNT && c->of->l == STYLE) c->w = near(t->length < styled ? 0 : t->length - styled);
  if (c->of->l == RANGE) {
    c->w = near(t->length);
    c->l = one_in(8) ? -1 : near(t->length);
    if (c->w > c->l && c->l != -1 && !one_in(20)) {
      int64_t least = c->l;
      c->l = c->w;
      c->w = least;
    }
  }
}

static const message *drawn_message(void) {
  static int total;
  int at = 0;
  if (total == 0)
    for (int i = 0; i < message_count; i++) total += messages[i].weight;
  int64_t left = below(total);
  while (left >= messages[at].weight) left -= messages[at++].weight;
  return &messages[at];
}

static void draw_call(trial *t, call *c) {
  c->of = drawn_message();
  c->view = (int)below(t->views);
  t->length = ask(t->ours, c->view, SCI_GETLENGTH, 0, 0);
  t->lines = ask(t->ours, c->view, SCI_GETLINECOUNT, 0, 0);
  c->length = 0;
  c->is_null = (c->of->l == BUFFER && one_in(6)) || (c->of->l == BYTES && one_in(200)) || (c->of->l == CLOSED && one_in(200));
  c->l = 0;
  c->w = draw(t, c, c->of->w);
  c->l = draw(t, c, c->of->l);
  if (c->of->l == BYTES || c->of->l == CLOSED) draw_text(t, c, c->of->l == CLOSED);
  if (c->of->l == BYTES) c->w = one_in(100) ? -1 : (int64_t)c->length;
  if (c->of->l == BYTES && c->is_null) c->w = c->length = 0;
  if (c->of->number == SCI_SETSTYLINGEX && !one_in(20)) {
    int64_t room = t->length - ask(t->ours, c->view, SCI_GETENDSTYLED, 0, 0);
    if (c->w > room) c->w = room < 0 ? 0 : room;
  }
  draw_count(t, c);
}

/* New views: one of a document of its own, mostly, or several of one or of their own. */
static void begin(trial *t, call *c) {
  int views = one_in(3) ? (int)between(2, VIEWS) : 1;
  begin_trial(t);
  while (t->views < views) open_view(t->ours, t->theirs, t->views++);
  c->of = message_of(SCI_SETDOCPOINTER);
  c->w = 0;
  c->l = 1;
  for (c->view = 1; c->view < t->views; c->view++)
    if (!one_in(4)) try_call(t, c);
}

void try_random(trial *t, long calls, uint64_t from) {
  static call c;
  seed = from;
  while (calls_sent < calls) {
    begin(t, &c);
    for (int i = 0; i < CALLS && !t->is_parted && calls_sent < calls; i++) {
      draw_call(t, &c);
      try_call(t, &c);
    }
  }
}

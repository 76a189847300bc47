/* When a row of the table applies: conditions by their names. */
#include "beside.h"

#include <stdlib.h>
#include <string.h>

static bool always(const trial *t) { return t != NULL; }
static bool is_refused(const trial *t) { return t->ours->answer.status != SC_STATUS_OK; }
static bool is_read_only(const trial *t) { return t->is_read_only; }
static bool is_null(const trial *t) { return t->call->is_null; }

static bool is_outside(const trial *t, int64_t position) { return position < 0 || position > t->length; }

/* A range, of GETTEXTRANGE and of those like it, that does not lie in the text. */
static bool is_range_outside(const trial *t) {
  int64_t end = t->call->l == -1 ? t->length : t->call->l;
  return is_outside(t, t->call->w) || is_outside(t, end) || end < t->call->w;
}

static bool is_position_outside(const trial *t) { return is_outside(t, t->call->w); }
static bool is_count_outside(const trial *t) { return is_outside(t, t->call->w) || t->call->l < 0 || t->call->l > t->length - t->call->w; }
static bool is_bad_line(const trial *t) { return t->call->w < 0 || t->call->w >= t->lines; }
static bool is_hidden(const trial *t) { return !is_bad_line(t) && ask(t->ours, t->call->view, SCI_GETLINEVISIBLE, (sptr_t)t->call->w, 0) == 0; }
static bool is_no_byte(const trial *t) {
  int64_t position = t->call->of->l == POSITION ? t->call->l : t->call->w;
  return position < 0 || position >= t->length;
}

static bool is_not_collecting(const trial *t) { return !t->collects; }
static bool has_white(const trial *t) { return t->is_white; }
static bool is_no_header(const trial *t) { return (t->level & SC_FOLDLEVELHEADERFLAG) == 0; }
static bool is_childless(const trial *t) { return t->last_child == t->call->w; }
static bool was_hidden(const trial *t) { return !is_bad_line(t) && !t->is_shown; }
static bool has_hidden(const trial *t) { return !t->all_shown; }
static bool is_inside(const trial *t) { return !t->is_cut; }
/* Nothing but a record. */
static bool is_quiet(const trial *t) {
  const answer *a = &t->ours->answer;
  return a->notes == 0 || (a->notes == 1 && a->heard[0].note.nmhdr.code == SCN_MACRORECORD);
}
static bool is_line_0(const trial *t) { return t->call->w <= 0; }
static bool is_far(const trial *t) { return t->call->w >= (int64_t)1 << 31 || t->call->l >= (int64_t)1 << 31; }

/* A match that ends behind the target. */
static bool is_match_outside(const trial *t) {
  int64_t end = t->target_start > t->target_end ? t->target_start : t->target_end;
  return t->theirs->answer.value + t->call->w > end;
}

static bool is_past_lines(const trial *t) { return t->call->l >= t->lines; }
static bool is_caret_first(const trial *t) { return t->caret < t->anchor; }
static bool is_empty(const trial *t) { return t->call->w == 0; }
static bool is_0_there(const trial *t) { return t->theirs->answer.value == 0; }

static int64_t flags_of(const trial *t) { return ask(t->ours, t->call->view, SCI_GETSEARCHFLAGS, 0, 0); }
static bool is_word_wanted(const trial *t) { return (flags_of(t) & (SCFIND_WHOLEWORD | SCFIND_WORDSTART)) != 0; }
static bool is_case_folded(const trial *t) { return (flags_of(t) & SCFIND_MATCHCASE) == 0; }

/* A text that has more than ASCII. */
static bool is_wide(const trial *t) {
  for (size_t i = 0; i < t->call->length; i++)
    if ((unsigned char)t->call->text[i] >= 0x80) return true;
  return false;
}

/* Whether the first note with a text has bytes that are in no character. */
static bool is_ill_formed(const trial *t) {
  const answer *a = &t->ours->answer;
  for (size_t i = 0; i < a->notes; i++) {
    const unsigned char *at = (const unsigned char *)a->texts + a->heard[i].text, *end = at + a->heard[i].note.length;
    for (size_t more; a->heard[i].note.text != NULL && at < end; at += more + 1) {
      more = *at < 0x80 ? 0 : *at >= 0xC2 && *at < 0xE0 ? 1 : *at >= 0xE0 && *at < 0xF0 ? 2 : *at >= 0xF0 && *at < 0xF5 ? 3 : (size_t)(end - at);
      if (more >= (size_t)(end - at)) return true;
      for (size_t k = 1; k <= more; k++)
        if (at[k] < 0x80 || at[k] > 0xBF) return true;
    }
  }
  return false;
}

/* Whether there is a NUL in the text that was given, or told of. */
static bool has_nul(const trial *t) {
  const answer *a = &t->ours->answer;
  bool is_given = t->call->of->l == BUFFER && a->value > 0 && memchr(a->buffer, '\0', (size_t)a->value) != NULL;
  return is_given || (a->texts_used > 0 && memchr(a->texts, '\0', a->texts_used) != NULL);
}

static bool is_masked(const trial *t) {
  for (int view = 0; view < t->views; view++)
    if (t->ours->views[view] != 0 && ask(t->ours, view, SCI_GETMODEVENTMASK, 0, 0) != SC_MODEVENTMASKALL) return true;
  return false;
}

/* ---- What notes may differ in ---- */

static bool is_kind(const SCNotification *note, int kinds) { return note->nmhdr.code == SCN_MODIFIED && (note->modificationType & kinds) != 0; }

static unsigned int deletions(const SCNotification *n) { return is_kind(n, SC_MOD_DELETETEXT | SC_MOD_BEFOREDELETE) ? ITS_TEXT : 0; }
static unsigned int starts(const SCNotification *n) { return is_kind(n, SC_MOD_DELETETEXT | SC_MOD_INSERTTEXT) ? START : 0; }
static unsigned int places(const SCNotification *n) { return is_kind(n, SC_MOD_CHANGEFOLD) ? PLACE | KIND : is_kind(n, SC_MOD_CHANGELINESTATE) ? PLACE : 0; }
static unsigned int markers(const SCNotification *n) { return is_kind(n, SC_MOD_CHANGEMARKER) ? PLACE | AT_LINE : 0; }
static unsigned int unchanged(const SCNotification *n) { return is_kind(n, SC_MOD_CHANGEMARKER) ? EXTRA : 0; }
static unsigned int styling(const SCNotification *n) { return n->nmhdr.code == SCN_STYLENEEDED ? EXTRA : 0; }
static unsigned int containers(const SCNotification *n) { return is_kind(n, SC_MOD_CONTAINER) ? KIND : 0; }
static unsigned int lasts(const SCNotification *n) { return is_kind(n, SC_MOD_DELETETEXT | SC_MOD_INSERTTEXT) ? LAST : 0; }

static unsigned int attempts(const SCNotification *n) { return n->nmhdr.code == SCN_MODIFYATTEMPTRO ? EXTRA : 0; }
static unsigned int ranges(const SCNotification *n) { return is_kind(n, SC_MOD_CHANGESTYLE | SC_MOD_CHANGEINDICATOR) ? PLACE | SPAN | EXTRA : 0; }

static const struct excuse {
  const char *name;
  unsigned int (*but)(const SCNotification *);
} excuses[] = {
    {"deletions", deletions}, {"starts", starts},         {"places", places}, {"markers", markers},   {"unchanged", unchanged},
    {"styling", styling},     {"containers", containers}, {"lasts", lasts},   {"attempts", attempts}, {"ranges", ranges},
};

static const char *excused; /* the names that are asked for */

static unsigned int but_excused(const SCNotification *note) {
  unsigned int found = 0;
  for (size_t i = 0; i < sizeof excuses / sizeof *excuses; i++)
    if (strstr(excused, excuses[i].name) != NULL) found |= excuses[i].but(note);
  return found;
}

/* `but for NAME NAME ..`: the notes are the same but for these parts. */
static bool is_but_for(const trial *t, const char *names) {
  excused = names;
  return same_notes_but(&t->ours->answer, &t->theirs->answer, but_excused);
}

/* ---- Conditions by name ---- */

static bool is_to_the_end(const trial *t) { return t->call->l == -1; }
static bool is_not_minus_one(const trial *t) { return t->call->w != -1; }
static bool is_negative(const trial *t) { return t->call->w < 0; }
static bool is_selected(const trial *t) { return t->caret != t->anchor; }
static bool is_backwards(const trial *t) { return t->target_start > t->target_end; }

/* Whether a document is there still. */
static bool is_there(const trial *t, int64_t document) {
  if (document <= 0 || document > t->ours->document_count) return false;
  for (int view = 0; view < t->views; view++)
    if (t->ours->views[view] != 0 && document_of(t->ours, view) == document) return true;
  return t->held[document] > 0;
}

static bool is_gone(const trial *t) { return !is_there(t, t->call->l); }
static bool is_gone_and_named(const trial *t) { return t->call->l != 0 && is_gone(t); }
static bool is_not_held(const trial *t) { return t->call->l <= 0 || t->call->l > t->ours->document_count || t->held[t->call->l] == 0; }

/* The document that only the sending view has. */
static bool is_its_own(const trial *t) {
  if (t->call->l == 0 || document_of(t->ours, t->call->view) != t->call->l || t->held[t->call->l] > 0) return false;
  for (int view = 0; view < t->views; view++)
    if (view != t->call->view && t->ours->views[view] != 0 && document_of(t->ours, view) == t->call->l) return false;
  return true;
}

static const struct condition {
  const char *name;
  bool (*holds)(const trial *);
} conditions[] = {
    {"always", always},
    {"refused", is_refused},
    {"read-only", is_read_only},
    {"null", is_null},
    {"range outside", is_range_outside},
    {"position outside", is_position_outside},
    {"count outside", is_count_outside},
    {"to the end", is_to_the_end},
    {"bad line", is_bad_line},
    {"hidden line", is_hidden},
    {"no byte", is_no_byte},
    {"not collecting", is_not_collecting},
    {"white flag", has_white},
    {"no header", is_no_header},
    {"no children", is_childless},
    {"hidden before", was_hidden},
    {"hidden lines", has_hidden},
    {"inside a character", is_inside},
    {"nothing told", is_quiet},
    {"line 0", is_line_0},
    {"past the lines", is_past_lines},
    {"caret first", is_caret_first},
    {"empty text", is_empty},
    {"0 there", is_0_there},
    {"words", is_word_wanted},
    {"case folded", is_case_folded},
    {"more than ASCII", is_wide},
    {"masked", is_masked},
    {"ill-formed", is_ill_formed},
    {"NUL", has_nul},
    {"2^31", is_far},
    {"match outside", is_match_outside},
    {"negative", is_negative},
    {"not at the caret", is_not_minus_one},
    {"selected", is_selected},
    {"target backwards", is_backwards},
    {"document gone", is_gone},
    {"another document gone", is_gone_and_named},
    {"document not held", is_not_held},
    {"its own document", is_its_own},
};

/* `after NAME NAME ..`: one of these messages was sent since the views were opened. */
static bool is_after(const trial *t, const char *names) {
  char copy[512];
  snprintf(copy, sizeof copy, "%s", names);
  for (char *name = strtok(copy, " "); name != NULL; name = strtok(NULL, " "))
    for (int i = 0; i < message_count; i++)
      if (strcmp(messages[i].name, name) == 0 && t->sent[messages[i].number - 2000]) return true;
  return false;
}

bool holds(const trial *t, const char *name) {
  if (strncmp(name, "after ", 6) == 0) return is_after(t, name + 6);
  if (strncmp(name, "but for ", 8) == 0) return is_but_for(t, name + 8);
  for (size_t i = 0; i < sizeof conditions / sizeof *conditions; i++)
    if (strcmp(conditions[i].name, name) == 0) return conditions[i].holds(t);
  fprintf(stderr, "beside: no condition %s\n", name);
  exit(1);
}

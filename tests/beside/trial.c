/* A call that is sent to both sides, and what differs of what comes of it. */
#define _POSIX_C_SOURCE 200809L
#include "beside.h"

#include <string.h>
#include <unistd.h>

long calls_sent, values_compared, buffers_compared, notes_compared, states_compared;

/* Whether a line has the white flag. */
static bool has_white(const trial *t) {
  for (int64_t line = 0; line < t->lines; line++)
    if ((ask(t->ours, t->call->view, SCI_GETFOLDLEVEL, (sptr_t)line, 0) & SC_FOLDLEVELWHITEFLAG) != 0) return true;
  return false;
}

static void look_before(trial *t, const call *c) {
  const side *s = t->ours;
  t->call = c;
  t->length = ask(s, c->view, SCI_GETLENGTH, 0, 0);
  t->lines = ask(s, c->view, SCI_GETLINECOUNT, 0, 0);
  t->caret = ask(s, c->view, SCI_GETCURRENTPOS, 0, 0);
  t->anchor = ask(s, c->view, SCI_GETANCHOR, 0, 0);
  t->target_start = ask(s, c->view, SCI_GETTARGETSTART, 0, 0);
  t->target_end = ask(s, c->view, SCI_GETTARGETEND, 0, 0);
  t->is_read_only = ask(s, c->view, SCI_GETREADONLY, 0, 0) != 0;
  t->collects = ask(s, c->view, SCI_GETUNDOCOLLECTION, 0, 0);
  t->is_cut = t->caret == 0 || ask(s, c->view, SCI_POSITIONAFTER, (sptr_t)ask(s, c->view, SCI_POSITIONBEFORE, (sptr_t)t->caret, 0), 0) == t->caret;
  t->level = ask(s, c->view, SCI_GETFOLDLEVEL, (sptr_t)c->w, 0);
  t->last_child = ask(s, c->view, SCI_GETLASTCHILD, (sptr_t)c->w, -1);
  t->is_shown = ask(s, c->view, SCI_GETLINEVISIBLE, (sptr_t)c->w, 0) != 0;
  t->all_shown = ask(s, c->view, SCI_GETALLLINESVISIBLE, 0, 0) != 0;
  t->is_white = has_white(t);
}

static bool same_text(const answer *a, const heard *x, const answer *b, const heard *y) {
  if ((x->note.text == NULL) != (y->note.text == NULL)) return false;
  return x->note.text == NULL || memcmp(a->texts + x->text, b->texts + y->text, (size_t)x->note.length) == 0;
}

static bool same_note(const answer *a, const heard *x, const answer *b, const heard *y, unsigned int but) {
  const SCNotification *m = &x->note, *n = &y->note;
  bool is_record = m->nmhdr.code == SCN_MACRORECORD;
  int bits = ((but & START) != 0 ? SC_STARTACTION : 0) | ((but & LAST) != 0 ? SC_LASTSTEPINUNDOREDO | SC_MULTISTEPUNDOREDO | SC_MULTILINEUNDOREDO : 0);
  if (x->view != y->view || m->nmhdr.code != n->nmhdr.code || m->nmhdr.idFrom != n->nmhdr.idFrom) return false;
  if ((but & PLACE) == 0 && m->position != n->position) return false;
  if ((but & KIND) == 0 && ((m->modificationType ^ n->modificationType) & ~bits) != 0) return false;
  if ((but & AT_LINE) == 0 && m->line != n->line) return false;
  if ((but & SPAN) == 0 && m->length != n->length) return false;
  if (m->linesAdded != n->linesAdded || m->message != n->message || m->token != n->token) return false;
  if (m->foldLevelNow != n->foldLevelNow || m->foldLevelPrev != n->foldLevelPrev) return false;
  if (is_record && (m->wParam != n->wParam || m->lParam != n->lParam)) return false;
  return (but & ITS_TEXT) != 0 || same_text(a, x, b, y);
}

bool same_notes_but(const answer *a, const answer *b, unsigned int (*but)(const SCNotification *)) {
  size_t i = 0, j = 0;
  for (;;) {
    bool is_same = i < a->notes && j < b->notes && same_note(a, &a->heard[i], b, &b->heard[j], but(&a->heard[i].note));
    if (i == a->notes && j == b->notes) return true;
    if (!is_same && (j == b->notes || (but(&b->heard[j].note) & EXTRA) == 0)) return false;
    i += is_same;
    j++;
  }
}

static unsigned int but_nothing(const SCNotification *note) { return note == NULL; }
static bool same_notes(const answer *a, const answer *b) { return same_notes_but(a, b, but_nothing); }

static void compare_answers(trial *t, size_t room) {
  const answer *a = &t->ours->answer, *b = &t->theirs->answer;
  values_compared++;
  if (a->value != b->value) count_difference(t, "value");
  if (a->status != b->status) count_difference(t, "status");
  notes_compared += (long)(a->notes > b->notes ? a->notes : b->notes);
  if (!same_notes(a, b)) count_difference(t, "notes");
  if (room == 0) return;
  buffers_compared++;
  if (memcmp(a->buffer, b->buffer, room) != 0) count_difference(t, "buffer");
}

static void compare_states(trial *t) {
  states_compared++;
  for (int view = 0; view < t->views; view++)
    for (int part = t->ours->views[view] == 0 ? PARTS : 0; (part = differing_part(t->ours, t->theirs, view, part)) >= 0; part++) {
      count_difference(t, part_names[part]);
      if (mend(t->ours, t->theirs, view, part)) continue;
      t->is_parted = true;
      return;
    }
}

void begin_trial(trial *t) {
  t->views = 0;
  t->is_parted = false;
  memset(t->sent, 0, sizeof t->sent);
  memset(t->held, 0, sizeof t->held);
  alarm(20);
  begin_session(t->ours, t->theirs);
  forget_calls();
}

/* Keeps count of the references that the caller holds. */
static void count_references(trial *t) {
  const answer *a = &t->ours->answer;
  const call *c = t->call;
  if (a->status != SC_STATUS_OK) return;
  if (c->of->number == SCI_CREATEDOCUMENT) t->held[a->value]++;
  if (c->of->number == SCI_ADDREFDOCUMENT) t->held[c->l]++;
  if (c->of->number == SCI_RELEASEDOCUMENT) t->held[c->l]--;
}

bool try_call(trial *t, const call *c) {
  size_t room = 0;
  look_before(t, c);
  if (is_listed(t, "not sent")) {
    count_difference(t, "not sent");
    return false;
  }
  if (c->of->l == BUFFER || c->of->l == RANGE) {
    room = (size_t)t->length * 2 + 16;
    memset(t->ours->answer.buffer, 0xA5, room);
    memset(t->theirs->answer.buffer, 0xA5, room);
  }
  remember_call(c);
  if (c->of->number == SCI_INDICATORFILLRANGE || c->of->number == SCI_INDICATORCLEARRANGE) mend_current(t->ours, t->theirs, c->view);
  perform(t->ours, c);
  perform(t->theirs, c);
  calls_sent++;
  count_references(t);
  t->sent[c->of->number - 2000] = 1;
  compare_answers(t, room);
  compare_states(t);
  return true;
}

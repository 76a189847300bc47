/* What was sent since the views were opened, in the spelling of scripts, and what came of the last call. */
#include "beside.h"

#include <string.h>

static char sent[1 << 16];
static size_t used;

void forget_calls(void) { used = 0; }

static size_t spelled(char *into, size_t room, const char *text, size_t length) {
  size_t at = 0;
  for (size_t i = 0; i < length && at + 8 < room; i++) {
    unsigned char byte = (unsigned char)text[i];
    at += (size_t)snprintf(into + at, room - at, byte < ' ' || byte > '~' || byte == '"' || byte == '\\' ? "\\x%02x" : "%c", byte);
  }
  into[at] = '\0';
  return at;
}

void remember_call(const call *c) {
  char text[1024];
  spelled(text, sizeof text, c->text, c->length);
  if (used + sizeof text + 128 > sizeof sent) return;
  used += (size_t)snprintf(sent + used, sizeof sent - used, "  %s%s: send %d %u %lld %lld \"%s\"\n", c->of->name, c->is_null ? " (null)" : "", c->view + 1,
                           c->of->number, (long long)c->w, (long long)c->l, text);
}

void describe_calls(FILE *to) { fprintf(to, "%.*s", (int)used, sent); }

static void describe_side(FILE *to, const side *s) {
  const answer *a = &s->answer;
  char text[512];
  fprintf(to, "  %s: value %lld, status %d\n", s->name, (long long)a->value, a->status);
  for (size_t i = 0; i < a->notes && i < 16; i++) {
    const SCNotification *n = &a->heard[i].note;
    spelled(text, sizeof text, a->texts + a->heard[i].text, n->text == NULL ? 0 : (size_t)n->length);
    fprintf(to, "    @ %d %u %d %td %td %td %td %d %d %d %d %s\"%s\"\n", a->heard[i].view + 1, n->nmhdr.code, n->modificationType, n->position, n->length,
            n->linesAdded, n->line, n->foldLevelNow, n->foldLevelPrev, n->token, n->message, n->text == NULL ? "null " : "", text);
  }
}

/* What a view shows now. */
static void describe_view(FILE *to, const side *s, int view) {
  static char bytes[TEXT + 1], text[1 << 14];
  int64_t length = ask(s, view, SCI_GETTEXT, TEXT, (sptr_t)bytes), lines = ask(s, view, SCI_GETLINECOUNT, 0, 0);
  spelled(text, sizeof text, bytes, (size_t)length);
  fprintf(to, "  %s, view %d: \"%s\", caret %lld, anchor %lld, target %lld %lld, modify %lld, undo %lld, redo %lld; lines", s->name, view + 1, text,
          (long long)ask(s, view, SCI_GETCURRENTPOS, 0, 0), (long long)ask(s, view, SCI_GETANCHOR, 0, 0), (long long)ask(s, view, SCI_GETTARGETSTART, 0, 0),
          (long long)ask(s, view, SCI_GETTARGETEND, 0, 0), (long long)ask(s, view, SCI_GETMODIFY, 0, 0), (long long)ask(s, view, SCI_CANUNDO, 0, 0),
          (long long)ask(s, view, SCI_CANREDO, 0, 0));
  for (int64_t line = 0; line < lines && line < 20; line++)
    fprintf(to, " %llx/%llx/%lld%s%s", (long long)ask(s, view, SCI_GETFOLDLEVEL, (sptr_t)line, 0), (long long)ask(s, view, SCI_MARKERGET, (sptr_t)line, 0),
            (long long)ask(s, view, SCI_GETLINESTATE, (sptr_t)line, 0), ask(s, view, SCI_GETLINEVISIBLE, (sptr_t)line, 0) ? "" : "h",
            ask(s, view, SCI_GETFOLDEXPANDED, (sptr_t)line, 0) ? "" : "c");
  fputc('\n', to);
}

void describe(FILE *to, const trial *t, const char *what) {
  fprintf(to, "UNLISTED  %s of %s, text of %lld bytes, caret %lld, anchor %lld, target %lld %lld\n", what, t->call->of->name, (long long)t->length,
          (long long)t->caret, (long long)t->anchor, (long long)t->target_start, (long long)t->target_end);
  describe_calls(to);
  describe_side(to, t->ours);
  describe_side(to, t->theirs);
  for (int view = 0; view < t->views; view++) {
    if (t->ours->views[view] == 0) continue;
    describe_view(to, t->ours, view);
    describe_view(to, t->theirs, view);
  }
  fflush(to);
}

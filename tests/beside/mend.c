/* Brings what Scintilla shows to what Hongpilas shows, where a known difference can be mended, so that more calls can be compared behind it. */
#include "beside.h"

#include <string.h>

typedef struct pair {
  const side *ours, *theirs;
  int view;
} pair;

static int64_t ours_at(const pair *p, unsigned int number, int64_t w) { return ask(p->ours, p->view, number, (sptr_t)w, 0); }

static void tell(const pair *p, unsigned int number, int64_t w, int64_t l) { ask(p->theirs, p->view, number, (sptr_t)w, (sptr_t)l); }

static void mend_selection(const pair *p) {
  tell(p, SCI_SETANCHOR, ours_at(p, SCI_GETANCHOR, 0), 0);
  tell(p, SCI_SETCURRENTPOS, ours_at(p, SCI_GETCURRENTPOS, 0), 0);
}

static void mend_target(const pair *p) { tell(p, SCI_SETTARGETRANGE, ours_at(p, SCI_GETTARGETSTART, 0), ours_at(p, SCI_GETTARGETEND, 0)); }

static void mend_end_styled(const pair *p) { tell(p, SCI_STARTSTYLING, ours_at(p, SCI_GETENDSTYLED, 0), 0); }

/* For each line, by a message that sets what another asks. */
static void mend_lines(const pair *p, unsigned int asked, unsigned int set) {
  for (int64_t line = ours_at(p, SCI_GETLINECOUNT, 0) - 1; line >= 0; line--) tell(p, set, line, ours_at(p, asked, line));
}

static void mend_levels(const pair *p) { mend_lines(p, SCI_GETFOLDLEVEL, SCI_SETFOLDLEVEL); }
static void mend_states(const pair *p) { mend_lines(p, SCI_GETLINESTATE, SCI_SETLINESTATE); }
static void mend_expanded(const pair *p) { mend_lines(p, SCI_GETFOLDEXPANDED, SCI_SETFOLDEXPANDED); }

static void mend_visible(const pair *p) {
  for (int64_t line = ours_at(p, SCI_GETLINECOUNT, 0) - 1; line >= 0; line--)
    tell(p, ours_at(p, SCI_GETLINEVISIBLE, line) != 0 ? SCI_SHOWLINES : SCI_HIDELINES, line, line);
}

void mend_current(const side *ours, const side *theirs, int view) {
  pair at = {ours, theirs, view};
  tell(&at, SCI_SETINDICATORCURRENT, ours_at(&at, SCI_GETINDICATORCURRENT, 0), 0);
  tell(&at, SCI_SETINDICATORVALUE, ours_at(&at, SCI_GETINDICATORVALUE, 0), 0);
}

static const struct mender {
  const char *part;
  void (*mend)(const pair *);
} menders[] = {
    {"selection", mend_selection}, {"target", mend_target},   {"endstyled", mend_end_styled}, {"levels", mend_levels},
    {"states", mend_states},       {"visible", mend_visible}, {"expanded", mend_expanded},
};

bool mend(const side *ours, const side *theirs, int view, int part) {
  pair at = {ours, theirs, view};
  for (size_t i = 0; i < sizeof menders / sizeof *menders; i++)
    if (strcmp(menders[i].part, part_names[part]) == 0) {
      menders[i].mend(&at);
      return differing_part(ours, theirs, view, part) != part;
    }
  return false;
}

/* What is seen of a document and a view, and whether both sides show the same. */
#include "beside.h"

#include <string.h>

/* One look: both sides, and a view of them. */
typedef struct look {
  const side *ours, *theirs;
  int view;
} look;

static bool agree(const look *at, unsigned int number, int64_t w, int64_t l) {
  return ask(at->ours, at->view, number, (sptr_t)w, (sptr_t)l) == ask(at->theirs, at->view, number, (sptr_t)w, (sptr_t)l);
}

static bool agree_all(const look *at, const unsigned int *numbers) {
  while (*numbers != 0)
    if (!agree(at, *numbers++, 0, 0)) return false;
  return true;
}

static bool same_text(const look *at) {
  static char ours[TEXT + 1], theirs[TEXT + 1];
  int64_t length = ask(at->ours, at->view, SCI_GETLENGTH, 0, 0);
  if (!agree(at, SCI_GETLENGTH, 0, 0)) return false;
  ask(at->ours, at->view, SCI_GETTEXT, TEXT, (sptr_t)ours);
  ask(at->theirs, at->view, SCI_GETTEXT, TEXT, (sptr_t)theirs);
  return memcmp(ours, theirs, (size_t)(length < TEXT ? length : TEXT)) == 0;
}

/* Whether a question with no second number agrees for each number below a bound. */
static bool same_for(const look *at, unsigned int bound, unsigned int number) {
  int64_t end = ask(at->ours, at->view, bound, 0, 0);
  for (int64_t i = 0; i < end; i++)
    if (!agree(at, number, i, 0)) return false;
  return true;
}

static bool same_lines(const look *at) { return agree(at, SCI_GETLINECOUNT, 0, 0) && same_for(at, SCI_GETLINECOUNT, SCI_POSITIONFROMLINE); }

static bool same_styles(const look *at) { return same_for(at, SCI_GETLENGTH, SCI_GETSTYLEAT); }
static bool same_levels(const look *at) { return same_for(at, SCI_GETLINECOUNT, SCI_GETFOLDLEVEL); }
static bool same_states(const look *at) { return same_for(at, SCI_GETLINECOUNT, SCI_GETLINESTATE); }
static bool same_markers(const look *at) { return same_for(at, SCI_GETLINECOUNT, SCI_MARKERGET); }
static bool same_visible(const look *at) { return same_for(at, SCI_GETLINECOUNT, SCI_GETLINEVISIBLE); }
static bool same_expanded(const look *at) { return same_for(at, SCI_GETLINECOUNT, SCI_GETFOLDEXPANDED); }
static bool same_end_styled(const look *at) { return agree(at, SCI_GETENDSTYLED, 0, 0); }

static bool same_indicators(const look *at) {
  int64_t length = ask(at->ours, at->view, SCI_GETLENGTH, 0, 0);
  for (int64_t i = 0; i < length; i++) {
    uint32_t on = (uint32_t)ask(at->ours, at->view, SCI_INDICATORALLONFOR, (sptr_t)i, 0);
    if (!agree(at, SCI_INDICATORALLONFOR, i, 0)) return false;
    for (int k = 0; on >> k != 0 && k < 31; k++)
      if ((on >> k & 1) != 0 && !agree(at, SCI_INDICATORVALUEAT, k, i)) return false;
  }
  return true;
}

static bool same_selection(const look *at) {
  static const unsigned int numbers[] = {SCI_GETCURRENTPOS, SCI_GETANCHOR, 0};
  return agree_all(at, numbers);
}

static bool same_target(const look *at) {
  static const unsigned int numbers[] = {SCI_GETTARGETSTART, SCI_GETTARGETEND, 0};
  return agree_all(at, numbers);
}

static bool same_modify(const look *at) { return agree(at, SCI_GETMODIFY, 0, 0); }

static bool same_document_settings(const look *at) {
  static const unsigned int numbers[] = {
      SCI_GETREADONLY, SCI_GETEOLMODE, SCI_GETUNDOCOLLECTION, SCI_CANPASTE, SCI_GETDOCUMENTOPTIONS, SCI_GETLINEENDTYPESALLOWED, 0};
  return agree_all(at, numbers);
}

static bool same_view_settings(const look *at) {
  static const unsigned int numbers[] = {SCI_GETSEARCHFLAGS, SCI_GETMODEVENTMASK, SCI_GETPASTECONVERTENDINGS, 0};
  return agree_all(at, numbers);
}

const char *const part_names[PARTS] = {"text",     "lines",     "styles", "endstyled", "levels",   "states", "markers",   "visible",
                                       "expanded", "selection", "target", "modify",    "document", "view",   "indicators"};

static bool (*const parts[PARTS])(const look *) = {
    same_text,      same_lines,  same_styles, same_end_styled,        same_levels,        same_states,    same_markers, same_visible, same_expanded,
    same_selection, same_target, same_modify, same_document_settings, same_view_settings, same_indicators};

int differing_part(const side *ours, const side *theirs, int view, int from) {
  look at = {ours, theirs, view};
  for (int part = from; part < PARTS; part++)
    if (!parts[part](&at)) return part;
  return -1;
}

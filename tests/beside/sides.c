/* The two sides: Scintilla's widgets, which are shown nowhere, and views of Hongpilas. */
#define _POSIX_C_SOURCE 200809L
#include "beside.h"

#include <dlfcn.h>
#include <stdlib.h>
#include <string.h>

/* What else Scintilla tells, as that it was painted or wants its window brought up to date, the profile leaves out. So it does kinds of changes. */
enum {
  KINDS = SC_MOD_INSERTTEXT | SC_MOD_DELETETEXT | SC_MOD_CHANGESTYLE | SC_MOD_CHANGEFOLD | SC_MOD_CHANGEMARKER | SC_MOD_BEFOREINSERT | SC_MOD_BEFOREDELETE |
          SC_MOD_CHANGEINDICATOR | SC_MOD_CHANGELINESTATE | SC_MOD_CONTAINER
};

static bool is_left_out(const SCNotification *note) {
  switch (note->nmhdr.code) {
    case SCN_MODIFIED: return (note->modificationType & KINDS) == 0;
    case SCN_STYLENEEDED:
    case SCN_SAVEPOINTREACHED:
    case SCN_SAVEPOINTLEFT:
    case SCN_MODIFYATTEMPTRO:
    case SCN_MACRORECORD: return false;
    default: return true;
  }
}

static void hear(side *s, int view, const SCNotification *note) {
  answer *a = &s->answer;
  heard *h = &a->heard[a->notes];
  size_t length = note->text == NULL ? 0 : (size_t)note->length;
  if (!s->is_hearing) return;
  if (is_left_out(note)) {
    a->left_out++;
    return;
  }
  if (a->notes == NOTES || a->texts_used + length > sizeof a->texts) {
    fprintf(stderr, "beside: too many notes of %s, the last of kind %d and length %td, after the calls\n", s->name, note->modificationType, note->length);
    describe_calls(stderr);
    exit(1);
  }
  a->notes++;
  h->view = view;
  h->note = *note;
  h->text = a->texts_used;
  if (length > 0) memcpy(a->texts + a->texts_used, note->text, length);
  a->texts_used += length;
}

/* One of these for each view is what a callback is given. */
static struct ear {
  side *of;
  int view;
} our_ears[VIEWS], their_ears[VIEWS];

static void hear_ours(SCNotification *note, void *data) {
  struct ear *ear = data;
  hear(ear->of, ear->view, note);
}

static void hear_theirs(void *widget, int id, SCNotification *note, void *data) {
  struct ear *ear = data;
  (void)widget, (void)id;
  hear(ear->of, ear->view, note);
}

/* ---- Scintilla's ---- */

static void *symbol(void *library, const char *name) {
  void *found = dlsym(library, name);
  if (found == NULL) fprintf(stderr, "beside: %s is not there\n", name);
  return found;
}

typedef struct toolkit {
  int (*start)(int *, char ***);
  void *(*make)(void), *(*window)(int);
  void (*put)(void *, void *), (*realize)(void *);
  sptr_t (*send)(void *, unsigned int, uptr_t, sptr_t);
  unsigned long (*connect)(void *, const char *, void (*)(void), void *, void *, int);
} toolkit;

/* Does what the toolkit wants done between messages: else it keeps an ever longer list. */
static int (*iterate)(void *context, int may_block);

static bool load(toolkit *kit, const char *library) {
  void *gtk = dlopen("libgtk-3.so.0", RTLD_NOW | RTLD_GLOBAL), *scintilla = dlopen(library, RTLD_NOW | RTLD_GLOBAL);
  if (gtk == NULL || scintilla == NULL) return false;
  *(void **)&kit->start = symbol(gtk, "gtk_init_check");
  *(void **)&kit->connect = symbol(gtk, "g_signal_connect_data");
  *(void **)&iterate = symbol(gtk, "g_main_context_iteration");
  *(void **)&kit->window = symbol(gtk, "gtk_window_new");
  *(void **)&kit->put = symbol(gtk, "gtk_container_add");
  *(void **)&kit->realize = symbol(gtk, "gtk_widget_realize");
  *(void **)&kit->make = symbol(scintilla, "scintilla_new");
  *(void **)&kit->send = symbol(scintilla, "scintilla_send_message");
  return kit->start != NULL && kit->connect != NULL && kit->window != NULL && kit->put != NULL && kit->realize != NULL && kit->make != NULL &&
         iterate != NULL && kit->send != NULL && kit->start(NULL, NULL);
}

/* Opens a widget, and answers its direct pointer. The clipboard wants a window. A style above 39 crashes where nothing has named it. */
static sptr_t open_widget(const toolkit *kit, side *theirs, void **widget) {
  void *window = kit->window(0);
  *widget = kit->make();
  kit->put(window, *widget);
  kit->realize(*widget);
  sptr_t direct = kit->send(*widget, SCI_GETDIRECTFUNCTION, 0, 0), pointer = kit->send(*widget, SCI_GETDIRECTPOINTER, 0, 0);
  memcpy(&theirs->send, &direct, sizeof direct);
  theirs->send(pointer, SCI_STYLESETFORE, 255, 0);
  return pointer;
}

/* CREATEDOCUMENT forgets there which lines the view that sends it shows and hides, and crashes behind it: it has a view of its own. */
bool open_theirs(side *theirs, const char *library) {
  toolkit kit;
  if (!load(&kit, library)) return false;
  theirs->name = "Scintilla";
  theirs->maker = open_widget(&kit, theirs, &(void *){NULL});
  for (int i = 0; i < VIEWS; i++) {
    void *widget;
    theirs->views[i] = open_widget(&kit, theirs, &widget);
    their_ears[i].of = theirs;
    their_ears[i].view = i;
    kit.connect(widget, "sci-notify", (void (*)(void))hear_theirs, &their_ears[i], NULL, 0);
  }
  return true;
}

/* Puts a widget on a new document, and its settings to where they begin. */
static void renew(side *theirs, int view) {
  static const struct {
    unsigned int number;
    sptr_t w, l;
  } settings[] = {
      {SCI_SETDOCPOINTER, 0, 0},          {SCI_SETTARGETRANGE, 0, 0}, {SCI_SETSEARCHFLAGS, 0, 0},
      {SCI_SETPASTECONVERTENDINGS, 1, 0}, {SCI_STOPRECORD, 0, 0},     {SCI_SETMODEVENTMASK, SC_MODEVENTMASKALL, 0},
      {SCI_COPYTEXT, 0, (sptr_t) ""},     {SCI_SETSTATUS, 0, 0},
  };
  for (size_t i = 0; i < sizeof settings / sizeof *settings; i++) theirs->send(theirs->views[view], settings[i].number, (uptr_t)settings[i].w, settings[i].l);
}

/* ---- Both ---- */

int64_t ask(const side *s, int view, unsigned int number, sptr_t w, sptr_t l) { return s->send(s->views[view], number, (uptr_t)w, l); }

/* The number of a document that is there now: the last that came under this name. */
static int document_named(const side *s, sptr_t document) {
  int i = s->document_count;
  while (i > 0 && s->documents[i - 1] != document) i--;
  return i;
}

static int note_document(side *s, sptr_t document) {
  if (s->document_count == DOCUMENTS) {
    fprintf(stderr, "beside: too many documents\n");
    exit(1);
  }
  s->documents[s->document_count] = document;
  return ++s->document_count;
}

int document_of(side *s, int view) { return document_named(s, ask(s, view, SCI_GETDOCPOINTER, 0, 0)); }

static hongpilas_scintilla *component;

void begin_session(side *ours, side *theirs) {
  for (int i = 0; i < 1000 && iterate(NULL, 0); i++) continue;
  hongpilas_scintilla_free(component);
  component = hongpilas_scintilla_new();
  ours->name = "Hongpilas";
  ours->send = hongpilas_direct;
  ours->document_count = theirs->document_count = 0;
}

void open_view(side *ours, side *theirs, int view) {
  ours->views[view] = hongpilas_scintilla_open(component);
  our_ears[view].of = ours;
  our_ears[view].view = view;
  hongpilas_set_notify(ours->views[view], hear_ours, &our_ears[view]);
  renew(theirs, view);
  note_document(ours, ask(ours, view, SCI_GETDOCPOINTER, 0, 0));
  note_document(theirs, ask(theirs, view, SCI_GETDOCPOINTER, 0, 0));
}

/* A widget is not closed, but leaves its document. */
void close_view(side *ours, side *theirs, int view) {
  hongpilas_scintilla_close(ours->views[view]);
  ours->views[view] = 0;
  renew(theirs, view);
}

/* What stands for l in a call: a pointer to what lies in the call or the answer, a document, or the number itself. */
static sptr_t argument(side *s, const call *c, struct Sci_TextRange *range) {
  char *buffer = c->is_null ? NULL : s->answer.buffer;
  switch (c->of->l) {
    case BYTES:
    case CLOSED: return c->is_null ? 0 : (sptr_t)c->text;
    case BUFFER: return (sptr_t)buffer;
    case RANGE:
      range->chrg.cpMin = (Sci_PositionCR)c->w;
      range->chrg.cpMax = (Sci_PositionCR)c->l;
      range->lpstrText = buffer;
      return (sptr_t)range;
    case DOCUMENT: return c->l <= 0 || c->l > s->document_count ? 0 : s->documents[c->l - 1];
    default: return (sptr_t)c->l;
  }
}

void perform(side *s, const call *c) {
  struct Sci_TextRange range;
  answer *a = &s->answer;
  sptr_t view = s->maker != 0 && c->of->number == SCI_CREATEDOCUMENT ? s->maker : s->views[c->view], l = argument(s, c, &range);
  a->notes = a->texts_used = a->left_out = 0;
  s->is_hearing = true;
  a->value = s->send(view, c->of->number, (uptr_t)(c->of->l == RANGE ? 0 : c->w), l);
  s->is_hearing = false;
  a->status = (int)s->send(view, SCI_GETSTATUS, 0, 0);
  if (a->status != SC_STATUS_OK) s->send(view, SCI_SETSTATUS, SC_STATUS_OK, 0);
  if (c->of->number == SCI_CREATEDOCUMENT && a->value != 0) a->value = note_document(s, a->value);
  if (c->of->number == SCI_GETDOCPOINTER) a->value = document_named(s, a->value);
  if (c->of->number == SCI_SETDOCPOINTER && l == 0) note_document(s, ask(s, c->view, SCI_GETDOCPOINTER, 0, 0));
}

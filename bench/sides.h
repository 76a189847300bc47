/* The sides that do the work: the library, the Scintilla-compatible interface over it, and Scintilla. A part of messages.c and of memory.c. */
#ifndef SIDES_H
#define SIDES_H

enum { MOST_VIEWS = 1000 };

/* A text is closed by a NUL that its length does not count. */
typedef struct side {
  const char *name;
  int64_t (*send)(uint32_t number, int64_t w, int64_t l, const char *text, size_t length);
  void (*text_range)(int64_t from, int64_t to); /* the next six hand over bytes, or bytes with their styles */
  void (*lent_range)(int64_t from, int64_t to);
  void (*whole_text)(void);
  void (*copied_range)(int64_t from, int64_t to); /* into `buffer`, as the next */
  void (*styled_range)(int64_t from, int64_t to);
  void (*copied_line)(int64_t line);
  void (*attach)(int count, int64_t mask); /* so many other views on the document, subscribed to the modifications of the mask; 0 leaves none */
} side;

static char *buffer;     /* where texts come back to */
static int64_t notified; /* the sum of the lengths of all notifications, so that each is read */

static void must(bool holds, const char *what) {
  if (holds) return;
  fprintf(stderr, "bench: %s\n", what);
  exit(1);
}

/* ---- Ours ---- */

static hongpilas_session *session;
static uint32_t view, others[MOST_VIEWS];
static int other_count;

static int64_t send_ours(uint32_t number, int64_t w, int64_t l, const char *bytes, size_t length) {
  int64_t value = 0;
  const uint8_t *text = bytes == NULL ? (const uint8_t *)"" : (const uint8_t *)bytes;
  must(hongpilas_send_unchecked(session, view, number, w, l, text, length, &value) == HONGPILAS_DONE, "a message was refused");
  return value;
}

/* Reads all notifications of the last reply, as a program does whose view listens. */
static int64_t send_ours_and_read(uint32_t number, int64_t w, int64_t l, const char *bytes, size_t length) {
  int64_t value = send_ours(number, w, l, bytes, length);
  size_t count = hongpilas_note_count_unchecked(session);
  hongpilas_note_data note;
  for (size_t i = 0; i < count; i++) {
    must(hongpilas_note_unchecked(session, i, &note), "no such notification");
    notified += note.length;
  }
  return value;
}

static void text_range_ours(int64_t from, int64_t to) { send_ours(SCI_GETTEXTRANGE, from, to, NULL, 0); }
static void whole_text_ours(void) { send_ours(SCI_GETTEXT, 0, 0, NULL, 0); }
static void lent_range_ours(int64_t from, int64_t to) {
  const uint8_t *bytes;
  must(hongpilas_lend_range_unchecked(session, view, (size_t)from, (size_t)(to - from), &bytes) == HONGPILAS_DONE, "no bytes lent");
}

static void copied_range_ours(int64_t from, int64_t to) {
  must(hongpilas_copy_range_unchecked(session, view, (size_t)from, (uint8_t *)buffer, (size_t)(to - from)) == HONGPILAS_DONE, "no bytes copied");
}

/* Puts the text of a query into `buffer`. */
static void read_ours(uint32_t number, int64_t w, int64_t l) {
  const uint8_t *bytes;
  size_t length;
  int64_t value;
  must(hongpilas_read_unchecked(session, view, number, w, l, &bytes, &length, &value) == HONGPILAS_DONE, "no text read");
  memcpy(buffer, bytes, length);
}

static void styled_range_ours(int64_t from, int64_t to) { read_ours(SCI_GETSTYLEDTEXT, from, to); }
static void copied_line_ours(int64_t line) { read_ours(SCI_GETLINE, line, 0); }

static void attach_ours(int count, int64_t mask) {
  int64_t document = send_ours(SCI_GETDOCPOINTER, 0, 0, NULL, 0), value;
  while (other_count > 0) must(hongpilas_close_view(session, others[--other_count]) == HONGPILAS_DONE, "a view was not closed");
  for (; other_count < count; other_count++) {
    must(hongpilas_new_view(session, &others[other_count]) == HONGPILAS_DONE, "no view opened");
    must(hongpilas_send(session, others[other_count], SCI_SETDOCPOINTER, 0, document, NULL, 0, &value) == HONGPILAS_DONE, "a view was not attached");
    must(hongpilas_send(session, others[other_count], SCI_SETMODEVENTMASK, mask, 0, NULL, 0, &value) == HONGPILAS_DONE, "a view has no mask");
  }
}

static void open_ours(void) { must(hongpilas_new(&session) == HONGPILAS_DONE && hongpilas_new_view(session, &view) == HONGPILAS_DONE, "no session"); }

/* ---- The Scintilla-compatible interface ---- */

static hongpilas_scintilla *component;
static sptr_t compatible_view, compatible_others[MOST_VIEWS];
static int compatible_count;

static void hear_compatible(SCNotification *note, void *data) {
  (void)data;
  notified += note->length;
}

/* A text's length is w, or its NUL says it. */
static int64_t send_compatible(uint32_t number, int64_t w, int64_t l, const char *bytes, size_t length) {
  (void)length;
  return hongpilas_direct(compatible_view, number, (uptr_t)w, bytes == NULL ? (sptr_t)l : (sptr_t)bytes);
}

static void copied_range_compatible(int64_t from, int64_t to) {
  struct Sci_TextRange range = {{(Sci_PositionCR)from, (Sci_PositionCR)to}, buffer};
  hongpilas_direct(compatible_view, SCI_GETTEXTRANGE, 0, (sptr_t)&range);
}

static void lent_range_compatible(int64_t from, int64_t to) { hongpilas_direct(compatible_view, SCI_GETRANGEPOINTER, (uptr_t)from, (sptr_t)(to - from)); }

static void whole_text_compatible(void) {
  uptr_t length = (uptr_t)hongpilas_direct(compatible_view, SCI_GETLENGTH, 0, 0);
  hongpilas_direct(compatible_view, SCI_GETTEXT, length + 1, (sptr_t)buffer);
}

static void styled_range_compatible(int64_t from, int64_t to) {
  struct Sci_TextRange range = {{(Sci_PositionCR)from, (Sci_PositionCR)to}, buffer};
  hongpilas_direct(compatible_view, SCI_GETSTYLEDTEXT, 0, (sptr_t)&range);
}

static void copied_line_compatible(int64_t line) { hongpilas_direct(compatible_view, SCI_GETLINE, (uptr_t)line, (sptr_t)buffer); }

static void attach_compatible(int count, int64_t mask) {
  sptr_t document = hongpilas_direct(compatible_view, SCI_GETDOCPOINTER, 0, 0);
  while (compatible_count > 0) hongpilas_scintilla_close(compatible_others[--compatible_count]);
  for (; compatible_count < count; compatible_count++) {
    compatible_others[compatible_count] = hongpilas_scintilla_open(component);
    must(compatible_others[compatible_count] != 0, "no view opened");
    hongpilas_direct(compatible_others[compatible_count], SCI_SETDOCPOINTER, 0, document);
    hongpilas_direct(compatible_others[compatible_count], SCI_SETMODEVENTMASK, (uptr_t)mask, 0);
    hongpilas_set_notify(compatible_others[compatible_count], hear_compatible, NULL);
  }
}

static void open_compatible(void) {
  component = hongpilas_scintilla_new();
  must(component != NULL, "no component");
  compatible_view = hongpilas_scintilla_open(component);
  must(compatible_view != 0, "no view");
}

static void listen_to_compatible(bool on) { hongpilas_set_notify(compatible_view, on ? hear_compatible : NULL, NULL); }

/* ---- Scintilla's ---- */

static intptr_t (*scintilla_send)(void *widget, unsigned number, uintptr_t w, intptr_t l);
static void *(*make_widget)(void);
static void *widget, *their_others[MOST_VIEWS];
static int their_count, widget_count;

static int64_t send_theirs(uint32_t number, int64_t w, int64_t l, const char *bytes, size_t length) {
  (void)length;
  return scintilla_send(widget, number, (uintptr_t)w, bytes == NULL ? (intptr_t)l : (intptr_t)bytes);
}

static void copied_range_theirs(int64_t from, int64_t to) {
  struct Sci_TextRange range = {{(Sci_PositionCR)from, (Sci_PositionCR)to}, buffer};
  scintilla_send(widget, SCI_GETTEXTRANGE, 0, (intptr_t)&range);
}

static void lent_range_theirs(int64_t from, int64_t to) { scintilla_send(widget, SCI_GETRANGEPOINTER, (uintptr_t)from, (intptr_t)(to - from)); }

static void whole_text_theirs(void) { scintilla_send(widget, SCI_GETTEXT, (uintptr_t)scintilla_send(widget, SCI_GETLENGTH, 0, 0) + 1, (intptr_t)buffer); }

static void styled_range_theirs(int64_t from, int64_t to) {
  struct Sci_TextRange range = {{(Sci_PositionCR)from, (Sci_PositionCR)to}, buffer};
  scintilla_send(widget, SCI_GETSTYLEDTEXT, 0, (intptr_t)&range);
}

static void copied_line_theirs(int64_t line) { scintilla_send(widget, SCI_GETLINE, (uintptr_t)line, (intptr_t)buffer); }

/* What its signal "sci-notify" calls. */
static void take_theirs(void *sender, int id, const SCNotification *notification, void *data) {
  (void)sender;
  (void)id;
  (void)data;
  notified += notification->length;
}

static unsigned long (*connect_signal)(void *sender, const char *signal, void (*called)(void), void *data, void *destroy, int flags);

/* Connects the widget's signal, which calls nothing before. */
static void listen_to(void *it) { must(connect_signal(it, "sci-notify", (void (*)(void))take_theirs, NULL, NULL, 0) != 0, "no signal connected"); }
static void listen_to_theirs(void) { listen_to(widget); }

/* Widgets are made once, and put on a document of their own when they are not wanted. */
static void attach_theirs(int count, int64_t mask) {
  intptr_t document = scintilla_send(widget, SCI_GETDOCPOINTER, 0, 0);
  while (their_count > 0) scintilla_send(their_others[--their_count], SCI_SETDOCPOINTER, 0, 0);
  for (; their_count < count; their_count++) {
    if (their_count == widget_count) {
      their_others[widget_count] = make_widget();
      listen_to(their_others[widget_count++]);
    }
    scintilla_send(their_others[their_count], SCI_SETDOCPOINTER, 0, document);
    scintilla_send(their_others[their_count], SCI_SETMODEVENTMASK, (uintptr_t)mask, 0);
  }
}

/* Opens Scintilla's widget, which is shown nowhere but wants a display all the same. */
static bool open_theirs(const char *library) {
  void *toolkit = dlopen("libgtk-3.so.0", RTLD_NOW | RTLD_GLOBAL), *scintilla = dlopen(library, RTLD_NOW | RTLD_GLOBAL);
  int (*start)(int *, char ***);
  if (toolkit == NULL || scintilla == NULL) return false;
  *(void **)&start = dlsym(toolkit, "gtk_init_check");
  *(void **)&make_widget = dlsym(scintilla, "scintilla_new");
  *(void **)&scintilla_send = dlsym(scintilla, "scintilla_send_message");
  *(void **)&connect_signal = dlsym(toolkit, "g_signal_connect_data");
  if (start == NULL || make_widget == NULL || scintilla_send == NULL || connect_signal == NULL || !start(NULL, NULL)) return false;
  widget = make_widget();
  return widget != NULL;
}

/* ---- All of them ---- */

enum { OURS, COMPATIBLE, THEIRS, SIDES };

/* A view of ours listens where its mask says so, and a program that has none does not look for notifications. */
static const side sides[SIDES] = {
    {"ours", send_ours, text_range_ours, lent_range_ours, whole_text_ours, copied_range_ours, styled_range_ours, copied_line_ours, attach_ours},
    {"compatible", send_compatible, copied_range_compatible, lent_range_compatible, whole_text_compatible, copied_range_compatible, styled_range_compatible,
     copied_line_compatible, attach_compatible},
    {"Scintilla", send_theirs, copied_range_theirs, lent_range_theirs, whole_text_theirs, copied_range_theirs, styled_range_theirs, copied_line_theirs,
     attach_theirs},
};

static const side ours_notified = {
    "ours", send_ours_and_read, text_range_ours, lent_range_ours, whole_text_ours, copied_range_ours, styled_range_ours, copied_line_ours, attach_ours};

#endif

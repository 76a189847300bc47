/* Messages of the profile in Scintilla's manner, as a program sends them that knows Scintilla: prints what comes of them. `scintilla --sent` lists their
 * numbers; scintilla_examples.c sends those of the worked examples. Then null texts, views and components, what is refused, what is sent inside a notify function,
 * and each growth refused in turn, for which it is linked as counted_heap.h says. */
#include "counted_heap.h"

#include <hongpilas_scintilla.h>
#include <limits.h>
#include <stdio.h>
#include <stdlib.h>
#include <string.h>

/* ---- Growths ---- */

static long growths_left = -1; /* below 0: no end of them */

static bool is_refused(void) {
  if (growths_left > 0) growths_left--;
  else if (growths_left == 0) return true;
  return false;
}

/* ---- What is printed ---- */

static void must(bool holds, const char *what) {
  if (holds) return;
  printf("FAILED  %s\n", what);
  exit(1);
}

static void print_bytes(const char *bytes, size_t count) {
  putchar('"');
  for (size_t i = 0; i < count; i++) {
    unsigned char byte = (unsigned char)bytes[i];
    printf(byte < ' ' || byte > '~' || byte == '"' || byte == '\\' ? "\\x%02x" : "%c", byte);
  }
  putchar('"');
}

/* Notes of a view: data is its name. */
static void hear(SCNotification *note, void *data) {
  printf("    %s hears %u", (const char *)data, note->nmhdr.code);
  if (note->nmhdr.code == SCN_MODIFIED)
    printf(" of kind 0x%X at %ld, length %ld, lines %ld, line %ld, levels 0x%X 0x%X, token %d", (unsigned int)note->modificationType, (long)note->position,
           (long)note->length, (long)note->linesAdded, (long)note->line, (unsigned int)note->foldLevelPrev, (unsigned int)note->foldLevelNow, note->token);
  if (note->nmhdr.code == SCN_STYLENEEDED) printf(" up to %ld", (long)note->position);
  if (note->nmhdr.code == SCN_MACRORECORD) printf(" of %d, w %ld, text %s", note->message, (long)note->wParam, (const char *)note->lParam);
  if (note->text != NULL) putchar(' ');
  if (note->text != NULL) print_bytes(note->text, (size_t)note->length);
  putchar('\n');
}

/* ---- Each message ---- */

typedef enum form { NUMBERS, BYTES, BUFFER, RANGE, NONE } form;

enum { FIRST, SECOND, NO_VIEW, VIEWS };

/* A call: of the first view, the second, or none. What `l` stands for is its form. */
typedef struct step {
  const char *name;
  unsigned int number;
  form form;
  int view;
  sptr_t w, l;
  const char *text;
} step;

#define SEND(name, w, l) \
  { #name, SCI_##name, NUMBERS, 0, w, l, NULL }
#define OTHER(name, w, l) \
  { #name, SCI_##name, NUMBERS, 1, w, l, NULL }
#define TEXT(name, w, text) \
  { #name, SCI_##name, BYTES, 0, w, 0, text }
#define INTO(name, w) \
  { #name, SCI_##name, BUFFER, 0, w, 0, NULL }
#define ASK(name, w) \
  { #name, SCI_##name, NONE, 0, w, 0, NULL }
#define PART(name, from, to) \
  { #name, SCI_##name, RANGE, 0, from, to, NULL }
#define LOST(name, w, l) \
  { #name, SCI_##name, NUMBERS, NO_VIEW, w, l, NULL }

// clang-format off
static const step steps[] = {
    TEXT(SETTEXT, 0, "one\ntwo\r\nthr\xC3\xA9" "e"), SEND(GETLENGTH, 0, 0), SEND(GETTEXTLENGTH, 0, 0), SEND(GETLINECOUNT, 0, 0), ASK(GETTEXT, 0),
    INTO(GETTEXT, 100), INTO(GETTEXT, 5), INTO(GETLINE, 1), ASK(GETLINE, 1), INTO(GETLINE, 9), PART(GETTEXTRANGE, 4, 7), PART(GETTEXTRANGE, 9, -1),
    PART(GETTEXTRANGE, 7, 4), SEND(GETCHARAT, 0, 0), SEND(GETCHARAT, 12, 0), SEND(GETLINEENDPOSITION, 1, 0), SEND(LINELENGTH, 1, 0),
    SEND(LINEFROMPOSITION, 5, 0), SEND(POSITIONFROMLINE, 2, 0), SEND(POSITIONBEFORE, 14, 0), SEND(POSITIONAFTER, 12, 0), SEND(GOTOPOS, 4, 0),
    TEXT(ADDTEXT, 3, "abcdef"), TEXT(INSERTTEXT, 0, "0:"), TEXT(INSERTTEXT, -1, "!"), TEXT(APPENDTEXT, 2, "\nz"), SEND(DELETERANGE, 0, 2),
    SEND(GETCURRENTPOS, 0, 0), SEND(GETANCHOR, 0, 0), INTO(GETCURLINE, 100), INTO(GETCURLINE, 2), ASK(GETCURLINE, 0), SEND(SETSEL, 4, 8),
    SEND(GETSELECTIONSTART, 0, 0), SEND(GETSELECTIONEND, 0, 0), SEND(GETSELECTIONEMPTY, 0, 0), INTO(GETSELTEXT, 0), ASK(GETSELTEXT, 0),
    SEND(COPY, 0, 0), TEXT(REPLACESEL, 0, "<>"), SEND(PASTE, 0, 0), SEND(SETSELECTIONSTART, 1, 0), SEND(SETSELECTIONEND, 3, 0), SEND(CUT, 0, 0),
    SEND(SETSEL, 8, 4), INTO(GETSELTEXT, 0), SEND(COPYRANGE, 0, 1), TEXT(COPYTEXT, 1, "\n"), SEND(CANPASTE, 0, 0), SEND(GETPASTECONVERTENDINGS, 0, 0),
    SEND(SETPASTECONVERTENDINGS, 0, 0), SEND(SETANCHOR, 0, 0), SEND(SETCURRENTPOS, 0, 0), SEND(SETEMPTYSELECTION, 2, 0), SEND(CLEAR, 0, 0),
    SEND(SELECTALL, 0, 0), SEND(GOTOLINE, 1, 0), SEND(CHARRIGHT, 0, 0), SEND(CHARRIGHTEXTEND, 0, 0), SEND(CHARLEFT, 0, 0), SEND(CHARLEFTEXTEND, 0, 0),
    SEND(HOME, 0, 0), SEND(LINEENDEXTEND, 0, 0), SEND(LINEEND, 0, 0), SEND(HOMEEXTEND, 0, 0), SEND(DOCUMENTEND, 0, 0),
    SEND(DOCUMENTSTARTEXTEND, 0, 0), SEND(DOCUMENTSTART, 0, 0), SEND(DOCUMENTENDEXTEND, 0, 0), INTO(GETSELTEXT, 0), SEND(CANUNDO, 0, 0),
    SEND(UNDO, 0, 0), SEND(CANREDO, 0, 0), SEND(REDO, 0, 0), SEND(GETMODIFY, 0, 0), SEND(SETSAVEPOINT, 0, 0), SEND(BEGINUNDOACTION, 0, 0),
    SEND(ADDUNDOACTION, 7, UNDO_NONE), SEND(NEWLINE, 0, 0), SEND(DELETEBACK, 0, 0), SEND(ENDUNDOACTION, 0, 0), SEND(UNDO, 0, 0),
    SEND(GETUNDOCOLLECTION, 0, 0), SEND(SETUNDOCOLLECTION, 0, 0), SEND(SETUNDOCOLLECTION, 1, 0), SEND(EMPTYUNDOBUFFER, 0, 0),
    SEND(SETEOLMODE, SC_EOL_CRLF, 0), SEND(GETEOLMODE, 0, 0), SEND(CONVERTEOLS, SC_EOL_LF, 0), INTO(GETTEXT, 100), SEND(MARKERADD, 1, 3),
    SEND(MARKERADD, 99, 3), SEND(MARKERADD, 1, 32), SEND(MARKERADDSET, 0, (int)0x80000001u), SEND(MARKERGET, 0, 0), SEND(MARKERGET, 1, 0),
    SEND(MARKERNEXT, 0, 8), SEND(MARKERPREVIOUS, 2, 1), SEND(MARKERLINEFROMHANDLE, 1, 0), SEND(MARKERDELETEHANDLE, 1, 0), SEND(MARKERDELETE, 0, 0),
    SEND(MARKERDELETEALL, -1, 0), SEND(SETLINESTATE, 1, (sptr_t)0x80000000u), SEND(GETLINESTATE, 1, 0), SEND(STARTSTYLING, 0, 0),
    SEND(SETSTYLING, 2, 5), TEXT(SETSTYLINGEX, 2, "\x01\xFF"), SEND(GETENDSTYLED, 0, 0), SEND(GETSTYLEAT, 0, 0), SEND(GETSTYLEAT, 3, 0),
    PART(GETSTYLEDTEXT, 1, 4), SEND(COLOURISE, 1, -1), SEND(SETINDICATORCURRENT, 31, 0), SEND(GETINDICATORCURRENT, 0, 0),
    SEND(SETINDICATORVALUE, 9, 0), SEND(GETINDICATORVALUE, 0, 0), SEND(INDICATORFILLRANGE, 1, 4), SEND(INDICATORCLEARRANGE, 2, 1),
    SEND(INDICATORALLONFOR, 1, 0), SEND(INDICATORVALUEAT, 31, 1), SEND(INDICATORSTART, 31, 4), SEND(INDICATOREND, 31, 4), SEND(SETTARGETSTART, 1, 0),
    SEND(SETTARGETEND, 3, 0), SEND(GETTARGETSTART, 0, 0), SEND(GETTARGETEND, 0, 0), INTO(GETTARGETTEXT, 0), ASK(GETTARGETTEXT, 0),
    SEND(SETTARGETRANGE, 4, 1), INTO(GETTARGETTEXT, 0), SEND(SETTARGETRANGE, 0, 4), TEXT(REPLACETARGET, -1, "start\n"),
    TEXT(REPLACETARGET, 5, "START..."), SEND(TARGETFROMSELECTION, 0, 0), SEND(TARGETWHOLEDOCUMENT, 0, 0), SEND(SETSEARCHFLAGS, SCFIND_MATCHCASE, 0),
    SEND(GETSEARCHFLAGS, 0, 0), TEXT(SEARCHINTARGET, 2, "TA"), TEXT(SEARCHINTARGET, 2, "??"), TEXT(SETTEXT, 0, "head\n child\n child\nhead\n"),
    SEND(SETFOLDLEVEL, 0, SC_FOLDLEVELBASE | SC_FOLDLEVELHEADERFLAG), SEND(SETFOLDLEVEL, 1, SC_FOLDLEVELBASE + 1),
    SEND(SETFOLDLEVEL, 2, SC_FOLDLEVELBASE + 1), SEND(GETFOLDLEVEL, 0, 0), SEND(GETLASTCHILD, 0, -1), SEND(GETFOLDPARENT, 2, 0),
    SEND(TOGGLEFOLD, 0, 0), SEND(GETFOLDEXPANDED, 0, 0), SEND(GETLINEVISIBLE, 1, 0), SEND(VISIBLEFROMDOCLINE, 3, 0), SEND(DOCLINEFROMVISIBLE, 1, 0),
    SEND(ENSUREVISIBLE, 2, 0), SEND(FOLDLINE, 0, SC_FOLDACTION_CONTRACT), SEND(SETFOLDEXPANDED, 0, 1), SEND(SHOWLINES, 1, 2), SEND(HIDELINES, 3, 3),
    SEND(GETALLLINESVISIBLE, 0, 0), SEND(SETREADONLY, 1, 0), SEND(GETREADONLY, 0, 0), SEND(CLEARALL, 0, 0), SEND(SETREADONLY, 0, 0),
    SEND(CLEARALL, 0, 0), SEND(GETDOCUMENTOPTIONS, 0, 0), SEND(CREATEDOCUMENT, 0, SC_DOCUMENTOPTION_TEXT_LARGE), OTHER(SETDOCPOINTER, 0, 3),
    SEND(ADDREFDOCUMENT, 0, 3), SEND(RELEASEDOCUMENT, 0, 3), SEND(RELEASEDOCUMENT, 0, 3), SEND(RELEASEDOCUMENT, 0, 3),
    OTHER(GETDOCUMENTOPTIONS, 0, 0), OTHER(SETDOCPOINTER, 0, 1), OTHER(GETDOCPOINTER, 0, 0),
    SEND(SETLINEENDTYPESALLOWED, SC_LINE_END_TYPE_UNICODE, 0), SEND(GETLINEENDTYPESALLOWED, 0, 0), SEND(GETLINEENDTYPESACTIVE, 0, 0),
    OTHER(SETMODEVENTMASK, SC_MOD_INSERTTEXT, 0), OTHER(GETMODEVENTMASK, 0, 0), SEND(STARTRECORD, 0, 0), TEXT(REPLACESEL, 0, "recorded"),
    TEXT(ADDTEXT, 2, "abc"), SEND(STOPRECORD, 0, 0), OTHER(SETDOCPOINTER, 0, 0), OTHER(GETDOCPOINTER, 0, 0),
};

/* Null texts, and a null range; then calls of no view. */
static const step nulls[] = {
    TEXT(SETTEXT, 0, "ab"), ASK(SETTEXT, 0), ASK(ADDTEXT, 3), ASK(INSERTTEXT, 0), ASK(REPLACESEL, 0), ASK(SETSTYLINGEX, 1), ASK(APPENDTEXT, 0),
    ASK(APPENDTEXT, 1), ASK(COPYTEXT, 0), ASK(COPYTEXT, 1), SEND(TARGETWHOLEDOCUMENT, 0, 0), ASK(SEARCHINTARGET, 0), ASK(SEARCHINTARGET, 1),
    ASK(REPLACETARGET, 1), ASK(REPLACETARGET, -1), ASK(REPLACETARGET, 0), ASK(GETTEXTRANGE, 0), ASK(GETSTYLEDTEXT, 0), INTO(GETTEXT, 9),
    LOST(GETSTATUS, 0, 0), LOST(SETSTATUS, 0, 0), LOST(GETSTATUS, 0, 0), LOST(GETLENGTH, 0, 0), LOST(UNDO, 0, 0), LOST(MARKERADD, 0, 1),
    LOST(MARKERLINEFROMHANDLE, 1, 0), LOST(MARKERNEXT, 0, 1), LOST(MARKERPREVIOUS, 0, 1), LOST(GETFOLDPARENT, 0, 0), LOST(SEARCHINTARGET, 0, 0),
    LOST(ADDTEXT, 0, 0), LOST(GETTEXT, 0, 0), LOST(GETRANGEPOINTER, 0, 0),
};
// clang-format on

enum { ROOM = 128, UNWRITTEN = '~' };

/* Prints what was written into a buffer: all up to where nothing was. */
static void print_written(const char *buffer) {
  size_t count = ROOM;
  while (count > 0 && buffer[count - 1] == UNWRITTEN) count--;
  printf(" and writes ");
  print_bytes(buffer, count);
}

static void take_step(const sptr_t *views, const step *s) {
  char buffer[ROOM];
  struct Sci_TextRange range = {{(Sci_PositionCR)s->w, (Sci_PositionCR)s->l}, buffer};
  const sptr_t ls[] = {s->l, (sptr_t)s->text, (sptr_t)buffer, (sptr_t)&range, 0};
  int status;
  memset(buffer, UNWRITTEN, sizeof buffer);
  printf("%s %ld", s->name, (long)s->w);
  if (s->form == NUMBERS || s->form == RANGE) printf(" %ld", (long)s->l);
  if (s->form == NONE) printf(" NULL");
  if (s->view == NO_VIEW) printf(" to no view");
  if (s->form == BYTES) putchar(' ');
  if (s->form == BYTES) print_bytes(s->text, strlen(s->text));
  putchar('\n');
  sptr_t value = hongpilas_direct_status(views[s->view], s->number, (uptr_t)s->w, ls[s->form], &status);
  printf("  = %ld", (long)value);
  if (s->form == BUFFER || s->form == RANGE) print_written(buffer);
  if (status != SC_STATUS_OK) printf(", status %d: %s", status, hongpilas_refusal(views[s->view]));
  putchar('\n');
  hongpilas_direct(views[s->view], SCI_SETSTATUS, SC_STATUS_OK, 0);
}

static void try_each_message(void) {
  static char names[2][8] = {"first", "second"};
  hongpilas_scintilla *component = hongpilas_scintilla_new();
  sptr_t views[VIEWS] = {0, 0, 0};
  must(component != NULL, "a component opens");
  for (int i = FIRST; i <= SECOND; i++) {
    views[i] = hongpilas_scintilla_open(component);
    hongpilas_set_notify(views[i], hear, names[i]);
  }
  for (size_t i = 0; i < sizeof steps / sizeof *steps; i++) take_step(views, &steps[i]);
  hongpilas_scintilla_close(views[0]);
  hongpilas_scintilla_free(component);
  must(blocks == 0, "all blocks are given back");
}

/* ---- Null texts, views and components ---- */

/* The view 0 and a null component are harmless to each call. */
static void try_nulls(void) {
  hongpilas_scintilla *component = hongpilas_scintilla_new();
  sptr_t views[VIEWS] = {hongpilas_scintilla_open(component), 0, 0};
  for (size_t i = 0; i < sizeof nulls / sizeof *nulls; i++) take_step(views, &nulls[i]);
  printf("hongpilas_direct_status with no place for the status\n  = %ld\n", (long)hongpilas_direct_status(views[FIRST], SCI_GETLINECOUNT, 0, 0, NULL));
  printf("hongpilas_refusal of no view\n  = %s\n", hongpilas_refusal(0));
  hongpilas_set_notify(0, hear, NULL);
  hongpilas_set_notify(0, NULL, NULL);
  hongpilas_scintilla_close(0);
  hongpilas_scintilla_free(component);
  printf("hongpilas_scintilla_open of no component\n  = %ld\n", (long)hongpilas_scintilla_open(NULL));
  printf("hongpilas_scintilla_new_with_limits without limits\n  = %s\n",
         hongpilas_scintilla_new_with_limits(NULL, sizeof(hongpilas_limits)) == NULL ? "NULL" : "a component");
  hongpilas_scintilla_free(NULL);
  must(blocks == 0, "all blocks are given back");
}

/* ---- What is no message, and what is refused ---- */

static void try_edges(void) {
  SciFnDirect send = hongpilas_direct;
  hongpilas_scintilla *component = hongpilas_scintilla_new();
  sptr_t view = hongpilas_scintilla_open(component);
  struct Sci_TextRange range = {{0, -1}, NULL}, widest = {{LONG_MIN, LONG_MAX}, NULL};
  const char lone = 'x'; /* of which a call with a negative length reads nothing behind */
  hongpilas_limits none = {0, 0, 0, 0, 0, 0, 0}, few = HONGPILAS_GREATEST_LIMITS;
  send(view, SCI_ADDTEXT, 2, (sptr_t) "ab");
  must(send(view, 9999, 1, 1) == 0 && send(view, SCI_GETSTATUS, 0, 0) == SC_STATUS_OK, "an unknown message answers 0, with no status");
  must(send(view, SCI_GETTEXTRANGE, 0, (sptr_t)&range) == 2 && send(view, SCI_GETSTYLEDTEXT, 0, (sptr_t)&range) == 4, "a range into no buffer");
  must(*hongpilas_refusal(view) == '\0', "nothing was refused");
  must(send(view, SCI_GETTEXTRANGE, 0, 0) == 0 && send(view, SCI_GETSTATUS, 0, 0) == SC_STATUS_FAILURE, "no range is refused");
  must(strcmp(hongpilas_refusal(view), "bad argument") == 0, "and why");
  must(send(view, SCI_GETTEXTRANGE, 0, (sptr_t)&widest) == 0 && send(view, SCI_GETSTYLEDTEXT, 0, (sptr_t)&widest) == 0, "nor is the widest one");
  send(view, SCI_GETLENGTH, 0, 0);
  must(send(view, SCI_GETSTATUS, 0, 0) == SC_STATUS_FAILURE, "a status stays");
  send(view, SCI_SETSTATUS, SC_STATUS_OK, 0);
  must(send(view, SCI_APPENDTEXT, 1, 0) == 0 && send(view, SCI_ADDTEXT, (uptr_t)-1, (sptr_t)&lone) == 0, "texts that cannot be");
  must(send(view, SCI_GETSTATUS, 0, 0) == SC_STATUS_FAILURE && send(view, SCI_GETLENGTH, 0, 0) == 2, "are refused");
  hongpilas_scintilla_free(component);
  must(hongpilas_scintilla_new_with_limits(&none, sizeof none) == NULL, "limits of 0 are refused");
  few.views = 1;
  component = hongpilas_scintilla_new_with_limits(&few, sizeof few);
  view = hongpilas_scintilla_open(component);
  must(view != 0 && hongpilas_scintilla_open(component) == 0, "more views than may be open are refused");
  hongpilas_scintilla_close(view);
  must(hongpilas_scintilla_open(component) != 0, "a closed one makes room");
  hongpilas_scintilla_free(component);
  must(blocks == 0, "all blocks are given back");
}

/* What Scintilla has as an int is cut down to one: bits above its 32 say nothing. */
static void try_ints(void) {
  static const struct {
    unsigned int message;
    bool w_is_int, l_is_int;
    sptr_t w, l;
  } ints[] = {{SCI_MARKERLINEFROMHANDLE, true, false, 1, 0},
              {SCI_MARKERDELETEHANDLE, true, false, 1, 0},
              {SCI_CONVERTEOLS, true, false, 2, 0},
              {SCI_SETEOLMODE, true, false, 2, 0},
              {SCI_SETSTYLING, false, true, 0, 5},
              {SCI_MARKERADD, false, true, 0, 3},
              {SCI_MARKERDELETE, false, true, 0, 3},
              {SCI_MARKERDELETEALL, true, false, -1, 0},
              {SCI_MARKERNEXT, false, true, 0, 1},
              {SCI_MARKERPREVIOUS, false, true, 0, 1},
              {SCI_SETLINESTATE, false, true, 0, 7},
              {SCI_SETSEARCHFLAGS, true, false, 4, 0},
              {SCI_SETFOLDLEVEL, false, true, 0, 0x2400},
              {SCI_GETLASTCHILD, false, true, 0, -1},
              {SCI_FOLDLINE, false, true, 0, 1},
              {SCI_SETMODEVENTMASK, true, false, 3, 0},
              {SCI_CREATEDOCUMENT, false, true, 0, 256},
              {SCI_MARKERADDSET, false, true, 0, 1},
              {SCI_SETINDICATORCURRENT, true, false, 8, 0},
              {SCI_SETINDICATORVALUE, true, false, 2, 0},
              {SCI_INDICATORVALUEAT, true, false, 8, 0},
              {SCI_INDICATORSTART, true, false, 8, 0},
              {SCI_INDICATOREND, true, false, 8, 0},
              {SCI_ADDUNDOACTION, true, true, 5, 1},
              {SCI_SETLINEENDTYPESALLOWED, true, false, 1, 0}};
  const uptr_t above = (uptr_t)1 << 32;
  hongpilas_scintilla *components[2] = {hongpilas_scintilla_new(), hongpilas_scintilla_new()};
  sptr_t views[2] = {hongpilas_scintilla_open(components[0]), hongpilas_scintilla_open(components[1])};
  for (size_t i = 0; i < sizeof ints / sizeof *ints; i++) {
    uptr_t w = (uptr_t)ints[i].w ^ (ints[i].w_is_int ? above : 0), l = (uptr_t)ints[i].l ^ (ints[i].l_is_int ? above : 0);
    sptr_t value = hongpilas_direct(views[0], ints[i].message, (uptr_t)ints[i].w, ints[i].l);
    must(hongpilas_direct(views[1], ints[i].message, w, (sptr_t)l) == value, "an int is cut down: the value");
    must(hongpilas_direct(views[1], SCI_GETSTATUS, 0, 0) == SC_STATUS_OK, "an int is cut down: the status");
  }
  for (int i = 0; i < 2; i++) hongpilas_scintilla_free(components[i]);
  must(blocks == 0, "all blocks are given back");
}

/* ---- Long texts ---- */

/* A text that is copied in pieces, with an insertion in the midst of it: each way to copy it gives all of it, and nothing behind. */
static void try_long_texts(void) {
  enum { LENGTH = 100000, START = 16383, END = 82000 };
  static char text[LENGTH + 1], copy[LENGTH + 3];
  struct Sci_TextRange all = {{0, -1}, copy}, part = {{START, END}, copy}, behind = {{START, LENGTH + 1}, copy},
                       short_behind = {{LENGTH - 1, LENGTH + 1}, copy};
  hongpilas_scintilla *component = hongpilas_scintilla_new();
  sptr_t view = hongpilas_scintilla_open(component);
  for (int i = 0; i < LENGTH; i++) text[i] = (char)('a' + i * 7 % 23);
  hongpilas_direct(view, SCI_APPENDTEXT, LENGTH, (sptr_t)text);
  for (int place = 0; place < LENGTH; place += 9973) {
    memset(copy, UNWRITTEN, sizeof copy);
    hongpilas_direct(view, SCI_DELETERANGE, (uptr_t)place, 1);
    hongpilas_direct(view, SCI_UNDO, 0, 0);
    must(hongpilas_direct(view, SCI_GETTEXT, LENGTH, (sptr_t)copy) == LENGTH && strcmp(copy, text) == 0, "all is copied");
    must(copy[LENGTH + 1] == UNWRITTEN, "and a NUL behind it");
    must(hongpilas_direct(view, SCI_GETTEXTRANGE, 0, (sptr_t)&all) == LENGTH && strcmp(copy, text) == 0, "as a range, too");
    must(hongpilas_direct(view, SCI_GETTEXTRANGE, 0, (sptr_t)&part) == END - START && memcmp(copy, text + START, END - START) == 0, "a part is copied");
    must(copy[END - START] == '\0' && copy[END - START + 1] == text[END - START + 1], "and a NUL behind that");
  }
  memset(copy, UNWRITTEN, sizeof copy);
  must(hongpilas_direct(view, SCI_GETTEXTRANGE, 0, (sptr_t)&behind) == 0 && hongpilas_direct(view, SCI_GETSTATUS, 0, 0) == SC_STATUS_FAILURE,
       "a range ends in the text");
  hongpilas_direct(view, SCI_SETSTATUS, SC_STATUS_OK, 0);
  must(hongpilas_direct(view, SCI_GETTEXTRANGE, 0, (sptr_t)&short_behind) == 0 && hongpilas_direct(view, SCI_GETSTATUS, 0, 0) == SC_STATUS_FAILURE,
       "also a short one");
  must(copy[0] == UNWRITTEN && copy[2] == UNWRITTEN, "and nothing is written for others");
  hongpilas_scintilla_free(component);
  must(blocks == 0, "all blocks are given back");
}

/* ---- Messages inside a notify function; notify.c has more ---- */

typedef struct meddler {
  sptr_t view;
  int notes, running, edits;
} meddler;

static void meddle(SCNotification *note, void *data) {
  meddler *m = (meddler *)data;
  m->notes++;
  must(note->nmhdr.hwndFrom == (void *)m->view, "a note names its view");
  must(m->running++ == 0, "no notify function is called inside one");
  must(hongpilas_direct(m->view, SCI_GETLENGTH, 0, 0) == 2, "a question is answered");
  must(hongpilas_direct(m->view, SCI_GETSTATUS, 0, 0) == SC_STATUS_OK, "and nothing is refused");
  m->edits = 0;
  for (unsigned int number = 2000; number < 5000; number++) {
    if ((hongpilas_message_marks(number) & HONGPILAS_MARK_E) == 0) continue;
    m->edits++;
    must(hongpilas_direct(m->view, number, 0, (sptr_t) "x") == 0, "what edits the text is not done");
    must(hongpilas_direct(m->view, SCI_GETSTATUS, 0, 0) == SC_STATUS_FAILURE, "it is refused");
    must(strcmp(hongpilas_refusal(m->view), "edit inside a notify function") == 0, "and why");
    hongpilas_direct(m->view, SCI_SETSTATUS, SC_STATUS_OK, 0);
  }
  must(hongpilas_direct(m->view, SCI_GETLENGTH, 0, 0) == 2, "the text is as it was");
  m->running--;
}

static void try_meddling(void) {
  hongpilas_scintilla *component = hongpilas_scintilla_new();
  meddler m = {0, 0, 0, 0};
  m.view = hongpilas_scintilla_open(component);
  hongpilas_set_notify(m.view, meddle, &m);
  hongpilas_direct(m.view, SCI_INSERTTEXT, 0, (sptr_t) "ab");
  must(m.notes == 3 && m.edits > 15, "each note is told, and what edits meanwhile is refused");
  must(hongpilas_direct(m.view, SCI_GETLENGTH, 0, 0) == 2, "nothing is lost");
  hongpilas_set_notify(m.view, NULL, NULL);
  hongpilas_direct(m.view, SCI_CLEARALL, 0, 0);
  must(m.notes == 3, "no note is told any more");
  hongpilas_scintilla_free(component);
  must(blocks == 0, "all blocks are given back");
}

/* ---- Each growth refused in turn ---- */

static void count_note(SCNotification *note, void *data) { *(int *)data += note->nmhdr.code == SCN_MODIFIED; }

/* Whether a call was done; one that was not was refused for want of memory, and has told nothing. */
static bool is_done(sptr_t view, unsigned int message, uptr_t w, const char *text, int *notes) {
  int status, before = *notes;
  hongpilas_direct_status(view, message, w, (sptr_t)text, &status);
  hongpilas_direct(view, SCI_SETSTATUS, SC_STATUS_OK, 0);
  must(status == SC_STATUS_OK || status == SC_STATUS_BADALLOC, "a call is done, or refused for want of memory");
  must(status == SC_STATUS_OK || strcmp(hongpilas_refusal(view), "out of memory") == 0, "and why");
  must(status == SC_STATUS_OK || *notes == before, "a refused call tells nothing");
  return status == SC_STATUS_OK;
}

/* Calls with this many growths; whether none was refused. */
static bool done_with(long growths) {
  char styled[16] = "", text[8] = "";
  struct Sci_TextRange range = {{0, -1}, styled};
  int notes = 0;
  bool is_in, is_styled, is_read;
  growths_left = growths;
  hongpilas_scintilla *component = hongpilas_scintilla_new();
  sptr_t view = component == NULL ? 0 : hongpilas_scintilla_open(component);
  if (view == 0) {
    hongpilas_scintilla_free(component);
    return false;
  }
  hongpilas_set_notify(view, count_note, &notes);
  is_in = is_done(view, SCI_INSERTTEXT, 0, "one\n", &notes);
  must(hongpilas_direct(view, SCI_GETLENGTH, 0, 0) == (is_in ? 4 : 0) && notes == (is_in ? 2 : 0), "all or nothing is inserted");
  must(hongpilas_direct(view, SCI_GETTEXT, 4, (sptr_t)text) == (is_in ? 4 : 0), "a text is given without memory");
  must(strcmp(text, is_in ? "one\n" : "") == 0, "and is what it is");
  is_styled = is_in && is_done(view, SCI_SETSTYLINGEX, 4, "\x01\x02\x03\x04", &notes);
  is_read = is_done(view, SCI_GETSTYLEDTEXT, 0, (const char *)&range, &notes);
  must(!is_styled || !is_read ||
           memcmp(styled,
                  "o\x01n\x02"
                  "e\x03\n\x04\0",
                  10) == 0,
       "styled text is given");
  must(is_read || styled[0] == '\0', "a refused call writes nothing");
  hongpilas_scintilla_free(component);
  return is_in && is_styled && is_read;
}

static void try_growths(void) {
  long growths = 0;
  while (growths < 1000 && !done_with(growths)) {
    must(blocks == 0, "all blocks are given back");
    growths++;
  }
  growths_left = -1;
  must(growths > 5 && growths < 1000 && blocks == 0, "it is done when growths suffice, and then all is given back");
}

int main(int count, char **words) {
  if (count > 1 && strcmp(words[1], "--sent") == 0) {
    for (size_t i = 0; i < sizeof steps / sizeof *steps; i++) printf("%u\n", steps[i].number);
    return 0;
  }
  try_each_message();
  try_nulls();
  try_edges();
  try_ints();
  try_long_texts();
  try_meddling();
  try_growths();
  printf("refusals, messages inside a notify function, and each growth refused in turn\n");
  return 0;
}

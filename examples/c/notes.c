/* Records a macro in one view, replays it in another, and shows each note by its name. */
#include <hongpilas.h>
#include <stdio.h>
#include <stdlib.h>
#include <string.h>

enum { MOST_STEPS = 16, MOST_BYTES = 32 };

/* A recorded message. Its text was lent, so the macro keeps a copy. */
typedef struct step {
  uint32_t message;
  int64_t w, l;
  size_t length;
  uint8_t text[MOST_BYTES];
} step;

typedef struct name {
  uint32_t number;
  const char *text;
} name;

#define NAMED(constant) \
  { constant, #constant }

/* The bits of a modification. */
static const name kinds[] = {
    NAMED(SC_MOD_INSERTTEXT),      NAMED(SC_MOD_DELETETEXT),   NAMED(SC_MOD_CHANGESTYLE),   NAMED(SC_MOD_CHANGEFOLD),     NAMED(SC_PERFORMED_USER),
    NAMED(SC_PERFORMED_UNDO),      NAMED(SC_PERFORMED_REDO),   NAMED(SC_MULTISTEPUNDOREDO), NAMED(SC_LASTSTEPINUNDOREDO), NAMED(SC_MOD_CHANGEMARKER),
    NAMED(SC_MOD_BEFOREINSERT),    NAMED(SC_MOD_BEFOREDELETE), NAMED(SC_MULTILINEUNDOREDO), NAMED(SC_STARTACTION),        NAMED(SC_MOD_CHANGEINDICATOR),
    NAMED(SC_MOD_CHANGELINESTATE), NAMED(SC_MOD_CONTAINER),
};

static hongpilas_session *session;
static step macro[MOST_STEPS];
static size_t step_count;

static void must(hongpilas_answer answer) {
  if (answer == HONGPILAS_DONE) return;
  printf("refused: %s\n", hongpilas_answer_name(answer));
  exit(1);
}

/* A text between quotes, with line ends as \n and \r. */
static void show_text(const uint8_t *bytes, size_t length) {
  putchar('"');
  for (size_t i = 0; i < length; i++)
    if (bytes[i] == '\n' || bytes[i] == '\r') printf(bytes[i] == '\n' ? "\\n" : "\\r");
    else putchar(bytes[i]);
  putchar('"');
}

static void show_kind(const hongpilas_note_data *note) {
  char before = ' ';
  for (size_t i = 0; i < sizeof kinds / sizeof *kinds; i++)
    if (note->kind & kinds[i].number) {
      printf("%c%s", before, kinds[i].text);
      before = '|';
    }
  if (note->kind & (SC_MOD_CHANGEFOLD | SC_MOD_CHANGEMARKER | SC_MOD_CHANGELINESTATE)) printf(", line %lld", (long long)note->line);
  if (note->kind & SC_MOD_CHANGEFOLD) printf(", level 0x%llx, was 0x%llx", (long long)note->now, (long long)note->prev);
  if (note->kind & SC_MOD_CONTAINER) printf(", token %lld", (long long)note->token);
  if (note->length > 0) printf(", at %lld, length %lld", (long long)note->position, (long long)note->length);
  if (note->lines != 0) printf(", lines %+lld", (long long)note->lines);
}

static void show_note(const hongpilas_note_data *note) {
  printf("  view %u: %s", (unsigned)note->view, hongpilas_note_name(note->code));
  if (note->code == SCN_MODIFIED) show_kind(note);
  if (note->code == SCN_MACRORECORD) printf(" %s, %lld, %lld", hongpilas_message_name(note->message), (long long)note->w, (long long)note->l);
  if (note->code == SCN_STYLENEEDED) printf(" up to %lld", (long long)note->position);
  if (note->text_length > 0) {
    printf(", ");
    show_text(note->text, note->text_length);
  }
  putchar('\n');
}

static void record(const hongpilas_note_data *note) {
  step *taken = &macro[step_count];
  if (step_count == MOST_STEPS || note->text_length > MOST_BYTES) return;
  taken->message = note->message;
  taken->w = note->w;
  taken->l = note->l;
  taken->length = note->text_length;
  if (note->text_length > 0) memcpy(taken->text, note->text, note->text_length);
  step_count++;
}

/* Sends a message, shows the notes that come with its reply, and keeps what is recorded. */
static void send(uint32_t view, uint32_t message, int64_t w, int64_t l, const void *text, size_t length) {
  hongpilas_note_data note;
  must(hongpilas_send(session, view, message, w, l, text, length, NULL));
  printf("%s to view %u\n", hongpilas_message_name(message), (unsigned)view);
  for (size_t i = 0; hongpilas_note(session, i, &note, sizeof note) == HONGPILAS_DONE; i++) {
    show_note(&note);
    if (note.code == SCN_MACRORECORD) record(&note);
  }
}

static void quietly(uint32_t view, uint32_t message, int64_t w, int64_t l) { must(hongpilas_send(session, view, message, w, l, NULL, 0, NULL)); }

static void record_macro(uint32_t view) {
  quietly(view, SCI_STARTRECORD, 0, 0);
  send(view, SCI_ADDTEXT, 5, 0, "twice", 5);
  send(view, SCI_HOMEEXTEND, 0, 0, NULL, 0);
  send(view, SCI_COPY, 0, 0, NULL, 0);
  send(view, SCI_LINEEND, 0, 0, NULL, 0);
  send(view, SCI_NEWLINE, 0, 0, NULL, 0);
  send(view, SCI_PASTE, 0, 0, NULL, 0);
  send(view, SCI_DELETEBACK, 0, 0, NULL, 0);
  quietly(view, SCI_STOPRECORD, 0, 0);
}

static void replay(uint32_t view) {
  for (size_t i = 0; i < step_count; i++) send(view, macro[i].message, macro[i].w, macro[i].l, macro[i].text, macro[i].length);
}

static void show_document(uint32_t view) {
  const uint8_t *bytes = NULL;
  size_t length = 0;
  must(hongpilas_send(session, view, SCI_GETTEXT, 0, 0, NULL, 0, NULL));
  must(hongpilas_text(session, &bytes, &length));
  printf("view %u has ", (unsigned)view);
  show_text(bytes, length);
  putchar('\n');
}

/* The notes that no text brings. */
static void show_other_notes(uint32_t view) {
  send(view, SCI_SETSAVEPOINT, 0, 0, NULL, 0);
  send(view, SCI_MARKERADD, 1, 3, NULL, 0);
  send(view, SCI_SETFOLDLEVEL, 0, SC_FOLDLEVELBASE | SC_FOLDLEVELHEADERFLAG, NULL, 0);
  send(view, SCI_SETLINESTATE, 1, 7, NULL, 0);
  send(view, SCI_SETSTYLING, 5, 2, NULL, 0);
  send(view, SCI_INDICATORFILLRANGE, 1, 3, NULL, 0);
  send(view, SCI_COLOURISE, 0, 8, NULL, 0);
  send(view, SCI_ADDUNDOACTION, 42, UNDO_NONE, NULL, 0);
  send(view, SCI_UNDO, 0, 0, NULL, 0);
  send(view, SCI_UNDO, 0, 0, NULL, 0);
  send(view, SCI_REDO, 0, 0, NULL, 0);
  quietly(view, SCI_SETREADONLY, 1, 0);
  send(view, SCI_INSERTTEXT, 0, 0, "no", 2);
  quietly(view, SCI_SETREADONLY, 0, 0);
}

/* A view is notified of what its mask lets through, also of what another view of its document does. */
static void show_masks(uint32_t view, uint32_t other) {
  int64_t document = 0;
  must(hongpilas_send(session, view, SCI_GETDOCPOINTER, 0, 0, NULL, 0, &document));
  quietly(other, SCI_SETDOCPOINTER, 0, document);
  quietly(view, SCI_SETMODEVENTMASK, SC_MOD_DELETETEXT, 0);
  quietly(other, SCI_SETMODEVENTMASK, SC_MOD_INSERTTEXT | SC_MOD_DELETETEXT, 0);
  send(other, SCI_DOCUMENTEND, 0, 0, NULL, 0);
  send(other, SCI_ADDTEXT, 1, 0, "!", 1);
  send(other, SCI_DELETEBACK, 0, 0, NULL, 0);
}

int main(void) {
  uint32_t first = 0, second = 0;
  must(hongpilas_new(&session));
  must(hongpilas_new_view(session, &first));
  must(hongpilas_new_view(session, &second));
  record_macro(first);
  show_document(first);
  printf("%zu messages recorded\n", step_count);
  quietly(second, SCI_SETMODEVENTMASK, 0, 0);
  replay(second);
  show_document(second);
  show_other_notes(first);
  show_masks(first, second);
  hongpilas_free(session);
  return 0;
}

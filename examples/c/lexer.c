/* A container lexer, as a program for Scintilla has it: the component says from where on styles are needed, and the program sets them, in the notify
 * function itself. What it styles is a small language: numbers, words in capitals, and notes from '#' to the end of the line. */
#include <hongpilas_scintilla.h>
#include <stdbool.h>
#include <stdio.h>

enum { PLAIN, NUMBER, CAPITALS, NOTE, STYLES };
static const char shown[STYLES] = {'.', '9', 'A', '#'};

static sptr_t view;

static sptr_t send(unsigned int message, uptr_t w, sptr_t l) { return hongpilas_direct(view, message, w, l); }

static bool is_digit(int byte) { return byte >= '0' && byte <= '9'; }
static bool is_capital(int byte) { return byte >= 'A' && byte <= 'Z'; }

static int style_of(int byte) {
  if (byte == '#') return NOTE;
  if (is_digit(byte)) return NUMBER;
  return is_capital(byte) ? CAPITALS : PLAIN;
}

/* Whether a byte belongs to what began before it. */
static bool goes_on(int style, int byte) {
  if (style == NOTE) return byte != '\n';
  return style_of(byte) == style;
}

/* Styles the text from the start of the line in which `from` lies up to `end`, run by run. */
static void style(sptr_t from, sptr_t end) {
  sptr_t at = send(SCI_POSITIONFROMLINE, (uptr_t)send(SCI_LINEFROMPOSITION, (uptr_t)from, 0), 0);
  send(SCI_STARTSTYLING, (uptr_t)at, 0);
  while (at < end) {
    int run = style_of((int)send(SCI_GETCHARAT, (uptr_t)at, 0));
    sptr_t start = at++;
    while (at < end && goes_on(run, (int)send(SCI_GETCHARAT, (uptr_t)at, 0))) at++;
    send(SCI_SETSTYLING, (uptr_t)(at - start), run);
  }
}

/* A change of the text asks for styles from its line on: an editor that draws would ask for what it shows. */
static void on_notify(SCNotification *note, void *data) {
  (void)data;
  if (note->nmhdr.code == SCN_MODIFIED && (note->modificationType & (SC_MOD_INSERTTEXT | SC_MOD_DELETETEXT)) != 0) {
    printf("  text changed at %td: asks for styles\n", note->position);
    send(SCI_COLOURISE, (uptr_t)note->position, -1);
  }
  if (note->nmhdr.code == SCN_STYLENEEDED) {
    printf("  styles are needed from %td to %td\n", send(SCI_GETENDSTYLED, 0, 0), note->position);
    style(send(SCI_GETENDSTYLED, 0, 0), note->position);
  }
  if (note->nmhdr.code == SCN_MODIFIED && (note->modificationType & SC_MOD_CHANGESTYLE) != 0)
    printf("  styled %td bytes from %td on\n", note->length, note->position);
}

/* The text, and below each line its styles. */
static void show(const char *what) {
  sptr_t lines = send(SCI_GETLINECOUNT, 0, 0), line, at;
  printf("%s\n", what);
  for (line = 0; line < lines; line++) {
    sptr_t start = send(SCI_POSITIONFROMLINE, (uptr_t)line, 0), end = send(SCI_GETLINEENDPOSITION, (uptr_t)line, 0);
    for (at = start; at < end; at++) putchar((int)send(SCI_GETCHARAT, (uptr_t)at, 0));
    putchar('\n');
    for (at = start; at < end; at++) putchar(shown[send(SCI_GETSTYLEAT, (uptr_t)at, 0)]);
    putchar('\n');
  }
}

int main(void) {
  static const char text[] = "add 12 to SUM # twice\nSUM is 24";
  hongpilas_scintilla *component = hongpilas_scintilla_new();
  if (component == NULL) return 1;
  view = hongpilas_scintilla_open(component);
  hongpilas_set_notify(view, on_notify, NULL);
  send(SCI_ADDTEXT, sizeof text - 1, (sptr_t)text);
  show("a text");
  send(SCI_INSERTTEXT, 4, (sptr_t) "34 and ");
  show("some words more");
  send(SCI_INSERTTEXT, 0, (sptr_t) "#");
  show("a note");
  send(SCI_UNDO, 0, 0);
  show("and back");
  printf("status %td\n", send(SCI_GETSTATUS, 0, 0));
  hongpilas_scintilla_free(component);
  return 0;
}

/* A margin with the numbers of lines, markers and folds, as a program for Scintilla draws it: the notify function asks the component for what it shows. */
#include <hongpilas_scintilla.h>
#include <stdio.h>
#include <string.h>

enum { BOOKMARK = 1, MOST = 40 };

static sptr_t view;

static sptr_t send(unsigned int message, uptr_t w, sptr_t l) { return hongpilas_direct(view, message, w, l); }

/* A line of the margin: its number, a star for a bookmark, and a sign for a fold header; then the line's text. */
static void draw_line(sptr_t line) {
  char text[MOST + 1] = "";
  sptr_t level = send(SCI_GETFOLDLEVEL, (uptr_t)line, 0);
  const char *fold = (level & SC_FOLDLEVELHEADERFLAG) == 0 ? " " : send(SCI_GETFOLDEXPANDED, (uptr_t)line, 0) ? "-" : "+";
  if (send(SCI_LINELENGTH, (uptr_t)line, 0) > MOST || !send(SCI_GETLINEVISIBLE, (uptr_t)line, 0)) return;
  send(SCI_GETLINE, (uptr_t)line, (sptr_t)text);
  text[strcspn(text, "\n")] = '\0';
  printf("  %2td%s%s| %s\n", line + 1, (send(SCI_MARKERGET, (uptr_t)line, 0) & 1 << BOOKMARK) != 0 ? "*" : " ", fold, text);
}

static void draw_from(sptr_t line) {
  sptr_t lines = send(SCI_GETLINECOUNT, 0, 0);
  for (; line < lines; line++) draw_line(line);
}

/* Where lines come or go, those behind have other numbers; otherwise the line alone is drawn. */
static void on_notify(SCNotification *note, void *data) {
  int kind = note->modificationType;
  (void)data;
  if (note->nmhdr.code != SCN_MODIFIED) return;
  if ((kind & (SC_MOD_INSERTTEXT | SC_MOD_DELETETEXT)) != 0) {
    sptr_t line = send(SCI_LINEFROMPOSITION, (uptr_t)note->position, 0);
    printf("line %td changed, and %+td lines\n", line + 1, note->linesAdded);
    if (note->linesAdded != 0) draw_from(line);
    else draw_line(line);
  }
  if ((kind & (SC_MOD_CHANGEMARKER | SC_MOD_CHANGEFOLD)) != 0 && note->line >= 0) {
    printf("line %td has another marker or level\n", note->line + 1);
    draw_line(note->line);
  }
}

int main(void) {
  static const char text[] = "chapter\n  one\n  two\nthe end";
  hongpilas_scintilla *component = hongpilas_scintilla_new();
  if (component == NULL) return 1;
  view = hongpilas_scintilla_open(component);
  hongpilas_set_notify(view, on_notify, NULL);
  send(SCI_APPENDTEXT, sizeof text - 1, (sptr_t)text);
  send(SCI_SETFOLDLEVEL, 0, SC_FOLDLEVELBASE | SC_FOLDLEVELHEADERFLAG);
  send(SCI_SETFOLDLEVEL, 1, SC_FOLDLEVELBASE + 1);
  send(SCI_SETFOLDLEVEL, 2, SC_FOLDLEVELBASE + 1);
  send(SCI_MARKERADD, 2, BOOKMARK);
  send(SCI_INSERTTEXT, 8, (sptr_t) "  none\n");
  send(SCI_FOLDLINE, 0, SC_FOLDACTION_CONTRACT);
  send(SCI_INSERTTEXT, 0, (sptr_t) "A ");
  printf("status %td\n", send(SCI_GETSTATUS, 0, 0));
  hongpilas_scintilla_free(component);
  return 0;
}

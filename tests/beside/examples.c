/* The worked examples: each command of a script as the call that it stands for. */
#include "beside.h"

#include <ctype.h>
#include <inttypes.h>
#include <stdlib.h>
#include <string.h>

/* Reads the text between quotes. */
static void read_text(const char *from, call *c) {
  unsigned int byte;
  c->length = 0;
  for (from = strchr(from, '"') + 1; *from != '"' && *from != '\0' && c->length < TEXT - 1; from++) {
    byte = (unsigned char)*from;
    if (*from == '\\' && from[1] == 'x' && sscanf(from + 2, "%2x", &byte) == 1) from += 3;
    else if (*from == '\\') byte = (unsigned char)*++from;
    c->text[c->length++] = (char)byte;
  }
  c->text[c->length] = '\0';
}

/* A text of `w` bytes is one that is there; a script may say more, which no pointer can. */
static bool can_be_sent(const trial *t, const call *c) {
  if (c->of == NULL || c->view < 0 || c->view >= t->views || t->ours->views[c->view] == 0) return false;
  return c->of->l != BYTES || c->w <= (int64_t)c->length;
}

static bool read_call(const trial *t, const char *line, call *c) {
  unsigned int number;
  if (sscanf(line, "send %d %u %" SCNd64 " %" SCNd64, &c->view, &number, &c->w, &c->l) != 4) return false;
  c->of = message_of(number);
  c->view--;
  c->is_null = false;
  read_text(line, c);
  return can_be_sent(t, c);
}

/* `load` puts a file into a document: as SETTEXT does. */
static bool read_load(const trial *t, const char *path, const char *line, call *c) {
  char name[1024];
  int number;
  FILE *file;
  if (sscanf(line, "load %d %d", &c->view, &number) != 2) return false;
  snprintf(name, sizeof name, "%.*s.file%d", (int)(strlen(path) - 4), path, number);
  file = fopen(name, "rb");
  c->of = message_of(SCI_SETTEXT);
  c->view--;
  c->w = c->l = 0;
  c->is_null = false;
  c->length = file == NULL ? 0 : fread(c->text, 1, TEXT - 1, file);
  c->text[c->length] = '\0';
  if (file != NULL) fclose(file);
  return file != NULL && can_be_sent(t, c);
}

/* Opens a view, or closes one. */
static void change_views(trial *t, const char *line) {
  int view;
  if (strncmp(line, "open", 4) == 0 && t->views == VIEWS) t->is_parted = true;
  else if (strncmp(line, "open", 4) == 0) open_view(t->ours, t->theirs, t->views++);
  else if (sscanf(line, "close %d", &view) == 1 && view <= t->views) close_view(t->ours, t->theirs, view - 1);
}

void try_example(trial *t, const char *path) {
  static char line[1 << 16];
  static call c;
  FILE *file = fopen(path, "r");
  if (file == NULL) return;
  begin_trial(t);
  while (!t->is_parted && fgets(line, sizeof line, file) != NULL)
    if (read_call(t, line, &c) || read_load(t, path, line, &c)) try_call(t, &c);
    else change_views(t, line);
  fclose(file);
}

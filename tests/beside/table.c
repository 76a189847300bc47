/* The differences that are known: a row has a name, the messages, what may differ, when, and why. */
#include "beside.h"

#include <stdlib.h>
#include <string.h>

enum { ROWS = 256, KINDS = 256 };

typedef struct row {
  char *name, *messages, *what, *when, *reason;
  long count;
} row;

static row rows[ROWS];
static int row_count;
static long unlisted;

/* What is in no row: counted by what differs and by the message, and described once. */
static struct kind {
  const char *what;
  const message *of;
  long count;
} kinds[KINDS];
static int kind_count;

static char *trimmed(char *text) {
  char *end = text + strlen(text);
  while (*text == ' ' || *text == '\t') text++;
  while (end > text && (end[-1] == ' ' || end[-1] == '\n')) *--end = '\0';
  return text;
}

static char *copy_of(const char *text) {
  char *copy = malloc(strlen(text) + 1);
  if (copy == NULL) exit(1);
  return strcpy(copy, text);
}

static void read_row(char *line) {
  char *fields[5];
  int count = 0;
  for (char *field = strtok(line, "|"); field != NULL && count < 5; field = strtok(NULL, "|")) fields[count++] = copy_of(trimmed(field));
  if (count < 5 || row_count == ROWS) {
    fprintf(stderr, "beside: a row of the table has five fields: %s\n", line);
    exit(1);
  }
  row *r = &rows[row_count++];
  r->name = fields[0];
  r->messages = fields[1];
  r->what = fields[2];
  r->when = fields[3];
  r->reason = fields[4];
}

void read_table(const char *path) {
  char line[2048];
  FILE *file = fopen(path, "r");
  if (file == NULL) {
    fprintf(stderr, "beside: there is no %s\n", path);
    exit(1);
  }
  while (fgets(line, sizeof line, file) != NULL)
    if (line[0] != '#' && trimmed(line)[0] != '\0') read_row(line);
  fclose(file);
}

/* Whether a word is among words with blanks between them. */
static bool has_word(const char *words, const char *word) {
  size_t length = strlen(word);
  for (const char *at = words; (at = strstr(at, word)) != NULL; at += length)
    if ((at == words || at[-1] == ' ') && (at[length] == '\0' || at[length] == ' ')) return true;
  return false;
}

static bool is_part(const char *what) {
  for (int i = 0; i < PARTS; i++)
    if (strcmp(part_names[i], what) == 0) return true;
  return false;
}

/* Conditions with `and` between them. */
static bool all_hold(const trial *t, const char *when) {
  char one[128];
  for (;;) {
    const char *end = strstr(when, " and ");
    size_t length = end == NULL ? strlen(when) : (size_t)(end - when);
    snprintf(one, sizeof one, "%.*s", (int)length, when);
    if (!holds(t, one)) return false;
    if (end == NULL) return true;
    when = end + 5;
  }
}

/* Whether a row is of a message: `*` is of all, and `edits` of those that edit the text. */
static bool is_of(const row *r, const message *of) {
  return strcmp(r->messages, "*") == 0 || has_word(r->messages, of->name) || (has_word(r->messages, "edits") && of->edits);
}

static row *row_of(const trial *t, const char *what) {
  for (int i = 0; i < row_count; i++) {
    row *r = &rows[i];
    bool is_what = has_word(r->what, what) || (is_part(what) && has_word(r->what, "state"));
    if (is_what && is_of(r, t->call->of) && all_hold(t, r->when)) return r;
  }
  return NULL;
}

bool is_listed(const trial *t, const char *what) { return row_of(t, what) != NULL; }

static void count_unlisted(const trial *t, const char *what) {
  int i = 0;
  unlisted++;
  while (i < kind_count && (kinds[i].of != t->call->of || strcmp(kinds[i].what, what) != 0)) i++;
  if (i == KINDS) return;
  if (i == kind_count) {
    describe(stdout, t, what);
    kind_count++;
  }
  kinds[i].what = what;
  kinds[i].of = t->call->of;
  kinds[i].count++;
}

void count_difference(const trial *t, const char *what) {
  row *r = row_of(t, what);
  if (r != NULL) r->count++;
  else count_unlisted(t, what);
}

long print_table(void) {
  for (int i = 0; i < row_count; i++) printf("%9ld  %s: %s\n", rows[i].count, rows[i].name, rows[i].reason);
  for (int i = 0; i < kind_count; i++) printf("%9ld  UNLISTED: %s of %s\n", kinds[i].count, kinds[i].what, kinds[i].of->name);
  return unlisted;
}

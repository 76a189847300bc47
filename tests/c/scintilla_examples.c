/* scintilla_examples SCRIPT..: sends the commands of the worked examples through the Scintilla-compatible interface, and compares each value, status, text and
 * notification with what the example prints, which stands beside it in a file .out. What no int and no pointer can say is left out if it is refused,
 * and ends the example otherwise. scintilla_examples --sent SCRIPT.. prints the numbers of the messages that are sent. */
#include "../model/manners.h"

#include <inttypes.h>
#include <stdio.h>
#include <stdlib.h>

enum { VIEWS = 64, NUMBERS = 5000, NOTES = 1 << 12, BYTES = 1 << 20, UNWRITTEN = '~' };

typedef struct command {
  uint32_t view, number;
  int64_t w, l;
  size_t length; /* of its text */
  char text[BYTES];
} command;

/* What a command prints: a value and a text, or the number of a refusal. */
typedef struct outcome {
  bool is_done;
  unsigned refusal;
  int64_t value;
  size_t length;
  char text[BYTES];
} outcome;

typedef struct heard_note {
  uint32_t view;
  SCNotification note;
} heard_note;

static struct {
  const char *path, *line; /* the example, and the command that goes on */
  uint32_t ids[VIEWS];
  sptr_t views[VIEWS];
  size_t heard_count;
  heard_note heard[NOTES];
} now;

static long examples, commands, left_out, ended;
static bool sent[NUMBERS];

static void must(bool holds, const char *what) {
  if (holds) return;
  printf("FAILED  %s: %s: %s\n", now.path, now.line, what);
  exit(1);
}

/* ---- Files and lines ---- */

/* Reads a file, with a NUL behind it; whether there is one. */
static bool read_file(const char *path, char *into, size_t *length) {
  FILE *file = fopen(path, "rb");
  if (file == NULL) return false;
  *length = fread(into, 1, BYTES - 1, file);
  must(feof(file) && fclose(file) == 0, "the file is too long");
  into[*length] = '\0';
  return true;
}

/* Reads a file beside the example: its path ends with this in place of .sci. */
static bool read_beside(const char *ending, char *into, size_t *length) {
  char path[4096];
  int stem = (int)strlen(now.path) - 4;
  must(stem > 0 && (size_t)snprintf(path, sizeof path, "%.*s%s", stem, now.path, ending) < sizeof path, "its path ends with .sci");
  return read_file(path, into, length);
}

/* The next line, closed by a NUL; NULL at the end. */
static char *next_line(char **at) {
  char *line = *at, *end = strchr(line, '\n');
  if (end == NULL) return NULL;
  *end = '\0';
  *at = end + 1;
  return line;
}

/* Reads a text from its opening quote on, and answers its length. */
static size_t read_text(const char *from, char *into) {
  unsigned byte;
  size_t length = 0;
  must(from != NULL, "a text begins with a quote");
  for (from++; *from != '"'; from++) {
    must(*from != '\0', "a text ends with a quote");
    byte = (unsigned char)*from;
    if (*from == '\\' && sscanf(from, "\\x%2x", &byte) == 1) from += 3;
    else if (*from == '\\') byte = (unsigned char)*++from;
    into[length++] = (char)byte;
  }
  into[length] = '\0';
  return length;
}

static void read_outcome(char **at, outcome *into) {
  char *line = next_line(at);
  must(line != NULL, "each command prints a line");
  into->is_done = sscanf(line, "= %" SCNd64, &into->value) == 1;
  into->refusal = 0;
  if (into->is_done) into->length = read_text(strchr(line, '"'), into->text);
  else sscanf(line, "! %u", &into->refusal);
}

/* Whether a line sends a message: as `send` says, or SETTEXT of a file as `load` does. */
static bool read_command(const char *line, command *into) {
  unsigned file;
  char ending[32];
  into->w = into->l = 0;
  if (sscanf(line, "send %" SCNu32 " %" SCNu32 " %" SCNd64 " %" SCNd64, &into->view, &into->number, &into->w, &into->l) == 4) {
    into->length = read_text(strchr(line, '"'), into->text);
    return true;
  }
  if (sscanf(line, "load %" SCNu32 " %u", &into->view, &file) != 2) return false;
  into->number = SCI_SETTEXT;
  into->length = 0;
  snprintf(ending, sizeof ending, ".file%u", file);
  return read_beside(ending, into->text, &into->length);
}

/* ---- Views ---- */

static void hear(SCNotification *note, void *data) {
  must(now.heard_count < NOTES, "the notes of a command have room");
  now.heard[now.heard_count].view = *(const uint32_t *)data;
  now.heard[now.heard_count++].note = *note;
}

static void open_view(hongpilas_scintilla *component, const outcome *wanted) {
  sptr_t view = hongpilas_scintilla_open(component);
  must((view != 0) == wanted->is_done, "whether a view opens");
  if (!wanted->is_done) return;
  must(wanted->value > 0 && wanted->value < VIEWS, "a view's id");
  now.ids[wanted->value] = (uint32_t)wanted->value;
  now.views[wanted->value] = view;
  hongpilas_set_notify(view, hear, &now.ids[wanted->value]);
}

static sptr_t *view_of(uint32_t id) {
  static sptr_t none;
  none = 0;
  return id < VIEWS ? &now.views[id] : &none;
}

/* ---- Messages ---- */

/* Whether w, l and the text are what ints and a pointer can say. Of a text of a negative length no byte is read. */
static bool can_be_said(const command *c) {
  const char *letters = manners_of(c->number);
  if (letters[0] == 'i' && (int)c->w != c->w) return false;
  if (letters[1] == 'i' && (int)c->l != c->l) return false;
  if (letters[1] == 'm' && (uint32_t)c->l != c->l) return false;
  if (letters[1] == 'Z' || (letters[1] == 'e' && c->w == -1)) return memchr(c->text, '\0', c->length) == NULL;
  return strchr("nNe", letters[1]) == NULL || c->w <= (int64_t)c->length;
}

/* A text that was written, with the NULs that Scintilla's documentation has behind it. */
static void compare_text(const char *found, const outcome *wanted, char letter) {
  static const char closed[] = {'s', 1, 'b', 1, 't', 1, 'u', 2};
  size_t nuls = 0, end = wanted->length;
  for (size_t i = 0; i < sizeof closed; i += 2)
    if (closed[i] == letter) nuls = (size_t)closed[i + 1];
  must(memcmp(found, wanted->text, wanted->length) == 0, "the text that is written");
  for (size_t i = 0; i < nuls; i++) must(found[end++] == '\0', "the text is closed");
  must(found[end] == UNWRITTEN, "nothing is written behind it");
}

/* Each note that is printed was heard, in its order: its view, code, kind, place, length and lines. */
static void compare_heard(char **at) {
  uint32_t view;
  unsigned code, kind;
  int64_t position, length, lines;
  size_t next = 0;
  for (; **at == '@'; next++) {
    char *line = next_line(at);
    const heard_note *h = &now.heard[next];
    must(line != NULL && next < now.heard_count, "each note is told");
    must(sscanf(line, "@ %" SCNu32 " %u %u %" SCNd64 " %" SCNd64 " %" SCNd64, &view, &code, &kind, &position, &length, &lines) == 6, "a note's line");
    must(h->view == view && h->note.nmhdr.code == code && h->note.modificationType == (int)kind, "the view, code and kind of a note");
    must(h->note.position == position && h->note.length == length && h->note.linesAdded == lines, "the place, length and lines of a note");
  }
  must(next == now.heard_count, "no other note is told");
}

static void send_command(const command *c, const outcome *wanted, char **at) {
  static char buffer[BYTES + 4];
  struct Sci_TextRange range = {{(Sci_PositionCR)c->w, (Sci_PositionCR)c->l}, buffer};
  char letter = manners_of(c->number)[1];
  bool is_unknown = wanted->refusal == HONGPILAS_UNKNOWN_MESSAGE;
  uptr_t w = letter == 'b' ? BYTES : (uptr_t)c->w;
  sptr_t view = *view_of(c->view), l = (sptr_t)c->l;
  int status = SC_STATUS_OK;
  if (strchr("nNZe", letter) != NULL) l = (sptr_t)c->text;
  else if (takes_buffer(letter)) l = (sptr_t)buffer;
  if (letter == 't' || letter == 'u') l = (sptr_t)&range;
  memset(buffer, UNWRITTEN, sizeof buffer);
  sptr_t value = hongpilas_direct_status(view, c->number, w, l, &status);
  if (view != 0) hongpilas_direct(view, SCI_SETSTATUS, SC_STATUS_OK, 0);
  must(value == (wanted->is_done ? answered_value(c->number, wanted->value) : is_unknown ? 0 : refused_value(c->number)), "the value");
  must((status == SC_STATUS_OK) == (wanted->is_done || is_unknown), "the status");
  if (wanted->is_done && takes_buffer(letter)) compare_text(buffer, wanted, letter);
  compare_heard(at);
  if (wanted->is_done && c->number < NUMBERS) sent[c->number] = true;
  commands++;
}

/* ---- Examples ---- */

/* Makes the call of a line; whether the example goes on. */
static bool take_line(hongpilas_scintilla *component, const char *line, char **printed) {
  static command c;
  static outcome wanted;
  now.line = line;
  now.heard_count = 0;
  read_outcome(printed, &wanted);
  if (strcmp(line, "open") == 0) open_view(component, &wanted);
  else if (sscanf(line, "close %" SCNu32, &c.view) == 1) {
    hongpilas_scintilla_close(*view_of(c.view));
    *view_of(c.view) = 0;
  } else if (read_command(line, &c) && can_be_said(&c)) send_command(&c, &wanted, printed);
  else if (strncmp(line, "expect ", 7) != 0) {
    left_out++;
    return !wanted.is_done;
  }
  return true;
}

static void try_example(const char *path) {
  static char script[BYTES], printed[BYTES];
  char *at = script, *told = printed, *line;
  size_t length;
  bool goes_on = true;
  hongpilas_scintilla *component = hongpilas_scintilla_new();
  now.path = path;
  now.line = "at its start";
  memset(now.views, 0, sizeof now.views);
  must(component != NULL && read_file(path, script, &length) && read_beside(".out", printed, &length), "the example is there, with what it prints");
  next_line(&at); /* the version */
  while (goes_on && (line = next_line(&at)) != NULL) goes_on = take_line(component, line, &told);
  must(!goes_on || *told == '\0', "all that is printed is compared");
  hongpilas_scintilla_free(component);
  ended += !goes_on;
  examples++;
}

int main(int count, char **words) {
  bool is_list = count > 1 && strcmp(words[1], "--sent") == 0;
  for (int i = is_list ? 2 : 1; i < count; i++) try_example(words[i]);
  for (unsigned number = 0; is_list && number < NUMBERS; number++)
    if (sent[number]) printf("%u\n", number);
  if (!is_list)
    printf("%ld commands of %ld examples through the Scintilla-compatible interface; %ld are left out, at which %ld examples end\n", commands, examples,
           left_out, ended);
  return 0;
}

/* An editor in six steps, step 1: opens a file, and shows a window of it. step1 FILE, and orders on standard input. */
#include <hongpilas.h>
#include <stdio.h>
#include <stdlib.h>
#include <string.h>

enum { ROWS = 6 };

static hongpilas_session *session;
static uint32_t view;
static int64_t top; /* the line in the window's first row */

/* A refused call has changed nothing: an editor says why, and goes on. These programs end. */
static void must(hongpilas_answer answer) {
  if (answer == HONGPILAS_DONE) return;
  fprintf(stderr, "refused: %s\n", hongpilas_answer_name(answer));
  exit(1);
}

/* The same of a file. */
static void must_file(bool is_done, const char *name) {
  if (is_done) return;
  perror(name);
  exit(1);
}

/* Asks a query. */
static int64_t ask(uint32_t number, int64_t w) {
  int64_t value = 0;
  must(hongpilas_ask(session, view, number, w, 0, &value));
  return value;
}

/* Sends a message. */
static int64_t send_text(uint32_t number, int64_t w, int64_t l, const char *text, size_t length) {
  int64_t value = 0;
  must(hongpilas_send(session, view, number, w, l, text, length, &value));
  return value;
}

static int64_t send(uint32_t number, int64_t w, int64_t l) { return send_text(number, w, l, NULL, 0); }

/* Appends a file to the document, part by part. Nobody can undo it, and it counts as saved. */
static void open_file(const char *name) {
  char part[4096];
  FILE *file = fopen(name, "rb");
  must_file(file != NULL, name);
  send(SCI_SETUNDOCOLLECTION, false, 0);
  for (size_t count; (count = fread(part, 1, sizeof part, file)) > 0;) send_text(SCI_APPENDTEXT, (int64_t)count, 0, part, count);
  must_file(ferror(file) == 0, name);
  send(SCI_SETUNDOCOLLECTION, true, 0);
  send(SCI_SETSAVEPOINT, 0, 0);
  fclose(file);
}

/* Draws a line: its number, and its bytes where they lie in the component. */
static void draw_line(int64_t line) {
  const uint8_t *bytes = NULL;
  int64_t start = ask(SCI_POSITIONFROMLINE, line), length = ask(SCI_GETLINEENDPOSITION, line) - start;
  must(hongpilas_lend_range(session, view, (size_t)start, (size_t)length, &bytes));
  printf("%2lld  ", (long long)line + 1);
  fwrite(bytes, 1, (size_t)length, stdout);
  putchar('\n');
}

static void draw_caret(void) {
  int64_t caret = ask(SCI_GETCURRENTPOS, 0), line = ask(SCI_LINEFROMPOSITION, caret);
  printf("-- line %lld, byte %lld\n", (long long)line + 1, (long long)(caret - ask(SCI_POSITIONFROMLINE, line)));
}

/* Draws the window, and where the caret is. */
static void draw(void) {
  int64_t lines = ask(SCI_GETLINECOUNT, 0);
  for (int64_t line = top; line < top + ROWS && line < lines; line++) draw_line(line);
  draw_caret();
}

static bool is(const char *name, const char *wanted) { return strcmp(name, wanted) == 0; }

/* Runs an order, as a key or a menu would: its name, and what stands behind it. */
static void run(const char *name, const char *rest) {
  int64_t line = strtoll(rest, NULL, 10) - 1;
  if (is(name, "top") && line >= 0) top = line;
  if (is(name, "line")) send(SCI_GOTOLINE, line, 0);
  if (is(name, "end")) send(SCI_LINEEND, 0, 0);
}

int main(int argument_count, char **arguments) {
  char order[256];
  if (argument_count != 2) {
    fprintf(stderr, "name one file; orders come on standard input, and Ctrl-D ends them\n");
    return 2;
  }
  must(hongpilas_new(&session));
  must(hongpilas_new_view(session, &view));
  open_file(arguments[1]);
  draw();
  while (fgets(order, sizeof order, stdin) != NULL) {
    printf("> %s", order);
    order[strcspn(order, "\n")] = '\0';
    char *rest = order + strcspn(order, " ");
    if (*rest != '\0') *rest++ = '\0';
    run(order, rest);
    draw();
  }
  hongpilas_free(session);
  return 0;
}

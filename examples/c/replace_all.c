/* Opens a file, replaces a word everywhere as one undo step, prints the notifications, and has a thread read a copy of the text.
 *   cc -Iinclude examples/c/replace_all.c out/libhongpilas.a -pthread -o replace_all
 *   ./replace_all examples/c/tutorial/sample.txt side n */
#include <hongpilas.h>
#include <pthread.h>
#include <stdio.h>
#include <stdlib.h>
#include <string.h>

static hongpilas_session *session;
static uint32_t view;

/* A refused call has changed nothing: an editor says why, and goes on. This program ends. */
static void must(hongpilas_answer answer) {
  if (answer == HONGPILAS_DONE) return;
  fprintf(stderr, "refused: %s\n", hongpilas_answer_name(answer));
  exit(1);
}

/* Ends the program unless what the C library was asked for is done. */
static void must_do(bool is_done, const char *what) {
  if (is_done) return;
  perror(what);
  exit(1);
}

/* Prints the notifications of the last reply. The view's mask lets SCN_MODIFIED through for insertions and deletions alone. */
static void print_notes(void) {
  hongpilas_note_data note;
  for (size_t i = 0; hongpilas_note(session, i, &note, sizeof note) == HONGPILAS_DONE; i++) {
    printf("  %s", hongpilas_note_name(note.code));
    if (note.code == SCN_MODIFIED)
      printf(": %lld bytes %s at %lld", (long long)note.length, (note.kind & SC_MOD_INSERTTEXT) != 0 ? "inserted" : "deleted", (long long)note.position);
    putchar('\n');
  }
}

/* Sends a message, and prints its notifications: the next message replaces them. */
static int64_t send_text(uint32_t number, int64_t w, int64_t l, const char *text, size_t length) {
  int64_t value = 0;
  must(hongpilas_send(session, view, number, w, l, text, length, &value));
  print_notes();
  return value;
}

static int64_t send(uint32_t number, int64_t w, int64_t l) { return send_text(number, w, l, NULL, 0); }

/* Sends a query, which replaces nothing. */
static int64_t ask(uint32_t number) {
  int64_t value = 0;
  must(hongpilas_ask(session, view, number, 0, 0, &value));
  return value;
}

/* Appends a file to the text, part by part. Undo is not collected meanwhile: nobody can undo the opening. */
static void open_file(const char *name) {
  char part[4096];
  FILE *file = fopen(name, "rb");
  must_do(file != NULL, name);
  send(SCI_SETUNDOCOLLECTION, false, 0);
  for (size_t count; (count = fread(part, 1, sizeof part, file)) > 0;) send_text(SCI_APPENDTEXT, (int64_t)count, 0, part, count);
  must_do(ferror(file) == 0, name);
  fclose(file);
  send(SCI_SETUNDOCOLLECTION, true, 0);
  send(SCI_SETSAVEPOINT, 0, 0);
}

/* Replaces a word everywhere. What lies between the ends of the group is one undo step. */
static void replace_all(const char *word, const char *other) {
  const size_t length = strlen(word), other_length = strlen(other);
  send(SCI_SETSEARCHFLAGS, SCFIND_MATCHCASE | SCFIND_WHOLEWORD, 0);
  send(SCI_BEGINUNDOACTION, 0, 0);
  send(SCI_TARGETWHOLEDOCUMENT, 0, 0);
  while (send_text(SCI_SEARCHINTARGET, (int64_t)length, 0, word, length) >= 0) {
    send_text(SCI_REPLACETARGET, (int64_t)other_length, 0, other, other_length);
    send(SCI_SETTARGETRANGE, ask(SCI_GETTARGETEND), ask(SCI_GETLENGTH));
  }
  send(SCI_ENDUNDOACTION, 0, 0);
}

/* Borrows the whole text, and prints it. The bytes are valid until the next call on the session. */
static void print_text(void) {
  const uint8_t *bytes = NULL;
  const size_t length = (size_t)ask(SCI_GETLENGTH);
  must(hongpilas_lend_range(session, view, 0, length, &bytes));
  fwrite(bytes, 1, length, stdout);
}

/* A copy of the text. The thread has it to itself, and makes no call on the session. */
typedef struct copy {
  char *bytes;
  size_t length, words;
} copy;

static copy copy_text(void) {
  copy text = {NULL, (size_t)ask(SCI_GETLENGTH), 0};
  text.bytes = malloc(text.length + 1);
  must_do(text.bytes != NULL, "malloc");
  must(hongpilas_copy_range(session, view, 0, text.bytes, text.length));
  return text;
}

static bool is_blank(char byte) { return byte == ' ' || byte == '\n'; }

static void *count_words(void *data) {
  copy *text = data;
  for (size_t i = 0; i < text->length; i++)
    if (!is_blank(text->bytes[i]) && (i == 0 || is_blank(text->bytes[i - 1]))) text->words++;
  return NULL;
}

int main(int count, char **arguments) {
  pthread_t thread;
  if (count != 4 || arguments[2][0] == '\0') {
    fprintf(stderr, "replace_all FILE WORD OTHER\n");
    return 2;
  }
  must(hongpilas_new(&session));
  must(hongpilas_new_view(session, &view));
  send(SCI_SETMODEVENTMASK, SC_MOD_INSERTTEXT | SC_MOD_DELETETEXT, 0);
  printf("open\n");
  open_file(arguments[1]);
  copy text = copy_text();
  must_do(pthread_create(&thread, NULL, count_words, &text) == 0, "pthread_create");
  printf("replace\n");
  replace_all(arguments[2], arguments[3]);
  print_text();
  printf("undo\n");
  send(SCI_UNDO, 0, 0);
  must_do(pthread_join(thread, NULL) == 0, "pthread_join");
  printf("%zu words in the copy\n", text.words);
  free(text.bytes);
  hongpilas_free(session);
  return 0;
}

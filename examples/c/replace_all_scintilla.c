/* replace_all.c over the Scintilla-compatible interface: a notify function prints the notifications.
 *   cc -Iinclude examples/c/replace_all_scintilla.c out/libhongpilas_scintilla.a out/libhongpilas.a -pthread -o replace_all_scintilla
 *   ./replace_all_scintilla examples/c/tutorial/sample.txt side n */
#include <hongpilas_scintilla.h>
#include <pthread.h>
#include <stdbool.h>
#include <stdio.h>
#include <stdlib.h>
#include <string.h>

static sptr_t view;

/* Ends the program unless what the C library was asked for is done. */
static void must_do(bool is_done, const char *what) {
  if (is_done) return;
  perror(what);
  exit(1);
}

/* Is called for each notification, when its message is done. The view's mask lets SCN_MODIFIED through for insertions and deletions alone. */
static void print_note(SCNotification *note, void *data) {
  (void)data;
  printf("  %s", hongpilas_note_name(note->nmhdr.code));
  if (note->nmhdr.code == SCN_MODIFIED)
    printf(": %td bytes %s at %td", note->length, (note->modificationType & SC_MOD_INSERTTEXT) != 0 ? "inserted" : "deleted", note->position);
  putchar('\n');
}

/* Sends a message. A refused one has changed nothing: an editor says why, sets the status to 0, and goes on. This program ends. */
static sptr_t send(unsigned int message, uptr_t w, sptr_t l) {
  int status = SC_STATUS_OK;
  sptr_t value = hongpilas_direct_status(view, message, w, l, &status);
  if (status == SC_STATUS_OK) return value;
  fprintf(stderr, "refused: %s\n", hongpilas_refusal(view));
  exit(1);
}

/* Appends a file to the text, part by part. Undo is not collected meanwhile: nobody can undo the opening. */
static void open_file(const char *name) {
  char part[4096];
  FILE *file = fopen(name, "rb");
  must_do(file != NULL, name);
  send(SCI_SETUNDOCOLLECTION, false, 0);
  for (size_t count; (count = fread(part, 1, sizeof part, file)) > 0;) send(SCI_APPENDTEXT, count, (sptr_t)part);
  must_do(ferror(file) == 0, name);
  fclose(file);
  send(SCI_SETUNDOCOLLECTION, true, 0);
  send(SCI_SETSAVEPOINT, 0, 0);
}

/* Replaces a word everywhere. What lies between the ends of the group is one undo step. */
static void replace_all(const char *word, const char *other) {
  send(SCI_SETSEARCHFLAGS, SCFIND_MATCHCASE | SCFIND_WHOLEWORD, 0);
  send(SCI_BEGINUNDOACTION, 0, 0);
  send(SCI_TARGETWHOLEDOCUMENT, 0, 0);
  while (send(SCI_SEARCHINTARGET, strlen(word), (sptr_t)word) >= 0) {
    send(SCI_REPLACETARGET, strlen(other), (sptr_t)other);
    send(SCI_SETTARGETRANGE, (uptr_t)send(SCI_GETTARGETEND, 0, 0), send(SCI_GETLENGTH, 0, 0));
  }
  send(SCI_ENDUNDOACTION, 0, 0);
}

/* A copy of the text, with the NUL that GETTEXT writes. The thread has it to itself, and makes no call on the component. */
typedef struct copy {
  char *bytes;
  size_t length, words;
} copy;

static copy copy_text(void) {
  copy text = {NULL, (size_t)send(SCI_GETLENGTH, 0, 0), 0};
  text.bytes = malloc(text.length + 1);
  must_do(text.bytes != NULL, "malloc");
  send(SCI_GETTEXT, text.length, (sptr_t)text.bytes);
  return text;
}

static bool is_blank(char byte) { return byte == ' ' || byte == '\n'; }

static void *count_words(void *data) {
  copy *text = data;
  for (size_t i = 0; i < text->length; i++)
    if (!is_blank(text->bytes[i]) && (i == 0 || is_blank(text->bytes[i - 1]))) text->words++;
  return NULL;
}

static void print_text(void) {
  copy text = copy_text();
  fwrite(text.bytes, 1, text.length, stdout);
  free(text.bytes);
}

int main(int count, char **arguments) {
  pthread_t thread;
  if (count != 4 || arguments[2][0] == '\0') {
    fprintf(stderr, "replace_all_scintilla FILE WORD OTHER\n");
    return 2;
  }
  hongpilas_scintilla *component = hongpilas_scintilla_new();
  view = hongpilas_scintilla_open(component); /* 0 if one of the two fails: then each message is refused */
  hongpilas_set_notify(view, print_note, NULL);
  send(SCI_SETMODEVENTMASK, SC_MOD_INSERTTEXT | SC_MOD_DELETETEXT, 0);
  printf("open\n");
  open_file(arguments[1]);
  copy text = copy_text();
  must_do(pthread_create(&thread, NULL, count_words, &text) == 0, "pthread_create");
  printf("replace\n");
  replace_all(arguments[2], arguments[3]);
  print_text();
  printf("undo\n");
  send(SCI_UNDO, 0, 0);
  must_do(pthread_join(thread, NULL) == 0, "pthread_join");
  printf("%zu words in the copy\n", text.words);
  free(text.bytes);
  hongpilas_scintilla_free(component);
  return 0;
}

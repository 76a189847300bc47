/* beside LIBSCINTILLA TABLE CALLS SEED EXAMPLE..: sends the worked examples, and calls drawn at random, to Scintilla and to Hongpilas. */
#define _POSIX_C_SOURCE 200809L
#include "beside.h"

#include <signal.h>
#include <stdlib.h>

static side ours, theirs;
static trial t = {.ours = &ours, .theirs = &theirs};

/* Scintilla may crash, or not return: then the last calls are the reason. */
static void tell_crash(int number) {
  fprintf(stderr, "beside: signal %d after the calls\n", number);
  describe_calls(stderr);
  _Exit(3);
}

int main(int count, char **words) {
  int examples = 0;
  if (count < 5 || !open_theirs(&theirs, words[1])) {
    fprintf(stderr, "beside: Scintilla cannot be opened\n");
    return 2;
  }
  signal(SIGSEGV, tell_crash);
  signal(SIGABRT, tell_crash);
  signal(SIGALRM, tell_crash);
  read_table(words[2]);
  for (int i = 5; i < count; i++, examples++) try_example(&t, words[i]);
  long of_examples = calls_sent;
  try_random(&t, of_examples + atol(words[3]), strtoull(words[4], NULL, 10));
  long unlisted = print_table();
  printf("%d examples with %ld calls, and %ld calls at random\n", examples, of_examples, calls_sent - of_examples);
  printf("%ld values, %ld buffers, %ld notifications and %ld states were compared\n", values_compared, buffers_compared, notes_compared, states_compared);
  printf("%ld passed, %ld failed\n", calls_sent - (unlisted > calls_sent ? calls_sent : unlisted), unlisted);
  return unlisted != 0;
}

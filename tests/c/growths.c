/* growths SCRIPT..: refuses each growth of each command of scripts, in turn. The command answers that memory ran out, and the session is as it was: it
 * answers each question as before, the same command is done in full once there is memory, and undoing, redoing and changes do what they did before.
 * A command may also do without a growth; it is then done in full.
 * growths --asked prints the numbers of the messages that are asked as questions.
 * Linked as counted_heap.h says. */
#include "counted_heap.h"
#include "../model/questions.h"

#include <hongpilas.h>
#include <inttypes.h>
#include <stddef.h>
#include <stdio.h>
#include <stdlib.h>
#include <string.h>

enum { MOST_CALLS = 128, MOST_SCRIPT = 1 << 17, MOST_SEEN = 1 << 18, MOST_BYTES = 1 << 23 };
/* How far is looked: ids of views and documents, handles of markers, open groups and references, transactions. */
enum { LAST_VIEW = 5, LAST_DOCUMENT = 7, LAST_HANDLE = 16, DEPTH = 4, MOST_TRANSACTIONS = 64 };
/* How many growths a command may do without: room for notes of which lines have no marker. */
enum { MOST_SPARED = 1 };
/* Calls that are no messages, under numbers that no message has. */
enum { OPEN = 1, CLOSE = 2, LAST_REPLY = 3 };
/* The value where a call has set none. */
enum { UNSET = -987654321 };

typedef struct call {
  uint32_t view, number;
  int64_t w, l;
  const uint8_t *text;
  size_t length;
} call;

typedef struct script {
  const char *path;
  size_t count;
  call calls[MOST_CALLS];
} script;

/* What a call answered. The reply's text and notes are bytes of the record, from `start` on. */
typedef struct seen {
  call made;
  hongpilas_answer answer;
  int64_t value;
  size_t start, length;
} seen;

/* What a run with memory has shown; the command's answer stands at `command`. The runs with a growth refused are compared with it: `next` is where they
 * have come to. */
typedef struct record {
  seen all[MOST_SEEN];
  uint8_t bytes[MOST_BYTES];
  size_t count, used, next, command;
} record;

/* What a run looks at, behind the calls before the command. */
typedef struct ending {
  const char *name;
  void (*follow)(hongpilas_session *session);
} ending;

/* The run that goes on: a script up to a command, of which a growth is refused (0: none), alone or with all that follow; and its ending. */
static struct {
  const script *script;
  size_t command;
  long growth;
  bool is_for_good;
  const ending *ending;
  record *record;
  bool differs;
} now;

static hongpilas_limits limits = HONGPILAS_GREATEST_LIMITS;
static long commands, refused, spared, questions, passed, failed;

static void must(bool holds, const char *what) {
  if (holds) return;
  printf("FAILED  %s: %s\n", now.script != NULL ? now.script->path : "growths", what);
  exit(1);
}

/* The heap: how many requests there were, and which of them is refused (0: none). */

static long requests, refused_request;

static bool is_refused(void) {
  requests++;
  return refused_request > 0 && (requests == refused_request || (now.is_for_good && requests > refused_request));
}

/* Scripts. */

static char script_bytes[MOST_SCRIPT];
static size_t script_used;

/* Reads a file whole, and a NUL behind it; NULL where there is no such file. */
static char *read_file(const char *path, size_t *length) {
  char *from = script_bytes + script_used;
  FILE *file = fopen(path, "rb");
  if (file == NULL) return NULL;
  *length = fread(from, 1, MOST_SCRIPT - 1 - script_used, file);
  must(feof(file) && fclose(file) == 0, "the file is too long");
  from[*length] = 0;
  script_used += *length + 1;
  return from;
}

/* Reads a text up to its closing quote, into the place where it stands, and answers its length. */
static size_t read_text(char *from) {
  uint8_t *into = (uint8_t *)from, *start = into;
  unsigned byte = 0;
  while (*from != '"') {
    must(*from != 0 && (*from != '\\' || from[1] != 0), "a text ends with a quote");
    if (*from != '\\') *into++ = (uint8_t)*from++;
    else if (sscanf(from, "\\x%2x", &byte) == 1) *into++ = (uint8_t)byte, from += 4;
    else *into++ = (uint8_t)from[1], from += 2;
  }
  return (size_t)(into - start);
}

/* The file K of a script's loads: its path ends with .fileK in place of .sci. Answers whether there is one; a load of none sends nothing. */
static bool read_loaded(const char *script_path, unsigned number, call *into) {
  char path[4096];
  int stem = (int)strlen(script_path) - 4;
  must(stem > 0 && (size_t)snprintf(path, sizeof path, "%.*s.file%u", stem, script_path, number) < sizeof path, "its path ends with .sci");
  into->number = SCI_SETTEXT;
  into->text = (const uint8_t *)read_file(path, &into->length);
  return into->text != NULL;
}

/* Reads a line of a script; answers whether it is one that is given to the session. */
static bool read_line(const char *path, char *line, call *it) {
  unsigned file = 0;
  int text = 0;
  *it = (call){0, 0, 0, 0, NULL, 0};
  if (strncmp(line, "sci ", 4) == 0 || strncmp(line, "expect ", 7) == 0) return false;
  if (strcmp(line, "open") == 0) it->number = OPEN;
  else if (sscanf(line, "close %" SCNu32, &it->view) == 1) it->number = CLOSE;
  else if (sscanf(line, "load %" SCNu32 " %u", &it->view, &file) == 2) return read_loaded(path, file, it);
  else {
    sscanf(line, "send %" SCNu32 " %" SCNu32 " %" SCNd64 " %" SCNd64 " \"%n", &it->view, &it->number, &it->w, &it->l, &text);
    must(text > 0, "a line is a command");
    it->text = (const uint8_t *)line + text;
    it->length = read_text(line + text);
  }
  return true;
}

static void read_script(script *into, const char *path) {
  size_t length;
  char *line, *end;
  into->path = path;
  into->count = 0;
  now.script = into;
  script_used = 0;
  line = read_file(path, &length);
  must(line != NULL, "there is no such file");
  for (; (end = strchr(line, '\n')) != NULL; line = end + 1) {
    *end = 0;
    must(into->count < MOST_CALLS, "there are too many commands");
    into->count += read_line(path, line, &into->calls[into->count]);
  }
  must(*line == 0, "the last line ends");
}

/* What is seen, printed as scripts are. */

static void print_text(const uint8_t *bytes, size_t length) {
  putchar('"');
  for (size_t i = 0; i < length; i++)
    if (bytes[i] == '"' || bytes[i] == '\\') printf("\\%c", bytes[i]);
    else printf(bytes[i] >= 0x20 && bytes[i] < 0x7F ? "%c" : "\\x%02x", bytes[i]);
  putchar('"');
}

static void print_call(const call *made) {
  if (made->number == OPEN) printf("open");
  else if (made->number == CLOSE) printf("close %" PRIu32, made->view);
  else if (made->number == LAST_REPLY) printf("the last reply");
  else {
    printf("send %" PRIu32 " %" PRIu32 " %" PRId64 " %" PRId64 " ", made->view, made->number, made->w, made->l);
    print_text(made->text, made->length);
  }
}

/* A text of a reply, and where the bytes behind it begin. */
static const uint8_t *print_kept_text(const uint8_t *bytes) {
  size_t length;
  memcpy(&length, bytes, sizeof length);
  print_text(bytes + sizeof length, length);
  return bytes + sizeof length + length;
}

/* A note of a reply, and where the bytes behind it begin. */
static const uint8_t *print_note(const uint8_t *bytes) {
  hongpilas_note_data it = {0};
  memcpy(&it, bytes, offsetof(hongpilas_note_data, text));
  const int64_t fields[] = {it.view, it.code, it.kind, it.position, it.length, it.lines, it.line, it.now, it.prev, it.token, it.message, it.w, it.l};
  printf(" @ ");
  for (size_t i = 0; i < sizeof fields / sizeof *fields; i++) printf("%" PRId64 " ", fields[i]);
  return print_kept_text(bytes + offsetof(hongpilas_note_data, text));
}

static void print_seen(const seen *one, const uint8_t *bytes) {
  const uint8_t *end = bytes + one->length;
  if (one->answer != HONGPILAS_DONE) printf("! %" PRIu32, one->answer);
  else printf("= %" PRId64 " ", one->value);
  if (bytes < end) bytes = print_kept_text(bytes);
  while (bytes < end) bytes = print_note(bytes);
}

static const call *the_command(void) { return &now.script->calls[now.command]; }

/* Says which run differs. */
static void print_run(void) {
  now.differs = true;
  printf("FAILED  %s, command %zu (", now.script->path, now.command + 1);
  print_call(the_command());
  printf("), growth %ld refused %s, %s: ", now.growth, now.is_for_good ? "and all behind it" : "alone", now.ending->name);
}

/* Says what was seen, and what the run with memory has shown: of each run the first difference. */
static void report(const seen *one, const uint8_t *bytes, const seen *before) {
  if (now.differs) return;
  print_run();
  print_call(&one->made);
  printf(" answers `");
  print_seen(one, bytes);
  printf("`, and with memory ");
  print_call(&before->made);
  printf(" answers `");
  print_seen(before, now.record->bytes + before->start);
  printf("`\n");
}

/* What is seen, kept or compared. */

/* Puts bytes behind those of a reply. */
static void keep_bytes(size_t *length, const void *bytes, size_t count) {
  record *kept = now.record;
  must(MOST_BYTES - kept->used - *length >= count, "there are too many bytes to keep");
  if (count > 0) memcpy(kept->bytes + kept->used + *length, bytes, count);
  *length += count;
}

static void keep_text(size_t *length, const uint8_t *text, size_t count) {
  keep_bytes(length, &count, sizeof count);
  keep_bytes(length, text, count);
}

/* Puts the last reply's text and notes behind the bytes of the record, and answers how many bytes that is. */
static size_t keep_reply(hongpilas_session *session) {
  size_t length = 0, count = hongpilas_note_count_unchecked(session);
  const uint8_t *text = NULL;
  size_t text_length = hongpilas_text_unchecked(session, &text);
  keep_text(&length, text, text_length);
  for (size_t i = 0; i < count; i++) {
    hongpilas_note_data note = {0};
    must(hongpilas_note_unchecked(session, i, &note), "there is each note");
    keep_bytes(&length, &note, offsetof(hongpilas_note_data, text));
    keep_text(&length, note.text, note.text_length);
  }
  return length;
}

/* Whether what was seen is what the run with memory has shown. Its bytes lie behind those of the record. */
static bool is_same(const seen *one, const seen *before) {
  const call *made = &one->made, *other = &before->made;
  return made->view == other->view && made->number == other->number && made->w == other->w && made->l == other->l && one->answer == before->answer &&
         one->value == before->value && one->length == before->length &&
         memcmp(now.record->bytes + now.record->used, now.record->bytes + before->start, one->length) == 0;
}

/* Keeps what was seen, or compares it with what the run with memory has at the same place. */
static void keep(seen one) {
  record *kept = now.record;
  if (now.growth > 0) {
    const seen *before = &kept->all[kept->next < kept->count ? kept->next++ : kept->count - 1];
    if (!is_same(&one, before)) report(&one, kept->bytes + kept->used, before);
    return;
  }
  must(kept->count < MOST_SEEN, "there is too much to keep");
  one.start = kept->used;
  kept->all[kept->count++] = one;
  kept->used += one.length;
}

/* Calls. */

static hongpilas_answer make(hongpilas_session *session, const call *made, int64_t *value) {
  uint32_t opened = 0;
  hongpilas_answer answer;
  *value = UNSET;
  if (made->number == CLOSE) return hongpilas_close_view(session, made->view);
  if (made->number != OPEN) return hongpilas_send(session, made->view, made->number, made->w, made->l, made->text, made->length, value);
  answer = hongpilas_new_view(session, &opened);
  if (opened != 0) *value = opened;
  return answer;
}

/* Keeps what a call has answered. A call that was refused, and one that is no message, has left the last reply where it was. */
static void keep_answer(hongpilas_session *session, const call *made, hongpilas_answer answer, int64_t value) {
  seen one = {*made, answer, value, 0, 0};
  if (answer == HONGPILAS_DONE && made->number > LAST_REPLY) {
    must(value == hongpilas_value_unchecked(session), "the last reply has the value");
    one.length = keep_reply(session);
  }
  keep(one);
}

/* Makes a call, keeps what it answered, and answers the value. */
static int64_t try_call(hongpilas_session *session, const call *made) {
  int64_t value;
  hongpilas_answer answer = make(session, made, &value);
  keep_answer(session, made, answer, value);
  return value;
}

static int64_t send(hongpilas_session *session, uint32_t view, uint32_t number, int64_t w, int64_t l) {
  call made = {view, number, w, l, NULL, 0};
  return try_call(session, &made);
}

static bool is_open(hongpilas_session *session, uint32_t view) { return send(session, view, SCI_GETLENGTH, 0, 0) != UNSET; }

/* Questions. */

static const question all_questions[] = {NUMBER_QUESTIONS(QUESTION) TEXT_QUESTIONS(QUESTION)};
enum { QUESTIONS = sizeof all_questions / sizeof *all_questions };

/* Questions are asked of all that there is, and of some beside. */
static int64_t count_in(domain asked, int64_t length, int64_t lines) {
  const int64_t counts[] = {1, lines + 4, length + 5, LAST_HANDLE + 3, 36, 34, 10};
  return counts[asked];
}

/* Masks are those of one bit, of all and of none; all else that is asked of begins below 0. */
static int64_t value_in(domain asked, int64_t place) {
  if (asked == NOTHING) return 0;
  if (asked == MASKS) return place < 32 ? (int64_t)1 << place : place == 32 ? 0xFFFFFFFF : 0;
  return asked == LEVELS && place > 2 ? SC_FOLDLEVELBASE + place - 4 : place - 2;
}

static void ask(hongpilas_session *session, uint32_t view, const question *asked, int64_t length, int64_t lines) {
  int64_t ws = count_in(asked->w, length, lines), ls = count_in(asked->l, length, lines);
  for (int64_t i = 0; i < ws; i++)
    for (int64_t k = 0; k < ls; k++) send(session, view, asked->number, value_in(asked->w, i), value_in(asked->l, k));
  questions += (long)(ws * ls);
}

/* Keeps the last reply. */
static void look_at_reply(hongpilas_session *session) {
  seen reply = {{0, LAST_REPLY, 0, 0, NULL, 0}, HONGPILAS_DONE, hongpilas_value_unchecked(session), 0, 0};
  reply.length = keep_reply(session);
  keep(reply);
}

/* Asks each view all. A view that is not open refuses what it is asked first. */
static void ask_all(hongpilas_session *session) {
  for (uint32_t view = 0; view <= LAST_VIEW; view++) {
    int64_t length = send(session, view, SCI_GETLENGTH, 0, 0), lines = send(session, view, SCI_GETLINECOUNT, 0, 0);
    questions += 2;
    for (size_t i = 0; length != UNSET && i < QUESTIONS; i++) ask(session, view, &all_questions[i], length, lines);
  }
}

/* Endings. */

/* Goes to an end of a view's history. */
static void go_to_end(hongpilas_session *session, uint32_t view, uint32_t question, uint32_t step) {
  for (int i = 0; i < MOST_TRANSACTIONS && send(session, view, question, 0, 0) == 1; i++) send(session, view, step, 0, 0);
}

/* Ends groups one by one, which shows how many are open, undoes all and redoes all. */
static void go_through_history(hongpilas_session *session, uint32_t view, bool is_asked) {
  send(session, view, SCI_SETREADONLY, 0, 0);
  for (int i = 0; i < DEPTH; i++) {
    send(session, view, SCI_CANUNDO, 0, 0);
    send(session, view, SCI_ENDUNDOACTION, 0, 0);
  }
  go_to_end(session, view, SCI_CANUNDO, SCI_UNDO);
  if (is_asked) ask_all(session);
  go_to_end(session, view, SCI_CANREDO, SCI_REDO);
  if (is_asked) ask_all(session);
}

static void follow_history(hongpilas_session *session) {
  for (uint32_t view = 1; view <= LAST_VIEW; view++)
    if (is_open(session, view)) go_through_history(session, view, true);
}

/* What no question tells shows by changes: whether a step joins, who records and who hears, the clipboard, and the next handle. */
static void change(hongpilas_session *session, uint32_t view) {
  call typing = {view, SCI_ADDTEXT, 1, 0, (const uint8_t *)"q", 1};
  send(session, view, SCI_SETREADONLY, 0, 0);
  send(session, view, SCI_ADDUNDOACTION, 7, UNDO_MAY_COALESCE);
  try_call(session, &typing);
  send(session, view, SCI_SETPASTECONVERTENDINGS, 0, 0);
  send(session, view, SCI_PASTE, 0, 0);
  send(session, view, SCI_MARKERADD, 0, 5);
  go_through_history(session, view, false);
}

/* Which documents there are, how often each is held, and which ids come next. */
static void count_documents(hongpilas_session *session) {
  call opening = {0, OPEN, 0, 0, NULL, 0};
  uint32_t view = (uint32_t)try_call(session, &opening);
  send(session, view, SCI_CREATEDOCUMENT, 0, 0);
  for (int64_t document = 1; document <= LAST_DOCUMENT; document++) {
    send(session, view, SCI_ADDREFDOCUMENT, 0, document);
    for (int i = 0; i < DEPTH; i++) send(session, view, SCI_RELEASEDOCUMENT, 0, document);
  }
}

static void follow_changes(hongpilas_session *session) {
  for (uint32_t view = 1; view <= LAST_VIEW; view++)
    if (is_open(session, view)) change(session, view);
  count_documents(session);
  ask_all(session);
}

/* What is behind the command, once it is done. */
static void look_behind(hongpilas_session *session) {
  ask_all(session);
  follow_history(session);
  follow_changes(session);
}

/* The last reply and all questions; then the command once more, with memory. */
static void follow_again(hongpilas_session *session) {
  look_at_reply(session);
  ask_all(session);
  if (now.growth == 0) now.record->command = now.record->count;
  try_call(session, the_command());
  look_behind(session);
}

static const ending endings[] = {{"asked and sent again", follow_again}, {"undone and redone", follow_history}, {"changed", follow_changes}};
enum { ENDINGS = sizeof endings / sizeof *endings };
static record records[ENDINGS];

/* Runs. */

/* What comes of a command of which a growth is refused: it is refused, or it is done without that growth, or it does not ask for that many. */
typedef enum outcome { REFUSED, SPARED, UNASKED } outcome;

/* Makes the command with a growth refused. Where it is done, its answer is the full one, and what is behind it is as with memory. */
static outcome refuse(hongpilas_session *session) {
  record *full = &records[0];
  bool is_refused_with_memory = full->all[full->command].answer != HONGPILAS_DONE;
  int64_t value;
  hongpilas_answer answer;
  outcome came;
  requests = 0;
  refused_request = now.growth;
  answer = make(session, the_command(), &value);
  came = requests < now.growth ? UNASKED : answer == HONGPILAS_OUT_OF_MEMORY ? REFUSED : SPARED;
  refused_request = 0;
  if (came != REFUSED) {
    now.record = full;
    full->next = full->command;
    keep_answer(session, the_command(), answer, value);
    look_behind(session);
  } else if (value != UNSET || is_refused_with_memory) {
    print_run();
    printf("the command %s\n", value != UNSET ? "sets a value, and is refused" : "asks for memory, and is refused where there is memory too");
  }
  return came;
}

/* Runs the script up to the command; then, for a growth above 0, the command with that growth refused; then an ending, where it is not done. */
static outcome run(size_t chosen, long growth) {
  outcome came = REFUSED;
  hongpilas_session *session = NULL;
  int64_t value;
  now.growth = growth;
  now.ending = &endings[chosen];
  now.record = &records[chosen];
  now.record->next = 0;
  if (growth == 0) now.record->count = now.record->used = 0;
  must(hongpilas_new_with_limits(&session, &limits, sizeof limits) == HONGPILAS_DONE, "a session opens");
  for (size_t i = 0; i < now.command; i++) make(session, &now.script->calls[i], &value);
  if (growth > 0) came = refuse(session);
  if (came == REFUSED) now.ending->follow(session);
  must(growth == 0 || now.differs || now.record->next == now.record->count, "a run is looked at to its end");
  hongpilas_free(session);
  must(blocks == 0, "all blocks are given back");
  return came;
}

/* Runs with a growth of the command refused, to each ending. */
static outcome try_growth(long growth) {
  outcome came = REFUSED;
  bool is_failed = false;
  for (size_t i = 0; came == REFUSED && i < ENDINGS; i++) {
    now.differs = false;
    came = run(i, growth);
    is_failed = is_failed || now.differs;
  }
  if (is_failed) failed++;
  else passed++;
  if (came != UNASKED) refused++;
  if (came == SPARED) spared++;
  return came;
}

/* Refuses each growth of the command, alone or with all behind it. Once memory has run out for good, no other way to take it is left. */
static void try_growths(bool is_for_good) {
  long spared_before = spared, growth = 1;
  now.is_for_good = is_for_good;
  while (try_growth(growth) != UNASKED) growth++;
  if (!is_for_good || spared - spared_before <= MOST_SPARED) return;
  failed++;
  print_run();
  printf("the command is done without %ld growths\n", spared - spared_before);
}

static void try_command(const script *script, size_t command) {
  now.script = script;
  now.command = command;
  for (size_t i = 0; i < ENDINGS; i++) run(i, 0);
  try_growths(false);
  try_growths(true);
  commands++;
}

/* CONVERTEOLS makes 2 bytes of each LF. That 4 bytes are too few for it is found before it takes memory. */
static void try_limit(void) {
  static const script full = {
      "ab\\n\\n in 4 bytes",
      3,
      {{0, OPEN, 0, 0, NULL, 0}, {1, SCI_INSERTTEXT, 0, 0, (const uint8_t *)"ab\n\n", 4}, {1, SCI_CONVERTEOLS, SC_EOL_CRLF, 0, NULL, 0}}};
  limits.doc_bytes = 4;
  for (size_t i = 0; i < full.count; i++) try_command(&full, i);
  must(records[0].all[records[0].command].answer == HONGPILAS_TOO_LONG, "CONVERTEOLS is too long");
}

static int print_questions(void) {
  for (size_t i = 0; i < QUESTIONS; i++) printf("%" PRIu32 "\n", all_questions[i].number);
  return 0;
}

int main(int count, char **words) {
  static script read;
  if (count == 2 && strcmp(words[1], "--asked") == 0) return print_questions();
  for (int i = 1; i < count; i++) {
    read_script(&read, words[i]);
    for (size_t k = 0; k < read.count; k++) try_command(&read, k);
  }
  try_limit();
  printf("growths: scripts %d, commands %ld, growths refused %ld, done without %ld, questions asked %ld, %ld passed, %ld failed\n", count - 1, commands,
         refused, spared, questions, passed, failed);
  return failed == 0 ? 0 : 1;
}

/* Refuses each growth in turn: the call that wanted it says so and has changed nothing, what needs no memory goes on, and all is given back.
 * The last reply stays where it is, until another message is done. A history that is forgotten gives its memory back, so a host can bound it.
 * Linked as counted_heap.h says. */
#include "counted_heap.h"

#include <hongpilas.h>
#include <stdio.h>
#include <stdlib.h>
#include <string.h>

static const char text[] = "one\ntwo\n";
enum { LENGTH = sizeof text - 1 };

static long growths_left; /* below 0: no end of them */

static bool is_refused(void) {
  if (growths_left == 0) return true;
  if (growths_left > 0) growths_left--;
  return false;
}

static void must(bool holds, const char *what) {
  if (holds) return;
  printf("FAILED  %s\n", what);
  exit(1);
}

/* Where the texts of the last reply and of its first note lie. Where a length is 0, the address means nothing. */
typedef struct places {
  const uint8_t *text, *note;
  size_t text_length, note_length;
} places;

static places places_of_reply(hongpilas_session *session) {
  hongpilas_note_data note = {0};
  places found;
  hongpilas_note_unchecked(session, 0, &note);
  found.note = note.text;
  found.note_length = note.text_length;
  found.text_length = hongpilas_text_unchecked(session, &found.text);
  return found;
}

static void must_stay(hongpilas_session *session, places before) {
  places now = places_of_reply(session);
  must(now.text_length == before.text_length && now.note_length == before.note_length, "the last reply is kept");
  must(now.text_length == 0 || (now.text == before.text && memcmp(now.text, text, LENGTH) == 0), "its text stays where it is");
  must(now.note_length == 0 || (now.note == before.note && memcmp(now.note, text, LENGTH) == 0), "its note stays where it is");
}

/* Sends a message, and answers whether it was done. */
static bool send(hongpilas_session *session, uint32_t view, uint32_t number, const char *sent) {
  places before = places_of_reply(session);
  hongpilas_answer answer = hongpilas_send(session, view, number, 0, 0, sent, strlen(sent), NULL);
  if (answer == HONGPILAS_DONE) return true;
  must(answer == HONGPILAS_OUT_OF_MEMORY, "a message is refused for want of memory");
  must_stay(session, before);
  return false;
}

/* Does what leaves the last reply where it is: a refused message, lending, opening a view and closing it. Answers whether it was opened. */
static bool leave_reply(hongpilas_session *session, uint32_t view, size_t length) {
  places before = places_of_reply(session);
  const uint8_t *bytes;
  uint32_t opened = 0;
  hongpilas_answer answer;
  must(hongpilas_send(session, view, 9999, 0, 0, NULL, 0, NULL) == HONGPILAS_UNKNOWN_MESSAGE, "there is no message 9999");
  must_stay(session, before);
  must(hongpilas_lend_range(session, view, 0, length, &bytes) == HONGPILAS_DONE, "lending needs none");
  must(length == 0 || memcmp(bytes, text, length) == 0, "the bytes are lent");
  must_stay(session, before);
  answer = hongpilas_new_view(session, &opened);
  must(answer == (opened != 0 ? HONGPILAS_DONE : HONGPILAS_OUT_OF_MEMORY), "another view is refused for want of memory");
  must_stay(session, before);
  must(opened == 0 || hongpilas_close_view(session, opened) == HONGPILAS_DONE, "closing a view needs none");
  must_stay(session, before);
  return opened != 0;
}

/* Messages whose replies have a note with a text, and then a text; answers whether nothing was refused for want of memory. */
static bool try_messages(hongpilas_session *session, uint32_t view) {
  int64_t length = -1;
  bool is_in = send(session, view, SCI_INSERTTEXT, text);
  must(!is_in || places_of_reply(session).note_length == LENGTH, "a note has the text");
  bool is_opened = leave_reply(session, view, is_in ? LENGTH : 0);
  bool is_read = send(session, view, SCI_GETTEXT, "");
  must(!is_in || !is_read || places_of_reply(session).text_length == LENGTH, "the reply has the text");
  bool is_opened_again = leave_reply(session, view, is_in ? LENGTH : 0);
  bool is_in_again = send(session, view, SCI_INSERTTEXT, text);
  must(hongpilas_send(session, view, SCI_GETLENGTH, 0, 0, NULL, 0, &length) == HONGPILAS_DONE, "GETLENGTH needs none");
  must(length == LENGTH * (is_in + is_in_again), "a refused insertion has changed nothing");
  return is_in && is_opened && is_read && is_opened_again && is_in_again;
}

/* The steps with this many growths; answers whether none was refused. */
static bool done_with(long growths) {
  hongpilas_session *session = NULL;
  hongpilas_answer answer;
  uint32_t view = 0;
  bool whole = false;

  growths_left = growths;
  answer = hongpilas_new(&session);
  if (answer != HONGPILAS_DONE) {
    must(answer == HONGPILAS_OUT_OF_MEMORY, "opening is refused for want of memory");
    return false;
  }
  answer = hongpilas_new_view(session, &view);
  if (answer == HONGPILAS_DONE) whole = try_messages(session, view);
  else must(answer == HONGPILAS_OUT_OF_MEMORY && view == 0, "a view is refused for want of memory");
  hongpilas_free(session);
  return whole;
}

enum { MOST_HISTORY = 1 << 12, MESSAGES = 1000 };

static uint64_t history; /* in bytes, at most */

/* Counts what the last message added to the history of a document, by the notes of the host's own view `own`, and forgets the history at a bound. */
static void bound_history(hongpilas_session *session, uint32_t own) {
  hongpilas_note_data note;
  for (size_t i = 0; hongpilas_note(session, i, &note, sizeof note) == HONGPILAS_DONE; i++)
    if (note.view == own && (note.kind & SC_PERFORMED_USER) != 0) history += 32 + (uint64_t)note.length;
  if ((history += 32) > MOST_HISTORY && hongpilas_send(session, own, SCI_EMPTYUNDOBUFFER, 0, 0, NULL, 0, NULL) == HONGPILAS_DONE) history = 0;
}

static void must_do(hongpilas_session *session, uint32_t view, uint32_t number, int64_t w, int64_t l) {
  must(hongpilas_send(session, view, number, w, l, NULL, 0, NULL) == HONGPILAS_DONE, "a message is done");
}

/* A message that forgets the history gives its two blocks back: that of the steps, and that of their bytes. */
static void must_give_back(hongpilas_session *session, uint32_t view, uint32_t number) {
  long before;
  must_do(session, view, SCI_SETUNDOCOLLECTION, 1, 0);
  must(send(session, view, SCI_INSERTTEXT, text), "there is memory");
  must_do(session, view, SCI_GETLENGTH, 0, 0); /* the reply before it, with its notes, is freed here */
  before = blocks;
  must_do(session, view, number, 0, 0);
  must(blocks == before - 2, "a forgotten history gives its memory back");
  must_do(session, view, number, 0, 0);
  must(blocks == before - 2, "a history without steps has no memory");
}

/* `theirs` is sent messages that are not trusted. `own` watches the same document, and is sent none of them. */
static void bound_messages(hongpilas_session *session, uint32_t own, uint32_t theirs) {
  int64_t document = 0;
  long forgotten = 0;
  must(hongpilas_send(session, own, SCI_GETDOCPOINTER, 0, 0, NULL, 0, &document) == HONGPILAS_DONE, "a view has a document");
  must_do(session, theirs, SCI_SETDOCPOINTER, 0, document);
  must_do(session, own, SCI_SETMODEVENTMASK, SC_MOD_INSERTTEXT | SC_MOD_DELETETEXT, 0);
  for (int i = 0; i < MESSAGES; i++) {
    long before;
    must_do(session, theirs, SCI_ADDUNDOACTION, i, 0);
    bound_history(session, own);
    must(send(session, theirs, i % 2 == 0 ? SCI_INSERTTEXT : SCI_CLEARALL, i % 2 == 0 ? text : ""), "there is memory");
    before = blocks;
    bound_history(session, own);
    must(history <= MOST_HISTORY, "the history has its bound");
    must(history != 0 || blocks <= before - 2, "a host gets a history's memory back");
    forgotten += history == 0;
  }
  must(forgotten > 0 && forgotten < MESSAGES / 2, "a host forgets a history at its bound");
}

static void forget_histories(void) {
  hongpilas_session *session = NULL;
  uint32_t own = 0, theirs = 0;
  growths_left = -1;
  must(hongpilas_new(&session) == HONGPILAS_DONE && hongpilas_new_view(session, &own) == HONGPILAS_DONE, "a session is opened");
  must(hongpilas_new_view(session, &theirs) == HONGPILAS_DONE, "another view is opened");
  must_give_back(session, own, SCI_EMPTYUNDOBUFFER);
  must_give_back(session, own, SCI_SETUNDOCOLLECTION);
  must_do(session, own, SCI_SETUNDOCOLLECTION, 1, 0);
  bound_messages(session, own, theirs);
  hongpilas_free(session);
  must(blocks == 0, "all blocks are given back");
}

int main(void) {
  long growths = 0;
  forget_histories();
  while (growths < 1000 && !done_with(growths)) {
    must(blocks == 0, "all blocks are given back");
    growths++;
  }
  must(growths > 5 && growths < 1000 && blocks == 0, "it is done when growths suffice, and then all is given back");
  printf("each growth was refused in turn\n");
  return 0;
}

/* A component, its views, and the queue of notifications until they are delivered: a part of scintilla.c. */
#ifndef HONGPILAS_SCINTILLA_QUEUE_H
#define HONGPILAS_SCINTILLA_QUEUE_H

#include "scintilla_manners.h"
#include "scintilla_stack.h"

#include <stdlib.h>
#include <string.h>

typedef struct scintilla_view scintilla_view;
typedef struct batch batch;
typedef struct delivery delivery;

/* For compilers that heed it: a function of its own, so that its callers stay short; and one that is seldom called. */
#if defined(__GNUC__) || defined(__clang__)
#define ALONE  __attribute__((noinline))
#define SELDOM __attribute__((noinline, cold))
#else
#define ALONE
#define SELDOM
#endif

/* An id is never given twice, and each is greater than those before. */
typedef struct open_view {
  uint32_t id;
  uint32_t follower; /* where the view stood that was notified after this one, when this one was notified last */
  scintilla_view *view;
} open_view;

/* In bytes. The place for a text that is not short stays for the next one, up to the second of these. A long range is copied in pieces of the third. */
enum { SHORT_TEXT = 256, MOST_KEPT = 64 * 1024, PIECE = 16 * 1024 };

struct hongpilas_scintilla {
  hongpilas_session *session;
  open_view *views; /* in the order of their ids */
  size_t view_count, view_room;
  size_t notified;  /* where the view stood that was notified last */
  size_t listeners; /* how many of them have a notify function */
  /* The queue: what stands in batches, and then the notifications of the last reply from `next` up to `count`; of a reply that came when no view had a notify
   * function it has none. */
  batch *first, *last;
  size_t next, count;
  uptr_t w; /* of the call whose reply it is */
  sptr_t l;
  bool is_late;       /* that call has returned: a text that l led to may be gone */
  bool is_pinned;     /* the function that runs was given bytes of the reply, which is not to be replaced */
  delivery *running;  /* of the call that notifies; NULL if none does */
  const void *thread; /* in which that call was made */
  uint8_t *held;      /* the text of the notification that is delivered, if it is long */
  size_t held_room;
  const uint8_t *held_from; /* where the last reply has the text that is held; NULL if it was replaced */
  size_t held_length;
  uint8_t held_short[SHORT_TEXT];
};

struct scintilla_view {
  hongpilas_session *session;
  uint32_t id;
  int status;
  hongpilas_scintilla *of;
  hongpilas_notify notify;
  void *data;
  const char *refusal; /* why a call was last refused */
};

/* ---- Views ---- */

/* Where the view with this id stands, or where it would. */
static size_t place_of(const hongpilas_scintilla *it, uint32_t id) {
  size_t from = 0, to = it->view_count;
  while (from < to) {
    size_t middle = (from + to) / 2;
    if (it->views[middle].id < id) from = middle + 1;
    else to = middle;
  }
  return from;
}

static bool is_at(const hongpilas_scintilla *it, size_t place, uint32_t id) { return place < it->view_count && it->views[place].id == id; }

/* Notes where the view with this id stands, if it is open, behind the one that was notified last. */
static ALONE void look_for(hongpilas_scintilla *it, uint32_t id) { it->views[it->notified].follower = (uint32_t)place_of(it, id); }

/* The view with this id, if it is open and has a notify function; NULL otherwise. Views are mostly notified in the order in which they were before. */
static inline const scintilla_view *listener_of(hongpilas_scintilla *it, uint32_t id) {
  const scintilla_view *view;
  if (!is_at(it, it->views[it->notified].follower, id)) look_for(it, id);
  if (!is_at(it, it->views[it->notified].follower, id)) return NULL;
  it->notified = it->views[it->notified].follower;
  view = it->views[it->notified].view;
  return view->notify == NULL ? NULL : view;
}

/* ---- The queue ---- */

/* A notification that is kept until it is delivered. Its text stands behind the notifications of its batch. */
typedef struct kept_note {
  hongpilas_note_data note;
  uptr_t w;
  sptr_t l;
} kept_note;

/* The notifications of one reply, in one block, which does not move. */
struct batch {
  batch *later;
  size_t next, count;
  kept_note notes[1];
};

static bool is_record(const hongpilas_note_data *note) { return note->code == SCN_MACRORECORD; }

static bool has_undelivered(const hongpilas_scintilla *it) { return it->next < it->count; }

/* Copies what is left of the last reply's notifications into a batch. Each text gets a NUL behind it, for a recorded message. */
static batch *copy_of_rest(const hongpilas_scintilla *it) {
  hongpilas_note_data note;
  size_t count = it->count - it->next, size = 0, i;
  batch *made;
  uint8_t *texts;
  for (i = 0; i < count; i++)
    if (hongpilas_note_unchecked(it->session, it->next + i, &note)) size += note.text_length + 1;
  made = (batch *)malloc(sizeof *made + (count - 1) * sizeof *made->notes + size);
  if (made == NULL) return NULL;
  made->later = NULL;
  made->next = 0;
  made->count = count;
  texts = (uint8_t *)(made->notes + count);
  for (i = 0; i < count; i++) {
    kept_note *kept = &made->notes[i];
    hongpilas_note_unchecked(it->session, it->next + i, &kept->note);
    if (kept->note.text_length > 0) memcpy(texts, kept->note.text, kept->note.text_length);
    texts[kept->note.text_length] = 0;
    kept->note.text = texts;
    kept->w = it->w;
    kept->l = is_record(&kept->note) && takes_text(entry_of(kept->note.message)) ? (sptr_t)texts : it->l;
    texts += kept->note.text_length + 1;
  }
  return made;
}

/* Makes the last reply free to be replaced: what of its notifications is not delivered goes into a batch. Whether that was possible. */
static ALONE bool keep_rest(hongpilas_scintilla *it) {
  batch *made;
  it->is_late = true;
  if (it->is_pinned) return false;
  if (!has_undelivered(it)) return true;
  made = copy_of_rest(it);
  if (made == NULL) return false;
  if (it->first == NULL) it->first = made;
  else it->last->later = made;
  it->last = made;
  it->next = it->count;
  return true;
}

static void drop_first(hongpilas_scintilla *it) {
  batch *dropped = it->first;
  it->first = dropped->later;
  free(dropped);
}

/* ---- Delivering ---- */

/* Stands on the stack of the call that notifies, and is left behind by a notify function that is left by longjmp. */
struct delivery {
  hongpilas_scintilla *of; /* NULL once that is freed */
  seals marks;
};

static void deliver(hongpilas_scintilla *it);

/* No notify function runs any more. */
static bool forget_delivery(hongpilas_scintilla *it) {
  it->running = NULL;
  it->is_pinned = false;
  return false;
}

/* Whether this call is made from inside a notify function, as far as the seals tell. */
static APART bool is_inside(hongpilas_scintilla *it) {
  const volatile delivery *at = it->running;
  return (at != NULL && are_above(&at->marks, it->thread) && at->of == it) || forget_delivery(it);
}

/* The same for sure. */
static bool is_surely_inside(hongpilas_scintilla *it) {
  return is_inside(it) && (is_in_frame_of((uintptr_t)&deliver, &it->running->marks) || forget_delivery(it));
}

/* The end of a delivery, by return or by an exception. */
static void end_delivery(delivery *at) {
  hongpilas_scintilla *it = at->of;
  if (it == NULL || it->running != at) return;
  forget_delivery(it);
  if (it->held_room <= MOST_KEPT) return;
  free(it->held);
  it->held = NULL;
  it->held_room = 0;
  it->held_from = NULL;
}

/* The text of a notification of the last reply, for as long as it is delivered: a message that is sent meanwhile replaces the reply. If there is no memory for
 * the copy, none may. A NUL closes it. Notifications of one change have one text in the reply: it is copied once. */
static const uint8_t *hold_text(hongpilas_scintilla *it, const uint8_t *text, size_t length) {
  uint8_t *into = it->held_short;
  if (text == it->held_from && length == it->held_length) return length < SHORT_TEXT ? it->held_short : it->held;
  it->held_from = NULL;
  if (length >= SHORT_TEXT) {
    if (length >= it->held_room) {
      free(it->held);
      it->held = (uint8_t *)malloc(length + 1);
      it->held_room = it->held == NULL ? 0 : length + 1;
    }
    into = it->held;
  }
  if (into == NULL) {
    it->is_pinned = true;
    return text;
  }
  if (length > 0) memcpy(into, text, length);
  into[length] = 0;
  it->held_from = text;
  it->held_length = length;
  return into;
}

/* Takes what a recorded message was sent with, and its text, which is held even if it has no bytes. */
static ALONE void take_record(hongpilas_scintilla *it, kept_note *taken) {
  taken->w = it->w;
  taken->l = it->l;
  taken->note.text = hold_text(it, taken->note.text, taken->note.text_length);
  if (it->is_late && takes_text(entry_of(taken->note.message))) taken->l = (sptr_t)taken->note.text;
}

/* Takes the next notification of the last reply, and returns the view that is notified, as the next function does. */
static const scintilla_view *take_from_reply(hongpilas_scintilla *it, kept_note *taken) {
  const scintilla_view *view;
  hongpilas_note_unchecked(it->session, it->next++, &taken->note);
  view = listener_of(it, taken->note.view);
  if (view == NULL) return NULL;
  if (is_record(&taken->note)) take_record(it, taken);
  else if (taken->note.text_length > 0) taken->note.text = hold_text(it, taken->note.text, taken->note.text_length);
  return view;
}

/* Takes the next notification out of the queue, and returns the view that is notified: NULL if that is closed, or has no notify function. The text stands until
 * the next is taken. */
static const scintilla_view *take_note(hongpilas_scintilla *it, kept_note *taken) {
  it->is_pinned = false;
  if (it->first == NULL) return take_from_reply(it, taken);
  *taken = it->first->notes[it->first->next++];
  return listener_of(it, taken->note.view);
}

/* Whether the queue has a notification. Batches whose notifications are all delivered are given back. */
static bool has_more(hongpilas_scintilla *it) {
  while (it->first != NULL && it->first->next == it->first->count) drop_first(it);
  return it->first != NULL || has_undelivered(it);
}

/* A message that was recorded has no text of its own beside its arguments. */
static ALONE void fill_record(SCNotification *to, const kept_note *kept) {
  to->text = NULL;
  to->wParam = kept->w;
  to->lParam = kept->l;
}

/* Sets each field, since the function before may have written to them: for a struct of this size that is quicker than memset. */
static inline void fill_notification(SCNotification *to, const scintilla_view *view, const kept_note *kept) {
  const hongpilas_note_data *note = &kept->note;
  to->nmhdr.hwndFrom = (void *)(uintptr_t)view;
  to->nmhdr.idFrom = 0;
  to->nmhdr.code = note->code;
  to->position = (Sci_Position)note->position;
  to->ch = to->modifiers = 0;
  to->modificationType = (int)note->kind;
  to->text = note->text_length == 0 ? NULL : (const char *)note->text;
  to->length = (Sci_Position)note->length;
  to->linesAdded = (Sci_Position)note->lines;
  to->message = (int)note->message;
  to->wParam = 0;
  to->lParam = 0;
  to->line = (Sci_Position)note->line;
  to->foldLevelNow = (int)note->now;
  to->foldLevelPrev = (int)note->prev;
  to->margin = to->listType = to->x = to->y = 0;
  to->token = (int)note->token;
  to->annotationLinesAdded = 0;
  to->updated = to->listCompletionMethod = to->characterSource = 0;
  if (is_record(note)) fill_record(to, kept);
}

/* Delivers what stands in the queue, and what joins it meanwhile. A notify function may free all of it, or close views. */
static APART void deliver(hongpilas_scintilla *it) {
  ENDS_BY(end_delivery) delivery here;
  const scintilla_view *view;
  kept_note taken;
  SCNotification told;
  here.of = it;
  set_seals(&here.marks);
  it->running = &here;
  it->thread = this_thread();
  while (has_more(it)) {
    view = take_note(it, &taken);
    if (view == NULL) continue;
    fill_notification(&told, view, &taken);
    view->notify(&told, view->data);
    if (here.of == NULL || it->running != &here) return;
  }
  end_delivery(&here);
}

/* ---- What a message does to the queue ---- */

/* Whether a notify function may run, or the queue has something. */
static inline bool is_busy(const hongpilas_scintilla *it) { return it->running != NULL || it->first != NULL || has_undelivered(it); }

/* Notes how a message is sent, for the notifications of its reply. Nothing undelivered is left of the last one. */
static inline void note_call(hongpilas_scintilla *it, uptr_t w, sptr_t l) {
  it->w = w;
  it->l = l;
}

/* Puts the notifications of the last reply into the queue. */
static void queue_reply(hongpilas_scintilla *it) {
  it->next = 0;
  it->count = hongpilas_note_count_unchecked(it->session);
  it->is_late = false;
  it->held_from = NULL;
}

/* Delivers what stands in the queue behind a message, unless a notify function runs. */
static void deliver_behind(hongpilas_scintilla *it) {
  if (it->first == NULL && !has_undelivered(it)) return;
  if (it->running != NULL && is_surely_inside(it)) return;
  deliver(it);
}

/* Delivers the notifications of the last reply. */
static ALONE void deliver_reply(hongpilas_scintilla *it) {
  queue_reply(it);
  if (it->count > 0) deliver(it);
}

#endif

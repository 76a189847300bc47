/* The way in by the Scintilla-compatible interface (hongpilas_scintilla.h), for fuzz.c. What w, l and the answer are there stands in manners.h, from
 * Scintilla's documentation: of a message that is drawn it makes one for the interface and one for the model, and of the model's answer, text and notes it
 * makes the answer, the bytes and the notifications that the interface has to give. */
#ifndef FUZZ_SCINTILLA_H
#define FUZZ_SCINTILLA_H

#include "manners.h"

static ear *ear_of(side *s, uint32_t id) {
  for (size_t i = 0; i < VIEWS && id != 0; i++)
    if (s->ears[i].id == id) return &s->ears[i];
  return NULL;
}

/* Hearing. What is heard is kept, and compared when the model has done the message. */

typedef struct heard_note {
  SCNotification note;
  const ear *by;
  size_t text, text_length; /* in `texts`; a length of SIZE_MAX where there is none */
  ear *switched;            /* a view that was given its callback, or lost it, while this was told */
} heard_note;

static struct {
  side *teller; /* the session that may tell notes now */
  size_t count, room, texts_used, texts_room;
  heard_note *notes;
  uint8_t *texts;
} heard;

static void make_room(void **block, size_t *room, size_t wanted, size_t size) {
  if (wanted <= *room) return;
  *room = 2 * wanted;
  *block = realloc(*block, *room * size);
  must(*block != NULL, "the program has memory of its own");
}

static void hear(SCNotification *note, void *data);

/* Sets a view's status to one of the program's own, so that what a call does to it is seen. A status is an int. */
static void mark_status(ear *e) {
  e->status = (int)(now.sent % 100000) + 10;
  must_be(hongpilas_direct(e->view, SCI_SETSTATUS, (uptr_t)e->status | (uptr_t)now.sent << 32, (sptr_t)now.sent), 0, "what SETSTATUS answers");
  counts.calls++;
}

static void must_stand(ear *e, int status) {
  must_be(status, e->status, "the status");
  must(strcmp(hongpilas_refusal(e->view), e->refusal) == 0, "why a call was last refused");
}

/* The same of a call that may be refused for a cause that is compared later: which one. */
static hongpilas_answer stands_or_fails(ear *e, int status) {
  hongpilas_answer answer = HONGPILAS_DONE;
  if (status != e->status) {
    for (answer = HONGPILAS_OUT_OF_MEMORY; answer < HONGPILAS_TOO_MANY && strcmp(hongpilas_refusal(e->view), answer_names[answer]) != 0; answer++) continue;
    must_be(status, answer == HONGPILAS_OUT_OF_MEMORY ? SC_STATUS_BADALLOC : SC_STATUS_FAILURE, "the status of what is refused inside a notify function");
    e->status = status;
    e->refusal = answer_names[answer];
  }
  must_stand(e, status);
  return answer;
}

static sptr_t status_of(ear *e) {
  counts.calls++;
  return hongpilas_direct(e->view, SCI_GETSTATUS, (uptr_t)-1, -1);
}

/* A message that was sent inside a notify function and not refused for memory. The model is sent it when it has done the message of the call. */
typedef struct inner_message {
  ear *by;
  uint32_t number;
  int64_t w, l;
  sptr_t value;
  hongpilas_answer answer;
} inner_message;

enum { MOST_INNER = 8 };
static struct {
  inner_message messages[MOST_INNER];
  size_t count;
} inner;

/* Any message that edits no text and takes none. Its notifications join the queue. */
static void send_inside(ear *e, uint64_t draw) {
  static const uint32_t numbers[] = {SCI_MARKERADD,       SCI_MARKERDELETE,       SCI_STARTSTYLING, SCI_SETSTYLING,   SCI_SETFOLDLEVEL,    SCI_SETLINESTATE,
                                     SCI_COLOURISE,       SCI_INDICATORFILLRANGE, SCI_SETSEL,       SCI_SETSAVEPOINT, SCI_CHARRIGHTEXTEND, SCI_FOLDLINE,
                                     SCI_SETMODEVENTMASK, SCI_SETINDICATORVALUE,  SCI_GETLENGTH,    SCI_GETFOLDLEVEL, SCI_GETENDSTYLED,    SCI_GETDOCPOINTER};
  inner_message *m = &inner.messages[inner.count];
  if (inner.count == MOST_INNER) return;
  *m = (inner_message){e, numbers[draw % (sizeof numbers / sizeof *numbers)], (int64_t)(draw / 7 % 5), (int64_t)(draw / 11 % 4), 0, HONGPILAS_DONE};
  int status = 0;
  mark_status(e);
  m->value = hongpilas_direct_status(e->view, m->number, (uptr_t)m->w, (sptr_t)m->l, &status);
  m->answer = stands_or_fails(e, status);
  counts.calls++;
  if (m->answer != HONGPILAS_OUT_OF_MEMORY) inner.count++;
  else must(was_refused, "memory runs out only where a growth was refused");
}

/* Another session may be used inside a notify function: one that has the calls of hongpilas.h is asked there. */
static void ask_other(const side *s) {
  side *other = &sides[s == sides];
  int64_t length = -77;
  if (other->by != &way_by_calls || other->view_count == 0) return;
  give_up_lent(other);
  must_be(hongpilas_ask(other->session, other->views[0], SCI_GETLENGTH, 0, 0, &length), HONGPILAS_DONE, "the answer of another session");
  must_be(length, model_peek(other->plain, other->views[0], SCI_GETLENGTH), "the length in another session");
  counts.calls++;
}

/* Inside a notify function a message that edits the text is refused, of any view, and reads and writes nothing; others are done. A notify function may be
 * set. */
static void meddle(heard_note *h) {
  static const uint32_t edits[] = {SCI_UNDO,       SCI_INSERTTEXT,    SCI_ADDTEXT,    SCI_CLEARALL, SCI_SETTEXT,
                                   SCI_APPENDTEXT, SCI_REPLACETARGET, SCI_DELETEBACK, SCI_PASTE};
  side *s = heard.teller;
  ear *e = &s->ears[heard.count % VIEWS], *other = &s->ears[(heard.count + now.sent) % VIEWS];
  uint32_t number = edits[now.sent % (sizeof edits / sizeof *edits)];
  uint8_t *text = place_for(1, 0, true); /* nothing may be written or read */
  uint64_t requests = counts.requests;
  size_t had = blocks;
  if (e->id == 0) e = ear_of(s, h->by->id);
  counts.meddled++;
  mark_status(e);
  must_be(status_of(e), e->status, "the status inside a notify function");
  must_be(hongpilas_direct(e->view, number, 1, (sptr_t)text), 0, "what an edit inside a notify function answers");
  e->status = SC_STATUS_FAILURE;
  e->refusal = "edit inside a notify function";
  must_stand(e, (int)status_of(e));
  must(counts.requests == requests && blocks == had, "an edit that is refused takes no memory, and gives none back");
  counts.calls += 2;
  ask_other(s);
  for (uint64_t draw = now.sent + heard.count; draw % 4 != 0; draw++) send_inside(draw % 2 == 0 ? e : ear_of(s, h->by->id), draw * 2654435761u >> 3);
  if (other->id == 0 || now.sent % 3 != 0) return;
  other->hears = !other->hears;
  hongpilas_set_notify(other->view, other->hears ? hear : NULL, other);
  h->switched = other;
}

static void hear(SCNotification *note, void *data) {
  make_room((void **)&heard.notes, &heard.room, heard.count + 1, sizeof *heard.notes);
  heard_note *h = &heard.notes[heard.count++];
  counts.heard++;
  h->by = data;
  must(h->by->of == heard.teller, "a session tells its own views, and at its own calls");
  h->note = *note;
  h->switched = NULL;
  h->text = heard.texts_used;
  h->text_length = note->text == NULL ? SIZE_MAX : (size_t)note->length;
  if (note->text != NULL) {
    must(note->length > 0 && note->length <= ROOM, "a text has a length");
    make_room((void **)&heard.texts, &heard.texts_room, heard.texts_used + h->text_length, 1);
    memcpy(heard.texts + h->text, note->text, h->text_length);
    heard.texts_used += h->text_length;
  }
  if ((now.sent + heard.count) % 41 == 0) meddle(h);
  if (note->text != NULL) must(memcmp(heard.texts + h->text, note->text, h->text_length) == 0, "a notification's text stands until the callback returns");
  memset(note, 0x77, sizeof *note); /* it is the view's own */
}

/* A call as the interface takes it, and as the model does. */
typedef struct scintilla_call {
  ear *by;
  char kind; /* what l is: a letter of its manners */
  uptr_t w;
  sptr_t l;
  message plain;
  bool is_nothing;     /* a null text, of which nothing is done */
  bool is_bad;         /* a null text of which some bytes should be there, or no range */
  uint8_t *buffer;     /* where a text goes to, or NULL */
  size_t room, wanted; /* how much stands behind it, and how much of that is written */
  uint8_t bytes[ROOM]; /* what is written */
} scintilla_call;

static void compare_notification(const heard_note *h, const hongpilas_note_data *wanted, const scintilla_call *c) {
  const SCNotification *n = &h->note;
  bool is_record = wanted->code == SCN_MACRORECORD;
  must_be(h->by->id, wanted->view, "the view that is told");
  must_be((sptr_t)n->nmhdr.hwndFrom, h->by->view, "a notification's view");
  must_be((int64_t)n->nmhdr.idFrom, 0, "a notification's idFrom");
  must_be(n->nmhdr.code, wanted->code, "a notification's code");
  must_be(n->position, wanted->position, "a notification's position");
  must_be(n->modificationType, (int)wanted->kind, "a notification's modificationType");
  must_be(n->length, wanted->length, "a notification's length");
  must_be(n->linesAdded, wanted->lines, "a notification's linesAdded");
  must_be(n->message, (int)wanted->message, "a notification's message");
  must_be((int64_t)n->wParam, is_record ? (int64_t)c->w : 0, "a notification's wParam");
  must_be(n->lParam, is_record ? c->l : 0, "a notification's lParam");
  must_be(n->line, wanted->line, "a notification's line");
  must_be(n->foldLevelNow, wanted->now, "a notification's foldLevelNow");
  must_be(n->foldLevelPrev, wanted->prev, "a notification's foldLevelPrev");
  must_be(n->token, wanted->token, "a notification's token");
  must(n->ch == 0 && n->modifiers == 0 && n->margin == 0 && n->listType == 0 && n->x == 0 && n->y == 0 && n->annotationLinesAdded == 0 && n->updated == 0 &&
           n->listCompletionMethod == 0 && n->characterSource == 0,
       "what the profile does not have is 0 in a notification");
  if (is_record || wanted->text_length == 0) must(h->text_length == SIZE_MAX, "a notification without a text has none");
  else must_be_text(heard.texts + h->text, h->text_length, wanted->text, wanted->text_length, "a notification's text");
}

/* Each note of the model's last reply was told, in its order, to each view that had a callback then; `*next` is the first of those that were heard. */
static void compare_notes(side *s, const scintilla_call *c, size_t *next) {
  hongpilas_note_data note;
  for (size_t i = 0; model_note(s->plain, i, &note); i++) {
    ear *e = ear_of(s, note.view);
    must(e != NULL, "a note is of a view that is open");
    if (!e->told) continue;
    must(*next < heard.count, "each note is told");
    compare_notification(&heard.notes[*next], &note, c);
    ear *switched = heard.notes[*next].switched;
    if (switched != NULL) switched->told = !switched->told;
    ++*next;
  }
}

/* The notes of the call, and then those of the messages that were sent inside, as the model does them now. */
static void compare_heard(side *s, const scintilla_call *c) {
  static scintilla_call within;
  size_t next = 0;
  compare_notes(s, c, &next);
  for (size_t i = 0; i < inner.count; i++) {
    const inner_message *m = &inner.messages[i];
    static const uint8_t none;
    int64_t value = 0;
    hongpilas_answer answer = model_send(s->plain, m->by->id, m->number, m->w, m->l, &none, 0, &value);
    must_be(m->answer, answer, "the answer of a message inside a notify function");
    must_be(m->value, answer == HONGPILAS_DONE ? answered_value(m->number, value) : refused_value(m->number), "its value");
    if (answer != HONGPILAS_DONE) continue;
    within.w = (uptr_t)m->w;
    within.l = (sptr_t)m->l;
    compare_notes(s, &within, &next);
  }
  must_be((int64_t)heard.count, (int64_t)next, "how many notes are told");
}

/* Sending. */

/* The text that is sent: its bytes at a guarded page, with a NUL behind them where that is its end. A negative length leads to bytes that nobody may
 * touch. Without a text, w is 0 or the message is refused. */
static void give_text(scintilla_call *c, const message *m, bool is_null) {
  bool is_closed = c->kind == 'Z' || (c->kind == 'e' && m->w == -1);
  const uint8_t *nul = is_closed ? memchr(m->text, 0, m->length) : NULL;
  size_t length = nul != NULL ? (size_t)(nul - m->text) : m->length;
  if (!is_closed) {
    if (m->w < 0) length = 0;
    else if (m->w < (int64_t)length) length = (size_t)m->w;
    else c->w = length, c->plain.w = (int64_t)length;
  }
  uint8_t *text = place_for(0, length + is_closed, m->at_end);
  memcpy(text, m->text, length);
  if (is_closed) text[length] = 0;
  else if (m->w < 0) text = guarded(0) - 1;
  c->plain.length = length;
  c->l = (sptr_t)text;
  if (!is_null) return;
  c->l = 0;
  c->is_nothing = c->kind == 'N' || c->kind == 'Z';
  c->is_bad = !c->is_nothing && c->w != 0;
  c->plain.length = 0;
}

/* The buffer that is filled, with exactly the room that it has to have, and what has to be written into it by the model's answer. */
static void give_buffer(side *s, scintilla_call *c, const message *m, hongpilas_answer answer, bool is_null) {
  static const char closed[] = {'s', 1, 'b', 1, 't', 1, 'u', 2};
  const uint8_t *text = NULL;
  size_t count = answer == HONGPILAS_DONE ? model_text(s->plain, &text) : 0, nuls = 0;
  bool is_range = c->kind == 't' || c->kind == 'u';
  for (size_t i = 0; i < sizeof closed; i += 2)
    if (closed[i] == c->kind) nuls = (size_t)closed[i + 1];
  if (c->kind == 'b' && count > c->w) count = c->w;
  must(count + nuls <= ROOM, "a text fits the guarded memory");
  c->wanted = is_null || answer != HONGPILAS_DONE ? 0 : count + nuls;
  c->room = m->at_end ? c->wanted : c->wanted + 16;
  if (!is_null) {
    c->buffer = place_for(1, c->room, m->at_end);
    memset(c->buffer, 0x77, c->room);
    if (count > 0) memcpy(c->bytes, text, count);
    memset(c->bytes + count, 0, nuls);
  }
  c->l = (sptr_t)c->buffer;
  if (!is_range) return;
  struct Sci_TextRange range = {{(Sci_PositionCR)m->w, (Sci_PositionCR)m->l}, (char *)c->buffer};
  c->l = (sptr_t)memcpy(place_for(2, sizeof range, true), &range, sizeof range);
  c->w = (uptr_t)now.sent; /* it is not looked at */
}

/* The value that a question has to answer: of a null buffer how long the text is. */
static sptr_t value_of_question(const side *s, const scintilla_call *c) {
  const uint8_t *text;
  size_t length = model_text(s->plain, &text);
  if (c->buffer == NULL || c->kind != 'b') return (sptr_t)length;
  if (c->plain.number == SCI_GETCURLINE) return model_value(s->plain);
  return (sptr_t)(c->w < length ? c->w : length);
}

static void must_be_written(const scintilla_call *c, bool is_done) {
  if (is_done && c->wanted > 0) must(memcmp(c->buffer, c->bytes, c->wanted) == 0, "what is written into a buffer");
  for (size_t i = is_done ? c->wanted : 0; c->buffer != NULL && i < c->room; i++) must(c->buffer[i] == 0x77, "the rest of a buffer stays");
}

/* Makes the call by one form or the other, with the notes that are told, and answers its value. */
static sptr_t make_call(side *s, const scintilla_call *c, int *status) {
  sptr_t value;
  struct Sci_TextRange range;
  bool has_range = (c->kind == 't' || c->kind == 'u') && c->l != 0;
  if (has_range) memcpy(&range, (const void *)c->l, sizeof range);
  for (size_t i = 0; i < VIEWS; i++) s->ears[i].told = s->ears[i].hears;
  heard.count = heard.texts_used = inner.count = 0;
  heard.teller = s;
  if (c->plain.how / 2 % 2 == 0) {
    int before = c->by->status;
    value = hongpilas_direct_status(c->by->view, c->plain.number, c->w, c->l, status);
    if (heard.count > 0) must_be(*status, before, "the status of a call is not that of messages inside it");
    if (heard.count > 0) *status = (int)status_of(c->by);
  } else {
    value = hongpilas_direct(c->by->view, c->plain.number, c->w, c->l);
    *status = (int)status_of(c->by);
  }
  heard.teller = NULL;
  refuse_in = 0;
  if (has_range) must(memcmp(&range, (const void *)c->l, sizeof range) == 0, "a range is only read");
  return value;
}

/* What w and l are cut down to for the model, where they are ints. */
static message as_ints(const message *m) {
  const char *letters = manners_of(m->number);
  message cut = *m;
  if (letters[0] == 'i') cut.w = (int)m->w;
  if (letters[1] == 'i') cut.l = (int)m->l;
  if (letters[1] == 'm') cut.l = (uint32_t)m->l;
  return cut;
}

/* A refused growth changes nothing, tells nothing and writes nothing. A text that is asked for takes no memory, but with its styles. */
static hongpilas_answer see_refused_growth(side *s, const scintilla_call *c, sptr_t value) {
  must(!takes_buffer(c->kind) || (c->plain.number == SCI_GETSTYLEDTEXT && c->buffer != NULL), "a text is given without memory");
  look_at_refused_growth(s, &c->plain);
  c->by->status = SC_STATUS_BADALLOC;
  c->by->refusal = answer_names[HONGPILAS_OUT_OF_MEMORY];
  must_be(value, refused_value(c->plain.number), "what is answered where memory is refused");
  must_be((int64_t)heard.count, 0, "a refused call tells nothing");
  must_be_written(c, false);
  must_stand(c->by, SC_STATUS_BADALLOC);
  return HONGPILAS_OUT_OF_MEMORY;
}

/* The answer of the model. It was asked a question before, so that the buffer is as large as it has to be; other messages it is sent once the interface has
 * done them. */
static hongpilas_answer answer_of_model(side *s, const scintilla_call *c) {
  int64_t value;
  if (c->is_bad) return HONGPILAS_BAD_ARGUMENT;
  if (c->is_nothing) return HONGPILAS_DONE;
  return model_send(s->plain, c->plain.view, c->plain.number, c->plain.w, c->plain.l, c->plain.text, c->plain.length, &value);
}

static void prepare_call(side *s, scintilla_call *c, const message *m, hongpilas_answer *answer) {
  bool is_null = m->how / 4 % 16 == 5;
  c->kind = manners_of(m->number)[1];
  c->w = (uptr_t)m->w;
  c->l = (sptr_t)m->l;
  c->plain = as_ints(m);
  c->is_nothing = c->is_bad = false;
  c->buffer = NULL;
  c->room = c->wanted = 0;
  if (strchr("nNZe", c->kind) != NULL) give_text(c, m, is_null);
  if (!takes_buffer(c->kind)) return;
  *answer = answer_of_model(s, c);
  give_buffer(s, c, m, *answer, is_null);
}

static hongpilas_answer send_by_scintilla(side *s, const message *m) {
  static scintilla_call c;
  hongpilas_answer answer = HONGPILAS_DONE;
  int status = 0;
  begin_message(s, m, "hongpilas_direct");
  c.by = ear_of(s, m->view);
  if (c.by == NULL) {
    must_be(hongpilas_direct(0, m->number, (uptr_t)m->w, m->l), refused_value(m->number), "what no view answers");
    refuse_in = 0;
    counts.answers[HONGPILAS_NO_SUCH_VIEW]++;
    return HONGPILAS_NO_SUCH_VIEW;
  }
  prepare_call(s, &c, m, &answer);
  if (refuse_in != 0 || c.by->status == SC_STATUS_BADALLOC || now.sent % 4 != 0) mark_status(c.by);
  uint64_t requests = counts.requests;
  sptr_t value = make_call(s, &c, &status);
  if (was_refused && status == SC_STATUS_BADALLOC && heard.count == 0) return see_refused_growth(s, &c, value);
  if (!takes_buffer(c.kind)) answer = answer_of_model(s, &c);
  else if (m->number != SCI_GETSTYLEDTEXT) must(requests == counts.requests, "a text is given without memory");
  counts.answers[answer & 7]++;
  bool is_done = answer == HONGPILAS_DONE, is_unknown = answer == HONGPILAS_UNKNOWN_MESSAGE;
  if (!is_done && !is_unknown) {
    c.by->status = SC_STATUS_FAILURE;
    c.by->refusal = answer_names[answer];
  }
  must_stand(c.by, status);
  if (!is_done) must_be(value, is_unknown ? 0 : refused_value(m->number), "what is answered where a message is refused");
  else if (c.is_nothing) must_be(value, 0, "what is answered where nothing is done");
  else must_be(value, takes_buffer(c.kind) ? value_of_question(s, &c) : answered_value(m->number, model_value(s->plain)), "the value");
  if (is_done && !takes_buffer(c.kind) && !c.is_nothing) compare_heard(s, &c);
  else must_be((int64_t)heard.count, 0, "what is not done tells nothing");
  must_be_written(&c, is_done);
  return answer;
}

/* Calls that are no messages. */

/* What a view's status and refusal have to be, of all of them. */
static void compare_ears(side *s, bool stays) {
  (void)stays;
  for (size_t i = 0; i < VIEWS; i++)
    if (s->ears[i].id != 0) must_stand(&s->ears[i], (int)status_of(&s->ears[i]));
}

static hongpilas_answer open_component(side *s, const hongpilas_limits *limits) {
  s->component = limits == NULL ? hongpilas_scintilla_new() : hongpilas_scintilla_new_with_limits(limits, sizeof *limits);
  if (s->component != NULL) return HONGPILAS_DONE;
  return was_refused ? HONGPILAS_OUT_OF_MEMORY : HONGPILAS_BAD_ARGUMENT;
}

static void close_component(side *s) {
  hongpilas_scintilla_free(s->component);
  hongpilas_scintilla_free(NULL);
  counts.calls++;
}

/* A view takes memory of the component before what else may refuse it is looked at. */
static hongpilas_answer open_by_scintilla(side *s, uint32_t *view) {
  uint32_t wanted = 0;
  sptr_t opened = hongpilas_scintilla_open(s->component);
  model *aside = model_copy(s->plain);
  hongpilas_answer answer = model_new_view(aside, &wanted);
  model_free(aside);
  if (opened == 0) return was_refused && answer == HONGPILAS_DONE ? HONGPILAS_OUT_OF_MEMORY : HONGPILAS_TOO_MANY;
  ear *e = s->ears;
  while (e->id != 0) e++;
  *e = (ear){s, wanted, opened, SC_STATUS_OK, "", true, true};
  *view = wanted;
  hongpilas_set_notify(opened, hear, e);
  counts.calls++;
  return HONGPILAS_DONE;
}

static hongpilas_answer close_by_scintilla(side *s, uint32_t view) {
  ear *e = ear_of(s, view);
  hongpilas_scintilla_close(e == NULL ? 0 : e->view);
  if (e == NULL) return HONGPILAS_NO_SUCH_VIEW;
  e->id = 0;
  return HONGPILAS_DONE;
}

/* SCI_GETRANGEPOINTER lends, and SCI_GETTEXTRANGE copies. */
static void lend_by_scintilla(side *s, uint32_t view, uint64_t start, uint64_t count, bool copies) {
  ear *e = ear_of(s, view);
  const uint8_t *wanted = NULL;
  message m = {view, copies ? SCI_GETTEXTRANGE : SCI_GETRANGEPOINTER, (int64_t)start, (int64_t)(start + count), NULL, 0, count % 2 == 0, 0};
  if (copies || e == NULL) {
    s->by->send(s, &m);
    return;
  }
  begin_message(s, &m, "SCI_GETRANGEPOINTER");
  mark_status(e);
  int status = 0;
  uint64_t requests = counts.requests;
  hongpilas_answer answer = model_lend_range(s->plain, view, start, count, &wanted);
  const uint8_t *bytes = (const uint8_t *)hongpilas_direct_status(e->view, SCI_GETRANGEPOINTER, (uptr_t)start, (sptr_t)count, &status);
  must(requests == counts.requests, "lending takes no memory");
  if (answer == HONGPILAS_DONE) {
    must(count == 0 || (uintptr_t)bytes >= PAGE, "what is lent has an address");
    if (count > 0) must_be_text(bytes, count, wanted, count, "the lent range");
    keep_lent(s, bytes, (size_t)count);
  } else {
    must(bytes == NULL, "a range that is refused is lent nowhere");
    e->status = SC_STATUS_FAILURE;
    e->refusal = answer_names[answer];
  }
  must_stand(e, status);
}

/* Texts that are asked for, oftener than the messages are drawn. */
static void read_by_scintilla(side *s, uint32_t view, const record *r) {
  static const uint32_t numbers[] = {SCI_GETTEXT, SCI_GETCURLINE, SCI_GETLINE, SCI_GETSELTEXT, SCI_GETTEXTRANGE, SCI_GETSTYLEDTEXT, SCI_GETTARGETTEXT};
  uint32_t number = numbers[r->t_kind % (sizeof numbers / sizeof *numbers)];
  around a = {model_peek(s->plain, view, SCI_GETLENGTH), model_peek(s->plain, view, SCI_GETLINECOUNT), 0, 0, 1};
  bool is_line = number == SCI_GETLINE, is_range = number == SCI_GETTEXTRANGE || number == SCI_GETSTYLEDTEXT;
  int64_t w = draw_number(is_line ? 'l' : 'p', r->w_kind, r->w, 0, &a);
  message m = {view, number, w, draw_number(is_range ? 'e' : '-', r->l_kind, r->l, w, &a), NULL, 0, r->t % 2 == 0, r->t};
  s->by->send(s, &m);
}

/* No view and no component are harmless to each call, and no view has always failed. */
static void try_no_view(const record *r) {
  int status = 0;
  must_be(hongpilas_direct(0, SCI_SETSTATUS, r->w % 4, r->l), 0, "what SETSTATUS answers to no view");
  must_be(hongpilas_direct(0, SCI_GETSTATUS, (uptr_t)r->w, r->l), SC_STATUS_FAILURE, "the status that no view answers");
  must_be(hongpilas_direct_status(0, SCI_GETLENGTH, 0, 0, &status), 0, "what no view answers");
  must_be(status, SC_STATUS_FAILURE, "the status of no view");
  must(strcmp(hongpilas_refusal(0), answer_names[HONGPILAS_NO_SUCH_VIEW]) == 0, "why no view refuses");
  hongpilas_set_notify(0, r->l % 2 == 0 ? hear : NULL, NULL);
  must(hongpilas_scintilla_open(NULL) == 0 && hongpilas_scintilla_new_with_limits(NULL, sizeof(hongpilas_limits)) == NULL,
       "what no component opens, and no limits");
  counts.calls += 7;
}

/* A status is what it was set to, also where the second form has no place for it. */
static void set_status(side *s, uint32_t view, const record *r) {
  ear *e = ear_of(s, view);
  int64_t w = r->w_kind < 128 ? r->w % 4 : hostile_number(r->w_kind, r->w, &(around){0});
  now.doing = "SCI_SETSTATUS";
  give_up_lent(s);
  if (r->t % 2 == 0) must_be(hongpilas_direct(e->view, SCI_SETSTATUS, (uptr_t)w, r->l), 0, "what SETSTATUS answers");
  else must_be(hongpilas_direct_status(e->view, SCI_SETSTATUS, (uptr_t)w, r->l, NULL), 0, "what SETSTATUS answers");
  e->status = (int)w;
  must_stand(e, (int)status_of(e));
  try_no_view(r);
  counts.calls++;
}

/* Null texts and null buffers of all messages that take any, no range, and a view that loses its callback, or gets it again. */
static void try_null_pointers(side *s, uint32_t view, const record *r) {
  static const uint32_t numbers[] = {SCI_ADDTEXT,    SCI_INSERTTEXT,     SCI_SETTEXT,       SCI_REPLACESEL,   SCI_SETSTYLINGEX, SCI_APPENDTEXT,
                                     SCI_COPYTEXT,   SCI_SEARCHINTARGET, SCI_REPLACETARGET, SCI_GETTEXT,      SCI_GETCURLINE,   SCI_GETLINE,
                                     SCI_GETSELTEXT, SCI_GETTEXTRANGE,   SCI_GETSTYLEDTEXT, SCI_GETTARGETTEXT};
  static const uint8_t some[8] = "abcdefg";
  message m = {view, numbers[r->w % (sizeof numbers / sizeof *numbers)], r->l % 4 - 1, -1, some, sizeof some, true, 5 * 4};
  ear *e = ear_of(s, view);
  int status = 0;
  s->by->send(s, &m);
  mark_status(e);
  must_be(hongpilas_direct_status(e->view, r->t % 2 == 0 ? SCI_GETTEXTRANGE : SCI_GETSTYLEDTEXT, 0, 0, &status), 0, "what no range answers");
  e->status = SC_STATUS_FAILURE;
  e->refusal = answer_names[HONGPILAS_BAD_ARGUMENT];
  must_stand(e, status);
  e->hears = r->t_kind % 4 != 0;
  hongpilas_set_notify(e->view, e->hears ? hear : NULL, e);
  hongpilas_scintilla_close(0);
  counts.calls += 3;
}

static const way way_by_scintilla = {"the Scintilla-compatible interface",
                                     open_component,
                                     close_component,
                                     open_by_scintilla,
                                     close_by_scintilla,
                                     send_by_scintilla,
                                     lend_by_scintilla,
                                     compare_ears,
                                     read_by_scintilla,
                                     set_status,
                                     try_null_pointers};

#endif

/* The way in by the calls of hongpilas.h, for fuzz.c. */
#ifndef FUZZ_CALLS_H
#define FUZZ_CALLS_H

static void compare_note(const hongpilas_note_data *a, const hongpilas_note_data *b) {
  must_be(a->view, b->view, "a note's view");
  must_be(a->code, b->code, "a note's code");
  must_be(a->kind, b->kind, "a note's kind");
  must_be(a->message, b->message, "a note's message");
  must_be(a->position, b->position, "a note's position");
  must_be(a->length, b->length, "a note's length");
  must_be(a->lines, b->lines, "a note's lines");
  must_be(a->line, b->line, "a note's line");
  must_be(a->now, b->now, "a note's level now");
  must_be(a->prev, b->prev, "a note's level before");
  must_be(a->token, b->token, "a note's token");
  must_be(a->w, b->w, "a note's w");
  must_be(a->l, b->l, "a note's l");
  must_be_text(a->text, a->text_length, b->text, b->text_length, "a note's text");
}

/* The calls that read the last reply, each by the call that tests its arguments or by the unchecked one, which answer the same. */

static int64_t value_by(const side *s, bool is_checked) {
  int64_t value = -77;
  if (!is_checked) return hongpilas_value_unchecked(s->session);
  must_be(hongpilas_value(s->session, &value), HONGPILAS_DONE, "the answer of hongpilas_value");
  return value;
}

static size_t text_by(const side *s, bool is_checked, const uint8_t **text) {
  size_t length = 77;
  if (!is_checked) return hongpilas_text_unchecked(s->session, text);
  must_be(hongpilas_text(s->session, text, &length), HONGPILAS_DONE, "the answer of hongpilas_text");
  return length;
}

static size_t note_count_by(const side *s, bool is_checked) {
  size_t count = 77;
  if (!is_checked) return hongpilas_note_count_unchecked(s->session);
  must_be(hongpilas_note_count(s->session, &count), HONGPILAS_DONE, "the answer of hongpilas_note_count");
  return count;
}

static bool note_by(const side *s, bool is_checked, size_t index, hongpilas_note_data *note) {
  if (!is_checked) return hongpilas_note_unchecked(s->session, index, note);
  hongpilas_answer answer = hongpilas_note(s->session, index, note, sizeof *note);
  must(answer == HONGPILAS_DONE || answer == HONGPILAS_BAD_ARGUMENT, "the answer of hongpilas_note");
  return answer == HONGPILAS_DONE;
}

/* A buffer without room may be null. */
static size_t copy_text_by(const side *s, bool is_checked, size_t start, uint8_t *into, size_t room) {
  size_t count = 77;
  if (!is_checked) return hongpilas_copy_text_unchecked(s->session, start, into, room);
  must_be(hongpilas_copy_text(s->session, start, room == 0 ? NULL : into, room, &count), HONGPILAS_DONE, "the answer of hongpilas_copy_text");
  return count;
}

/* Of no notification the one is refused, and leaves the count; the other copies nothing. */
static size_t copy_note_text_by(const side *s, bool is_checked, size_t index, size_t start, uint8_t *into, size_t room) {
  size_t count = 0;
  bool is_there = index < model_note_count(s->plain);
  if (!is_checked) return hongpilas_copy_note_text_unchecked(s->session, index, start, into, room);
  must_be(hongpilas_copy_note_text(s->session, index, start, room == 0 ? NULL : into, room, &count), is_there ? HONGPILAS_DONE : HONGPILAS_BAD_ARGUMENT,
          "the answer of hongpilas_copy_note_text");
  return count;
}

/* The last reply is that of the last message that was done: looked at through each call that lends, in either form. `stays` where it has to lie where it lay.
 * A message has it looked at twice, and both of these have both forms. */
static void compare_reply(side *s, bool stays) {
  bool is_checked = s->turns++ % 3 != 0;
  const uint8_t *text = NULL, *wanted = NULL;
  size_t length = text_by(s, is_checked, &text), count = note_count_by(s, is_checked);
  size_t wanted_length = model_text(s->plain, &wanted);
  must_be(value_by(s, is_checked), model_value(s->plain), "the last value");
  must_be_text(text, length, wanted, wanted_length, "the last text");
  if (stays && length > 0) must(text == s->text, "the last text lies where it lay");
  s->text = text;
  must_be((int64_t)count, (int64_t)model_note_count(s->plain), "the count of notes");
  counts.calls += 3 + count;
  for (size_t i = 0; i < count; i++) {
    hongpilas_note_data a, b;
    must(note_by(s, is_checked, i, &a) && model_note(s->plain, i, &b), "there is a note");
    compare_note(&a, &b);
  }
}

static hongpilas_answer open_by_call(side *s, const hongpilas_limits *limits) {
  return limits == NULL ? hongpilas_new(&s->session) : hongpilas_new_with_limits(&s->session, limits, sizeof *limits);
}

static void close_by_call(side *s) { hongpilas_free(s->session); }
static hongpilas_answer new_view_by_call(side *s, uint32_t *view) { return hongpilas_new_view(s->session, view); }
static hongpilas_answer close_view_by_call(side *s, uint32_t view) { return hongpilas_close_view(s->session, view); }

/* What a question is answered beside the reply, by both forms; the last reply stays. */
static struct {
  hongpilas_answer answer;
  int64_t value;
  const uint8_t *text;
  size_t length;
} asked;

static void ask_beside(side *s, const message *m) {
  int64_t value = -77;
  long armed = refuse_in;
  refuse_in = 0;
  asked.value = -77;
  asked.text = NULL;
  asked.length = 77;
  now.doing = "hongpilas_ask and hongpilas_read";
  give_up_lent(s);
  asked.answer = hongpilas_ask(s->session, m->view, m->number, m->w, m->l, &value);
  if (m->how % 4 < 2)
    must_be(hongpilas_read(s->session, m->view, m->number, m->w, m->l, &asked.text, &asked.length, &asked.value), asked.answer, "the answer of reading");
  else
    must_be(hongpilas_read_unchecked(s->session, m->view, m->number, m->w, m->l, &asked.text, &asked.length, &asked.value), asked.answer,
            "the answer of reading");
  must_be(asked.value, value, "the value of a text that is read");
  if (asked.answer != HONGPILAS_DONE) must(asked.text == NULL && asked.length == 77 && value == -77, "a refused question leaves the places");
  counts.calls += 2;
  compare_reply(s, true);
  refuse_in = armed;
}

/* It was answered as the message was; that is compared behind the message, which leaves the text that was lent. */
static void compare_asked(side *s, const message *m, hongpilas_answer answer) {
  const uint8_t *text = NULL;
  size_t length = model_text(s->plain, &text);
  if (model_marks(m->number) == NULL || strchr(model_marks(m->number), 'Q') == NULL) {
    must_be(asked.answer, HONGPILAS_UNKNOWN_MESSAGE, "the answer to what is no question");
    return;
  }
  must_be(asked.answer, answer, "the answer to a question beside the reply");
  if (answer != HONGPILAS_DONE) return;
  must_be(asked.value, model_value(s->plain), "the value of a question beside the reply");
  must_be_text(asked.text, asked.length, text, length, "the text of a question beside the reply");
}

/* Sends a message to both, by the call that tests its arguments or by the unchecked one. */
static hongpilas_answer send_by_call(side *s, const message *m) {
  int64_t value = -77, wanted_value = -77;
  bool is_checked = m->how % 2 == 1;
  uint8_t *text = place_for(0, m->length, m->at_end);
  hongpilas_answer answer, wanted;
  memcpy(text, m->text, m->length);
  ask_beside(s, m);
  begin_message(s, m, is_checked ? "hongpilas_send" : "hongpilas_send_unchecked");
  if (is_checked) answer = hongpilas_send(s->session, m->view, m->number, m->w, m->l, m->length == 0 ? NULL : text, m->length, &value);
  else answer = hongpilas_send_unchecked(s->session, m->view, m->number, m->w, m->l, text, m->length, &value);
  refuse_in = 0;
  if (answer == HONGPILAS_OUT_OF_MEMORY) {
    look_at_refused_growth(s, m);
    must_be(value, -77, "a refused call leaves the value");
    compare_reply(s, true);
    return answer;
  }
  wanted = model_send(s->plain, m->view, m->number, m->w, m->l, m->text, m->length, &wanted_value);
  must_be(answer, wanted, "the answer");
  must_be(value, wanted_value, "the value");
  counts.answers[answer & 7]++;
  compare_reply(s, answer != HONGPILAS_DONE);
  compare_asked(s, m, answer);
  return answer;
}

/* Lends a range, or copies it, and reads it. What was lent stands on until the next call on this session. */
static void lend_by_call(side *s, uint32_t view, uint64_t start, uint64_t count, bool copies) {
  const uint8_t *bytes = NULL, *wanted = NULL;
  now.doing = copies ? "hongpilas_copy_range" : "hongpilas_lend_range";
  now.w = (int64_t)start;
  now.l = (int64_t)count;
  give_up_lent(s);
  hongpilas_answer answer = model_lend_range(s->plain, view, start, count, &wanted);
  uint64_t requests = counts.requests;
  counts.calls++;
  if (copies) {
    /* No room is there for more than a text can have. */
    size_t room = count > PAGE ? 0 : (size_t)count;
    uint8_t *into = place_for(1, room, count % 2 == 0);
    if (room > 0) memset(into, 0x77, room);
    must_be(hongpilas_copy_range(s->session, view, start, into, count), answer, "the answer");
    if (answer == HONGPILAS_DONE) must_be_text(into, room, wanted, count, "the copied range");
    else
      for (size_t i = 0; i < room; i++) must(into[i] == 0x77, "a refused call leaves the buffer");
  } else {
    must_be(hongpilas_lend_range(s->session, view, start, count, &bytes), answer, "the answer");
    if (answer == HONGPILAS_DONE) must_be_text(bytes, count, wanted, count, "the lent range");
    else must(bytes == NULL, "a refused call leaves the pointer");
  }
  must(requests == counts.requests, "lending takes no memory");
  refuse_in = 0;
  compare_reply(s, true);
  if (!copies && answer == HONGPILAS_DONE) keep_lent(s, bytes, (size_t)count);
}

/* The calls that copy what the last reply has, with little room and from places past the end. */
static void copy_last(side *s, uint32_t view, const record *r) {
  const uint8_t *text = NULL;
  size_t length = model_text(s->plain, &text), start = r->w % 3 == 0 ? (size_t)hostile_number(r->w_kind, r->w, &(around){0}) : r->w, room = r->l;
  size_t rest = start < length ? length - start : 0, wanted = rest < room ? rest : room;
  uint8_t *into = place_for(1, room, r->t % 2 == 0);
  bool is_checked = r->t / 2 % 2 == 0;
  (void)view;
  now.doing = "hongpilas_copy_text";
  counts.calls += 3;
  memset(into, 0x77, room);
  must_be((int64_t)copy_text_by(s, is_checked, start, into, room), (int64_t)wanted, "how much was copied");
  if (wanted > 0) must_be_text(into, wanted, text + start, wanted, "the copied text");
  for (size_t i = wanted; i < room; i++) must(into[i] == 0x77, "a copy leaves the rest of the buffer");
  now.doing = "hongpilas_copy_note_text";
  hongpilas_note_data note, found;
  size_t index = r->t_kind % 16 == 0 ? SIZE_MAX : model_note_count(s->plain) == 0 ? 0 : r->t_kind % (model_note_count(s->plain) + 1);
  bool is_there = model_note(s->plain, index, &note);
  memset(&found, 0x77, sizeof found);
  must_be(note_by(s, is_checked, index, &found), is_there, "whether there is such a note");
  if (!is_there) {
    must(found.view == 0x77777777, "no note leaves the place for one");
    must_be((int64_t)copy_note_text_by(s, is_checked, index, start, into, room), 0, "the text of no note");
    return;
  }
  compare_note(&found, &note);
  rest = start < note.text_length ? note.text_length - start : 0;
  wanted = rest < room ? rest : room;
  must_be((int64_t)copy_note_text_by(s, is_checked, index, start, into, room), (int64_t)wanted, "how much of a note was copied");
  if (wanted > 0) must_be_text(into, wanted, note.text + start, wanted, "a note's copied text");
}

static void ask_names(side *s, uint32_t view, const record *r) {
  uint32_t number = r->w_kind < 208 ? r->w % 9 : (uint32_t)hostile_number(r->w_kind, r->w, &(around){0});
  const char *name = hongpilas_answer_name(number), *message = hongpilas_message_name(number), *code = hongpilas_note_name(number);
  (void)s, (void)view;
  now.doing = "hongpilas_answer_name";
  counts.calls += 4;
  must_be(hongpilas_version(), HONGPILAS_VERSION, "the version");
  if (number >= 1 && number <= 7) must(strcmp(name, answer_names[number]) == 0, "the name of an answer");
  must(message == NULL || strncmp(message, "SCI_", 4) == 0, "the name of a message");
  must(code == NULL || strncmp(code, "SCN_", 4) == 0, "the name of a code");
}

/* What is refused before the proved call is made. */
static void try_null_calls(side *s, uint32_t view, const record *r) {
  now.doing = "hongpilas_send";
  give_up_lent(s);
  must_be(hongpilas_send(NULL, view, SCI_GETLENGTH, 0, 0, NULL, 0, NULL), HONGPILAS_NO_SUCH_VIEW, "no session");
  must_be(hongpilas_send(s->session, view, SCI_INSERTTEXT, 0, 0, NULL, 1 + r->w, NULL), HONGPILAS_BAD_ARGUMENT, "no text");
  counts.calls += 2;
  compare_reply(s, true);
}

static const way way_by_calls = {"the calls",  open_by_call,  close_by_call, new_view_by_call, close_view_by_call, send_by_call,
                                 lend_by_call, compare_reply, copy_last,     ask_names,        try_null_calls};

#endif

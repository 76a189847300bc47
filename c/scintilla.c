/* Hongpilas with Scintilla's own interface, over the library's calls: hongpilas_scintilla.h says what each call does. */
#include "scintilla_queue.h"

/* ---- Sending ---- */

/* Tells the view's status, if it is asked for. */
static inline void tell_status(const scintilla_view *view, int *status) {
  if (status != NULL) *status = view->status;
}

/* Notes a refusal. A message that the profile does not have is none: Scintilla has no status for such a one. */
static SELDOM void note_refusal(scintilla_view *view, hongpilas_answer answer) {
  if (answer == HONGPILAS_UNKNOWN_MESSAGE) return;
  view->refusal = hongpilas_answer_name(answer);
  view->status = answer == HONGPILAS_OUT_OF_MEMORY ? SC_STATUS_BADALLOC : SC_STATUS_FAILURE;
}

/* The same, where nothing else is to be done. Returns what the message answers. */
static SELDOM sptr_t refuse(scintilla_view *view, unsigned int entry, hongpilas_answer answer, int *status) {
  note_refusal(view, answer);
  tell_status(view, status);
  return refused_as(entry);
}

/* What a query answers that is never refused. No reply is replaced. */
static int64_t ask(scintilla_view *view, unsigned int message, int64_t w) {
  int64_t value = 0;
  return hongpilas_ask_unchecked(view->session, view->id, message, w, 0, &value) == HONGPILAS_DONE ? value : 0;
}

/* ---- Texts that are asked for ---- */

typedef struct span {
  int64_t start, count;
} span;

/* The range, or one of -1 bytes where it does not lie in the text. The library sees whether a short range ends behind the text, when it copies it. */
static inline span span_of_range(scintilla_view *view, const struct Sci_TextRange *range) {
  span none = {0, -1}, found = {0, 0};
  int64_t end;
  bool is_copied;
  if (range == NULL) return none;
  end = range->chrg.cpMax == -1 ? ask(view, SCI_GETLENGTH, 0) : range->chrg.cpMax;
  found.start = range->chrg.cpMin;
  if (found.start < 0 || found.start > end) return none;
  found.count = end - found.start;
  is_copied = range->lpstrText != NULL && found.count > 0 && found.count <= PIECE;
  if (!is_copied && end > ask(view, SCI_GETLENGTH, 0)) return none;
  return found;
}

static span span_between(int64_t from, int64_t to) {
  span found = {0, 0};
  found.start = from < to ? from : to;
  found.count = from < to ? to - from : from - to;
  return found;
}

/* From the start of a line to that of the next; no bytes if there is no such line, whose start is -1. */
static span span_of_line(scintilla_view *view, int64_t line) {
  span none = {0, 0}, found = {0, 0};
  int64_t next;
  if (line < 0) return none;
  found.start = ask(view, SCI_POSITIONFROMLINE, line);
  if (found.start < 0) return none;
  next = ask(view, SCI_POSITIONFROMLINE, line + 1);
  if (next > found.start) found.count = next - found.start;
  return found;
}

/* The bytes of the document that a message asks for without a range. */
static span span_of(scintilla_view *view, unsigned int message, uptr_t w) {
  switch (message) {
    case SCI_GETLINE: return span_of_line(view, (sptr_t)w);
    case SCI_GETCURLINE: return span_of_line(view, ask(view, SCI_LINEFROMPOSITION, ask(view, SCI_GETCURRENTPOS, 0)));
    case SCI_GETSELTEXT: return span_between(ask(view, SCI_GETANCHOR, 0), ask(view, SCI_GETCURRENTPOS, 0));
    case SCI_GETTARGETTEXT: return span_between(ask(view, SCI_GETTARGETSTART, 0), ask(view, SCI_GETTARGETEND, 0));
    default: return span_between(0, ask(view, SCI_GETLENGTH, 0));
  }
}

static inline hongpilas_answer copy_piece(scintilla_view *view, int64_t start, int64_t count, char *into) {
  return hongpilas_copy_range_unchecked(view->session, view->id, (size_t)start, (uint8_t *)into, (size_t)count);
}

/* Copies more bytes of the document than a piece, in pieces: a piece that has the gap of the text inside moves it to one of its ends, and so not far. */
static ALONE hongpilas_answer copy_pieces(scintilla_view *view, span from, char *into) {
  int64_t done = 0;
  hongpilas_answer answer = HONGPILAS_DONE;
  while (answer == HONGPILAS_DONE && done < from.count) {
    int64_t left = from.count - done, count = left < PIECE ? left : (int64_t)PIECE;
    answer = copy_piece(view, from.start + done, count, into + done);
    done += count;
  }
  return answer;
}

/* Copies bytes of the document. */
static inline hongpilas_answer copy_span(scintilla_view *view, span from, char *into) {
  return from.count <= PIECE ? copy_piece(view, from.start, from.count, into) : copy_pieces(view, from, into);
}

/* Writes the text that is asked for into the caller's buffer, if there is one. Two messages take how many bytes there may be, and two close no
 * text, as in Scintilla. Takes no memory. */
static hongpilas_answer give_text(scintilla_view *view, unsigned int message, uptr_t w, char *into, int64_t *value) {
  span found = span_of(view, message, w);
  bool is_bounded = message == SCI_GETTEXT || message == SCI_GETCURLINE;
  bool is_closed = message != SCI_GETLINE && message != SCI_GETTARGETTEXT;
  hongpilas_answer answer = HONGPILAS_DONE;
  *value = found.count;
  if (into == NULL) return HONGPILAS_DONE;
  if (is_bounded && (uptr_t)found.count > w) *value = found.count = (int64_t)w;
  if (found.count > 0) answer = copy_span(view, found, into);
  if (answer == HONGPILAS_DONE && is_closed) into[found.count] = '\0';
  if (message == SCI_GETCURLINE) *value = ask(view, SCI_GETCURRENTPOS, 0) - found.start;
  return answer;
}

/* The same for a range. */
static hongpilas_answer give_range(scintilla_view *view, const struct Sci_TextRange *range, int64_t *value) {
  span found = span_of_range(view, range);
  hongpilas_answer answer = HONGPILAS_DONE;
  if (found.count < 0) return HONGPILAS_BAD_ARGUMENT;
  *value = found.count;
  if (range->lpstrText == NULL) return HONGPILAS_DONE;
  if (found.count > 0) answer = copy_span(view, found, range->lpstrText);
  if (answer == HONGPILAS_DONE) range->lpstrText[found.count] = '\0';
  return answer;
}

/* Writes the bytes and styles of a range, behind which two NULs stand. */
static hongpilas_answer give_styled(scintilla_view *view, const struct Sci_TextRange *range, int64_t *value) {
  span found = span_of_range(view, range);
  const uint8_t *styled = NULL;
  hongpilas_answer answer;
  size_t length = 0;
  if (found.count < 0) return HONGPILAS_BAD_ARGUMENT;
  *value = found.count * 2;
  if (range->lpstrText == NULL) return HONGPILAS_DONE;
  answer = hongpilas_read_unchecked(view->session, view->id, SCI_GETSTYLEDTEXT, found.start, found.start + found.count, &styled, &length, value);
  if (answer != HONGPILAS_DONE) return answer;
  if (length > 0) memcpy(range->lpstrText, styled, length);
  memset(range->lpstrText + length, 0, 2);
  return HONGPILAS_DONE;
}

/* Lends bytes of the document, side by side: the library has a call for it, and Scintilla a message. */
static hongpilas_answer lend_span(scintilla_view *view, sptr_t start, sptr_t count, int64_t *value) {
  const uint8_t *bytes = NULL;
  hongpilas_answer answer = HONGPILAS_BAD_ARGUMENT;
  if (start >= 0 && count >= 0) answer = hongpilas_lend_range_unchecked(view->session, view->id, (size_t)start, (size_t)count, &bytes);
  *value = (sptr_t)bytes;
  return answer;
}

/* ---- The call ---- */

/* Answers a query by a number. No reply is replaced by a query, and nothing is delivered, whether a notify function runs or not. */
static ALONE sptr_t answer_number(scintilla_view *view, unsigned int message, uptr_t w, sptr_t l, unsigned int entry, int *status) {
  int64_t value;
  hongpilas_answer answer = hongpilas_ask_unchecked(view->session, view->id, message, first_of(entry, w), second_of(entry, l), &value);
  if (answer != HONGPILAS_DONE) return refuse(view, entry, answer, status);
  tell_status(view, status);
  return number_as(entry, value);
}

/* Answers a query by bytes of the document. */
static ALONE sptr_t answer_bytes(scintilla_view *view, unsigned int message, uptr_t w, sptr_t l, unsigned int entry, int *status) {
  int64_t value = 0;
  hongpilas_answer answer;
  switch (kind_of(entry)) {
    case ASKED: answer = give_text(view, message, w, (char *)l, &value); break;
    case RANGE: answer = give_range(view, (const struct Sci_TextRange *)l, &value); break;
    case STYLED: answer = give_styled(view, (const struct Sci_TextRange *)l, &value); break;
    default: answer = lend_span(view, (sptr_t)w, l, &value); break;
  }
  if (answer != HONGPILAS_DONE) return refuse(view, entry, answer, status);
  tell_status(view, status);
  return (sptr_t)value;
}

/* Makes the library perform a message that is no query, and takes two numbers. */
static inline hongpilas_answer perform_numbers(scintilla_view *view, unsigned int message, uptr_t w, sptr_t l, unsigned int entry, int64_t *value) {
  int64_t second = bits_of(entry, second_of(entry, l));
  note_call(view->of, w, l);
  return hongpilas_send_unchecked(view->session, view->id, message, first_of(entry, w), second, (const uint8_t *)"", 0, value);
}

/* The same if it takes a text, of which a null one is empty. */
static inline hongpilas_answer perform_text(scintilla_view *view, unsigned int message, uptr_t w, sptr_t l, unsigned int entry, int64_t *value) {
  const char *text = l == 0 ? "" : (const char *)l;
  note_call(view->of, w, l);
  if (l == 0 && w != 0) return HONGPILAS_BAD_ARGUMENT;
  return hongpilas_send_unchecked(view->session, view->id, message, (sptr_t)w, 0, (const uint8_t *)text, length_of_text(entry, w, text), value);
}

/* Refuses a message that edits the text inside a notify function. */
static SELDOM sptr_t refuse_edit(scintilla_view *view, unsigned int entry, int *status) {
  view->refusal = "edit inside a notify function";
  view->status = SC_STATUS_FAILURE;
  tell_status(view, status);
  return refused_as(entry);
}

/* Whether a message is sent from inside a notify function. It is made sure where it matters before the message is done. */
static bool is_sent_inside(hongpilas_scintilla *it, unsigned int entry) {
  if (it->running == NULL) return false;
  return is_edit(entry) || it->is_pinned ? is_surely_inside(it) : is_inside(it);
}

/* Sends a message that is no query while that is so. The view may be closed by what is delivered behind the message: its status is looked at before. */
static ALONE sptr_t send_meanwhile(scintilla_view *view, unsigned int message, uptr_t w, sptr_t l, unsigned int entry, int *status) {
  hongpilas_scintilla *it = view->of;
  bool inside = is_sent_inside(it, entry);
  hongpilas_answer answer = HONGPILAS_OUT_OF_MEMORY;
  int64_t value = 0;
  if (inside && is_edit(entry)) return refuse_edit(view, entry, status);
  if (keep_rest(it)) answer = (takes_numbers(entry) ? perform_numbers : perform_text)(view, message, w, l, entry, &value);
  if (answer != HONGPILAS_DONE) note_refusal(view, answer);
  else if (it->listeners > 0) queue_reply(it);
  tell_status(view, status);
  if (inside) it->is_late = true;
  deliver_behind(it);
  return answer == HONGPILAS_DONE ? answer_as(entry, value) : refused_as(entry);
}

/* Ends a message that was sent from outside of all notify functions. The view may be closed by what is delivered. */
static inline sptr_t finish(scintilla_view *view, unsigned int entry, hongpilas_answer answer, int64_t value, int *status) {
  if (answer != HONGPILAS_DONE) return refuse(view, entry, answer, status);
  tell_status(view, status);
  if (view->of->listeners > 0) deliver_reply(view->of);
  return answer_as(entry, value);
}

/* Sends a message that is no query, and takes two numbers. */
static ALONE sptr_t send_numbers(scintilla_view *view, unsigned int message, uptr_t w, sptr_t l, unsigned int entry, int *status) {
  int64_t value = 0;
  hongpilas_answer answer;
  if (is_busy(view->of)) return send_meanwhile(view, message, w, l, entry, status);
  answer = perform_numbers(view, message, w, l, entry, &value);
  return finish(view, entry, answer, value, status);
}

/* The same if it takes a text. */
static ALONE sptr_t send_text(scintilla_view *view, unsigned int message, uptr_t w, sptr_t l, unsigned int entry, int *status) {
  int64_t value = 0;
  hongpilas_answer answer;
  if (is_busy(view->of)) return send_meanwhile(view, message, w, l, entry, status);
  answer = perform_text(view, message, w, l, entry, &value);
  return finish(view, entry, answer, value, status);
}

/* Does nothing for a null text, or what is asked about the status. */
static ALONE sptr_t send_nothing(scintilla_view *view, unsigned int message, uptr_t w, int *status) {
  if (message == SCI_SETSTATUS) view->status = (int)w;
  tell_status(view, status);
  return message == SCI_GETSTATUS ? view->status : 0;
}

/* Refuses a message to no view. */
static SELDOM sptr_t send_nowhere(unsigned int message, unsigned int entry, int *status) {
  if (status != NULL) *status = SC_STATUS_FAILURE;
  return message == SCI_GETSTATUS ? SC_STATUS_FAILURE : refused_as(entry);
}

/* Sends a message that does not take two numbers, or is sent to no view. */
static ALONE sptr_t send_other(scintilla_view *view, unsigned int message, uptr_t w, sptr_t l, unsigned int entry, int *status) {
  unsigned int kind = kind_of(entry);
  if (view == NULL) return send_nowhere(message, entry, status);
  if (is_query(entry)) return answer_bytes(view, message, w, l, entry, status);
  if (kind == STATUS || (l == 0 && (kind == OFFERED || kind == CLOSED))) return send_nothing(view, message, w, status);
  return send_text(view, message, w, l, entry, status);
}

/* Sends any message by the function of its kind. These have their arguments in the same places, so that none is moved. */
static inline sptr_t send_message(scintilla_view *view, unsigned int message, uptr_t w, sptr_t l, int *status) {
  unsigned int entry = entry_of(message);
  if (view == NULL || !takes_numbers(entry)) return send_other(view, message, w, l, entry, status);
  if (!is_query(entry)) return send_numbers(view, message, w, l, entry, status);
  return answer_number(view, message, w, l, entry, status);
}

sptr_t hongpilas_direct_status(sptr_t view, unsigned int message, uptr_t w, sptr_t l, int *status) {
  return send_message((scintilla_view *)view, message, w, l, status);
}

sptr_t hongpilas_direct(sptr_t view, unsigned int message, uptr_t w, sptr_t l) { return send_message((scintilla_view *)view, message, w, l, NULL); }

const char *hongpilas_refusal(sptr_t view) { return view == 0 ? "no such view" : ((const scintilla_view *)view)->refusal; }

void hongpilas_set_notify(sptr_t ptr, hongpilas_notify notify, void *data) {
  scintilla_view *view = (scintilla_view *)ptr;
  if (view == NULL) return;
  view->of->listeners += (size_t)(notify != NULL) - (size_t)(view->notify != NULL);
  view->notify = notify;
  view->data = data;
}

/* ---- Components and views ---- */

hongpilas_scintilla *hongpilas_scintilla_new(void) {
  const hongpilas_limits greatest = HONGPILAS_GREATEST_LIMITS;
  return hongpilas_scintilla_new_with_limits(&greatest, sizeof greatest);
}

hongpilas_scintilla *hongpilas_scintilla_new_with_limits(const hongpilas_limits *limits, size_t size) {
  hongpilas_scintilla *it = (hongpilas_scintilla *)malloc(sizeof *it);
  if (it == NULL) return NULL;
  memset(it, 0, sizeof *it);
  if (hongpilas_new_with_limits(&it->session, limits, size) == HONGPILAS_DONE) return it;
  free(it);
  return NULL;
}

void hongpilas_scintilla_free(hongpilas_scintilla *it) {
  if (it == NULL) return;
  if (it->running != NULL && is_surely_inside(it)) it->running->of = NULL;
  while (it->first != NULL) drop_first(it);
  while (it->view_count > 0) free(it->views[--it->view_count].view);
  free(it->views);
  free(it->held);
  hongpilas_free(it->session);
  free(it);
}

/* Makes room for one view more. */
static bool has_room(hongpilas_scintilla *it) {
  size_t room = it->view_room == 0 ? 4 : 2 * it->view_room;
  open_view *views;
  if (it->view_count < it->view_room) return true;
  views = (open_view *)realloc(it->views, room * sizeof *views);
  if (views == NULL) return false;
  it->views = views;
  it->view_room = room;
  return true;
}

sptr_t hongpilas_scintilla_open(hongpilas_scintilla *it) {
  scintilla_view *view;
  open_view *added;
  if (it == NULL || !has_room(it)) return 0;
  view = (scintilla_view *)malloc(sizeof *view);
  if (view == NULL) return 0;
  memset(view, 0, sizeof *view);
  if (hongpilas_new_view(it->session, &view->id) != HONGPILAS_DONE) {
    free(view);
    return 0;
  }
  view->of = it;
  view->session = it->session;
  view->refusal = "";
  added = &it->views[it->view_count++];
  added->id = view->id;
  added->follower = 0;
  added->view = view;
  return (sptr_t)view;
}

void hongpilas_scintilla_close(sptr_t ptr) {
  scintilla_view *view = (scintilla_view *)ptr;
  hongpilas_scintilla *it = view == NULL ? NULL : view->of;
  size_t place;
  if (it == NULL || hongpilas_close_view(it->session, view->id) != HONGPILAS_DONE) return;
  hongpilas_set_notify(ptr, NULL, NULL);
  place = place_of(it, view->id);
  it->view_count--;
  memmove(it->views + place, it->views + place + 1, (it->view_count - place) * sizeof *it->views);
  free(view);
}

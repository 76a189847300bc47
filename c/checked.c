/* The calls that test their arguments: what is null or too long is refused by its name, and otherwise the proved call is made. This file is a part of
 * the library; no proof speaks of it. include/hongpilas.h says what is refused, and in which order. */
#include "unchecked.h"

#include <stdlib.h>
#include <string.h>

/* The sizes of the structs in version 2.0: the least that a caller may have. */
enum { LIMITS_SIZE = 7 * sizeof(uint64_t), NOTE_SIZE = 4 * sizeof(uint32_t) + 9 * sizeof(int64_t) + sizeof(void *) + sizeof(size_t) };

/* Whether so many bytes can lie there. Of no bytes any address will do. */
static bool can_hold(const void *bytes, size_t length) { return length <= 0x7FFFFFFFFFFFFFFF && (bytes != NULL || length == 0); }

/* ---- Sessions and views ---- */

hongpilas_answer hongpilas_new(hongpilas_session **session) {
  const hongpilas_limits greatest = HONGPILAS_GREATEST_LIMITS;
  return hongpilas_new_with_limits(session, &greatest, sizeof greatest);
}

hongpilas_answer hongpilas_new_with_limits(hongpilas_session **session, const hongpilas_limits *limits, size_t size) {
  hongpilas_limits known = HONGPILAS_GREATEST_LIMITS;
  hongpilas_session *opened;
  hongpilas_answer answer;
  if (session == NULL || limits == NULL || size < LIMITS_SIZE || size > sizeof known) return HONGPILAS_BAD_ARGUMENT;
  memcpy(&known, limits, size);
  opened = (hongpilas_session *)malloc(sizeof *opened);
  if (opened == NULL) return HONGPILAS_OUT_OF_MEMORY;
  answer = hongpilas_new_with_limits_unchecked(opened, &known);
  if (answer == HONGPILAS_DONE) *session = opened;
  else free(opened);
  return answer;
}

void hongpilas_free(hongpilas_session *session) {
  if (session == NULL) return;
  hongpilas_free_unchecked(*session);
  free(session);
}

hongpilas_answer hongpilas_new_view(hongpilas_session *session, uint32_t *view) {
  if (session == NULL) return HONGPILAS_NO_SUCH_VIEW;
  if (view == NULL) return HONGPILAS_BAD_ARGUMENT;
  return hongpilas_new_view_unchecked(session, view);
}

hongpilas_answer hongpilas_close_view(hongpilas_session *session, uint32_t view) {
  if (session == NULL) return HONGPILAS_NO_SUCH_VIEW;
  return hongpilas_close_view_unchecked(session, view);
}

/* ---- Messages ---- */

hongpilas_answer hongpilas_send(hongpilas_session *session, uint32_t view, uint32_t number, int64_t w, int64_t l, const void *text, size_t length,
                                int64_t *value) {
  static const uint8_t none = 0;
  int64_t unasked = 0;
  if (session == NULL) return HONGPILAS_NO_SUCH_VIEW;
  if (!can_hold(text, length)) return HONGPILAS_BAD_ARGUMENT;
  return hongpilas_send_unchecked(session, view, number, w, l, text == NULL ? &none : (const uint8_t *)text, length, value == NULL ? &unasked : value);
}

hongpilas_answer hongpilas_ask(const hongpilas_session *session, uint32_t view, uint32_t number, int64_t w, int64_t l, int64_t *value) {
  if (session == NULL) return HONGPILAS_NO_SUCH_VIEW;
  if (value == NULL) return HONGPILAS_BAD_ARGUMENT;
  return hongpilas_ask_unchecked(session, view, number, w, l, value);
}

hongpilas_answer hongpilas_read(hongpilas_session *session, uint32_t view, uint32_t number, int64_t w, int64_t l, const uint8_t **text, size_t *length,
                                int64_t *value) {
  int64_t unasked = 0;
  if (session == NULL) return HONGPILAS_NO_SUCH_VIEW;
  if (text == NULL || length == NULL) return HONGPILAS_BAD_ARGUMENT;
  return hongpilas_read_unchecked(session, view, number, w, l, text, length, value == NULL ? &unasked : value);
}

/* ---- The last reply ---- */

hongpilas_answer hongpilas_value(const hongpilas_session *session, int64_t *value) {
  if (session == NULL) return HONGPILAS_NO_SUCH_VIEW;
  if (value == NULL) return HONGPILAS_BAD_ARGUMENT;
  *value = hongpilas_value_unchecked(session);
  return HONGPILAS_DONE;
}

hongpilas_answer hongpilas_text(const hongpilas_session *session, const uint8_t **text, size_t *length) {
  if (session == NULL) return HONGPILAS_NO_SUCH_VIEW;
  if (text == NULL || length == NULL) return HONGPILAS_BAD_ARGUMENT;
  *length = hongpilas_text_unchecked(session, text);
  return HONGPILAS_DONE;
}

hongpilas_answer hongpilas_copy_text(const hongpilas_session *session, size_t start, void *into, size_t capacity, size_t *count) {
  uint8_t none;
  if (session == NULL) return HONGPILAS_NO_SUCH_VIEW;
  if (!can_hold(into, capacity) || count == NULL) return HONGPILAS_BAD_ARGUMENT;
  *count = hongpilas_copy_text_unchecked(session, start, into == NULL ? &none : (uint8_t *)into, capacity);
  return HONGPILAS_DONE;
}

hongpilas_answer hongpilas_note_count(const hongpilas_session *session, size_t *count) {
  if (session == NULL) return HONGPILAS_NO_SUCH_VIEW;
  if (count == NULL) return HONGPILAS_BAD_ARGUMENT;
  *count = hongpilas_note_count_unchecked(session);
  return HONGPILAS_DONE;
}

/* A caller with a shorter struct gets its members; one with a longer struct gets zeros behind those that are known here. */
hongpilas_answer hongpilas_note(const hongpilas_session *session, size_t index, hongpilas_note_data *note, size_t size) {
  hongpilas_note_data known;
  if (session == NULL) return HONGPILAS_NO_SUCH_VIEW;
  if (note == NULL || size < NOTE_SIZE) return HONGPILAS_BAD_ARGUMENT;
  if (size == sizeof known) return hongpilas_note_unchecked(session, index, note) ? HONGPILAS_DONE : HONGPILAS_BAD_ARGUMENT;
  if (!hongpilas_note_unchecked(session, index, &known)) return HONGPILAS_BAD_ARGUMENT;
  memcpy(note, &known, size < sizeof known ? size : sizeof known);
  if (size > sizeof known) memset((char *)note + sizeof known, 0, size - sizeof known);
  return HONGPILAS_DONE;
}

hongpilas_answer hongpilas_copy_note_text(const hongpilas_session *session, size_t index, size_t start, void *into, size_t capacity, size_t *count) {
  uint8_t none;
  if (session == NULL) return HONGPILAS_NO_SUCH_VIEW;
  if (!can_hold(into, capacity) || count == NULL || index >= hongpilas_note_count_unchecked(session)) return HONGPILAS_BAD_ARGUMENT;
  *count = hongpilas_copy_note_text_unchecked(session, index, start, into == NULL ? &none : (uint8_t *)into, capacity);
  return HONGPILAS_DONE;
}

/* ---- Bytes of a document ---- */

hongpilas_answer hongpilas_lend_range(hongpilas_session *session, uint32_t view, size_t start, size_t count, const uint8_t **bytes) {
  if (session == NULL) return HONGPILAS_NO_SUCH_VIEW;
  if (bytes == NULL) return HONGPILAS_BAD_ARGUMENT;
  return hongpilas_lend_range_unchecked(session, view, start, count, bytes);
}

hongpilas_answer hongpilas_copy_range(hongpilas_session *session, uint32_t view, size_t start, void *into, size_t count) {
  uint8_t none;
  if (session == NULL) return HONGPILAS_NO_SUCH_VIEW;
  if (!can_hold(into, count)) return HONGPILAS_BAD_ARGUMENT;
  return hongpilas_copy_range_unchecked(session, view, start, into == NULL ? &none : (uint8_t *)into, count);
}

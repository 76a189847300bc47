/* Stands in for the library: it prints each message that it is sent, and that the session is freed. bindings/check builds each wrapper's calls over
 * it. */
#include <hongpilas.h>
#include <stdio.h>

struct hongpilas_session {
  int sent;
};

uint32_t hongpilas_version(void) { return HONGPILAS_VERSION; }

const char *hongpilas_answer_name(hongpilas_answer answer) { return answer == HONGPILAS_DONE ? "done" : "refused"; }

const char *hongpilas_note_name(uint32_t code) { return code == 0 ? NULL : "note"; }

hongpilas_answer hongpilas_new_with_limits(hongpilas_session **session, const hongpilas_limits *limits, size_t size) {
  static hongpilas_session only;
  *session = &only;
  return limits == NULL || size != sizeof *limits;
}

void hongpilas_free(hongpilas_session *session) {
  if (session == NULL) return;
  puts("given back");
  fflush(stdout);
}

hongpilas_answer hongpilas_new_view(hongpilas_session *session, uint32_t *view) {
  *view = 1;
  return session == NULL;
}

hongpilas_answer hongpilas_close_view(hongpilas_session *session, uint32_t view) { return session == NULL && view == 0; }

hongpilas_answer hongpilas_send(hongpilas_session *session, uint32_t view, uint32_t number, int64_t w, int64_t l, const void *text, size_t length,
                                int64_t *value) {
  if (session == NULL) return HONGPILAS_NO_SUCH_VIEW;
  printf("%u: send %u %lld %lld \"%.*s\"\n", (unsigned)view, (unsigned)number, (long long)w, (long long)l, (int)length, (const char *)text);
  fflush(stdout);
  session->sent++;
  if (value != NULL) *value = 0;
  return HONGPILAS_DONE;
}

hongpilas_answer hongpilas_ask(const hongpilas_session *session, uint32_t view, uint32_t number, int64_t w, int64_t l, int64_t *value) {
  printf("%u: ask %u %lld %lld\n", (unsigned)view, (unsigned)number, (long long)w, (long long)l);
  fflush(stdout);
  *value = 0;
  return session == NULL;
}

hongpilas_answer hongpilas_read(hongpilas_session *session, uint32_t view, uint32_t number, int64_t w, int64_t l, const uint8_t **text, size_t *length,
                                int64_t *value) {
  printf("%u: read %u %lld %lld\n", (unsigned)view, (unsigned)number, (long long)w, (long long)l);
  fflush(stdout);
  *text = NULL;
  *length = 0;
  if (value != NULL) *value = 0;
  return session == NULL;
}

hongpilas_answer hongpilas_value(const hongpilas_session *session, int64_t *value) {
  *value = 0;
  return session == NULL;
}

hongpilas_answer hongpilas_text(const hongpilas_session *session, const uint8_t **text, size_t *length) {
  *text = NULL;
  *length = 0;
  return session == NULL;
}

hongpilas_answer hongpilas_note_count(const hongpilas_session *session, size_t *count) {
  *count = 0;
  return session == NULL;
}

hongpilas_answer hongpilas_note(const hongpilas_session *session, size_t index, hongpilas_note_data *note, size_t size) {
  return session == NULL || index == 0 || note == NULL || size == 0 ? HONGPILAS_BAD_ARGUMENT : HONGPILAS_DONE;
}

hongpilas_answer hongpilas_lend_range(hongpilas_session *session, uint32_t view, size_t start, size_t count, const uint8_t **bytes) {
  *bytes = NULL;
  return session == NULL && view == 0 && start == count;
}

hongpilas_answer hongpilas_copy_range(hongpilas_session *session, uint32_t view, size_t start, void *into, size_t count) {
  return session == NULL && view == 0 && start == count && into == NULL;
}

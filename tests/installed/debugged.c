/* Sends a text that lies nowhere, so that the proved code faults: for a look at what a debugger shows of it. */
#include <hongpilas.h>

static int send_nowhere(hongpilas_session *session, uint32_t view) {
  return hongpilas_send(session, view, SCI_INSERTTEXT, 0, 0, (const void *)16, 5, NULL) != HONGPILAS_DONE;
}

int main(void) {
  hongpilas_session *session;
  uint32_t view;
  if (hongpilas_new(&session) != HONGPILAS_DONE || hongpilas_new_view(session, &view) != HONGPILAS_DONE) return 1;
  return send_nowhere(session, view);
}

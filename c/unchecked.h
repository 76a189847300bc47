/* Proved calls that hongpilas.h does not declare, since the library's own C makes them: they open and free what a session's address leads to, and
 * name an answer. */
#ifndef HONGPILAS_UNCHECKED_H
#define HONGPILAS_UNCHECKED_H

#include <hongpilas.h>

/* What the address of a session leads to: one word, which only the proved calls read and write. */
struct hongpilas_session {
  void *at;
};

hongpilas_answer hongpilas_new_unchecked(hongpilas_session *session);
hongpilas_answer hongpilas_new_with_limits_unchecked(hongpilas_session *session, const hongpilas_limits *limits);
void hongpilas_free_unchecked(hongpilas_session session);

/* Sets *name to the first byte of the name, and returns how many bytes it has with its NUL. */
size_t hongpilas_answer_name_unchecked(hongpilas_answer answer, const uint8_t **name);

#endif

/* The plain model: sessions that answer as docs/BEHAVIOUR.md and docs/MESSAGES.md say, written from these pages alone, in C++, with arrays and whole
 * copies, and without regard for speed. fuzz.c and load.c compare the library with it. The calls are those of hongpilas.h, and answer the same; a
 * session of the model is never short of memory. */
#ifndef MODEL_H
#define MODEL_H

#include <hongpilas.h>

#ifdef __cplusplus
extern "C" {
#endif

typedef struct model model;

/* Opens a session; NULL where a limit is out of range. */
model *model_new(const hongpilas_limits *limits);
model *model_copy(const model *from);
void model_free(model *session);

hongpilas_answer model_new_view(model *session, uint32_t *view);
hongpilas_answer model_close_view(model *session, uint32_t view);
hongpilas_answer model_send(model *session, uint32_t view, uint32_t number, int64_t w, int64_t l, const uint8_t *text, size_t length, int64_t *value);
hongpilas_answer model_lend_range(model *session, uint32_t view, size_t start, size_t count, const uint8_t **bytes);

int64_t model_value(const model *session);
size_t model_text(const model *session, const uint8_t **text);
size_t model_note_count(const model *session);
bool model_note(const model *session, size_t index, hongpilas_note_data *note);

/* The answer to GETLENGTH, GETLINECOUNT, GETCURRENTPOS, GETENDSTYLED or GETDOCPOINTER, and of MARKERADD the next
 * handle, aside from the last reply; 0 of no view. */
int64_t model_peek(const model *session, uint32_t view, uint32_t number);

/* The marks of a message, as "Q N", or NULL where there is none with this number; and the numbers of all `count` messages. */
const char *model_marks(uint32_t number);
const uint32_t *model_numbers(size_t *count);

#ifdef __cplusplus
}
#endif

#endif

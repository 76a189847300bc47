/* The same calls to Scintilla and to Hongpilas in Scintilla's manner. Compiled against Scintilla's own header. */
#ifndef BESIDE_H
#define BESIDE_H

#include <Scintilla.h>

#include <hongpilas_scintilla.h>

#include <stdbool.h>
#include <stdint.h>
#include <stdio.h>

enum { VIEWS = 3, DOCUMENTS = 256, TEXT = 1 << 17, NOTES = 1 << 13 };

/* What w or l stands for. */
typedef enum place {
  NOTHING,
  POSITION,
  COUNT, /* how many bytes from the position w on, or of the text */
  LINE,
  FLAG,
  MARKER,
  MASK,
  HANDLE,
  STYLE,
  INDICATOR,
  VALUE,
  LEVEL,
  STATE,
  MODE,
  ACTION,
  TOKEN,
  STEP, /* whether a container's step coalesces */
  OPTIONS,
  SEARCH,
  EVENTS,
  TYPES,
  ROOM,     /* how many bytes a buffer takes */
  DOCUMENT, /* the number of a document, in the order in which they came; 0 for a new one */
  BYTES,    /* a text of w bytes */
  CLOSED,   /* a text up to a NUL */
  BUFFER,   /* where a text goes to */
  RANGE     /* a Sci_TextRange, whose ends are the call's w and l */
} place;

/* A message of the profile. */
typedef struct message {
  const char *name;
  unsigned int number;
  place w, l;
  int weight; /* how often it is drawn */
  bool edits; /* whether it is an edit, marked E in docs/MESSAGES.md */
} message;

extern const message messages[];
extern const int message_count;
const message *message_of(unsigned int number);

/* A call of either side. */
typedef struct call {
  const message *of;
  int view;
  int64_t w, l;
  bool is_null;  /* a null pointer in the place of a text or of a buffer */
  size_t length; /* of the text */
  char text[TEXT];
} call;

typedef struct heard {
  int view;
  SCNotification note;
  size_t text; /* where its text begins in `texts` */
} heard;

/* What a call answered. */
typedef struct answer {
  int64_t value; /* a document as its number */
  int status;
  size_t notes, texts_used, left_out;
  heard heard[NOTES];
  char texts[TEXT * 4];
  char buffer[TEXT * 2 + 16];
} answer;

typedef struct side {
  const char *name;
  SciFnDirect send;
  sptr_t views[VIEWS];
  sptr_t maker; /* if there is one, the view that makes documents */
  sptr_t documents[DOCUMENTS];
  int document_count;
  bool is_hearing;
  answer answer;
} side;

/* sides.c */
bool open_theirs(side *theirs, const char *library);
void begin_session(side *ours, side *theirs);
void open_view(side *ours, side *theirs, int view);
void close_view(side *ours, side *theirs, int view);
void perform(side *s, const call *c);
int64_t ask(const side *s, int view, unsigned int number, sptr_t w, sptr_t l);
int document_of(side *s, int view);

/* state.c: what is seen of a side through a view, part by part */
enum { PARTS = 15 };
extern const char *const part_names[PARTS];
/* The number of the first part from `from` on that differs between the sides, or -1. */
int differing_part(const side *ours, const side *theirs, int view, int from);

/* mend.c: brings a part of theirs to what ours is; false where it cannot */
bool mend(const side *ours, const side *theirs, int view, int part);

/* What a view fills in is a document's there: it is set before it is used. */
void mend_current(const side *ours, const side *theirs, int view);

/* trial.c: a call sent to both, and what differs of it */
typedef struct trial {
  side *ours, *theirs;
  const call *call;
  int views;                                                      /* how many there are */
  int64_t length, lines, caret, anchor, target_start, target_end; /* before the call, of its view */
  bool is_read_only;
  bool collects;             /* undo */
  bool is_cut;               /* the caret stands between two characters */
  int64_t level, last_child; /* of line w */
  bool is_shown;             /* line w is visible */
  bool all_shown, is_white;  /* all lines are visible; one has the white flag */
  unsigned char sent[4096];  /* which messages were sent since the views were opened, by their number less 2000 */
  int held[DOCUMENTS + 1];   /* how often the caller holds each document */
  bool is_parted;            /* a state differs: nothing more is compared */
} trial;

/* Sends a call to both and compares; false where it is one that Scintilla is not sent. */
bool try_call(trial *t, const call *c);
/* Whether notes are the same but for parts of some of them: which parts says a function of the note. EXTRA are notes of theirs that ours lacks. */
enum { PLACE = 1, KIND = 2, AT_LINE = 4, ITS_TEXT = 8, EXTRA = 16, START = 32, LAST = 64, SPAN = 128 };
bool same_notes_but(const answer *ours, const answer *theirs, unsigned int (*but)(const SCNotification *));
/* Begins a session without views on each side. */
void begin_trial(trial *t);
extern long calls_sent, values_compared, buffers_compared, notes_compared, states_compared;

/* table.c: the differences that are known */
void read_table(const char *path);
/* Counts a difference under the first row that has it, or as unlisted. `what` is "value", "buffer", "notes", "not sent" or a part of the state. */
bool is_listed(const trial *t, const char *what);
void count_difference(const trial *t, const char *what);
long print_table(void);
bool holds(const trial *t, const char *condition);

/* examples.c, random.c */
void try_example(trial *t, const char *path);
void try_random(trial *t, long calls, uint64_t seed);

/* describe.c */
void forget_calls(void);
void remember_call(const call *c);
void describe_calls(FILE *to);
void describe(FILE *to, const trial *t, const char *what);

#endif

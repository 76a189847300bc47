/* Hongpilas: an editing component with the messages of Scintilla 5.
 *
 * A session has documents and views on them. Its calls are proved: docs/MESSAGES.md,
 * which is installed in share/doc/hongpilas, states what each returns and changes. The
 * profile is the set of Scintilla's messages and notifications that are implemented here.
 *
 * Answers. A call of type hongpilas_answer returns HONGPILAS_DONE, or the number of a
 * refusal. A refused call changes nothing: neither the session, nor the last reply, nor
 * what any of its pointers points to.
 *
 * Notifications come with the reply to a message, for all views: there are no callbacks.
 *
 * Two forms. hongpilas_send, for example, tests its pointers and lengths, and then makes
 * the proved call, hongpilas_send_unchecked, which tests none of them. Use the plain
 * names. These argument checks are C code (c/checked.c): tested, not proved. The unchecked
 * forms, at the end of this header, are a little faster.
 *
 * Threads. Calls on one session must not overlap: use a lock, or pass the session through a
 * channel. A background thread works on a copy (`hongpilas_copy_range`). Different sessions
 * may be used at the same time. `const` says what a call changes, not that two threads may
 * make it at once.
 *
 * Duties of the caller, which nothing checks:
 *  - a session is used by no call after hongpilas_free;
 *  - no call is made from a signal handler, nor in the forked child of a process that
 *    has several threads;
 *  - a pointer that is not null points to what the call's type says, of that length;
 *  - borrowed bytes are only read, and only while they are valid (below). Never pass them
 *    back, as a text to send or a buffer to fill: copy them first. If their length is 0, the
 *    address means nothing;
 *  - while a call runs, no thread modifies the text that is passed to it, or touches the
 *    buffer that it fills;
 *  - the unchecked forms add duties, which are stated there.
 *
 * Borrowed bytes. The last reply, with its text and its notifications, is valid until the
 * next message that is done, or hongpilas_free: a refused message and all other calls
 * leave it unchanged. A text that hongpilas_read lends is valid until the next
 * hongpilas_read of the session, or hongpilas_free. Bytes of a document, from
 * hongpilas_lend_range, are valid until the next call on the session, queries and another
 * lend included. Only hongpilas_value, _text, _copy_text, _note_count, _note and
 * _copy_note_text leave them valid.
 *
 * Notifications of several steps. A message can take several steps: undo and redo of a
 * group, CONVERTEOLS, SETTEXT and each replacement. You read its notifications after its
 * last step. The session then shows the final text, but each notification's positions and
 * lines are those right after its own step. Therefore:
 *  - to keep a copy of a text equal, apply its insertions and deletions to the copy, in
 *    their order; take what else you need, such as a line and a column, from the copy as
 *    it is then, and not from the session;
 *  - or take a message's notifications together as "this changed", and read the session.
 *
 * Texts are bytes with a length. There is no closing NUL, and a NUL is an ordinary
 * byte. Positions and lengths are in bytes and count from 0: int64_t as values of messages,
 * and size_t in calls such as hongpilas_lend_range. Cast a position that a message returned,
 * unless it is the -1 of a message that found nothing.
 *
 * The library has no global state. It allocates by malloc, realloc and free. */
#ifndef HONGPILAS_H
#define HONGPILAS_H

#include <stdbool.h>
#include <stddef.h>
#include <stdint.h>

/* Compilers that can warn about a dropped answer do. To switch that off, define this as
 * nothing before the header is included. */
#ifndef HONGPILAS_MUST_USE
#if defined(__GNUC__) || defined(__clang__)
#define HONGPILAS_MUST_USE __attribute__((warn_unused_result))
#else
#define HONGPILAS_MUST_USE
#endif
#endif

#ifdef __cplusplus
extern "C" {
#endif

/* The version of this interface: the major number times 1000, plus the minor one. An
 * addition raises the minor number; a removal or a change of meaning raises the major one.
 * hongpilas_version returns that of the library that is linked. A program works with it if
 * the major numbers are equal (hongpilas_version() / 1000 == HONGPILAS_VERSION / 1000),
 * except that hongpilas_new_with_limits refuses a limits struct larger than the library's. */
#define HONGPILAS_VERSION 2000
uint32_t hongpilas_version(void);

/* A session. */
typedef struct hongpilas_session hongpilas_session;

/* The result of a call. */
typedef uint32_t hongpilas_answer;
enum {
  HONGPILAS_DONE = 0,
  HONGPILAS_OUT_OF_MEMORY = 1,    /* an allocation failed */
  HONGPILAS_NO_SUCH_VIEW = 2,     /* no view has this id, or the session is null */
  HONGPILAS_UNKNOWN_MESSAGE = 3,  /* the profile has no such message */
  HONGPILAS_NO_SUCH_DOCUMENT = 4, /* no document has this id, or the caller holds no reference to it */
  HONGPILAS_TOO_LONG = 5,         /* the text would exceed its limit after some step */
  HONGPILAS_BAD_ARGUMENT = 6,     /* an argument is outside the range that the message states */
  HONGPILAS_TOO_MANY = 7          /* handles, ids, references, the depth of groups or open views are used up */
};

/* Names, as strings that are never freed: of an answer, such as "no such view" ("unknown
 * refusal" if there is no such answer); of a message, such as "SCI_GETLENGTH"; and of a
 * notification's code, such as "SCN_MODIFIED". The last two return NULL for what the profile
 * does not have: test for NULL to see whether a message is supported. */
const char *hongpilas_answer_name(hongpilas_answer answer);
const char *hongpilas_message_name(uint32_t number);
const char *hongpilas_note_name(uint32_t code);

/* The marks of a message in docs/MESSAGES.md, each a bit; 0 if the profile does not have the
 * message. */
#define HONGPILAS_MARK_Q 1u /* a query: it changes nothing */
#define HONGPILAS_MARK_N 2u /* it allocates nothing (but may, while the view records) */
#define HONGPILAS_MARK_E 4u /* it edits the text */
#define HONGPILAS_MARK_R 8u /* a view that records is notified of it */
uint32_t hongpilas_message_marks(uint32_t number);

/* The limits of a session. Each is at least 1, and at most the number in its comment. */
typedef struct hongpilas_limits {
  uint64_t doc_bytes;   /* bytes of a document: 0x7FFFFFFF */
  uint64_t large_bytes; /* bytes of a document for large texts: 0x10000000000 */
  uint64_t handles;     /* marker handles of one document, ever: 0x7FFFFFFF */
  uint64_t ids;         /* document ids, ever; and view ids, ever: 0x7FFFFFFF */
  uint64_t refs;        /* references to one document: 0x7FFFFFFF */
  uint64_t views;       /* open views: 1024 */
  uint64_t depth;       /* depth of undo groups: 255 */
} hongpilas_limits;

/* All limits at their greatest, as a start for a program that lowers only some:
 * hongpilas_limits limits = HONGPILAS_GREATEST_LIMITS; */
/* clang-format off */
#define HONGPILAS_GREATEST_LIMITS {0x7FFFFFFF, 0x10000000000, 0x7FFFFFFF, 0x7FFFFFFF, 0x7FFFFFFF, 1024, 255}
/* clang-format on */

/* Every call first makes these tests, in this order, before those listed at the call. It
 * refuses
 *
 *   NO_SUCH_VIEW if the session is null, and so has no views;
 *   BAD_ARGUMENT if a pointer to a result or to limits is null, unless the call says that
 *     it may be; if a text or a buffer is null and its length is not 0; and if its length
 *     is above 2^63 - 1.
 *
 * A text or a buffer of length 0 may be null. Starts, indexes, ids, and the count of
 * hongpilas_lend_range are not tested here: each call says what it does with them. The count
 * of hongpilas_copy_range is tested, as the length of its buffer. */

/* Opens a session without documents and views, with the greatest limits or with lower ones,
 * and sets *session to it. `size` is sizeof(hongpilas_limits): later versions of that struct
 * may have more members. A limit that an older caller's struct lacks is at its greatest.
 * Refused: OUT_OF_MEMORY; BAD_ARGUMENT if a limit is 0 or above the greatest, if `session`
 * is null, or if `size` is smaller than the struct of version 2.0 or larger than the
 * library's. */
HONGPILAS_MUST_USE hongpilas_answer hongpilas_new(hongpilas_session **session);
HONGPILAS_MUST_USE hongpilas_answer hongpilas_new_with_limits(hongpilas_session **session, const hongpilas_limits *limits, size_t size);

/* Frees a session with all that it owns. Does nothing if it is null. */
void hongpilas_free(hongpilas_session *session);

/* Opens a view on a new document, and sets *view to its id: 1, 2, 3 and so on. No id is
 * given twice. Refused: TOO_MANY, OUT_OF_MEMORY. */
HONGPILAS_MUST_USE hongpilas_answer hongpilas_new_view(hongpilas_session *session, uint32_t *view);

/* Closes a view. A document to which no other view is attached, and which no caller
 * holds, is freed with it. Allocates nothing. Refused: NO_SUCH_VIEW. */
HONGPILAS_MUST_USE hongpilas_answer hongpilas_close_view(hongpilas_session *session, uint32_t view);

/* Sends a message to a view. docs/MESSAGES.md says what w, l and the text mean, what the
 * message does, and when it is refused. If it names w `length`, pass in w how many bytes of
 * the text the message takes: APPENDTEXT with w 0 appends nothing. The text is read
 * during the call only: no pointer to it is kept. Sets *value to the value of the reply; `value` may be null. The
 * reply, with its text and its notifications, replaces the last one. */
HONGPILAS_MUST_USE hongpilas_answer hongpilas_send(hongpilas_session *session, uint32_t view, uint32_t number, int64_t w, int64_t l, const void *text,
                                                   size_t length, int64_t *value);

/* Sends a view a query: a message that changes nothing, marked Q below and in
 * docs/MESSAGES.md. SEARCHINTARGET moves the target, so it is no query.
 * Sets *value to the value with which hongpilas_send would answer it. Neither the session
 * nor the last reply changes, so that a program may ask while it reads notifications.
 * hongpilas_read also lends the text with which hongpilas_send would answer: it sets *text
 * to its first byte, and *length. The text is valid until the next hongpilas_read of the
 * session, or hongpilas_free; here `value` may be null. A query for a text builds the whole
 * text, even in hongpilas_ask, which discards it: for a length use SCI_GETLENGTH.
 * Refused: UNKNOWN_MESSAGE if the message is no query; otherwise as by hongpilas_send, so that
 * a query with a text may be refused as OUT_OF_MEMORY. */
HONGPILAS_MUST_USE hongpilas_answer hongpilas_ask(const hongpilas_session *session, uint32_t view, uint32_t number, int64_t w, int64_t l, int64_t *value);
HONGPILAS_MUST_USE hongpilas_answer hongpilas_read(hongpilas_session *session, uint32_t view, uint32_t number, int64_t w, int64_t l, const uint8_t **text,
                                                   size_t *length, int64_t *value);

/* Sets *value to the value of the last reply: 0 before the first message that was done. */
HONGPILAS_MUST_USE hongpilas_answer hongpilas_value(const hongpilas_session *session, int64_t *value);

/* Lends the last reply's text, as long as the reply is valid: sets *text to its first
 * byte, and *length. The second form copies the bytes from `start` on, as many as there are
 * and as fit, and sets *count to how many that is. */
HONGPILAS_MUST_USE hongpilas_answer hongpilas_text(const hongpilas_session *session, const uint8_t **text, size_t *length);
HONGPILAS_MUST_USE hongpilas_answer hongpilas_copy_text(const hongpilas_session *session, size_t start, void *into, size_t capacity, size_t *count);

/* A notification of a view. Fields that its code does not use are 0. */
typedef struct hongpilas_note_data {
  uint32_t view;    /* the view that is notified */
  uint32_t code;    /* which notification, such as SCN_MODIFIED */
  uint32_t kind;    /* Scintilla's modificationType */
  uint32_t message; /* the number of a recorded message */
  int64_t position; /* a position, in bytes */
  int64_t length;   /* a length, in bytes */
  int64_t lines;    /* Scintilla's linesAdded */
  int64_t line;     /* a line, from 0; -1 for all lines */
  int64_t now;      /* a fold level after a change: foldLevelNow */
  int64_t prev;     /* a fold level before it: foldLevelPrev */
  int64_t token;    /* the token of a container's own undo step */
  int64_t w;        /* the arguments of a recorded message */
  int64_t l;
  const uint8_t *text; /* the notification's text, valid as long as the reply is */
  size_t text_length;  /* its length, in bytes */
} hongpilas_note_data;

/* The first call sets *count to how many notifications the last reply has. The second sets
 * *note to the one with this index, from 0, in the order of notification. `size` is
 * sizeof(hongpilas_note_data): later versions of that struct may have more members. Those
 * that the library does not have are set to 0.
 * Refused: BAD_ARGUMENT if there is no such notification, or if `size` is smaller than the
 * struct of version 2.0. */
HONGPILAS_MUST_USE hongpilas_answer hongpilas_note_count(const hongpilas_session *session, size_t *count);
HONGPILAS_MUST_USE hongpilas_answer hongpilas_note(const hongpilas_session *session, size_t index, hongpilas_note_data *note, size_t size);

/* Copies a notification's text from `start` on, as many bytes as there are and as fit, and
 * sets *count to how many that is. Refused: BAD_ARGUMENT if there is no such notification. */
HONGPILAS_MUST_USE hongpilas_answer hongpilas_copy_note_text(const hongpilas_session *session, size_t index, size_t start, void *into, size_t capacity,
                                                             size_t *count);

/* Lends the `count` bytes of the view's document from `start` on, without a copy: sets
 * *bytes to the first. They are valid until the next call on the session, queries and
 * another lend included. Only hongpilas_value, _text, _copy_text, _note_count, _note and
 * _copy_note_text leave them valid. hongpilas_copy_range copies exactly `count` bytes into
 * `into`, or is refused. Neither changes the session or the last reply, and neither allocates.
 * Refused: NO_SUCH_VIEW; BAD_ARGUMENT if the range ends past the end of the text. */
HONGPILAS_MUST_USE hongpilas_answer hongpilas_lend_range(hongpilas_session *session, uint32_t view, size_t start, size_t count, const uint8_t **bytes);
HONGPILAS_MUST_USE hongpilas_answer hongpilas_copy_range(hongpilas_session *session, uint32_t view, size_t start, void *into, size_t count);

/* The unchecked forms: the proved calls themselves. Each does what the call of the same name
 * without `unchecked` does, and tests no pointer and no length. In addition to the duties
 * above, no pointer may be null, even if its length is 0, and no length may be above
 * 2^63 - 1. Calls below that do not return hongpilas_answer cannot be refused, and return
 * their result directly. hongpilas_note_unchecked returns whether there is such a
 * notification, and sets only the members of version 2.0; the text of one that does not
 * exist is empty. */
HONGPILAS_MUST_USE hongpilas_answer hongpilas_new_view_unchecked(hongpilas_session *session, uint32_t *view);
HONGPILAS_MUST_USE hongpilas_answer hongpilas_close_view_unchecked(hongpilas_session *session, uint32_t view);
HONGPILAS_MUST_USE hongpilas_answer hongpilas_send_unchecked(hongpilas_session *session, uint32_t view, uint32_t number, int64_t w, int64_t l,
                                                             const uint8_t *text, size_t length, int64_t *value);
HONGPILAS_MUST_USE hongpilas_answer hongpilas_ask_unchecked(const hongpilas_session *session, uint32_t view, uint32_t number, int64_t w, int64_t l,
                                                            int64_t *value);
HONGPILAS_MUST_USE hongpilas_answer hongpilas_read_unchecked(hongpilas_session *session, uint32_t view, uint32_t number, int64_t w, int64_t l,
                                                             const uint8_t **text, size_t *length, int64_t *value);
int64_t hongpilas_value_unchecked(const hongpilas_session *session);
size_t hongpilas_text_unchecked(const hongpilas_session *session, const uint8_t **text);
size_t hongpilas_copy_text_unchecked(const hongpilas_session *session, size_t start, uint8_t *into, size_t capacity);
size_t hongpilas_note_count_unchecked(const hongpilas_session *session);
bool hongpilas_note_unchecked(const hongpilas_session *session, size_t index, hongpilas_note_data *note);
size_t hongpilas_copy_note_text_unchecked(const hongpilas_session *session, size_t index, size_t start, uint8_t *into, size_t capacity);
HONGPILAS_MUST_USE hongpilas_answer hongpilas_lend_range_unchecked(hongpilas_session *session, uint32_t view, size_t start, size_t count,
                                                                   const uint8_t **bytes);
HONGPILAS_MUST_USE hongpilas_answer hongpilas_copy_range_unchecked(hongpilas_session *session, uint32_t view, size_t start, uint8_t *into, size_t count);

/* Scintilla's names and numbers, as far as the profile has them. Left out if Scintilla.h was included before. */
#ifndef SCINTILLA_H
/* Written by tools/pages/header.py: begin */
/* Messages. A comment begins with Q if the message is a query, for hongpilas_ask and hongpilas_read, and with the names of w and l, or of w
 * and the text, as docs/MESSAGES.md has them. 0 is an argument without a meaning. */
/* clang-format off */
#define SCI_ADDTEXT                2001 /* (length, text): Inserts `text` at the caret, and moves anchor and caret to the end of the inserted text. */
#define SCI_INSERTTEXT             2003 /* (position, text): Inserts `text` at `position`, or at the caret if `position` is -1. */
#define SCI_CLEARALL               2004 /* Deletes the whole text. */
#define SCI_GETLENGTH              2006 /* Q: Returns the length of the text. */
#define SCI_GETCHARAT              2007 /* Q (position): Returns the byte at `position`, 0 to 255, or 0 if there is none. */
#define SCI_GETCURRENTPOS          2008 /* Q: Returns the position of the caret. */
#define SCI_GETANCHOR              2009 /* Q: Returns the position of the anchor. */
#define SCI_GETSTYLEAT             2010 /* Q (position): Returns the style of the byte at `position`, or 0 if there is none. */
#define SCI_REDO                   2011 /* Performs again the transaction that was undone last; does nothing while a group is open, or if there is no
                                           transaction to redo. */
#define SCI_SETUNDOCOLLECTION      2012 /* (on): Sets whether undo is collected. */
#define SCI_SELECTALL              2013 /* Moves the anchor to 0 and the caret to the end of the text. */
#define SCI_SETSAVEPOINT           2014 /* Makes the current state the save point, and always sends SCN_SAVEPOINTREACHED. */
#define SCI_GETSTYLEDTEXT          2015 /* Q (start, end): Returns each byte from `start` to `end`, followed by its style; the value is the number of bytes
                                           returned. */
#define SCI_CANREDO                2016 /* Q: Returns whether REDO would change something: no group is open, the document is not read-only, and there is a
                                           transaction to redo. */
#define SCI_MARKERLINEFROMHANDLE   2017 /* Q (handle): Returns the line of the marker with `handle`, or -1 if there is none. */
#define SCI_MARKERDELETEHANDLE     2018 /* (handle): Removes the marker with `handle`. */
#define SCI_GETUNDOCOLLECTION      2019 /* Q: Returns whether undo is collected. */
#define SCI_GOTOLINE               2024 /* (line): Moves anchor and caret to the start of line `line`; a negative number stands for the first line, one that is
                                           too great for the last. */
#define SCI_GOTOPOS                2025 /* (position): Moves anchor and caret to `position` (clamped to the text). */
#define SCI_SETANCHOR              2026 /* (position): Moves the anchor to `position` (clamped to the text); the caret stays. */
#define SCI_GETCURLINE             2027 /* Q: Returns the caret's line with its line end; the value is the caret's distance from the line's start, in bytes. */
#define SCI_GETENDSTYLED           2028 /* Q: Returns end styled: the position up to which the document is styled. */
#define SCI_CONVERTEOLS            2029 /* (mode): Turns each CRLF, CR and LF of the text into one line end: `SC_EOL_CRLF` 0, `SC_EOL_CR` 1 or `SC_EOL_LF` 2. */
#define SCI_GETEOLMODE             2030 /* Q: Returns the document's line end: `SC_EOL_CRLF`, `SC_EOL_CR` or `SC_EOL_LF`. */
#define SCI_SETEOLMODE             2031 /* (mode): Sets the document's line end: `SC_EOL_CRLF` 0, `SC_EOL_CR` 1 or `SC_EOL_LF` 2. */
#define SCI_STARTSTYLING           2032 /* (position): Moves end styled to `position`. */
#define SCI_SETSTYLING             2033 /* (length, style): Gives `style` to the `length` bytes from end styled on, and moves end styled after them. */
#define SCI_MARKERADD              2043 /* (line, number): Adds a marker with `number` to line `line`, after those that it has, and returns its handle; -1 if
                                           there is no such line. */
#define SCI_MARKERDELETE           2044 /* (line, number): Removes from line `line`, if there is such a line, the first marker with `number`, or all markers if
                                           that is -1. */
#define SCI_MARKERDELETEALL        2045 /* (number): Removes all markers with `number` from the document, or all markers if that is -1. */
#define SCI_MARKERGET              2046 /* Q (line): Returns the mask of the markers of line `line`: bit k is set if it has one with number k; 0 if there is no
                                           such line. */
#define SCI_MARKERNEXT             2047 /* Q (line, mask): Returns the first line from `line` on that has a marker whose bit is set in the low 32 bits of
                                           `mask`, or -1. */
#define SCI_MARKERPREVIOUS         2048 /* Q (line, mask): Returns the last line up to `line` that has a marker whose bit is set in the low 32 bits of `mask`,
                                           or -1. */
#define SCI_SETSTYLINGEX           2073 /* (length, styles): Gives each byte from end styled on the style that `styles` has for it, and moves end styled after
                                           the last one. */
#define SCI_BEGINUNDOACTION        2078 /* Opens an undo group, inside those that are open. */
#define SCI_ENDUNDOACTION          2079 /* Closes the undo group that was opened last. */
#define SCI_SETLINESTATE           2092 /* (line, state): Sets the state of line `line`, if there is such a line. */
#define SCI_GETLINESTATE           2093 /* Q (line): Returns the state of line `line`, or 0 if there is no such line. */
#define SCI_GETLINEENDPOSITION     2136 /* Q (line): Returns where the line end of line `line` begins; the text's length for the last line and past it; -1 if
                                           `line` is negative. */
#define SCI_GETREADONLY            2140 /* Q: Returns whether the document is read-only. */
#define SCI_SETCURRENTPOS          2141 /* (position): Moves the caret to `position` (clamped to the text); the anchor stays. */
#define SCI_SETSELECTIONSTART      2142 /* (position): Moves the anchor to `position` (clamped to the text); if the caret is before it, moves the caret there
                                           too. */
#define SCI_GETSELECTIONSTART      2143 /* Q: Returns the selection's start: the lesser of anchor and caret. */
#define SCI_SETSELECTIONEND        2144 /* (position): Moves the caret to `position` (clamped to the text); if the anchor is after it, moves the anchor there
                                           too. */
#define SCI_GETSELECTIONEND        2145 /* Q: Returns the selection's end: the greater of anchor and caret. */
#define SCI_GETLINE                2153 /* Q (line): Returns line `line` with its line end; the value is its length. */
#define SCI_GETLINECOUNT           2154 /* Q: Returns the number of lines, which is at least 1. */
#define SCI_GETMODIFY              2159 /* Q: Returns whether the document is modified, that is, not at its save point. */
#define SCI_SETSEL                 2160 /* (anchor, caret): Moves the anchor to `anchor` and the caret to `caret` (both clamped to the text). */
#define SCI_GETSELTEXT             2161 /* Q: Returns the selected text; the value is its length. */
#define SCI_GETTEXTRANGE           2162 /* Q (start, end): Returns the text from `start` to `end`; the value is its length. */
#define SCI_LINEFROMPOSITION       2166 /* Q (position): Returns the line that contains `position` (clamped to the text). */
#define SCI_POSITIONFROMLINE       2167 /* Q (line): Returns the start of line `line`. */
#define SCI_REPLACESEL             2170 /* (0, text): Replaces the selection by `text`, and moves anchor and caret to the end of the inserted text. */
#define SCI_SETREADONLY            2171 /* (on): Makes the document read-only, or writable if `on` is false. */
#define SCI_CANPASTE               2173 /* Q: Returns whether text can be pasted: whether the document is not read-only. */
#define SCI_CANUNDO                2174 /* Q: Returns whether UNDO would change something: no group is open, the document is not read-only, and there is a
                                           transaction to undo. */
#define SCI_EMPTYUNDOBUFFER        2175 /* Forgets the history, closes all groups, and makes the current state the save point. */
#define SCI_UNDO                   2176 /* Takes back the last transaction; does nothing while a group is open, or if there is no transaction to undo. */
#define SCI_CUT                    2177 /* Copies the selection to the clipboard and deletes it. */
#define SCI_COPY                   2178 /* Copies the selection to the clipboard. */
#define SCI_PASTE                  2179 /* Replaces the selection by the clipboard, and moves anchor and caret to the end of the inserted text. */
#define SCI_CLEAR                  2180 /* Deletes the selection, or, if that is empty, the bytes from the caret to the next character boundary. */
#define SCI_SETTEXT                2181 /* (0, text): Replaces the whole text by `text`. */
#define SCI_GETTEXT                2182 /* Q: Returns the whole text; the value is its length. */
#define SCI_GETTEXTLENGTH          2183 /* Q: Returns the length of the text. */
#define SCI_SETTARGETSTART         2190 /* (position): Sets the target's start to `position` (clamped to the text). */
#define SCI_GETTARGETSTART         2191 /* Q: Returns the target's start. */
#define SCI_SETTARGETEND           2192 /* (position): Sets the target's end to `position` (clamped to the text). */
#define SCI_GETTARGETEND           2193 /* Q: Returns the target's end. */
#define SCI_REPLACETARGET          2194 /* (length, text): Replaces the text between the target's ends by `text`, makes the inserted text the target, and
                                           returns its length. */
#define SCI_SEARCHINTARGET         2197 /* (length, text): Searches the target for `text` by the view's search flags. */
#define SCI_SETSEARCHFLAGS         2198 /* (flags): Sets the view's search flags to `flags`: 0, or made of `SCFIND_WHOLEWORD` 0x2, `SCFIND_MATCHCASE` 0x4 and
                                           `SCFIND_WORDSTART` 0x100000. */
#define SCI_GETSEARCHFLAGS         2199 /* Q: Returns the view's search flags. */
#define SCI_VISIBLEFROMDOCLINE     2220 /* Q (line): Returns the display line of line `line`; for a hidden line that of the last visible line before it; -1 if
                                           there is no such line. */
#define SCI_DOCLINEFROMVISIBLE     2221 /* Q (displayLine): Returns the line at display line `displayLine`; 0 if that is negative, and the number of lines if it
                                           is past the last. */
#define SCI_SETFOLDLEVEL           2222 /* (line, level): Sets the fold level of line `line`, if there is such a line. */
#define SCI_GETFOLDLEVEL           2223 /* Q (line): Returns the fold level of line `line`, or 1024 (`SC_FOLDLEVELBASE`) if there is no such line. */
#define SCI_GETLASTCHILD           2224 /* Q (line, level): Returns the last child of line `line`, or -1 if there is no such line. */
#define SCI_GETFOLDPARENT          2225 /* Q (line): Returns the fold parent of line `line`: the nearest earlier header with a smaller level number; -1 if there
                                           is none, or no such line. */
#define SCI_SHOWLINES              2226 /* (first, last): Makes the lines from `first` to `last` visible, as far as they exist. */
#define SCI_HIDELINES              2227 /* (first, last): Hides the lines from `first` to `last`, as far as they exist, except line 0. */
#define SCI_GETLINEVISIBLE         2228 /* Q (line): Returns whether line `line` is visible; false if there is no such line. */
#define SCI_SETFOLDEXPANDED        2229 /* (line, on): Sets whether line `line` is expanded, if there is such a line; shows and hides nothing. */
#define SCI_GETFOLDEXPANDED        2230 /* Q (line): Returns whether line `line` is expanded; false if there is no such line. */
#define SCI_TOGGLEFOLD             2231 /* (line): Contracts line `line` if it is an expanded header, and expands it if it is a contracted one; if it is no
                                           header, does the same to its fold parent, if it has one. */
#define SCI_ENSUREVISIBLE          2232 /* (line): Makes a hidden line `line` visible; before that, makes each of its fold parents visible, and expands those
                                           that are contracted, the outermost first. */
#define SCI_GETALLLINESVISIBLE     2236 /* Q: Returns whether all lines are visible. */
#define SCI_FOLDLINE               2237 /* (line, action): Contracts, expands or toggles line `line` if it is a header, else its fold parent, if it has one. */
#define SCI_APPENDTEXT             2282 /* (length, text): Inserts `text` at the end of the document. */
#define SCI_TARGETFROMSELECTION    2287 /* Sets the target's start and end to those of the selection, the lesser first. */
#define SCI_CHARLEFT               2304 /* Moves anchor and caret to the selection's start, or, if it is empty, to the character boundary before the caret. */
#define SCI_CHARLEFTEXTEND         2305 /* Moves the caret to the character boundary before it; the anchor stays. */
#define SCI_CHARRIGHT              2306 /* Moves anchor and caret to the selection's end, or, if it is empty, to the character boundary after the caret. */
#define SCI_CHARRIGHTEXTEND        2307 /* Moves the caret to the character boundary after it; the anchor stays. */
#define SCI_HOME                   2312 /* Moves anchor and caret to the start of the caret's line. */
#define SCI_HOMEEXTEND             2313 /* Moves the caret to the start of its line; the anchor stays. */
#define SCI_LINEEND                2314 /* Moves anchor and caret to where the line end of the caret's line begins. */
#define SCI_LINEENDEXTEND          2315 /* Moves the caret to where the line end of its line begins; the anchor stays. */
#define SCI_DOCUMENTSTART          2316 /* Moves anchor and caret to 0. */
#define SCI_DOCUMENTSTARTEXTEND    2317 /* Moves the caret to 0; the anchor stays. */
#define SCI_DOCUMENTEND            2318 /* Moves anchor and caret to the end of the text. */
#define SCI_DOCUMENTENDEXTEND      2319 /* Moves the caret to the end of the text; the anchor stays. */
#define SCI_DELETEBACK             2326 /* Deletes the selection, or, if that is empty, the bytes from the character boundary before the caret to the caret. */
#define SCI_NEWLINE                2329 /* Replaces the selection by the document's line end, and moves anchor and caret to the end of the inserted text. */
#define SCI_LINELENGTH             2350 /* Q (line): Returns the length of line `line` with its line end, or 0 if there is no such line. */
#define SCI_GETDOCPOINTER          2357 /* Q: Returns the id of the view's document. */
#define SCI_SETDOCPOINTER          2358 /* (0, document): Attaches the view to `document`, or to a new document if that is 0. */
#define SCI_SETMODEVENTMASK        2359 /* (mask): Sets the view's mask: the kinds of SCN_MODIFIED that it is subscribed to, a bit for each. */
#define SCI_CREATEDOCUMENT         2375 /* (bytes, options): Creates a document, held once by the caller, and returns its id; `bytes` is not used. */
#define SCI_ADDREFDOCUMENT         2376 /* (0, document): Adds a reference to `document` that the caller holds. */
#define SCI_RELEASEDOCUMENT        2377 /* (0, document): Gives back a reference to `document` that a caller holds. */
#define SCI_GETMODEVENTMASK        2378 /* Q: Returns the view's mask: the kinds of SCN_MODIFIED that it is subscribed to. */
#define SCI_GETDOCUMENTOPTIONS     2379 /* Q: Returns the options of the view's document: 0, or made of `SC_DOCUMENTOPTION_STYLES_NONE` and
                                           `SC_DOCUMENTOPTION_TEXT_LARGE`. */
#define SCI_POSITIONBEFORE         2417 /* Q (position): Returns the last character boundary before `position` (clamped to the text), or 0. */
#define SCI_POSITIONAFTER          2418 /* Q (position): Returns the first character boundary after `position` (clamped to the text), or the text's length. */
#define SCI_COPYRANGE              2419 /* (start, end): Makes the text from `start` to `end` the clipboard, even if that is empty. */
#define SCI_COPYTEXT               2420 /* (length, text): Makes `text` the clipboard, even if it is empty. */
#define SCI_MARKERADDSET           2466 /* (line, mask): Adds to line `line`, if there is such a line, a marker for each bit that is set in `mask`, in rising
                                           order. */
#define SCI_SETPASTECONVERTENDINGS 2467 /* (on): Sets whether this view converts line ends in what it pastes. */
#define SCI_GETPASTECONVERTENDINGS 2468 /* Q: Returns whether this view converts line ends in what it pastes. */
#define SCI_SETINDICATORCURRENT    2500 /* (number): Sets the view's current indicator. */
#define SCI_GETINDICATORCURRENT    2501 /* Q: Returns the view's current indicator. */
#define SCI_SETINDICATORVALUE      2502 /* (value): Sets the value that this view's INDICATORFILLRANGE writes; 0 counts as 1. */
#define SCI_GETINDICATORVALUE      2503 /* Q: Returns the value that this view's INDICATORFILLRANGE writes. */
#define SCI_INDICATORFILLRANGE     2504 /* (start, length): Gives the view's current indicator the view's value over the `length` bytes from `start` on. */
#define SCI_INDICATORCLEARRANGE    2505 /* (start, length): Gives the view's current indicator the value 0 over the `length` bytes from `start` on. */
#define SCI_INDICATORALLONFOR      2506 /* Q (position): Returns a mask in which bit k is set if indicator k is not 0 at the byte at `position`; 0 if there is
                                           no such byte. */
#define SCI_INDICATORVALUEAT       2507 /* Q (number, position): Returns the value of indicator `number` at the byte at `position`, or 0 if there is no such
                                           byte. */
#define SCI_INDICATORSTART         2508 /* Q (number, position): Returns the start of the longest run of one value of indicator `number` around the byte at
                                           `position`; 0 if there is no such byte. */
#define SCI_INDICATOREND           2509 /* Q (number, position): Returns the end of the longest run of one value of indicator `number` around the byte at
                                           `position`: the place after its last byte; 0 if there is no such byte. */
#define SCI_SETEMPTYSELECTION      2556 /* (position): Moves anchor and caret to `position` (clamped to the text). */
#define SCI_ADDUNDOACTION          2560 /* (token, flags): Appends a container action with `token` to the history, also on a read-only document. */
#define SCI_DELETERANGE            2645 /* (start, length): Deletes the `length` bytes from `start` on. */
#define SCI_GETSELECTIONEMPTY      2650 /* Q: Returns whether the selection is empty. */
#define SCI_SETLINEENDTYPESALLOWED 2656 /* (types): Sets which line ends the document allows, also if it is read-only: `SC_LINE_END_TYPE_DEFAULT` 0, or
                                           `SC_LINE_END_TYPE_UNICODE` 1 for those of Unicode too. */
#define SCI_GETLINEENDTYPESALLOWED 2657 /* Q: Returns which line ends the document allows: `SC_LINE_END_TYPE_DEFAULT` or `SC_LINE_END_TYPE_UNICODE`. */
#define SCI_GETLINEENDTYPESACTIVE  2658 /* Q: Returns which line ends divide the text: those that the document allows, `SC_LINE_END_TYPE_DEFAULT` or
                                           `SC_LINE_END_TYPE_UNICODE`. */
#define SCI_SETTARGETRANGE         2686 /* (start, end): Sets the target's start to `start` and its end to `end` (both clamped to the text). */
#define SCI_GETTARGETTEXT          2687 /* Q: Returns the text between the target's ends, whichever is the lesser; the value is its length. */
#define SCI_TARGETWHOLEDOCUMENT    2690 /* Sets the target's start to 0 and its end to the end of the text. */
#define SCI_STARTRECORD            3001 /* Starts recording in this view: it is notified by SCN_MACRORECORD of each message marked R, before all else. */
#define SCI_STOPRECORD             3002 /* Stops recording in this view. */
#define SCI_COLOURISE              4003 /* (start, end): Asks for styles up to `end`: if end styled is after `start`, moves it back to `start`; then sends the
                                           view SCN_STYLENEEDED with the position `end`, even for an empty range. */
/* clang-format on */

/* Notifications. */
#define SCN_STYLENEEDED      2000
#define SCN_SAVEPOINTREACHED 2002
#define SCN_SAVEPOINTLEFT    2003
#define SCN_MODIFYATTEMPTRO  2004
#define SCN_MODIFIED         2008
#define SCN_MACRORECORD      2009

/* Constants. */
#define SCFIND_MATCHCASE              0x4
#define SCFIND_WHOLEWORD              0x2
#define SCFIND_WORDSTART              0x00100000
#define SC_DOCUMENTOPTION_STYLES_NONE 0x1
#define SC_DOCUMENTOPTION_TEXT_LARGE  0x100
#define SC_EOL_CR                     1
#define SC_EOL_CRLF                   0
#define SC_EOL_LF                     2
#define SC_FOLDACTION_CONTRACT        0
#define SC_FOLDACTION_EXPAND          1
#define SC_FOLDACTION_TOGGLE          2
#define SC_FOLDLEVELBASE              0x400
#define SC_FOLDLEVELHEADERFLAG        0x2000
#define SC_FOLDLEVELNUMBERMASK        0x0FFF
#define SC_FOLDLEVELWHITEFLAG         0x1000
#define SC_LASTSTEPINUNDOREDO         0x100
#define SC_LINE_END_TYPE_DEFAULT      0
#define SC_LINE_END_TYPE_UNICODE      1
#define SC_MODEVENTMASKALL            0x7FFFFF
#define SC_MOD_BEFOREDELETE           0x800
#define SC_MOD_BEFOREINSERT           0x400
#define SC_MOD_CHANGEFOLD             0x8
#define SC_MOD_CHANGEINDICATOR        0x4000
#define SC_MOD_CHANGELINESTATE        0x8000
#define SC_MOD_CHANGEMARKER           0x200
#define SC_MOD_CHANGESTYLE            0x4
#define SC_MOD_CONTAINER              0x40000
#define SC_MOD_DELETETEXT             0x2
#define SC_MOD_INSERTTEXT             0x1
#define SC_MULTILINEUNDOREDO          0x1000
#define SC_MULTISTEPUNDOREDO          0x80
#define SC_PERFORMED_REDO             0x40
#define SC_PERFORMED_UNDO             0x20
#define SC_PERFORMED_USER             0x10
#define SC_STARTACTION                0x2000
#define UNDO_MAY_COALESCE             1
#define UNDO_NONE                     0
/* Written by tools/pages/header.py: end */
#endif

#ifdef __cplusplus
}
#endif

#endif

/* Hongpilas with Scintilla's own interface: a program that calls Scintilla by SciFnDirect calls a view of Hongpilas by
 * hongpilas_direct, with the same messages, texts, structs and notifications. The two differences that matter most
 * (docs/FROM_SCINTILLA.md has all):
 *
 *  1. Notifications come when their message is done, and not in the middle of it. Inside a notify function every message is
 *     performed, except those that edit the text (marked E in docs/MESSAGES.md): they are refused, and the view's status
 *     becomes SC_STATUS_FAILURE. (Scintilla, too, refuses to change the text inside SCN_MODIFIED.) Look at SCI_GETSTATUS.
 *  2. A message that takes several steps, such as SCI_UNDO of a group, is done as a whole before its notifications come:
 *     their positions are those of the text just after each step. Apply them in order to a copy (hongpilas.h says more).
 *
 * Include this header instead of Scintilla.h. If Scintilla.h is included before, its own types and names are used. If it is
 * included afterwards, it declares nothing.
 *
 *     SciFnDirect send = hongpilas_direct;
 *     hongpilas_scintilla *component = hongpilas_scintilla_new();
 *     sptr_t view = hongpilas_scintilla_open(component);
 *     if (view != 0) {
 *       hongpilas_set_notify(view, on_notify, NULL);
 *       send(view, SCI_ADDTEXT, 5, (sptr_t)"hello");
 *     }
 *     hongpilas_scintilla_free(component);
 *
 * docs/MESSAGES.md has the messages. It, docs/FROM_SCINTILLA.md and docs/PROFILE.md state where Scintilla differs.
 * hongpilas_message_name returns NULL if the profile does not have a message.
 * A null component and the view 0 are harmless in every call below, which says what it does with them. The duties of
 * the caller in hongpilas.h hold here, too: calls on one component must not overlap, and none is made from a signal
 * handler; a component may be passed to another thread, but not while one of its notify functions runs; a component
 * that was freed, and a view that was closed or whose component was freed, is used by no call. Never pass memory of the
 * component as a text or a buffer: copy a notification's text first. While a call runs, no thread modifies the text that
 * is passed to it, or touches the buffer that it fills. Two duties are added, for notify functions:
 *  - a call made while a notify function runs is made on that function's own stack, not on that of another coroutine;
 *  - if you longjmp out of a notify function that ran on a coroutine's stack, the component may read that stack later. Free
 *    the stack only after the component was freed, or after a message was sent, outside all notify functions, that delivers
 *    notifications (see hongpilas_set_notify). The component never reads the stack of another thread, so a thread may end. */
#ifndef HONGPILAS_SCINTILLA_H
#define HONGPILAS_SCINTILLA_H

#include <hongpilas.h>

#include <stddef.h>
#include <stdint.h>

/* ---- Scintilla's types, and its names that hongpilas.h does not have ---- */

#ifndef SCINTILLA_H
#define SCINTILLA_H

typedef uintptr_t uptr_t;
typedef intptr_t sptr_t;
typedef ptrdiff_t Sci_Position;
typedef size_t Sci_PositionU;
typedef long Sci_PositionCR;

typedef sptr_t (*SciFnDirect)(sptr_t ptr, unsigned int iMessage, uptr_t wParam, sptr_t lParam);
typedef sptr_t (*SciFnDirectStatus)(sptr_t ptr, unsigned int iMessage, uptr_t wParam, sptr_t lParam, int *pStatus);

#define INVALID_POSITION          -1
#define MARKER_MAX                31
#define SC_DOCUMENTOPTION_DEFAULT 0
#define SC_MOD_NONE               0
#define SC_STATUS_OK              0
#define SC_STATUS_FAILURE         1
#define SC_STATUS_BADALLOC        2
#define SCFIND_NONE               0
#define SCI_SETSTATUS             2382
#define SCI_GETSTATUS             2383
#define SCI_GETRANGEPOINTER       2643

/* A range of positions; cpMax may be -1, for the end of the text. */
struct Sci_CharacterRange {
  Sci_PositionCR cpMin;
  Sci_PositionCR cpMax;
};

/* A range, and the buffer for its text. */
struct Sci_TextRange {
  struct Sci_CharacterRange chrg;
  char *lpstrText;
};

#ifndef __cplusplus
typedef struct Sci_NotifyHeader Sci_NotifyHeader;
typedef struct SCNotification SCNotification;
#endif

struct Sci_NotifyHeader {
  void *hwndFrom; /* the view: an sptr_t, cast */
  uptr_t idFrom;  /* 0 */
  unsigned int code;
};

/* A notification. Fields that its code does not use are 0, and so are fields that the profile does not have. */
struct SCNotification {
  Sci_NotifyHeader nmhdr;
  Sci_Position position; /* SCN_MODIFIED, SCN_STYLENEEDED */
  int ch;
  int modifiers;
  int modificationType; /* SCN_MODIFIED; so are all fields below that are used, except the three of SCN_MACRORECORD */
  const char *text;     /* `length` bytes, without a closing NUL */
  Sci_Position length;  /* in bytes */
  Sci_Position linesAdded;
  int message; /* SCN_MACRORECORD, as the two fields below */
  uptr_t wParam;
  sptr_t lParam; /* as in the recorded call: if it points to a text, that memory is the sender's */
  Sci_Position line;
  int foldLevelNow;
  int foldLevelPrev;
  int margin;
  int listType;
  int x;
  int y;
  int token; /* SC_MOD_CONTAINER */
  Sci_Position annotationLinesAdded;
  int updated;
  int listCompletionMethod;
  int characterSource;
};

#endif

#ifdef __cplusplus
extern "C" {
#endif

/* A component: a session, and the views that were opened through it. */
typedef struct hongpilas_scintilla hongpilas_scintilla;

/* Opens a session without views, with the greatest limits or with lower ones; `size` is sizeof(hongpilas_limits). Returns
 * NULL if an allocation fails, if `limits` is null, if a limit is out of its range, or if hongpilas_new_with_limits refuses the
 * size. The third call frees the session with all its views, and does nothing if the component is null. A notify function may
 * make it: then no further notification is delivered, and the call that delivered this one returns as usual. */
HONGPILAS_MUST_USE hongpilas_scintilla *hongpilas_scintilla_new(void);
HONGPILAS_MUST_USE hongpilas_scintilla *hongpilas_scintilla_new_with_limits(const hongpilas_limits *limits, size_t size);
void hongpilas_scintilla_free(hongpilas_scintilla *component);

/* Opens a view on a new document, and returns its handle for all calls below, or 0 if the component is null, an allocation
 * fails or no more views may be open. The second call closes a view, which is notified no more, and does nothing if the view
 * is 0. A notify function may make both calls. */
HONGPILAS_MUST_USE sptr_t hongpilas_scintilla_open(hongpilas_scintilla *component);
void hongpilas_scintilla_close(sptr_t view);

/* Sends a message to a view: a SciFnDirect. w, l and the result are Scintilla's:
 *  - a text is a pointer: to bytes that end with a NUL for INSERTTEXT, REPLACESEL and SETTEXT, and for REPLACETARGET if
 *    w is -1; otherwise to w bytes. Any other negative length is refused, and no byte of the text is read;
 *  - given a null text, ADDTEXT, INSERTTEXT, REPLACESEL, SETTEXT and SETSTYLINGEX do nothing, whatever w is: they return
 *    0 and leave the status, as in Scintilla. To APPENDTEXT, COPYTEXT, REPLACETARGET and SEARCHINTARGET it is an empty
 *    text if w is 0, and refused otherwise;
 *  - a text that the message returns is written to the caller's buffer, and closed as in Scintilla: by GETTEXT and
 *    GETCURLINE at most w bytes and a NUL (so the buffer has w + 1); by GETSELTEXT and GETTEXTRANGE all bytes and a NUL;
 *    by GETLINE and GETTARGETTEXT all bytes and no NUL; by GETSTYLEDTEXT all bytes with their styles and two NULs. If the
 *    pointer to the buffer is null, only the length is returned, without the NULs. A message is refused if its pointer to
 *    a Sci_TextRange (not lpstrText) is null, or if that range does not lie in the text;
 *  - a document is the number that GETDOCPOINTER and CREATEDOCUMENT return, and 0 is a new one;
 *  - what Scintilla has as an int is truncated to one; GETCHARAT and GETSTYLEAT return a char, negative from 0x80 on;
 *  - SETTEXT and SETREADONLY return 1, as in Scintilla, where docs/MESSAGES.md has 0.
 *
 * Beside the messages of the profile a view has three more: SCI_GETSTATUS and SCI_SETSTATUS, below, and
 * SCI_GETRANGEPOINTER, which lends the l bytes of the document from w on, without a copy and without a closing NUL.
 * They are valid until the next message to a view of the same component. If l is 0, the address means nothing.
 *
 * A refused call changes nothing and writes nothing. The view's status becomes SC_STATUS_BADALLOC if an allocation
 * failed, and SC_STATUS_FAILURE otherwise. The result is 0, or -1 for the messages that return -1 in Scintilla when
 * nothing is found or added: MARKERADD, MARKERLINEFROMHANDLE, MARKERNEXT, MARKERPREVIOUS, SEARCHINTARGET and
 * GETFOLDPARENT. As in Scintilla the status stays until SCI_SETSTATUS: set it to 0 before a message that you test.
 * SCI_GETSTATUS returns it, and the second form, a SciFnDirectStatus, sets *status to it, unless `status` is null. A
 * message that the profile does not have returns 0, with no status. The view 0 refuses each message, and has the status
 * SC_STATUS_FAILURE always. */
sptr_t hongpilas_direct(sptr_t view, unsigned int message, uptr_t w, sptr_t l);
sptr_t hongpilas_direct_status(sptr_t view, unsigned int message, uptr_t w, sptr_t l, int *status);

/* Returns why the view last refused a call, such as "bad argument", or "" if it has refused none since it was opened;
 * of the view 0 "no such view". The string is valid until the next call. */
const char *hongpilas_refusal(sptr_t view);

/* Sets the notify function of a view, which is called with each of its notifications; NULL for none. Does nothing if
 * the view is 0. The notifications of a message are kept in a queue, and delivered when the message is done and before
 * hongpilas_direct returns: one by one, in their order, each to the function that its view has then. What a notification
 * points to is valid until the function returns, or frees the component.
 *
 * Inside a notify function, any view of the component may be sent any message.
 *  - It is performed at once, and its notifications join the end of the queue: they are delivered after the function has
 *    returned. If a message is recorded there, lParam of SCN_MACRORECORD is a copy of its text, which a NUL closes.
 *  - A message that edits the text is refused as "edit inside a notify function", with SC_STATUS_FAILURE.
 *  - A message that is no query replaces the last reply, so pending notifications are copied first. If memory is short for
 *    that, the message is refused as "out of memory", with SC_STATUS_BADALLOC; the pending ones are still delivered.
 *
 * A notify function may be left by a C++ exception or by longjmp. Its message has been done, and the notification counts as
 * delivered. The other notifications stay in the queue. The next message that is no query, sent from outside all notify
 * functions to any view of the component, delivers them, whether it is done or refused. (It is refused as "out of memory" if
 * memory to copy them first is short.) But SCI_SETSTATUS, and a message that does nothing for its null text, deliver nothing.
 * An exception passes through the interface if that was built with -fexceptions, as `make` builds it. To detect a longjmp out
 * of a notify function, the interface unwinds the stack, which needs the tables of compilers (-funwind-tables). If frames of a
 * later call lack them, such as those of a JIT compiler, it may wrongly take that call as one from inside the notify function. */
typedef void (*hongpilas_notify)(SCNotification *notification, void *data);
void hongpilas_set_notify(sptr_t view, hongpilas_notify notify, void *data);

#ifdef __cplusplus
}
#endif

#endif

/* Whether what stands on the stack of an earlier call still stands: a part of scintilla.c.
 *
 * A notify function that is left by longjmp leaves behind what its caller had on the stack, and nobody says so. It is seen in two ways. First, a call from
 * inside is made in the same thread, farther down the same stack, and finds all seals as they were. That is quick, but another function may have left them as
 * they were, too, by a large local that it did not write. So where it matters the stack is walked, by the tables that compilers write for exceptions: the seals
 * stand in a frame of the function that set them. Where the tables end before that frame, the first way decides alone.
 * The stack of another thread may be gone, so its seals are not read. A later thread may have its errno where that thread had it; but a thread's errno stands above
 * its stack, and so the seals, which lie between errno and the frame of the call, are in the stack of that call. */
#ifndef HONGPILAS_SCINTILLA_STACK_H
#define HONGPILAS_SCINTILLA_STACK_H

#include <errno.h>
#include <stdbool.h>
#include <stdint.h>

enum { SEALS = 4 };
typedef struct seals {
  uintptr_t values[SEALS];
} seals;

static uintptr_t seal_of(const volatile seals *at, int i) { return ((uintptr_t)at ^ (uintptr_t)0x9E3779B97F4A7C15) * (uintptr_t)(2 * i + 3); }

static void set_seals(seals *at) {
  int i;
  for (i = 0; i < SEALS; i++) at->values[i] = seal_of(at, i);
}

#if defined(__GNUC__) || defined(__clang__)
#include <unwind.h>
#if defined(__clang__)
#define APART __attribute__((noinline, no_sanitize_address))
#else
#define APART __attribute__((noinline, noclone, no_sanitize_address))
#endif
#define ENDS_BY(function) __attribute__((cleanup(function)))
#define STACK()           ((uintptr_t)__builtin_frame_address(0))

/* A walk to the frame that has an address: the function of the frame that was seen last, and whether that frame was found. */
typedef struct walk {
  uintptr_t wanted, function;
  bool is_found;
} walk;

static _Unwind_Reason_Code look_at_frame(struct _Unwind_Context *frame, void *data) {
  walk *w = (walk *)data;
  if ((uintptr_t)_Unwind_GetCFA(frame) > w->wanted) {
    w->is_found = true;
    return _URC_END_OF_STACK;
  }
  w->function = (uintptr_t)_Unwind_GetRegionStart(frame);
  return _URC_NO_REASON;
}

/* Whether seals stand in a frame of the function at this address. */
static bool is_in_frame_of(uintptr_t function, const seals *at) {
  walk w = {(uintptr_t)at, 0, false};
  _Unwind_Backtrace(look_at_frame, &w);
  return !w.is_found || w.function == function;
}
#else
#define APART
#define ENDS_BY(function)
#define STACK() ((uintptr_t) & (volatile char){0})
static bool is_in_frame_of(uintptr_t function, const seals *at) { return function != 0 && at != NULL; }
#endif

/* Each thread has an errno of its own: where it stands tells threads apart. */
static const void *this_thread(void) { return &errno; }

/* Whether seals that were set in a thread stand above this call in the same one, as they were. */
static APART bool are_above(const volatile seals *at, const void *thread) {
  bool stand = thread == this_thread() && STACK() < (uintptr_t)at;
  int i;
  for (i = 0; stand && i < SEALS; i++) stand = at->values[i] == seal_of(at, i);
  return stand;
}

#endif

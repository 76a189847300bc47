/* What the jobs of messages.c and the rows of memory.c have in common: how a text is loaded, styled by a container lexer, and something in it replaced. */
#ifndef WORK_H
#define WORK_H

#include "texts.h"

enum { PIECE = 128 * 1024 };

static int64_t ask(const side *s, uint32_t number, int64_t w) { return s->send(number, w, 0, NULL, 0); }

/* ---- Files ---- */

/* A new document, of which nothing is told. */
static void renew(const side *s, input *of) {
  (void)of;
  s->attach(0, 0);
  ask(s, SCI_SETDOCPOINTER, 0);
  ask(s, SCI_SETMODEVENTMASK, 0);
}

static long open_at_once(const side *s, input *of) {
  ask(s, SCI_SETUNDOCOLLECTION, 0);
  s->send(SCI_SETTEXT, 0, 0, bytes_of(of), of->size);
  ask(s, SCI_SETUNDOCOLLECTION, 1);
  ask(s, SCI_SETSAVEPOINT, 0);
  return (long)of->size;
}

static long open_in_pieces(const side *s, input *of) {
  ask(s, SCI_SETUNDOCOLLECTION, 0);
  for (size_t at = 0; at < of->size; at += PIECE) {
    size_t count = of->size - at < PIECE ? of->size - at : PIECE;
    s->send(SCI_APPENDTEXT, (int64_t)count, 0, bytes_of(of) + at, count);
  }
  ask(s, SCI_SETUNDOCOLLECTION, 1);
  ask(s, SCI_SETSAVEPOINT, 0);
  return (long)of->size;
}

static void load_at_once(const side *s, input *of) {
  renew(s, of);
  open_at_once(s, of);
}

static void load_input(const side *s, input *of) {
  load_at_once(s, of);
  ask(s, SCI_GOTOPOS, (int64_t)of->size / 2);
  s->send(SCI_ADDTEXT, 1, 0, "x", 1); /* so that the gap is in the midst */
  ask(s, SCI_UNDO, 0);
}

/* ---- A container lexer ---- */

static char styles[1024]; /* of a line, which is shorter */

/* The styles, the level and the state of a line. Returns where the next begins. */
static int64_t style_line_of(const side *s, int64_t line, int64_t start, int *depth) {
  int64_t end = start + ask(s, SCI_LINELENGTH, line);
  must(end - start <= (int64_t)sizeof styles, "a line is too long");
  s->copied_range(start, end);
  int64_t level = lex(buffer, (size_t)(end - start), styles, depth);
  if (end > start) s->send(SCI_SETSTYLINGEX, end - start, 0, styles, (size_t)(end - start));
  s->send(SCI_SETFOLDLEVEL, line, level, NULL, 0);
  s->send(SCI_SETLINESTATE, line, *depth, NULL, 0);
  return end;
}

static long highlight_lines(const side *s, input *of) {
  int64_t lines = ask(s, SCI_GETLINECOUNT, 0), start = 0;
  int depth = 0;
  (void)of;
  ask(s, SCI_STARTSTYLING, 0);
  for (int64_t line = 0; line < lines; line++) start = style_line_of(s, line, start, &depth);
  return (long)lines;
}

static void load_highlighted(const side *s, input *of) {
  load_input(s, of);
  highlight_lines(s, of);
}

/* ---- Folds ---- */

/* Folds the line of each header, first to last, by an action. */
static long fold(const side *s, int64_t action) {
  int64_t lines = ask(s, SCI_GETLINECOUNT, 0);
  long headers = 0;
  for (int64_t line = 0; line < lines; line++) {
    if ((ask(s, SCI_GETFOLDLEVEL, line) & SC_FOLDLEVELHEADERFLAG) == 0) continue;
    s->send(SCI_FOLDLINE, line, action, NULL, 0);
    headers++;
  }
  return headers;
}

/* ---- All of something is replaced ---- */

typedef struct replacement {
  const char *what, *by;
  int64_t flags;
  long most; /* matches that are replaced */
} replacement;

/* Replaces matches from first to last, in one group of undo. Returns how many. */
static long replace_each(const side *s, const replacement *r) {
  size_t length = strlen(r->what), new_length = strlen(r->by);
  int64_t from = 0, end = ask(s, SCI_GETLENGTH, 0);
  long count = 0;
  ask(s, SCI_SETSEARCHFLAGS, r->flags);
  ask(s, SCI_BEGINUNDOACTION, 0);
  for (; count < r->most; count++) {
    s->send(SCI_SETTARGETRANGE, from, end, NULL, 0);
    if (s->send(SCI_SEARCHINTARGET, (int64_t)length, 0, r->what, length) < 0) break;
    from = ask(s, SCI_GETTARGETSTART, 0) + s->send(SCI_REPLACETARGET, (int64_t)new_length, 0, r->by, new_length);
    end += (int64_t)new_length - (int64_t)length;
  }
  ask(s, SCI_ENDUNDOACTION, 0);
  return count;
}

#endif

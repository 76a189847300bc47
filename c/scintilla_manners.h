/* How messages take w and l, and answer, in Scintilla's documentation: a part of scintilla.c. */
#ifndef HONGPILAS_SCINTILLA_MANNERS_H
#define HONGPILAS_SCINTILLA_MANNERS_H

#include <hongpilas_scintilla.h>

#include <string.h>

/* The bits of a message's entry. Where none of them says otherwise, w and l are two numbers, a number is answered, and 0 where the message is refused. */
enum {
  QUERY = HONGPILAS_MARK_Q,
  INT_W = 2, /* w is an int */
  EDIT = HONGPILAS_MARK_E,
  INT_L = 8,       /* l is an int */
  BITS_L = 0x10,   /* l is an int whose bits count */
  AS_INT = 0x20,   /* an int is answered */
  AS_CHAR = 0x40,  /* a char is answered */
  AS_TRUE = 0x80,  /* 1 is answered where it is done */
  OR_NONE = 0x100, /* -1 is answered where it is refused */
  COUNTED = 0x200, /* l is a text of w bytes */
  OFFERED = 0x400, /* the same; a null one is none, and nothing is done */
  CLOSED = 0x600,  /* l is a text up to its NUL; a null one is none, and nothing is done */
  EITHER = 0x800,  /* l is a text of w bytes, or up to its NUL where w is -1 */
  ASKED = 0xA00,   /* l is where a text of the document goes to, or null */
  RANGE = 0xC00,   /* l is a range, with the place where its bytes go to, or null */
  STYLED = 0xE00,  /* l is a range, with the place where its bytes and styles go to, or null */
  LENT = 0x1000,   /* w and l are the start and the length of bytes that are lent */
  STATUS = 0x1200, /* w is the view's status, or nothing */
  KINDS = 0x1E00,  /* the bits of those from COUNTED on */

  /* Which bits a message has beside those of its marks. Ints are those of Scintilla's documentation, also what it calls by the name of an enumeration. What answers
   * -1 by that documentation if nothing is found or added answers -1 where it is refused. */
  WAY_ADDTEXT = OFFERED,
  WAY_INSERTTEXT = CLOSED,
  WAY_GETCHARAT = AS_CHAR,
  WAY_GETSTYLEAT = AS_CHAR,
  WAY_GETSTYLEDTEXT = STYLED,
  WAY_MARKERLINEFROMHANDLE = INT_W | OR_NONE,
  WAY_MARKERDELETEHANDLE = INT_W,
  WAY_GETCURLINE = ASKED,
  WAY_CONVERTEOLS = INT_W,
  WAY_SETEOLMODE = INT_W,
  WAY_SETSTYLING = INT_L,
  WAY_MARKERADD = INT_L | OR_NONE,
  WAY_MARKERDELETE = INT_L,
  WAY_MARKERDELETEALL = INT_W,
  WAY_MARKERGET = AS_INT,
  WAY_MARKERNEXT = OR_NONE,
  WAY_MARKERPREVIOUS = OR_NONE,
  WAY_SETSTYLINGEX = OFFERED,
  WAY_SETLINESTATE = INT_L,
  WAY_GETLINE = ASKED,
  WAY_GETSELTEXT = ASKED,
  WAY_GETTEXTRANGE = RANGE,
  WAY_REPLACESEL = CLOSED,
  WAY_SETREADONLY = AS_TRUE,
  WAY_SETTEXT = CLOSED | AS_TRUE,
  WAY_GETTEXT = ASKED,
  WAY_REPLACETARGET = EITHER,
  WAY_SEARCHINTARGET = COUNTED | OR_NONE,
  WAY_SETSEARCHFLAGS = INT_W,
  WAY_SETFOLDLEVEL = INT_L,
  WAY_GETLASTCHILD = INT_L,
  WAY_GETFOLDPARENT = OR_NONE,
  WAY_FOLDLINE = INT_L,
  WAY_APPENDTEXT = COUNTED,
  WAY_SETMODEVENTMASK = INT_W,
  WAY_CREATEDOCUMENT = INT_L,
  WAY_SETSTATUS = STATUS,
  WAY_GETSTATUS = STATUS,
  WAY_COPYTEXT = COUNTED,
  WAY_MARKERADDSET = BITS_L,
  WAY_SETINDICATORCURRENT = INT_W,
  WAY_SETINDICATORVALUE = INT_W,
  WAY_INDICATORALLONFOR = AS_INT,
  WAY_INDICATORVALUEAT = INT_W | AS_INT,
  WAY_INDICATORSTART = INT_W,
  WAY_INDICATOREND = INT_W,
  WAY_ADDUNDOACTION = INT_W | INT_L,
  WAY_GETRANGEPOINTER = LENT,
  WAY_SETLINEENDTYPESALLOWED = INT_W,
  WAY_GETTARGETTEXT = ASKED
};

/* Written by tools/pages/scintilla_messages.py: begin */
/* clang-format off */
/* The first entry is that of the message 2000. An entry has the bits of the message's marks Q and E, and those of its way. A message behind
 * the last entry has none. */
enum { FIRST_MESSAGE = 2000 };
static const uint16_t entries[] = {
    0, EDIT | WAY_ADDTEXT, 0, EDIT | WAY_INSERTTEXT, EDIT, 0, QUERY, QUERY | WAY_GETCHARAT, QUERY, QUERY, QUERY | WAY_GETSTYLEAT, EDIT, 0, 0, 0,
    QUERY | WAY_GETSTYLEDTEXT, QUERY, QUERY | WAY_MARKERLINEFROMHANDLE, WAY_MARKERDELETEHANDLE, QUERY, 0, 0, 0, 0, 0, 0, 0, QUERY | WAY_GETCURLINE, QUERY,
    EDIT | WAY_CONVERTEOLS, QUERY, WAY_SETEOLMODE, 0, WAY_SETSTYLING, 0, 0, 0, 0, 0, 0, 0, 0, 0, WAY_MARKERADD, WAY_MARKERDELETE, WAY_MARKERDELETEALL,
    QUERY | WAY_MARKERGET, QUERY | WAY_MARKERNEXT, QUERY | WAY_MARKERPREVIOUS, 0, 0, 0, 0, 0, 0, 0, 0, 0, 0, 0, 0, 0, 0, 0, 0, 0, 0, 0, 0, 0, 0, 0, 0,
    WAY_SETSTYLINGEX, 0, 0, 0, 0, 0, 0, 0, 0, 0, 0, 0, 0, 0, 0, 0, 0, 0, 0, WAY_SETLINESTATE, QUERY, 0, 0, 0, 0, 0, 0, 0, 0, 0, 0, 0, 0, 0, 0, 0, 0,
    0, 0, 0, 0, 0, 0, 0, 0, 0, 0, 0, 0, 0, 0, 0, 0, 0, 0, 0, 0, 0, 0, 0, 0, 0, 0, QUERY, 0, 0, 0, QUERY, 0, 0, QUERY, 0, QUERY, 0, 0, 0, 0, 0, 0, 0,
    QUERY | WAY_GETLINE, QUERY, 0, 0, 0, 0, QUERY, 0, QUERY | WAY_GETSELTEXT, QUERY | WAY_GETTEXTRANGE, 0, 0, 0, QUERY, QUERY, 0, 0, EDIT | WAY_REPLACESEL,
    WAY_SETREADONLY, 0, QUERY, QUERY, 0, EDIT, EDIT, 0, EDIT, EDIT, EDIT | WAY_SETTEXT, QUERY | WAY_GETTEXT, QUERY, 0, 0, 0, 0, 0, 0, 0, QUERY, 0, QUERY,
    EDIT | WAY_REPLACETARGET, 0, 0, WAY_SEARCHINTARGET, WAY_SETSEARCHFLAGS, QUERY, 0, 0, 0, 0, 0, 0, 0, 0, 0, 0, 0, 0, 0, 0, 0, 0, 0, 0, 0, 0, QUERY,
    QUERY, WAY_SETFOLDLEVEL, QUERY, QUERY | WAY_GETLASTCHILD, QUERY | WAY_GETFOLDPARENT, 0, 0, QUERY, 0, QUERY, 0, 0, 0, 0, 0, QUERY, WAY_FOLDLINE, 0, 0,
    0, 0, 0, 0, 0, 0, 0, 0, 0, 0, 0, 0, 0, 0, 0, 0, 0, 0, 0, 0, 0, 0, 0, 0, 0, 0, 0, 0, 0, 0, 0, 0, 0, 0, 0, 0, 0, 0, 0, 0, 0, 0, EDIT | WAY_APPENDTEXT,
    0, 0, 0, 0, 0, 0, 0, 0, 0, 0, 0, 0, 0, 0, 0, 0, 0, 0, 0, 0, 0, 0, 0, 0, 0, 0, 0, 0, 0, 0, 0, 0, 0, 0, 0, 0, 0, 0, 0, 0, 0, 0, 0, EDIT, 0, 0, EDIT,
    0, 0, 0, 0, 0, 0, 0, 0, 0, 0, 0, 0, 0, 0, 0, 0, 0, 0, 0, 0, QUERY, 0, 0, 0, 0, 0, 0, QUERY, 0, WAY_SETMODEVENTMASK, 0, 0, 0, 0, 0, 0, 0, 0, 0, 0,
    0, 0, 0, 0, 0, WAY_CREATEDOCUMENT, 0, 0, QUERY, QUERY, 0, 0, WAY_SETSTATUS, WAY_GETSTATUS, 0, 0, 0, 0, 0, 0, 0, 0, 0, 0, 0, 0, 0, 0, 0, 0, 0, 0,
    0, 0, 0, 0, 0, 0, 0, 0, 0, 0, 0, 0, 0, 0, 0, QUERY, QUERY, 0, WAY_COPYTEXT, 0, 0, 0, 0, 0, 0, 0, 0, 0, 0, 0, 0, 0, 0, 0, 0, 0, 0, 0, 0, 0, 0, 0,
    0, 0, 0, 0, 0, 0, 0, 0, 0, 0, 0, 0, 0, 0, 0, 0, 0, 0, 0, 0, 0, 0, WAY_MARKERADDSET, 0, QUERY, 0, 0, 0, 0, 0, 0, 0, 0, 0, 0, 0, 0, 0, 0, 0, 0, 0,
    0, 0, 0, 0, 0, 0, 0, 0, 0, 0, 0, 0, 0, 0, WAY_SETINDICATORCURRENT, QUERY, WAY_SETINDICATORVALUE, QUERY, 0, 0, QUERY | WAY_INDICATORALLONFOR,
    QUERY | WAY_INDICATORVALUEAT, QUERY | WAY_INDICATORSTART, QUERY | WAY_INDICATOREND, 0, 0, 0, 0, 0, 0, 0, 0, 0, 0, 0, 0, 0, 0, 0, 0, 0, 0, 0, 0, 0, 0, 0,
    0, 0, 0, 0, 0, 0, 0, 0, 0, 0, 0, 0, 0, 0, 0, 0, 0, 0, 0, 0, 0, 0, 0, 0, 0, 0, 0, WAY_ADDUNDOACTION, 0, 0, 0, 0, 0, 0, 0, 0, 0, 0, 0, 0, 0, 0, 0,
    0, 0, 0, 0, 0, 0, 0, 0, 0, 0, 0, 0, 0, 0, 0, 0, 0, 0, 0, 0, 0, 0, 0, 0, 0, 0, 0, 0, 0, 0, 0, 0, 0, 0, 0, 0, 0, 0, 0, 0, 0, 0, 0, 0, 0, 0, 0, 0, 0,
    0, 0, 0, 0, 0, 0, 0, 0, 0, 0, 0, 0, 0, 0, 0, 0, 0, 0, QUERY | WAY_GETRANGEPOINTER, 0, EDIT, 0, 0, 0, 0, QUERY, 0, 0, 0, 0, 0,
    WAY_SETLINEENDTYPESALLOWED, QUERY, QUERY, 0, 0, 0, 0, 0, 0, 0, 0, 0, 0, 0, 0, 0, 0, 0, 0, 0, 0, 0, 0, 0, 0, 0, 0, 0, 0, 0, 0,
    QUERY | WAY_GETTARGETTEXT,
};
/* clang-format on */
/* Written by tools/pages/scintilla_messages.py: end */

/* The entry of a message, by its number, without a search. */
static inline unsigned int entry_of(unsigned int number) {
  unsigned int place = number - FIRST_MESSAGE; /* a number below the first one becomes a great one */
  return place < sizeof entries / sizeof *entries ? entries[place] : 0;
}

static inline bool is_query(unsigned int entry) { return (entry & QUERY) != 0; }
static inline bool is_edit(unsigned int entry) { return (entry & EDIT) != 0; }
static inline unsigned int kind_of(unsigned int entry) { return entry & KINDS; }
static inline bool takes_numbers(unsigned int entry) { return kind_of(entry) == 0; }

/* Whether l of a message is a text, or null. */
static inline bool takes_text(unsigned int entry) { return kind_of(entry) >= COUNTED && kind_of(entry) <= EITHER; }

/* Two numbers w and l as the library takes them. No query has BITS_L. */
static inline int64_t first_of(unsigned int entry, uptr_t w) { return (entry & INT_W) != 0 ? (int)w : (sptr_t)w; }
static inline int64_t second_of(unsigned int entry, sptr_t l) { return (entry & INT_L) != 0 ? (int)l : l; }
static inline int64_t bits_of(unsigned int entry, sptr_t l) { return (entry & BITS_L) != 0 ? (sptr_t)(unsigned int)l : l; }

/* How long a text is. Of a negative length no byte is read. */
static inline size_t length_of_text(unsigned int entry, uptr_t w, const char *text) {
  bool is_closed = kind_of(entry) == CLOSED || (kind_of(entry) == EITHER && (sptr_t)w == -1);
  if (is_closed) return strlen(text);
  return (sptr_t)w < 0 ? 0 : w;
}

/* A number as a query answers it. */
static inline sptr_t number_as(unsigned int entry, int64_t value) {
  if ((entry & AS_INT) != 0) return (int)(uint32_t)value;
  return (entry & AS_CHAR) != 0 ? (char)(uint8_t)value : (sptr_t)value;
}

/* What any message answers that is done, and that is refused. */
static inline sptr_t answer_as(unsigned int entry, int64_t value) { return (entry & AS_TRUE) != 0 ? 1 : number_as(entry, value); }
static inline sptr_t refused_as(unsigned int entry) { return (entry & OR_NONE) != 0 ? -1 : 0; }

#endif

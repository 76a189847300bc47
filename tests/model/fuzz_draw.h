/* What fuzz.c draws of its bytes: which numbers a message is sent, and which text. */
#ifndef FUZZ_DRAW_H
#define FUZZ_DRAW_H

#include <hongpilas.h>
#include <string.h>

enum { MOST_TEXT = 256 };

/* What a message's arguments are, w and l. p a place, c one close by, e an end of a range, s the rest of a span, l a line, t the text's length, m a
 * marker, h a handle, f a fold level, i an indicator, y a style, d a document, 0 mostly off, 1 mostly on, 2 up to 2, 3 up to 3, g flags of a search,
 * x a mask, o options, - nothing. GETTEXT and GETCURLINE take how many bytes they may write through the Scintilla-compatible interface alone. */
typedef struct shape {
  uint32_t number;
  const char *w_and_l;
} shape;

// clang-format off
static const shape shapes[] = {
    {SCI_ADDTEXT, "t-"},           {SCI_INSERTTEXT, "p-"},         {SCI_GETCHARAT, "p-"},         {SCI_GETSTYLEAT, "p-"},      {SCI_GETSTYLEDTEXT, "pe"},
    {SCI_GETLINEENDPOSITION, "l-"}, {SCI_GETTEXT, "p-"}, {SCI_GETCURLINE, "p-"}, {SCI_SETREADONLY, "0-"},        {SCI_GETLINE, "l-"},           {SCI_GETTEXTRANGE, "pe"},    {SCI_LINEFROMPOSITION, "p-"},
    {SCI_POSITIONFROMLINE, "l-"},  {SCI_APPENDTEXT, "t-"},         {SCI_LINELENGTH, "l-"},        {SCI_POSITIONBEFORE, "p-"},  {SCI_POSITIONAFTER, "p-"},
    {SCI_DELETERANGE, "ps"},       {SCI_GOTOLINE, "l-"},           {SCI_GOTOPOS, "p-"},           {SCI_SETEMPTYSELECTION, "p-"}, {SCI_SETANCHOR, "p-"},
    {SCI_SETCURRENTPOS, "p-"},     {SCI_SETSELECTIONSTART, "p-"},  {SCI_SETSELECTIONEND, "p-"},   {SCI_SETSEL, "pc"},          {SCI_COPYRANGE, "pe"},
    {SCI_COPYTEXT, "t-"},          {SCI_SETUNDOCOLLECTION, "1-"},  {SCI_ADDUNDOACTION, "32"},     {SCI_SETEOLMODE, "2-"},      {SCI_CONVERTEOLS, "2-"},
    {SCI_MARKERADD, "lm"},         {SCI_MARKERADDSET, "lx"},       {SCI_MARKERDELETE, "lm"},      {SCI_MARKERDELETEALL, "m-"}, {SCI_MARKERDELETEHANDLE, "h-"},
    {SCI_MARKERGET, "l-"},         {SCI_MARKERNEXT, "lx"},         {SCI_MARKERPREVIOUS, "lx"},    {SCI_MARKERLINEFROMHANDLE, "h-"}, {SCI_SETLINESTATE, "l3"},
    {SCI_GETLINESTATE, "l-"},      {SCI_STARTSTYLING, "p-"},       {SCI_SETSTYLING, "sy"},        {SCI_SETSTYLINGEX, "t-"},    {SCI_COLOURISE, "pe"},
    {SCI_SETINDICATORCURRENT, "i-"}, {SCI_SETINDICATORVALUE, "3-"}, {SCI_INDICATORFILLRANGE, "ps"}, {SCI_INDICATORCLEARRANGE, "ps"},
    {SCI_INDICATORALLONFOR, "p-"},
    {SCI_INDICATORVALUEAT, "ip"},  {SCI_INDICATORSTART, "ip"},     {SCI_INDICATOREND, "ip"},      {SCI_SETTARGETSTART, "p-"},  {SCI_SETTARGETEND, "p-"},
    {SCI_SETTARGETRANGE, "pc"},    {SCI_SETSEARCHFLAGS, "g-"},     {SCI_SEARCHINTARGET, "t-"},    {SCI_REPLACETARGET, "t-"},   {SCI_SETFOLDLEVEL, "lf"},
    {SCI_GETFOLDLEVEL, "l-"},      {SCI_GETLASTCHILD, "lf"},       {SCI_GETFOLDPARENT, "l-"},     {SCI_VISIBLEFROMDOCLINE, "l-"},
    {SCI_DOCLINEFROMVISIBLE, "l-"},
    {SCI_SHOWLINES, "ll"},         {SCI_HIDELINES, "ll"},          {SCI_GETLINEVISIBLE, "l-"},    {SCI_SETFOLDEXPANDED, "l3"}, {SCI_GETFOLDEXPANDED, "l-"},
    {SCI_FOLDLINE, "l2"},          {SCI_TOGGLEFOLD, "l-"},         {SCI_ENSUREVISIBLE, "l-"},     {SCI_SETDOCPOINTER, "-d"},   {SCI_CREATEDOCUMENT, "3o"},
    {SCI_ADDREFDOCUMENT, "-d"},    {SCI_RELEASEDOCUMENT, "-d"},    {SCI_SETLINEENDTYPESALLOWED, "3-"}, {SCI_SETMODEVENTMASK, "x-"}};
// clang-format on

/* Messages that come oftener than others. */
static const uint32_t favoured[] = {
    SCI_ADDTEXT,      SCI_ADDTEXT,      SCI_INSERTTEXT, SCI_INSERTTEXT, SCI_INSERTTEXT,    SCI_DELETERANGE,        SCI_DELETERANGE,  SCI_UNDO,
    SCI_UNDO,         SCI_UNDO,         SCI_REDO,       SCI_REDO,       SCI_MARKERADD,     SCI_MARKERADD,          SCI_SETFOLDLEVEL, SCI_SETFOLDLEVEL,
    SCI_SETFOLDLEVEL, SCI_SETFOLDLEVEL, SCI_FOLDLINE,   SCI_FOLDLINE,   SCI_ENSUREVISIBLE, SCI_INDICATORFILLRANGE, SCI_PASTE,        SCI_SETSTYLING,
    SCI_HIDELINES,    SCI_DELETEBACK,   SCI_NEWLINE,    SCI_CLEAR,      SCI_REPLACETARGET, SCI_SEARCHINTARGET,     SCI_SETSAVEPOINT, SCI_EMPTYUNDOBUFFER};

typedef struct around {
  int64_t length, lines, caret, text, next_handle;
} around;

/* A number near some limit, or anywhere. */
static int64_t hostile_number(uint8_t kind, uint8_t x, const around *a) {
  // clang-format off
  static const int64_t limits[] = {INT64_MIN, INT64_MIN + 1, INT64_MAX, INT64_MAX - 1, INT32_MIN, (int64_t)INT32_MIN - 1, INT32_MAX, (int64_t)INT32_MAX + 1,
                                   UINT32_MAX, (int64_t)UINT32_MAX + 1, 0x7FFFFF, 0x800000, 0x10000000000, 0xFFFFFFFFFF, 255, 256, 31, 32, 1024, -2};
  // clang-format on
  switch (kind % 12) {
    case 0: return x % 4;
    case 1: return x;
    case 2: return -1;
    case 3: return -(int64_t)(x % 8);
    case 4: return a->length - 4 + x % 8;
    case 5: return a->lines - 4 + x % 8;
    case 6: return a->caret - 4 + x % 8;
    case 7: return a->text - 2 + x % 4;
    case 8: return limits[x % (sizeof limits / sizeof *limits)];
    case 9: return (int64_t)((uint64_t)1 << x % 64);
    case 10: return -(int64_t)((uint64_t)1 << x % 63);
    default: return (int64_t)(((uint64_t)1 << x % 64) - 1);
  }
}

/* A number as a message wants it; `before` is w, where l is drawn. */
static int64_t fitting_number(char what, uint8_t x, int64_t before, const around *a) {
  int64_t rest = before < 0 || before > a->length ? 0 : a->length - before;
  switch (what) {
    case 'p': return a->length == 0 ? 0 : (x * (a->length + 1)) >> 8;
    case 'e': return x % 8 == 0 || rest <= 0 ? -1 : before + ((x * (rest + 1)) >> 8);
    case 'c': return x % 4 == 0 ? (x * (a->length + 1)) >> 8 : (int64_t)((uint64_t)before + x % 8 - 2);
    case 's': return rest <= 0 ? 0 : x < 224 ? (x % 4) % (rest + 1) : ((x - 224) * (rest + 1)) >> 5;
    case 'l': return (x * (a->lines + (x % 16 == 0))) >> 8;
    case 't': return x == 0 ? -1 : a->text;
    case 'm': return x % 16 == 0 ? -1 : x % 8 == 0 ? 31 : x % 5;
    case 'h': return a->next_handle - x % 16;
    case 'f': return 0x400 + x % 4 + (x & 0x10 ? 0x2000 : 0) + (x == 0xFF ? 0x1000 : 0);
    case 'i': return x % 2 == 0 ? x / 2 % 3 + 8 : x / 2 % 32;
    case 'y': return x % 4;
    case 'd': return x % 8;
    case '0': return x % 4 == 0;
    case '1': return x % 4 != 0;
    case '2': return x % 3;
    case '3': return x % 4;
    case 'g': return (x & 6) | (x & 1 ? 0x100000 : 0);
    case 'x': return x % 3 == 0 ? 0x7FFFFF : x % 3 == 1 ? x : (int64_t)1 << x % 23;
    case 'o': return x % 4 == 0 ? 0 : x % 4 == 1 ? 1 : x % 4 == 2 ? 256 : 257;
    default: return x % 2;
  }
}

static int64_t draw_number(char what, uint8_t kind, uint8_t x, int64_t before, const around *a) {
  return kind < 208 ? fitting_number(what, x, before, a) : hostile_number(kind, x, a);
}

static const char *shape_of(uint32_t number) {
  for (size_t i = 0; i < sizeof shapes / sizeof *shapes; i++)
    if (shapes[i].number == number) return shapes[i].w_and_l;
  return "--";
}

/* A text of fragments; most are short. */
static size_t draw_text(uint8_t kind, uint8_t x, uint8_t *into) {
  // clang-format off
  static const char *fragments[] = {"a",  "b", "\n",  "\r", "\r\n", "\n\n", "ab", "A_ b", "\xC2\x85", "\xE2\x80\xA8", "\xE2\x80\xA9", "\xE2", "\x80", "\xA8",
                                    "\xC2", "\x85", "\xC3\xA9", "\xF0\x9F\x99\x82", "\xED\xA0\x80", "x\ny", "\r\r\n", "abcdefgh", "\n\r", " "};
  // clang-format on
  enum { FRAGMENTS = sizeof fragments / sizeof *fragments };
  size_t count = kind < 24 ? 0 : kind < 96 ? 1 : kind < 160 ? 2 : kind < 208 ? 4 : kind < 240 ? 8 : 24, used = 0;
  uint32_t mixed = (uint32_t)(kind * 256 + x) * 2654435761u;
  for (size_t i = 0; i < count; i++) {
    const char *fragment = fragments[(i == 0 ? x : mixed >> 16) % FRAGMENTS];
    size_t length = strlen(fragment);
    if (used + length + 1 > MOST_TEXT) break;
    memcpy(into + used, fragment, length);
    used += length;
    if (mixed % 31 == 0) into[used++] = (uint8_t)(mixed >> 8);
    mixed = mixed * 1664525u + 1013904223u;
  }
  return used;
}

#endif

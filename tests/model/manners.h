/* What w, l and the answer of each message are in Scintilla's documentation: what fuzz_scintilla.h and scintilla_examples.c know of the interface
 * (hongpilas_scintilla.h) is read from there, and not from its code. */
#ifndef MANNERS_H
#define MANNERS_H

#include <hongpilas_scintilla.h>
#include <stdbool.h>
#include <stdint.h>
#include <string.h>

/* Three letters: what w, l and the answer are in Scintilla's documentation.
 * w, l: i an int, m an int whose bits count, - another number, or nothing.
 * l: n a text of w bytes, N the same, of which a null one is none, Z a text up to its NUL, of which a null one is none, e either (up to its NUL where w
 * is -1); a buffer: r for all bytes, s for all and a NUL, b for as many as w and a NUL; a Sci_TextRange whose bytes are closed: t by one NUL, u by two.
 * The answer: i an int, c a char, 1 always 1, f -1 where it is refused, F an int that is -1 where it is refused, - another number. */
typedef struct manners {
  uint32_t number;
  const char *letters;
} manners;

// clang-format off
static const manners documented[] = {
    {SCI_ADDTEXT, "-N-"},          {SCI_INSERTTEXT, "-Z-"},      {SCI_GETCHARAT, "--c"},     {SCI_GETSTYLEAT, "--c"},          {SCI_GETSTYLEDTEXT, "-u-"},
    {SCI_SETREADONLY, "--1"},      {SCI_GETCURLINE, "-b-"},      {SCI_GETLINE, "-r-"},       {SCI_GETTEXTRANGE, "-t-"},        {SCI_SETTEXT, "-Z1"},
    {SCI_GETTEXT, "-b-"},          {SCI_APPENDTEXT, "-n-"},      {SCI_GETSELTEXT, "-s-"},    {SCI_REPLACESEL, "-Z-"},          {SCI_COPYTEXT, "-n-"},
    {SCI_ADDUNDOACTION, "ii-"},    {SCI_SETEOLMODE, "i--"},      {SCI_CONVERTEOLS, "i--"},   {SCI_MARKERADD, "-iF"},           {SCI_MARKERADDSET, "-m-"},
    {SCI_MARKERDELETE, "-i-"},     {SCI_MARKERDELETEALL, "i--"}, {SCI_MARKERGET, "--i"},     {SCI_MARKERDELETEHANDLE, "i--"},  {SCI_MARKERNEXT, "-if"},
    {SCI_MARKERPREVIOUS, "-if"},   {SCI_SETLINESTATE, "-i-"},    {SCI_GETLINESTATE, "--i"},  {SCI_MARKERLINEFROMHANDLE, "i-f"}, {SCI_SETSTYLING, "-i-"},
    {SCI_SETSTYLINGEX, "-N-"},     {SCI_INDICATORSTART, "i--"},  {SCI_INDICATOREND, "i--"},  {SCI_SETINDICATORCURRENT, "i--"}, {SCI_SETINDICATORVALUE, "i--"},
    {SCI_INDICATORALLONFOR, "--i"}, {SCI_INDICATORVALUEAT, "i-i"}, {SCI_GETTARGETTEXT, "-r-"}, {SCI_SETSEARCHFLAGS, "i--"},    {SCI_SEARCHINTARGET, "-nf"},
    {SCI_REPLACETARGET, "-e-"},    {SCI_SETFOLDLEVEL, "-i-"},    {SCI_GETFOLDLEVEL, "--i"},  {SCI_GETFOLDPARENT, "--f"},       {SCI_GETLASTCHILD, "-i-"},
    {SCI_FOLDLINE, "-i-"},         {SCI_CREATEDOCUMENT, "-i-"},   {SCI_SETLINEENDTYPESALLOWED, "i--"}, {SCI_SETMODEVENTMASK, "i--"}};
// clang-format on

static inline const char *manners_of(uint32_t number) {
  for (size_t i = 0; i < sizeof documented / sizeof *documented; i++)
    if (documented[i].number == number) return documented[i].letters;
  return "---";
}

/* Whether l is where a text goes to. */
static inline bool takes_buffer(char letter) { return strchr("rsbtu", letter) != NULL; }

/* What is answered where a message is refused, and where the session answers a value. */
static inline sptr_t refused_value(uint32_t number) { return manners_of(number)[2] == 'f' || manners_of(number)[2] == 'F' ? -1 : 0; }

static inline sptr_t answered_value(uint32_t number, int64_t value) {
  switch (manners_of(number)[2]) {
    case 'c': return (char)value;
    case 'i':
    case 'F': return (int)value;
    case '1': return 1;
    default: return value;
  }
}

#endif

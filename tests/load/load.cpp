// load MEGABYTES MINUTES [SEED [LIBSCINTILLA]]: a document of so many MiB, with styles, markers, indicators, folds, hidden lines and three views, under
// random work for so many minutes. Each call is timed. After each thousandth, text, lines, rows, flags, styles, indicators and positions are compared
// with a plain model (blocks.hpp) about the places of the last work and at random ones, and after each hundred thousandth everywhere. Each minute, or
// each fifth in half an hour and more, it tells the memory that the library holds beside what is alive, and at the end the times. Where Scintilla's
// library is named it does the same work, and is timed too. The document of 8 MiB has line ends of Unicode where Scintilla does not work beside.
// It is linked with a copy of the library that takes its memory by load_malloc, load_realloc and load_free (objcopy --redefine-sym). C++17.
#include "../random.h"
#include "blocks.hpp"

#include <hongpilas.h>

#include <chrono>
#include <cinttypes>
#include <cmath>
#include <cstdio>
#include <cstring>
#include <ctime>
#include <dlfcn.h>
#include <malloc.h>

using blocks::Bytes;
using blocks::Number;

// The heap of the library, counted.

static size_t held, held_most;

extern "C" {
void *load_malloc(size_t size);
void *load_realloc(void *block, size_t size);
void load_free(void *block);

void *load_malloc(size_t size) {
  void *block = std::malloc(size);
  held += malloc_usable_size(block);
  held_most = std::max(held, held_most);
  return block;
}

void *load_realloc(void *block, size_t size) {
  size_t before = malloc_usable_size(block);
  void *grown = std::realloc(block, size);
  if (grown != nullptr) held += malloc_usable_size(grown) - before;
  held_most = std::max(held, held_most);
  return grown;
}

void load_free(void *block) {
  held -= malloc_usable_size(block);
  std::free(block);
}
}

static void fail(const char *what, Number found = 0, Number wanted = 0) {
  std::fprintf(stderr, "load: FAILED: %s: %" PRId64 ", and %" PRId64 " in the model\n", what, found, wanted);
  std::abort();
}

// Times, in parts of a sixteenth of each power of two of nanoseconds.

struct Times {
  std::vector<std::uint64_t> counts = std::vector<std::uint64_t>(64 * 16, 0);
  std::uint64_t count = 0;
  double longest = 0, sum = 0;

  void add(double ns) {
    size_t part = size_t(std::min(std::log2(std::max(ns, 1.0)) * 16, 1023.0));
    counts[part]++;
    count++;
    sum += ns;
    longest = std::max(longest, ns);
  }
  double at(double share) const {
    std::uint64_t wanted = std::uint64_t(std::ceil(share * double(count))), seen = 0;
    for (size_t i = 0; i < counts.size(); i++) {
      seen += counts[i];
      if (seen >= wanted && wanted > 0) return std::min(std::exp2((double(i) + 0.5) / 16), longest);
    }
    return longest;
  }
};

enum Group { EDITS, UNDOS, LINES, FOLDS, STYLES, SEARCHES, QUESTIONS, GROUPS };
static const char *const group_names[GROUPS] = {"insert, delete, replace", "undo, redo",       "markers, levels, states", "fold, hide, show",
                                                "styles, indicators",      "search in 64 KiB", "questions, caret"};
static Times ours[GROUPS], theirs[GROUPS];

static std::uint64_t state;

static Number below(Number bound) {
  std::uint64_t drawn = next_random(&state);
  return bound <= 0 ? 0 : Number(drawn % std::uint64_t(bound));
}

// Both sides, and the model.

static hongpilas_session *session;
static std::uint32_t view_ids[blocks::VIEWS];
static blocks::Document plain;
static std::uint64_t calls, compared, compared_whole;
static Number last_place;
static const int indicators[blocks::INDICATORS] = {0, 8, 31};

static std::intptr_t (*scintilla_send)(void *widget, unsigned number, std::uintptr_t w, std::intptr_t l);
static void *widgets[blocks::VIEWS];

static bool open_scintilla(const char *library) {
  void *toolkit = dlopen("libgtk-3.so.0", RTLD_NOW | RTLD_GLOBAL), *scintilla = dlopen(library, RTLD_NOW | RTLD_GLOBAL);
  if (toolkit == nullptr || scintilla == nullptr) return false;
  auto start = reinterpret_cast<int (*)(int *, char ***)>(dlsym(toolkit, "gtk_init_check"));
  auto make = reinterpret_cast<void *(*)(void)>(dlsym(scintilla, "scintilla_new"));
  scintilla_send = reinterpret_cast<decltype(scintilla_send)>(dlsym(scintilla, "scintilla_send_message"));
  if (start == nullptr || make == nullptr || scintilla_send == nullptr || !start(nullptr, nullptr)) return false;
  for (void *&widget : widgets) widget = make();
  return widgets[0] != nullptr;
}

static double now_ns() { return double(std::chrono::steady_clock::now().time_since_epoch().count()); }

// A call that is timed. Where a message takes a text, it is Scintilla's l.
static Number call(Group group, size_t view, std::uint32_t number, Number w = 0, Number l = 0, const Bytes &text = Bytes()) {
  Number value = 0;
  double begun = now_ns();
  hongpilas_answer answer =
      hongpilas_send_unchecked(session, view_ids[view], number, w, l, reinterpret_cast<const uint8_t *>(text.data()), text.size(), &value);
  ours[group].add(now_ns() - begun);
  if (answer != HONGPILAS_DONE) fail("an answer", answer, 0);
  calls++;
  if (widgets[0] != nullptr && number != SCI_GETTEXTRANGE) {
    begun = now_ns();
    scintilla_send(widgets[view], number, std::uintptr_t(w), text.empty() ? std::intptr_t(l) : reinterpret_cast<std::intptr_t>(text.c_str()));
    theirs[group].add(now_ns() - begun);
  }
  return value;
}

// A question that is asked to compare; it is neither timed nor counted.
static Number ask(size_t view, std::uint32_t number, Number w = 0, Number l = 0) {
  Number value = 0;
  static const uint8_t none = 0;
  if (hongpilas_send_unchecked(session, view_ids[view], number, w, l, &none, 0, &value) != HONGPILAS_DONE) fail("a question");
  return value;
}

static void must_be(Number found, Number wanted, const char *what) {
  if (found != wanted) fail(what, found, wanted);
}

// Comparing.

static void compare_bytes(Number from, Number to) {
  std::string found(size_t(to - from), 0);
  if (hongpilas_copy_range(session, view_ids[0], size_t(from), reinterpret_cast<uint8_t *>(&found[0]), found.size()) != HONGPILAS_DONE) fail("a copied range");
  if (found != plain.text(from, to)) fail("the text from", from, to);
  ask(0, SCI_GETSTYLEDTEXT, from, to);
  const uint8_t *styled = nullptr;
  must_be(Number(hongpilas_text_unchecked(session, &styled)), 2 * (to - from), "the length of a styled text");
  Bytes styles = plain.styles(from, to);
  for (Number i = 0; i < to - from; i++)
    if (styled[2 * i + 1] != static_cast<unsigned char>(styles[size_t(i)])) fail("the style at", from + i, styles[size_t(i)]);
  for (size_t k = 0; k < blocks::INDICATORS; k++) {
    Bytes values = plain.values(k, from, to);
    for (Number p = from; p < to;) {
      Number value = ask(0, SCI_INDICATORVALUEAT, indicators[k], p), end = std::min(ask(0, SCI_INDICATOREND, indicators[k], p), to);
      for (; p < end; p++) must_be(value, static_cast<unsigned char>(values[size_t(p - from)]), "an indicator's value");
    }
  }
}

static void compare_lines(Number first, Number count) {
  Number last = std::min(first + count, plain.lines()), start = plain.start_of(first), shown = 0;
  if (first >= last) return;
  blocks::Document::Line it = plain.line(first);
  for (Number line = first; line < last; line++) {
    const blocks::Row &row = plain.row(it);
    Number mask = 0, end = plain.start_of(line + 1);
    for (auto [handle, number] : row.markers) mask |= Number(1) << number;
    must_be(ask(0, SCI_POSITIONFROMLINE, line), start, "a line's start");
    must_be(ask(0, SCI_MARKERGET, line), mask, "a line's markers");
    if (!row.markers.empty()) must_be(ask(0, SCI_MARKERLINEFROMHANDLE, row.markers.back().first), line, "a handle's line");
    must_be(ask(0, SCI_GETFOLDLEVEL, line), row.level, "a line's level");
    must_be(ask(0, SCI_GETLINESTATE, line), row.state, "a line's state");
    for (size_t v = 0; v < blocks::VIEWS; v++) {
      must_be(ask(v, SCI_GETLINEVISIBLE, line), row.visible >> v & 1, "whether a line is visible");
      must_be(ask(v, SCI_GETFOLDEXPANDED, line), row.expanded >> v & 1, "whether a line is expanded");
    }
    shown += row.visible & 1;
    start = end;
    plain.next(it);
  }
}

static void compare(bool whole) {
  must_be(ask(0, SCI_GETLENGTH), plain.length(), "the length");
  must_be(ask(0, SCI_GETLINECOUNT), plain.lines(), "the number of lines");
  for (size_t v = 0; v < blocks::VIEWS; v++) {
    must_be(ask(v, SCI_GETCURRENTPOS), plain.caret[v], "a caret");
    must_be(ask(v, SCI_GETANCHOR), plain.anchor[v], "an anchor");
  }
  if (widgets[0] != nullptr && scintilla_send(widgets[0], SCI_GETLENGTH, 0, 0) != plain.length())
    fail("Scintilla's length", scintilla_send(widgets[0], SCI_GETLENGTH, 0, 0), plain.length());
  if (whole) {
    compared_whole++;
    for (Number from = 0; from < plain.length(); from += 1 << 16) compare_bytes(from, std::min<Number>(from + (1 << 16), plain.length()));
    for (size_t v = 0; v < blocks::VIEWS; v++) {
      Number shown = 0;
      blocks::Document::Line it = plain.line(0);
      for (bool more = true; more; more = plain.next(it)) shown += plain.row(it).visible >> v & 1;
      must_be(ask(v, SCI_VISIBLEFROMDOCLINE, plain.lines() - 1), shown - 1, "the last display line");
    }
  }
  compared++;
  for (int i = 0; i < 6; i++) {
    Number place = i < 2 ? last_place : below(plain.length() + 1), from = std::max<Number>(std::min(place, plain.length()) - 2000, 0);
    compare_bytes(from, std::min(from + 4000, plain.length()));
    compare_lines(std::max<Number>(plain.line_of(std::min(place, plain.length())) - 15, 0), 30);
  }
}

// Work. Each kind is a few calls, which the model does too.

static Bytes draw_text(Number most) {
  static const char *const words[] = {"let",  "x",        "= ",      "editor", "(line)",       "\n", "\n", "\r\n",
                                      "    ", "\xC3\xA9", "text_of", ", ",     "\xE2\x80\xA8", "\r", "; ", "/* a longer remark */"};
  Bytes text;
  for (Number wanted = 1 + below(most); Number(text.size()) < wanted;) text += words[below(16) == 0 ? 7 + below(9) : below(16)];
  return text;
}

static Number draw_place() {
  if (below(3) != 0) last_place = std::min(std::max<Number>(last_place + below(400) - 200, 0), plain.length());
  else last_place = below(plain.length() + 1);
  return last_place;
}

static void begin() {
  call(EDITS, 0, SCI_BEGINUNDOACTION);
  plain.begin();
}

static void end() {
  call(EDITS, 0, SCI_ENDUNDOACTION);
  plain.end();
}

static void insert(Number p, const Bytes &text) {
  call(EDITS, 0, SCI_INSERTTEXT, p, 0, text);
  plain.insert(p, text);
}

static void erase(Number p, Number n) {
  if (n <= 0) return;
  call(EDITS, 0, SCI_DELETERANGE, p, n);
  plain.erase(p, n);
}

static void do_typing() {
  Number p = draw_place();
  begin();
  call(QUESTIONS, 0, SCI_SETEMPTYSELECTION, p);
  plain.caret[0] = plain.anchor[0] = p;
  for (Number i = 0, count = 2 + below(20); i < count; i++) {
    Bytes text = below(12) == 0 ? "\n" : Bytes(1, char('a' + below(26)));
    call(EDITS, 0, SCI_ADDTEXT, 1, 0, text);
    plain.insert(plain.caret[0], text);
    plain.caret[0] = plain.anchor[0] = plain.caret[0] + 1;
  }
  last_place = plain.caret[0];
  end();
}

static void do_edits(Number wanted_length) {
  begin();
  Number p = draw_place(), kind = below(40);
  if (kind == 0) insert(p, draw_text(65536));
  else if (kind == 1 && plain.length() > wanted_length) erase(p, std::min<Number>(below(65536), plain.length() - p));
  else if (kind < 22) insert(p, draw_text(200));
  else erase(p, std::min<Number>(1 + below(200), plain.length() - p));
  if (plain.length() > wanted_length + wanted_length / 8) erase(std::min(p, plain.length() / 2), std::min<Number>(40000, plain.length() / 2));
  if (plain.length() < wanted_length - wanted_length / 8) insert(std::min(p, plain.length()), draw_text(60000));
  if (below(4) == 0) {
    Number from = draw_place(), n = std::min<Number>(below(60), plain.length() - from);
    Bytes text = draw_text(60);
    call(EDITS, 0, SCI_SETTARGETRANGE, from, from + n);
    call(EDITS, 0, SCI_REPLACETARGET, Number(text.size()), 0, text);
    if (n > 0) plain.erase(from, n);
    plain.insert(from, text);
  }
  end();
  if (plain.history_bytes < (32u << 20)) return;
  call(UNDOS, 0, SCI_EMPTYUNDOBUFFER);
  plain.forget();
}

static void do_undo() {
  bool undoes = below(5) < 3;
  for (Number i = 0, count = 1 + below(4); i < count; i++) {
    call(UNDOS, 0, undoes ? SCI_UNDO : SCI_REDO);
    plain.travel(undoes, 0);
  }
}

static void do_lines() {
  Number line = plain.line_of(draw_place());
  blocks::Row &row = plain.row(plain.line(line));
  switch (below(4)) {
    case 0: {
      Number handle = call(LINES, 0, SCI_MARKERADD, line, 3);
      must_be(handle, plain.next_handle, "a handle");
      row.markers.push_back({plain.next_handle++, 3});
      break;
    }
    case 1: {
      call(LINES, 0, SCI_MARKERDELETE, line, 3);
      auto found = std::find_if(row.markers.begin(), row.markers.end(), [](auto it) { return it.second == 3; });
      if (found != row.markers.end()) row.markers.erase(found);
      break;
    }
    case 2:
      row.state = int(below(1000));
      call(LINES, 0, SCI_SETLINESTATE, line, row.state);
      break;
    default: {
      // A fold with others in it.
      Number count = std::min<Number>(3 + below(60), plain.lines() - line);
      blocks::Document::Line it = plain.line(line);
      for (Number i = 0; i < count; i++) {
        int level = i == 0 ? 0x2400 : below(6) == 0 ? 0x2401 : 0x401 + int(below(2));
        call(LINES, 0, SCI_SETFOLDLEVEL, line + i, level);
        plain.row(it).level = level;
        plain.next(it);
      }
    }
  }
}

static void fold(size_t v, Number header, bool contracts) {
  unsigned bit = 1u << v;
  blocks::Document::Line it = plain.line(header);
  Number last = plain.last_child(header), hidden_to = -1;
  blocks::Row &row = plain.row(it);
  row.expanded = contracts ? row.expanded & ~bit : row.expanded | bit;
  for (Number line = header + 1; line <= last; line++) {
    plain.next(it);
    blocks::Row &child = plain.row(it);
    bool hides = contracts || line <= hidden_to;
    child.visible = hides ? child.visible & ~bit : child.visible | bit;
    if ((child.level & 0x2000) != 0 && (child.expanded & bit) == 0) hidden_to = std::max(hidden_to, plain.last_child(line));
  }
}

static void do_folds() {
  size_t v = size_t(below(blocks::VIEWS));
  Number line = plain.line_of(draw_place());
  unsigned bit = 1u << v;
  if (below(2) == 0) {
    blocks::Document::Line it = plain.line(line);
    for (Number i = 0; i < 200 && (plain.row(it).level & 0x2000) == 0 && plain.next(it); i++) line++;
    if (line >= plain.lines()) return;
    if ((plain.row(plain.line(line)).level & 0x2000) == 0) return;
    Number action = below(2);
    call(FOLDS, v, SCI_FOLDLINE, line, action);
    fold(v, line, action == 0);
    return;
  }
  bool shows = below(3) == 0;
  Number last = std::min(line + below(60), plain.lines() - 1);
  if (shows) last = std::min(line + below(400), plain.lines() - 1);
  line = std::max<Number>(line, 1);
  if (last < line) return;
  call(FOLDS, v, shows ? SCI_SHOWLINES : SCI_HIDELINES, line, last);
  blocks::Document::Line it = plain.line(line);
  for (Number i = line; i <= last; i++, plain.next(it)) plain.row(it).visible = shows ? plain.row(it).visible | bit : plain.row(it).visible & ~bit;
}

static void do_styles() {
  Number p = draw_place();
  call(STYLES, 0, SCI_STARTSTYLING, p);
  for (Number i = 0, count = 1 + below(40); i < count; i++) {
    Number n = std::min<Number>(1 + below(12), plain.length() - p);
    int style = int(below(32));
    call(STYLES, 0, SCI_SETSTYLING, n, style);
    plain.set_styles(p, Bytes(size_t(n), char(style)));
    p += n;
  }
  size_t k = size_t(below(blocks::INDICATORS));
  Number from = draw_place(), n = std::min<Number>(below(300), plain.length() - from);
  int value = int(1 + below(3));
  call(STYLES, 0, SCI_SETINDICATORCURRENT, indicators[k]);
  call(STYLES, 0, SCI_SETINDICATORVALUE, value);
  bool fills = below(3) != 0;
  call(STYLES, 0, fills ? SCI_INDICATORFILLRANGE : SCI_INDICATORCLEARRANGE, from, n);
  plain.fill(k, from, n, fills ? value : 0);
}

static void do_questions() {
  for (Number i = 0; i < 10; i++) {
    Number p = draw_place(), line = call(QUESTIONS, 0, SCI_LINEFROMPOSITION, p);
    must_be(line, plain.line_of(p), "the line of a place");
    call(QUESTIONS, 0, SCI_POSITIONFROMLINE, line);
    call(QUESTIONS, 0, SCI_LINELENGTH, line);
    call(QUESTIONS, 0, SCI_GETCHARAT, p);
    call(QUESTIONS, 0, SCI_GETSTYLEAT, p);
    call(QUESTIONS, size_t(below(3)), SCI_VISIBLEFROMDOCLINE, line);
    call(QUESTIONS, size_t(below(3)), SCI_DOCLINEFROMVISIBLE, below(plain.lines()));
    call(QUESTIONS, 0, SCI_MARKERNEXT, line, 8);
    call(QUESTIONS, 0, SCI_INDICATORVALUEAT, 8, p);
    call(QUESTIONS, 0, SCI_GETTEXTRANGE, p, std::min(p + below(2000), plain.length()));
  }
}

static void do_search() {
  Number from = draw_place();
  static const char *const wanted[] = {"editor", "remark */", "nowhere at all", "x= let"};
  Bytes text = wanted[below(4)];
  call(SEARCHES, 0, SCI_SETSEARCHFLAGS, below(2) == 0 ? SCFIND_MATCHCASE : 0);
  call(SEARCHES, 0, SCI_SETTARGETRANGE, from, std::min(from + 65536, plain.length()));
  Number found = call(SEARCHES, 0, SCI_SEARCHINTARGET, Number(text.size()), 0, text);
  if (found >= 0 && below(16) == 0) call(QUESTIONS, 0, SCI_GETTEXTRANGE, found, found + Number(text.size()));
}

// What stands when nothing is held that is not needed: bytes, styles, a start a line, rows, markers, flags, and the history.
static double alive() {
  double markers = 0;
  blocks::Document::Line it = plain.line(0);
  for (bool more = true; more; more = plain.next(it)) markers += double(plain.row(it).markers.size());
  return 2.0 * double(plain.length()) + 4.0 * double(plain.lines()) + 8.0 * double(plain.lines()) + 16.0 * markers + double(plain.history_bytes);
}

static double resident() {
  long pages = 0, all = 0;
  FILE *file = std::fopen("/proc/self/statm", "r");
  if (file == nullptr || std::fscanf(file, "%ld %ld", &all, &pages) != 2) return 0;
  std::fclose(file);
  return double(pages) * 4096;
}

static void print_times(const char *whose, const Times *times) {
  Times all;
  std::printf("| %s | calls | half of them | 99 of 100 | 999 of 1,000 | longest |\n|---|---|---|---|---|---|\n", whose);
  auto row = [](const char *name, const Times &t) {
    std::printf("| %s | %" PRIu64 " | %.2f | %.2f | %.2f | %.0f |\n", name, t.count, t.at(0.5) / 1e3, t.at(0.99) / 1e3, t.at(0.999) / 1e3, t.longest / 1e3);
  };
  for (int g = 0; g < GROUPS; g++) {
    row(group_names[g], times[g]);
    for (size_t i = 0; i < all.counts.size(); i++) all.counts[i] += times[g].counts[i];
    all.count += times[g].count;
    all.longest = std::max(all.longest, times[g].longest);
  }
  row("all", all);
}

static void open_all(const char *scintilla) {
  if (hongpilas_new(&session) != HONGPILAS_DONE) fail("a session");
  for (std::uint32_t &view : view_ids)
    if (hongpilas_new_view(session, &view) != HONGPILAS_DONE) fail("a view");
  if (scintilla != nullptr && !open_scintilla(scintilla)) fail("Scintilla's library");
  for (size_t v = 0; v < blocks::VIEWS; v++) {
    Number mask = v == 0 ? 0x7FFFFF : v == 1 ? 0 : 3;
    ask(v, SCI_SETDOCPOINTER, 0, v == 0 ? 1 : ask(0, SCI_GETDOCPOINTER));
    ask(v, SCI_SETMODEVENTMASK, mask);
    if (widgets[0] == nullptr) continue;
    scintilla_send(widgets[v], SCI_SETDOCPOINTER, 0, v == 0 ? 0 : scintilla_send(widgets[0], SCI_GETDOCPOINTER, 0, 0));
    scintilla_send(widgets[v], SCI_SETMODEVENTMASK, std::uintptr_t(mask), 0);
    scintilla_send(widgets[v], 2037, 65001, 0);  // SCI_SETCODEPAGE, UTF-8
  }
}

// What is held now, beside what is alive: a row of a table.
static void print_moment(double minutes, std::uint64_t done) {
  double has = double(held) / 1048576, needs = alive() / 1048576;
  std::printf("| %.0f | %" PRIu64 " | %" PRIu64 " | %" PRId64 " | %" PRId64 " | %zu | %.1f MiB | %.1f MiB | %.2f |\n", minutes, calls - done, compared,
              plain.length(), plain.lines(), plain.history_bytes, needs, has, has / needs);
  std::fflush(stdout);
}

static int work(double megabytes, double minutes, const char *scintilla) {
  open_all(scintilla);
  plain.unicode = scintilla == nullptr && megabytes == 8;
  if (plain.unicode) ask(0, SCI_SETLINEENDTYPESALLOWED, 1);
  Number wanted = Number(megabytes * 1048576);
  plain.begin();
  while (plain.length() < wanted) {
    Bytes text = draw_text(1 << 16);
    call(EDITS, 0, SCI_APPENDTEXT, Number(text.size()), 0, text);
    plain.insert(plain.length(), text);
  }
  plain.end();
  call(UNDOS, 0, SCI_EMPTYUNDOBUFFER);
  plain.forget();
  for (int g = 0; g < GROUPS; g++) ours[g] = theirs[g] = Times();
  double begun = now_ns(), next = begun, every = minutes < 30 ? 60e9 : 300e9;
  std::printf("| Minutes | calls | compared | text | lines | history | alive | held | held for each byte alive |\n|---|---|---|---|---|---|---|---|---|\n");
  std::uint64_t done = calls, next_compare = calls + 1000;
  while (now_ns() - begun < minutes * 60e9) {
    switch (below(12)) {
      case 0:
      case 1: do_typing(); break;
      case 2:
      case 3: do_edits(wanted); break;
      case 4: do_undo(); break;
      case 5:
      case 6: do_lines(); break;
      case 7: do_folds(); break;
      case 8: do_styles(); break;
      case 9: do_search(); break;
      default: do_questions(); break;
    }
    if (calls >= next_compare) {
      next_compare = calls - calls % 1000 + 1000;
      compare(compared % 100 == 99);
    }
    if (now_ns() < next) continue;
    print_moment((now_ns() - begun) / 60e9, done);
    while (next <= now_ns()) next += every;
  }
  print_moment((now_ns() - begun) / 60e9, done);
  compare(true);
  std::printf("load: %g MiB, %.1f minutes, of which %.1f on a processor, %" PRIu64 " calls; compared %" PRIu64 " times, %" PRIu64
              " of these over the whole document\n",
              megabytes, (now_ns() - begun) / 60e9, double(std::clock()) / CLOCKS_PER_SEC / 60, calls - done, compared, compared_whole);
  print_times("Hongpilas, microseconds", ours);
  if (widgets[0] != nullptr) print_times("Scintilla, microseconds", theirs);
  std::printf("load: at the end the library holds %.1f MiB, at the most it held %.1f; alive are %.1f (%" PRId64 " bytes of text, %" PRId64
              " lines, %zu bytes of history); the process has %.1f MiB in memory, with the model\n",
              double(held) / 1048576, double(held_most) / 1048576, alive() / 1048576, plain.length(), plain.lines(), plain.history_bytes, resident() / 1048576);
  call(UNDOS, 0, SCI_EMPTYUNDOBUFFER);
  std::printf("load: with its history forgotten it holds %.1f MiB\n", double(held) / 1048576);
  hongpilas_free(session);
  std::printf("load: given back: %zu bytes are held\n", held);
  return held == 0 ? 0 : 1;
}

int main(int count, char **words) {
  if (count < 3) return 2;
  state = count > 3 ? std::strtoull(words[3], nullptr, 10) : 1;
  return work(std::atof(words[1]), std::atof(words[2]), count > 4 ? words[4] : nullptr);
}

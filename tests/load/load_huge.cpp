// load_huge [MEBIBYTES [ROUNDS [SEED]]]: a document above 4 GiB (4,200 MiB), under random work about its start, its end, 2^31 and 2^32. It has the option for
// large texts, markers, styles and an indicator at its front, hidden lines and three views. The text is that of a plain model, a list of pieces of one
// text that repeats and of what was put in; it is compared about the places of the work after each thousandth call, and in full once the work is done and
// once more when all of it is undone. Then messages of each kind are sent about 2^32, whose answers, texts and notes follow from the model. The times
// of calls stand at the end; a jump from one place to another moves all bytes between, and has a row of its own.
// It needs some 13 GB of memory at most: the text has grown by doubling, and the styles behind 2^32 are as long as it is. C++17.
#include "../random.h"

#include <hongpilas.h>

#include <algorithm>
#include <chrono>
#include <cinttypes>
#include <cstdio>
#include <cstdlib>
#include <string>
#include <vector>

using Bytes = std::string;
using Number = std::int64_t;

static constexpr Number REPEAT = 1 << 20;

static Bytes repeated;                   // the text that repeats
static std::vector<Number> ends_before;  // how many LF stand before a place of it
static hongpilas_session *session;
static std::uint32_t views[3];
static std::uint64_t calls, compared;
static std::vector<double> loading, near_times, far_times, question_times;

static void fail(const char *what, Number found = 0, Number wanted = 0) {
  std::fprintf(stderr, "load_huge: FAILED: %s: %" PRId64 ", and %" PRId64 " in the model\n", what, found, wanted);
  std::abort();
}

static std::uint64_t state;  // of what is drawn

static Number below(Number bound) {
  std::uint64_t drawn = next_random(&state);
  return bound <= 0 ? 0 : Number(drawn % std::uint64_t(bound));
}

static double now_us() { return double(std::chrono::steady_clock::now().time_since_epoch().count()) / 1e3; }

static Number call(std::vector<double> &times, size_t view, std::uint32_t number, Number w = 0, Number l = 0, const Bytes &text = Bytes()) {
  Number value = 0;
  double begun = now_us();
  hongpilas_answer answer = hongpilas_send_unchecked(session, views[view], number, w, l, reinterpret_cast<const uint8_t *>(text.data()), text.size(), &value);
  times.push_back(now_us() - begun);
  if (answer != HONGPILAS_DONE) fail("an answer", answer);
  calls++;
  return value;
}

static Number ask(std::uint32_t number, Number w = 0, Number l = 0) { return call(question_times, 0, number, w, l); }

static void must_be(Number found, Number wanted, const char *what) {
  if (found != wanted) fail(what, found, wanted);
}

// The model: pieces, each a stretch of the text that repeats without end, from `from` on, or bytes of its own.

struct Piece {
  Number from, length;
  Bytes own;
};

struct Step {
  bool inserts;
  Number place;
  std::vector<Piece> pieces;
  Number length;
};

static std::vector<Piece> pieces;
static Number length;
static std::vector<std::vector<Step>> past, future;
static std::vector<std::pair<Number, Number>> markers;  // a handle, and where its line starts

// The piece that begins at a place; one is cut in two for that.
static size_t cut(Number place) {
  size_t i = 0;
  while (i < pieces.size() && place >= pieces[i].length) place -= pieces[i++].length;
  if (place == 0 || i == pieces.size()) return i;
  Piece behind = pieces[i];
  behind.length -= place;
  if (behind.from < 0) behind.own.erase(0, size_t(place));
  else behind.from += place;
  pieces[i].length = place;
  if (pieces[i].from < 0) pieces[i].own.resize(size_t(place));
  pieces.insert(pieces.begin() + Number(i) + 1, behind);
  return i + 1;
}

static Bytes text(Number from, Number to) {
  Bytes all;
  Number base = 0;
  for (const Piece &it : pieces) {
    Number first = std::max(from, base), last = std::min(to, base + it.length);
    for (Number p = first; p < last;) {
      Number inside = p - base;
      if (it.from < 0) {
        all.append(it.own, size_t(inside), size_t(last - p));
        break;
      }
      Number at = (it.from + inside) % REPEAT, n = std::min(last - p, REPEAT - at);
      all.append(repeated, size_t(at), size_t(n));
      p += n;
    }
    base += it.length;
  }
  return all;
}

// How many LF stand in the first `n` bytes of the text that repeats without end.
static Number ends_in(Number n) { return n / REPEAT * ends_before[REPEAT] + ends_before[size_t(n % REPEAT)]; }

static Number line_of(Number place) {
  Number line = 0;
  for (const Piece &it : pieces) {
    Number n = std::min(place, it.length);
    line += it.from < 0 ? std::count(it.own.begin(), it.own.begin() + n, '\n') : ends_in(it.from + n) - ends_in(it.from);
    place -= n;
    if (place == 0) break;
  }
  return line;
}

static Number line_start(Number place) {
  while (place > 0) {
    Number from = std::max<Number>(place - 8192, 0);
    Bytes before = text(from, place);
    size_t found = before.rfind('\n');
    if (found != Bytes::npos) return from + Number(found) + 1;
    place = from;
  }
  return 0;
}

static void put(Number p, const std::vector<Piece> &what, Number n) {
  size_t i = cut(p);
  pieces.insert(pieces.begin() + Number(i), what.begin(), what.end());
  length += n;
  for (auto &it : markers)
    if (it.second >= p) it.second += n;
  for (auto &it : markers)
    if (it.second >= p && it.second <= p + n + 1) it.second = line_start(it.second);
}

static std::vector<Piece> take(Number p, Number n) {
  size_t first = cut(p), last = cut(p + n);
  std::vector<Piece> taken(pieces.begin() + Number(first), pieces.begin() + Number(last));
  pieces.erase(pieces.begin() + Number(first), pieces.begin() + Number(last));
  length -= n;
  for (auto &it : markers) {
    if (it.second > p) it.second = it.second >= p + n ? it.second - n : p;
    if (it.second >= p && it.second <= p + 1) it.second = line_start(it.second);
  }
  return taken;
}

static void travel(bool is_undo) {
  auto &from = is_undo ? past : future, &to = is_undo ? future : past;
  if (from.empty()) return;
  std::vector<Step> steps = std::move(from.back());
  from.pop_back();
  for (size_t i = 0; i < steps.size(); i++) {
    const Step &step = steps[is_undo ? steps.size() - 1 - i : i];
    if (step.inserts != is_undo) put(step.place, step.pieces, step.length);
    else take(step.place, step.length);
  }
  to.push_back(std::move(steps));
}

// Work.

static void compare(Number from, Number to) {
  from = std::max<Number>(from, 0);
  to = std::min(to, length);
  if (from >= to) return;
  Bytes found(size_t(to - from), 0), wanted = text(from, to);
  if (hongpilas_copy_range(session, views[0], size_t(from), reinterpret_cast<uint8_t *>(&found[0]), found.size()) != HONGPILAS_DONE) fail("a copied range");
  if (found != wanted) fail("the text from", from, to);
}

static void compare_about(Number place) {
  compared++;
  must_be(ask(SCI_GETLENGTH), length, "the length");
  must_be(ask(SCI_GETLINECOUNT), line_of(length) + 1, "the number of lines");
  for (Number p : {place, Number(0), length - 2000, (Number(1) << 31), (Number(1) << 32), below(length)}) {
    if (p > length) continue;
    p = std::max<Number>(p, 0);
    compare(p - 20000, p + 20000);
    Number line = line_of(p), start = line_start(p);
    must_be(ask(SCI_LINEFROMPOSITION, p), line, "the line of a place");
    must_be(ask(SCI_POSITIONFROMLINE, line), start, "the start of a line");
  }
  for (auto [handle, start] : markers) must_be(ask(SCI_MARKERLINEFROMHANDLE, handle), line_of(start), "the line of a handle");
}

static void edit_near(std::vector<double> &times, Number place) {
  std::vector<Step> steps;
  call(times, 0, SCI_BEGINUNDOACTION);
  for (Number i = 0, count = 1 + below(5); i < count; i++) {
    Number p = std::min(std::max<Number>(place + below(3000) - 1500, 0), length);
    if (below(2) == 0) {
      Bytes own;
      for (Number n = 1 + below(60); n > 0; n--) own += below(20) == 0 ? '\n' : char('A' + below(26));
      call(times, 0, SCI_INSERTTEXT, p, 0, own);
      steps.push_back({true, p, {{-1, Number(own.size()), own}}, Number(own.size())});
      put(p, steps.back().pieces, Number(own.size()));
    } else {
      Number n = std::min<Number>(1 + below(80), length - p);
      if (n == 0) continue;
      call(times, 0, SCI_DELETERANGE, p, n);
      steps.push_back({false, p, take(p, n), n});
    }
  }
  call(times, 0, SCI_ENDUNDOACTION);
  if (!steps.empty()) {
    past.push_back(std::move(steps));
    future.clear();
  }
}

static void print_times(const char *name, std::vector<double> &times) {
  if (times.empty()) return;
  std::sort(times.begin(), times.end());
  auto at = [&](double share) { return times[std::min(size_t(share * double(times.size())), times.size() - 1)]; };
  std::printf("| %s | %zu | %.2f | %.2f | %.2f | %.0f |\n", name, times.size(), at(0.5), at(0.99), at(0.999), times.back());
}

static Number peak() {
  Number kilobytes = 0;
  FILE *file = std::fopen("/proc/self/status", "r");
  for (char row[256]; file != nullptr && std::fgets(row, sizeof row, file) != nullptr;)
    if (Bytes(row).compare(0, 6, "VmHWM:") == 0) kilobytes = std::atoll(row + 6);
  if (file != nullptr) std::fclose(file);
  return kilobytes;
}

static Number wanted;                 // how long the document is before the work
static const Number SPARE = 8 << 20;  // how much longer it may become
static double stage_begun;

// Tells how long a part took, and the most memory that was held so far.
static void stage(const char *what) {
  std::printf("| %s | %.3f s | %.2f GB |\n", what, (now_us() - stage_begun) / 1e6, double(peak()) * 1024 / 1e9);
  std::fflush(stdout);
  stage_begun = now_us();
}

static void open_all() {
  hongpilas_limits limits = HONGPILAS_GREATEST_LIMITS;
  limits.large_bytes = std::uint64_t(wanted + SPARE);
  if (hongpilas_new_with_limits(&session, &limits, sizeof limits) != HONGPILAS_DONE) fail("a session");
  for (std::uint32_t &view : views)
    if (hongpilas_new_view(session, &view) != HONGPILAS_DONE) fail("a view");
  Number document = ask(SCI_CREATEDOCUMENT, 0, SC_DOCUMENTOPTION_TEXT_LARGE);
  for (size_t v = 0; v < 3; v++) call(question_times, v, SCI_SETDOCPOINTER, 0, document);
  for (size_t v = 0; v < 3; v++) call(question_times, v, SCI_SETMODEVENTMASK, v == 1 ? 0 : 3);
}

// The whole text, without undo: it is the text that repeats.
static void load() {
  Bytes chunk;
  while (Number(repeated.size()) < REPEAT) repeated += below(3000) == 0 ? '\n' : char('a' + below(26));
  ends_before.assign(size_t(REPEAT) + 1, 0);
  for (size_t i = 0; i < size_t(REPEAT); i++) ends_before[i + 1] = ends_before[i] + (repeated[i] == '\n');
  for (int i = 0; i < 8; i++) chunk += repeated;
  ask(SCI_SETUNDOCOLLECTION, 0);
  while (length < wanted) {
    Number n = std::min(Number(chunk.size()), wanted - length);
    call(loading, 0, SCI_APPENDTEXT, n, 0, n == Number(chunk.size()) ? chunk : chunk.substr(0, size_t(n)));
    length += n;
  }
  pieces.push_back({0, length, Bytes()});
  ask(SCI_SETUNDOCOLLECTION, 1);
  ask(SCI_EMPTYUNDOBUFFER);
}

// Styles and an indicator at the front, and lines that one view hides.
static void dress() {
  ask(SCI_STARTSTYLING, 0);
  ask(SCI_SETSTYLING, 5000, 7);
  ask(SCI_SETINDICATORCURRENT, 8);
  ask(SCI_INDICATORFILLRANGE, length - 5000, 1000);
  Number lines = ask(SCI_GETLINECOUNT), hidden = std::min<Number>(1000, lines / 4);
  call(near_times, 1, SCI_HIDELINES, lines / 2, lines / 2 + hidden - 1);
  must_be(call(question_times, 1, SCI_VISIBLEFROMDOCLINE, lines - 1), lines - 1 - hidden, "a display line");
  must_be(ask(SCI_INDICATORSTART, 8, length - 4500), length - 5000, "an indicator's start");
}

static void do_some(Number place) {
  switch (below(6)) {
    case 0: {
      bool undoes = below(2) == 0;
      for (Number times = 1 + below(3); times > 0; times--) {
        // Undo goes where the change was, maybe far away.
        call(far_times, 0, undoes ? SCI_UNDO : SCI_REDO);
        travel(undoes);
      }
      break;
    }
    case 1:
    case 2: {
      Number p = std::min(std::max<Number>(place + below(100000) - 50000, 0), length);
      must_be(ask(SCI_LINEFROMPOSITION, p), line_of(p), "the line of a place");
      ask(SCI_GETCHARAT, p);
      ask(SCI_VISIBLEFROMDOCLINE, line_of(p));
      break;
    }
    default: edit_near(near_times, place); break;
  }
}

static void compare_whole() {
  compare_about(0);
  for (Number from = 0; from < length; from += 1 << 24) compare(from, from + (1 << 24));
}

static void work(Number rounds) {
  Number place = length;
  std::uint64_t next_compare = 0;
  for (Number round = 0; round < rounds; round++) {
    const Number about[] = {0, Number(1) << 31, Number(1) << 32, length, below(length)};
    place = std::min(std::max<Number>(about[below(5)] + below(20000) - 10000, 0), length);
    edit_near(far_times, place);
    Number line = ask(SCI_LINEFROMPOSITION, place);
    markers.push_back({call(near_times, 0, SCI_MARKERADD, line, 3), line_start(place)});
    for (Number i = 0; i < 300; i++) {
      do_some(place);
      if (calls < next_compare) continue;
      next_compare = calls - calls % 1000 + 1000;
      compare_about(place);
    }
  }
  compare_about(place);
  compare_whole();
  while (!past.empty()) {
    call(far_times, 0, SCI_UNDO);
    travel(true);
  }
  must_be(length, wanted, "the length when all is undone");
  compare_whole();
}

// Messages of each kind about `far`, which is 2^32 where the document reaches it. All that was done is undone before.

static Number far_place, answers;
static std::vector<double> known_times;

static Number tell(std::uint32_t number, Number w = 0, Number l = 0, const Bytes &sent = Bytes(), size_t view = 0) {
  return call(known_times, view, number, w, l, sent);
}

static void known(Number found, Number expected, const char *what) {
  answers++;
  must_be(found, expected, what);
}

// The reply's text is what the model has from one place to another.
static void replies(Number from, Number to, const char *what) {
  const uint8_t *bytes = nullptr;
  size_t count = hongpilas_text_unchecked(session, &bytes);
  known(Bytes(reinterpret_cast<const char *>(bytes), count) == text(from, to), true, what);
}

static void refused(std::uint32_t number, Number w, Number l, const Bytes &sent, hongpilas_answer expected, const char *what) {
  Number value = 0;
  known(hongpilas_send(session, views[0], number, w, l, sent.data(), sent.size(), &value), expected, what);
}

// The last reply's note of this index.
static void told(size_t index, size_t view, std::uint32_t code, std::uint32_t kind, Number position, Number count, Number lines) {
  hongpilas_note_data note;
  known(hongpilas_note_unchecked(session, index, &note), true, "whether there is a note");
  known(note.view, views[view], "a note's view");
  known(note.code, code, "a note's code");
  known(note.kind, kind, "a note's kind");
  known(note.position, position, "a note's position");
  known(note.length, count, "a note's length");
  known(note.lines, lines, "a note's lines");
}

static Number line_end(Number place) {
  for (; place < length; place += 8192) {
    size_t found = text(place, std::min(place + 8192, length)).find('\n');
    if (found != Bytes::npos) return place + Number(found);
  }
  return length;
}

static void look_up() {
  Number lines = line_of(length) + 1;
  for (Number p = far_place - 10000; p <= far_place + 10000; p += 5000) {
    Number line = line_of(p), start = line_start(p), end = line_end(p);
    known(tell(SCI_LINEFROMPOSITION, p), line, "LINEFROMPOSITION");
    known(tell(SCI_POSITIONFROMLINE, line), start, "POSITIONFROMLINE");
    known(tell(SCI_GETLINEENDPOSITION, line), end, "GETLINEENDPOSITION");
    known(tell(SCI_LINELENGTH, line), end + 1 - start, "LINELENGTH");
    known(tell(SCI_GETCHARAT, p), text(p, p + 1)[0], "GETCHARAT");
    known(tell(SCI_POSITIONAFTER, p), p + 1, "POSITIONAFTER");
    known(tell(SCI_POSITIONBEFORE, p), p - 1, "POSITIONBEFORE");
  }
  known(tell(SCI_POSITIONFROMLINE, lines - 1), line_start(length), "the last line");
  known(tell(SCI_POSITIONFROMLINE, lines + 1), -1, "behind the last line");
  known(tell(SCI_LINEFROMPOSITION, length), lines - 1, "the end's line");
  known(tell(SCI_GETTEXTRANGE, far_place - 20, far_place + 20), 40, "GETTEXTRANGE");
  replies(far_place - 20, far_place + 20, "GETTEXTRANGE");
  known(tell(SCI_GETTEXTRANGE, length - 20, -1), 20, "GETTEXTRANGE to the end");
  replies(length - 20, length, "GETTEXTRANGE to the end");
  const uint8_t *bytes = nullptr;
  known(hongpilas_lend_range(session, views[0], size_t(far_place - 20), 40, &bytes), HONGPILAS_DONE, "lending a range");
  known(Bytes(reinterpret_cast<const char *>(bytes), 40) == text(far_place - 20, far_place + 20), true, "the lent range");
  refused(SCI_GETTEXTRANGE, far_place, length + 1, "", HONGPILAS_BAD_ARGUMENT, "GETTEXTRANGE past the end");
  stage("lengths, lines and bytes looked up");
}

static void select_text() {
  Number line = line_of(far_place);
  tell(SCI_SETSEL, far_place - 5, far_place + 5);
  known(tell(SCI_GETANCHOR), far_place - 5, "GETANCHOR");
  known(tell(SCI_GETCURRENTPOS), far_place + 5, "GETCURRENTPOS");
  known(tell(SCI_GETSELTEXT), 10, "GETSELTEXT");
  replies(far_place - 5, far_place + 5, "GETSELTEXT");
  tell(SCI_HOME);
  known(tell(SCI_GETCURRENTPOS), line_start(far_place + 5), "HOME");
  tell(SCI_LINEEND);
  known(tell(SCI_GETCURRENTPOS), line_end(far_place + 5), "LINEEND");
  tell(SCI_DOCUMENTEND);
  known(tell(SCI_GETCURRENTPOS), length, "DOCUMENTEND");
  tell(SCI_GOTOLINE, line + 1);
  known(tell(SCI_GETCURRENTPOS), line_end(far_place) + 1, "GOTOLINE");
  stage("selections and keys");
}

static const Bytes needle = "Needle_\nx";

// Text that comes, goes, and is undone, with its notes; and what is too long by a byte. `needle` stays.
static void edit() {
  Number line = line_of(far_place + 10), n = Number(needle.size());
  known(tell(SCI_GETMODIFY), 0, "GETMODIFY");
  tell(SCI_GOTOPOS, far_place + 5000, 0, "", 1);
  tell(SCI_SETMODEVENTMASK, SC_MODEVENTMASKALL);
  tell(SCI_INSERTTEXT, far_place + 10, 0, needle);
  told(0, 0, SCN_MODIFIED, SC_MOD_BEFOREINSERT | SC_PERFORMED_USER, far_place + 10, n, 0);
  for (size_t v = 0; v < 3; v++) told(1 + v, v, SCN_SAVEPOINTLEFT, 0, 0, 0, 0);
  told(4, 0, SCN_MODIFIED, SC_MOD_INSERTTEXT | SC_PERFORMED_USER | SC_STARTACTION, far_place + 10, n, 1);
  told(5, 2, SCN_MODIFIED, SC_MOD_INSERTTEXT | SC_PERFORMED_USER | SC_STARTACTION, far_place + 10, n, 1);
  put(far_place + 10, {{-1, n, needle}}, n);
  known(tell(SCI_GETLENGTH), wanted + n, "the length behind an insertion");
  known(tell(SCI_GETCURRENTPOS, 0, 0, "", 1), far_place + 5000 + n, "the caret of another view");
  known(tell(SCI_POSITIONFROMLINE, line + 1), far_place + 10 + n - 1, "the start of a line that came");
  known(tell(SCI_GETTEXTRANGE, far_place, far_place + 40), 40, "what was put in");
  replies(far_place, far_place + 40, "what was put in");
  Bytes much(size_t(SPARE - n + 1), 'z');
  refused(SCI_APPENDTEXT, SPARE - n + 1, 0, much, HONGPILAS_TOO_LONG, "a text that is too long by a byte");
  known(tell(SCI_GETLENGTH), wanted + n, "the length behind that");
  tell(SCI_APPENDTEXT, SPARE - n, 0, much);
  known(tell(SCI_GETLENGTH), wanted + SPARE, "the length at the limit");
  tell(SCI_UNDO);
  told(1, 0, SCN_MODIFIED, SC_MOD_DELETETEXT | SC_PERFORMED_UNDO | SC_LASTSTEPINUNDOREDO, wanted + n, SPARE - n, 0);
  known(tell(SCI_GETCURRENTPOS), wanted + n, "the caret behind UNDO");
  tell(SCI_DELETERANGE, far_place - 10, 40);
  known(tell(SCI_GETLENGTH), wanted + n - 40, "the length behind a deletion over 2^32");
  tell(SCI_UNDO);
  known(tell(SCI_GETLENGTH), wanted + n, "the length when it is undone");
  known(tell(SCI_GETCURRENTPOS), far_place + 30, "the caret when it is undone");
  replies(0, 0, "what a change hands out");
  tell(SCI_SETMODEVENTMASK, 0);
  compare(far_place - 20000, far_place + 20000);
  stage("edits, undone, with their notes; 8 MiB put in at the end, and undone");
}

// `needle` is found forwards and backwards, and from the front of the text; it is replaced, and all is undone.
static void search() {
  Number place = far_place + 10, n = Number(needle.size());
  Bytes lower = "needle_\nX";
  tell(SCI_SETSEARCHFLAGS, SCFIND_MATCHCASE);
  tell(SCI_SETTARGETRANGE, far_place - 100, length);
  known(tell(SCI_SEARCHINTARGET, n, 0, needle), place, "a search over 2^32");
  known(tell(SCI_GETTARGETEND), place + n, "the target's end");
  tell(SCI_SETTARGETRANGE, length, far_place - 100);
  known(tell(SCI_SEARCHINTARGET, n, 0, needle), place, "a search backwards");
  known(tell(SCI_SEARCHINTARGET, n, 0, lower), -1, "a search in which case counts");
  stage("searches near the end");
  tell(SCI_TARGETWHOLEDOCUMENT);
  known(tell(SCI_SEARCHINTARGET, n, 0, needle), place, "a search of all");
  stage("a search from the front, with case");
  tell(SCI_SETSEARCHFLAGS, 0);
  tell(SCI_TARGETWHOLEDOCUMENT);
  known(tell(SCI_SEARCHINTARGET, n, 0, lower), place, "a search of all in any case");
  stage("a search from the front, without case");
  known(tell(SCI_REPLACETARGET, 2, 0, "ab"), 2, "REPLACETARGET");
  known(tell(SCI_GETTARGETSTART), place, "the target behind it");
  known(tell(SCI_GETTARGETEND), place + 2, "the target's end behind it");
  tell(SCI_UNDO);
  tell(SCI_UNDO);
  take(place, n);
  known(tell(SCI_GETLENGTH), wanted, "the length when all is undone");
  known(tell(SCI_GETMODIFY), 0, "GETMODIFY when all is undone");
  compare(far_place - 20000, far_place + 20000);
  stage("the target replaced, and all undone");
}

// A marker, a level, a state and a fold behind 2^32, over a line that comes and goes before them.
static void mark() {
  Number line = line_of(far_place) + 4, handle = Number(markers.size()) + 1, lines = line_of(length) + 1;
  Number others = tell(SCI_MARKERGET, line);
  known(tell(SCI_MARKERADD, line, 5), handle, "MARKERADD");
  tell(SCI_SETLINESTATE, line, 77);
  tell(SCI_SETFOLDLEVEL, line, SC_FOLDLEVELBASE | SC_FOLDLEVELHEADERFLAG);
  tell(SCI_SETFOLDLEVEL, line + 1, SC_FOLDLEVELBASE + 1);
  tell(SCI_INSERTTEXT, far_place, 0, "\n");
  known(tell(SCI_MARKERGET, line + 1), others | 1 << 5, "MARKERGET");
  known(tell(SCI_MARKERNEXT, 0, 1 << 5), line + 1, "MARKERNEXT");
  known(tell(SCI_MARKERPREVIOUS, lines, 1 << 5), line + 1, "MARKERPREVIOUS");
  known(tell(SCI_MARKERLINEFROMHANDLE, handle), line + 1, "MARKERLINEFROMHANDLE");
  tell(SCI_UNDO);
  known(tell(SCI_MARKERNEXT, 0, 1 << 5), line, "MARKERNEXT behind UNDO");
  known(tell(SCI_GETLINESTATE, line), 77, "GETLINESTATE");
  known(tell(SCI_GETFOLDLEVEL, line), SC_FOLDLEVELBASE | SC_FOLDLEVELHEADERFLAG, "GETFOLDLEVEL");
  known(tell(SCI_GETFOLDPARENT, line + 1), line, "GETFOLDPARENT");
  known(tell(SCI_GETLASTCHILD, line, -1), line + 1, "GETLASTCHILD");
  tell(SCI_FOLDLINE, line, SC_FOLDACTION_CONTRACT);
  known(tell(SCI_GETLINEVISIBLE, line + 1), 0, "GETLINEVISIBLE");
  known(tell(SCI_VISIBLEFROMDOCLINE, line + 2), line + 1, "VISIBLEFROMDOCLINE");
  known(tell(SCI_DOCLINEFROMVISIBLE, line + 1), line + 2, "DOCLINEFROMVISIBLE");
  known(tell(SCI_GETALLLINESVISIBLE, 0, 0, "", 2), 1, "the lines of another view");
  stage("a marker, a level, a state and a fold");
}

// An indicator, and last styles, which are kept for each byte up to the last one that is styled.
static void style() {
  tell(SCI_SETINDICATORCURRENT, 9);
  tell(SCI_INDICATORFILLRANGE, far_place + 200, 50);
  known(tell(SCI_INDICATORSTART, 9, far_place + 210), far_place + 200, "INDICATORSTART");
  known(tell(SCI_INDICATOREND, 9, far_place + 210), far_place + 250, "INDICATOREND");
  known(tell(SCI_INDICATORSTART, 9, far_place + 10), 0, "INDICATORSTART before it");
  known(tell(SCI_INDICATOREND, 9, far_place + 300), length, "INDICATOREND behind it");
  known(tell(SCI_INDICATORVALUEAT, 9, far_place + 249), 1, "INDICATORVALUEAT");
  known(tell(SCI_INDICATORALLONFOR, far_place + 200), 1 << 9, "INDICATORALLONFOR");
  stage("an indicator");
  tell(SCI_STARTSTYLING, far_place + 100);
  tell(SCI_SETSTYLING, 5, 7);
  known(tell(SCI_GETENDSTYLED), far_place + 105, "GETENDSTYLED");
  for (Number at = -1; at <= 5; at++) known(tell(SCI_GETSTYLEAT, far_place + 100 + at), at < 0 || at > 4 ? 0 : 7, "GETSTYLEAT");
  known(tell(SCI_GETSTYLEDTEXT, far_place + 99, far_place + 101), 4, "GETSTYLEDTEXT");
  stage("styles behind 2^32: all before them are stored with them");
  tell(SCI_INSERTTEXT, far_place + 102, 0, "z");
  known(tell(SCI_GETSTYLEAT, far_place + 102), 0, "the style of what comes");
  known(tell(SCI_GETSTYLEAT, far_place + 105), 7, "the style behind it");
  known(tell(SCI_GETENDSTYLED), far_place + 102, "GETENDSTYLED behind it");
  known(tell(SCI_INDICATORSTART, 9, far_place + 211), far_place + 201, "the indicator behind it");
  tell(SCI_UNDO);
  known(tell(SCI_GETSTYLEAT, far_place + 104), 7, "the style behind UNDO");
  known(tell(SCI_GETLENGTH), wanted, "the length at the end");
  stage("a byte put in among styles, and undone");
}

int main(int count, char **words) {
  wanted = (count > 1 ? std::atoll(words[1]) : 4200) << 20;
  Number rounds = count > 2 ? std::atoll(words[2]) : 60;
  state = count > 3 ? std::strtoull(words[3], nullptr, 10) : 7;
  far_place = wanted > (Number(1) << 32) + (1 << 20) ? Number(1) << 32 : wanted / 2;
  double begun = now_us();
  open_all();
  load();
  std::printf("load_huge: %" PRId64 " bytes, %" PRId64 " lines loaded in %.1f seconds\n", length, line_of(length) + 1, (now_us() - begun) / 1e6);
  dress();
  work(rounds);
  std::printf("load_huge: %" PRIu64 " calls in %.0f seconds, compared %" PRIu64 " times and twice in full; all undone; at most %.2f GB\n", calls,
              (now_us() - begun) / 1e6, compared, double(peak()) * 1024 / 1e9);
  std::printf("| Microseconds | calls | half of them | 99 of 100 | 999 of 1,000 | longest |\n|---|---|---|---|---|---|\n");
  print_times("loading, 8 MiB a call", loading);
  print_times("edits and markers near the last edit", near_times);
  print_times("the first edits behind a jump; undo, redo", far_times);
  print_times("questions", question_times);
  std::printf("| What | Time | Most memory so far |\n|---|---|---|\n");
  stage_begun = now_us();
  look_up();
  select_text();
  edit();
  search();
  mark();
  style();
  hongpilas_free(session);
  stage("all given back");
  std::printf("load_huge: %" PRId64 " answers about %" PRId64 " as the model has them\n", answers, far_place);
}

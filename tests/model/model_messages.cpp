// The plain model (model.h): the message table of docs/MESSAGES.md, a section after the other; model_lines.cpp has those on lines, styles and folds. C++17.
#include "arguments.hpp"

#include <algorithm>
#include <cstring>

namespace plain {

struct Marks {
  std::uint32_t number;
  const char *marks;
};

// What docs/MESSAGES.md marks: Q changes nothing, N takes no memory, E edits the text, R is recorded.
static const Marks table[] = {
    {2001, "E R"}, {2003, "E R"}, {2004, "E R"}, {2006, "Q N"}, {2007, "Q N"}, {2008, "Q N"}, {2009, "Q N"}, {2010, "Q N"}, {2011, "E"},   {2012, "N"},
    {2013, "N R"}, {2014, ""},    {2015, "Q"},   {2016, "Q N"}, {2017, "Q N"}, {2018, ""},    {2019, "Q N"}, {2024, "N R"}, {2025, "N R"}, {2026, "N"},
    {2027, "Q"},   {2028, "Q N"}, {2029, "E"},   {2030, "Q N"}, {2031, "N"},   {2032, "N"},   {2033, ""},    {2043, ""},    {2044, ""},    {2045, ""},
    {2046, "Q N"}, {2047, "Q N"}, {2048, "Q N"}, {2073, ""},    {2078, "N"},   {2079, "N"},   {2092, ""},    {2093, "Q N"}, {2136, "Q N"}, {2140, "Q N"},
    {2141, "N"},   {2142, "N"},   {2143, "Q N"}, {2144, "N"},   {2145, "Q N"}, {2153, "Q"},   {2154, "Q N"}, {2159, "Q N"}, {2160, "N"},   {2161, "Q"},
    {2162, "Q"},   {2166, "Q N"}, {2167, "Q N"}, {2170, "E R"}, {2171, "N"},   {2173, "Q N"}, {2174, "Q N"}, {2175, "N"},   {2176, "E"},   {2177, "E R"},
    {2178, "R"},   {2179, "E R"}, {2180, "E R"}, {2181, "E"},   {2182, "Q"},   {2183, "Q N"}, {2190, "N"},   {2191, "Q N"}, {2192, "N"},   {2193, "Q N"},
    {2194, "E"},   {2197, "N"},   {2198, "N"},   {2199, "Q N"}, {2220, "Q N"}, {2221, "Q N"}, {2222, ""},    {2223, "Q N"}, {2224, "Q N"}, {2225, "Q N"},
    {2226, ""},    {2227, ""},    {2228, "Q N"}, {2229, ""},    {2230, "Q N"}, {2231, ""},    {2232, ""},    {2236, "Q N"}, {2237, ""},    {2282, "E R"},
    {2287, "N"},   {2304, "N R"}, {2305, "N R"}, {2306, "N R"}, {2307, "N R"}, {2312, "N R"}, {2313, "N R"}, {2314, "N R"}, {2315, "N R"}, {2316, "N R"},
    {2317, "N R"}, {2318, "N R"}, {2319, "N R"}, {2326, "E R"}, {2329, "E R"}, {2350, "Q N"}, {2357, "Q N"}, {2358, ""},    {2359, "N"},   {2375, ""},
    {2376, "N"},   {2377, "N"},   {2378, "Q N"}, {2379, "Q N"}, {2417, "Q N"}, {2418, "Q N"}, {2419, ""},    {2420, ""},    {2466, ""},    {2467, "N"},
    {2468, "Q N"}, {2500, "N"},   {2501, "Q N"}, {2502, "N"},   {2503, "Q N"}, {2504, ""},    {2505, ""},    {2506, "Q N"}, {2507, "Q N"}, {2508, "Q N"},
    {2509, "Q N"}, {2556, "N"},   {2560, ""},    {2645, "E"},   {2650, "Q N"}, {2656, ""},    {2657, "Q N"}, {2658, "Q N"}, {2686, "N"},   {2687, "Q"},
    {2690, "N"},   {3001, "N"},   {3002, "N"},   {4003, ""}};

static const char *marks_of(std::uint32_t number) {
  for (const Marks &it : table)
    if (it.number == number) return it.marks;
  return nullptr;
}

hongpilas_answer Session::send(const Message &m) {
  reply = Reply();
  auto found = views.find(m.view);
  if (found == views.end()) return HONGPILAS_NO_SUCH_VIEW;
  const char *marks = marks_of(m.number);
  if (marks == nullptr) return HONGPILAS_UNKNOWN_MESSAGE;
  View &v = found->second;
  if (v.records && std::strchr(marks, 'R') != nullptr) {
    Note note{};
    note.data.view = m.view;
    note.data.code = SCN_MACRORECORD;
    note.data.message = m.number;
    note.data.w = m.w;
    note.data.l = m.l;
    note.text = m.text;
    reply.notes.push_back(note);
  }
  using Part = hongpilas_answer (Session::*)(const Message &, View &, Document &);
  static const Part parts[] = {&Session::send_text,   &Session::send_selection, &Session::send_clipboard, &Session::send_key,
                               &Session::send_undo,   &Session::send_lines,     &Session::send_styles,    &Session::send_indicators,
                               &Session::send_target, &Session::send_folding,   &Session::send_session};
  Document &d = documents[v.document];
  for (Part part : parts) {
    hongpilas_answer answer = (this->*part)(m, v, d);
    if (answer != OTHER) return answer;
  }
  std::abort();
}

hongpilas_answer Session::hand_out(const Bytes &text, Number value) {
  reply.text = text;
  reply.value = value;
  return DONE;
}

// Text.

hongpilas_answer Session::send_text(const Message &m, View &v, Document &d) {
  Number n = d.length(), lines = d.lines(), w = m.w, end = 0, &value = reply.value;
  switch (m.number) {
    case SCI_ADDTEXT: {
      if (!is_length(m)) return BAD;
      Number caret = v.caret;
      Outcome outcome = edit(d, {insertion(caret, first_bytes(m))});
      if (outcome == Outcome::Done) v.select(caret + w);
      return answer_of(outcome);
    }
    case SCI_INSERTTEXT:
      if (!in(w, -1, n)) return BAD;
      return answer_of(edit(d, {insertion(w == -1 ? v.caret : w, m.text)}));
    case SCI_CLEARALL: return answer_of(edit(d, {deletion(0, n)}));
    case SCI_GETLENGTH:
    case SCI_GETTEXTLENGTH: value = n; return DONE;
    case SCI_GETCHARAT: value = in(w, 0, n - 1) ? static_cast<unsigned char>(d.text[size_t(w)]) : 0; return DONE;
    case SCI_GETSTYLEAT: value = in(w, 0, n - 1) ? static_cast<unsigned char>(d.styles[size_t(w)]) : 0; return DONE;
    case SCI_GETSTYLEDTEXT:
      if (!is_range(m, d, end)) return BAD;
      for (Number p = w; p < end; p++) (reply.text += d.text[size_t(p)]) += d.styles[size_t(p)];
      value = 2 * (end - w);
      return DONE;
    case SCI_GETCURLINE: {
      Number line = d.line_of(v.caret);
      return hand_out(slice(d, d.start_of(line), d.start_of(line + 1)), v.caret - d.start_of(line));
    }
    case SCI_GETLINEENDPOSITION: value = w < 0 ? -1 : d.end_of(w); return DONE;
    case SCI_GETREADONLY: value = d.read_only; return DONE;
    case SCI_SETREADONLY: d.read_only = w != 0; return DONE;
    case SCI_GETLINE:
      if (!d.has_line(w)) return DONE;
      return hand_out(slice(d, d.start_of(w), d.start_of(w + 1)), d.start_of(w + 1) - d.start_of(w));
    case SCI_GETLINECOUNT: value = lines; return DONE;
    case SCI_GETTEXTRANGE:
      if (!is_range(m, d, end)) return BAD;
      return hand_out(slice(d, w, end), end - w);
    case SCI_LINEFROMPOSITION: value = d.line_of(d.clamp(w)); return DONE;
    case SCI_POSITIONFROMLINE: value = w < 0 ? d.start_of(d.line_of(v.low())) : w > lines ? -1 : d.start_of(w); return DONE;
    case SCI_SETTEXT: return answer_of(edit(d, {deletion(0, n), insertion(0, m.text)}));
    case SCI_GETTEXT: return hand_out(d.text, n);
    case SCI_APPENDTEXT:
      if (!is_length(m)) return BAD;
      return answer_of(edit(d, {insertion(n, first_bytes(m))}));
    case SCI_LINELENGTH: value = d.has_line(w) ? d.start_of(w + 1) - d.start_of(w) : 0; return DONE;
    case SCI_POSITIONBEFORE: value = d.cut_before(d.clamp(w)); return DONE;
    case SCI_POSITIONAFTER: value = d.cut_after(d.clamp(w)); return DONE;
    case SCI_DELETERANGE:
      if (!is_span(m, d)) return BAD;
      return answer_of(edit(d, {deletion(w, w + m.l)}));
    default: return OTHER;
  }
}

// Selection and clipboard.

hongpilas_answer Session::send_selection(const Message &m, View &v, Document &d) {
  Number &value = reply.value, place = d.clamp(m.w);
  switch (m.number) {
    case SCI_GETCURRENTPOS: value = v.caret; return DONE;
    case SCI_GETANCHOR: value = v.anchor; return DONE;
    case SCI_GETSELECTIONSTART: value = v.low(); return DONE;
    case SCI_GETSELECTIONEND: value = v.high(); return DONE;
    case SCI_GETSELECTIONEMPTY: value = v.anchor == v.caret; return DONE;
    case SCI_SELECTALL: return set(v.anchor, 0, v.caret, d.length());
    case SCI_GOTOLINE: v.select(d.start_of(std::min(std::max<Number>(m.w, 0), d.lines() - 1))); return DONE;
    case SCI_GOTOPOS:
    case SCI_SETEMPTYSELECTION: v.select(place); return DONE;
    case SCI_SETANCHOR: v.anchor = place; return DONE;
    case SCI_SETCURRENTPOS: v.caret = place; return DONE;
    case SCI_SETSELECTIONSTART: return set(v.anchor, place, v.caret, std::max(place, v.caret));
    case SCI_SETSELECTIONEND: return set(v.anchor, std::min(place, v.anchor), v.caret, place);
    case SCI_SETSEL: {
      Number caret = m.l < 0 ? d.length() : d.clamp(m.l);
      return set(v.anchor, m.w < 0 ? caret : place, v.caret, caret);
    }
    case SCI_GETSELTEXT: return hand_out(slice(d, v.low(), v.high()), v.high() - v.low());
    default: return OTHER;
  }
}

hongpilas_answer Session::replace_selection(View &v, Document &d, const Bytes &text) {
  Number low = v.low();
  Outcome outcome = edit(d, {deletion(low, v.high()), insertion(low, text)});
  if (outcome == Outcome::Done) v.select(low + Number(text.size()));
  return answer_of(outcome);
}

// Each CRLF, CR and LF becomes `end`.
static Bytes with_line_ends(const Bytes &text, const Bytes &end) {
  Bytes turned;
  for (size_t i = 0; i < text.size(); i++) {
    if (text[i] == '\r' && i + 1 < text.size() && text[i + 1] == '\n') i++;
    else if (text[i] != '\r' && text[i] != '\n') {
      turned += text[i];
      continue;
    }
    turned += end;
  }
  return turned;
}

hongpilas_answer Session::send_clipboard(const Message &m, View &v, Document &d) {
  Number end = 0;
  switch (m.number) {
    case SCI_REPLACESEL: return replace_selection(v, d, m.text);
    case SCI_CANPASTE: reply.value = !d.read_only; return DONE;
    case SCI_CUT: {
      Bytes selected = slice(d, v.low(), v.high());
      Outcome outcome = edit(d, {deletion(v.low(), v.high())});
      if (outcome == Outcome::Done && !selected.empty()) clipboard = selected;
      return answer_of(outcome);
    }
    case SCI_COPY:
      if (v.low() < v.high()) clipboard = slice(d, v.low(), v.high());
      return DONE;
    case SCI_PASTE:
      if (clipboard.empty()) return DONE;
      return replace_selection(v, d, v.converts ? with_line_ends(clipboard, line_end(d.line_end_mode)) : clipboard);
    case SCI_CLEAR: {
      bool has_selection = v.low() < v.high();
      return answer_of(edit(d, {deletion(v.low(), has_selection ? v.high() : d.cut_after(v.caret))}));
    }
    case SCI_COPYRANGE:
      if (!is_range(m, d, end)) return BAD;
      clipboard = slice(d, m.w, end);
      return DONE;
    case SCI_COPYTEXT:
      if (!is_length(m)) return BAD;
      clipboard = first_bytes(m);
      return DONE;
    case SCI_SETPASTECONVERTENDINGS: v.converts = m.w != 0; return DONE;
    case SCI_GETPASTECONVERTENDINGS: reply.value = v.converts; return DONE;
    default: return OTHER;
  }
}

// Keys.

hongpilas_answer Session::send_key(const Message &m, View &v, Document &d) {
  Number line = d.line_of(v.caret);
  bool has_selection = v.low() < v.high();
  switch (m.number) {
    case SCI_CHARLEFT: v.select(has_selection ? v.low() : d.cut_before(v.caret)); return DONE;
    case SCI_CHARRIGHT: v.select(has_selection ? v.high() : d.cut_after(v.caret)); return DONE;
    case SCI_HOME: v.select(d.start_of(line)); return DONE;
    case SCI_LINEEND: v.select(d.end_of(line)); return DONE;
    case SCI_DOCUMENTSTART: v.select(0); return DONE;
    case SCI_DOCUMENTEND: v.select(d.length()); return DONE;
    case SCI_CHARLEFTEXTEND: v.caret = d.cut_before(v.caret); return DONE;
    case SCI_CHARRIGHTEXTEND: v.caret = d.cut_after(v.caret); return DONE;
    case SCI_HOMEEXTEND: v.caret = d.start_of(line); return DONE;
    case SCI_LINEENDEXTEND: v.caret = d.end_of(line); return DONE;
    case SCI_DOCUMENTSTARTEXTEND: v.caret = 0; return DONE;
    case SCI_DOCUMENTENDEXTEND: v.caret = d.length(); return DONE;
    case SCI_DELETEBACK: return answer_of(edit(d, {deletion(has_selection ? v.low() : d.cut_before(v.caret), v.high())}));
    case SCI_NEWLINE: return replace_selection(v, d, line_end(d.line_end_mode));
    default: return OTHER;
  }
}

// Undo.

hongpilas_answer Session::send_undo(const Message &m, View &v, Document &d) {
  Number &value = reply.value;
  bool can = d.depth == 0 && !d.read_only;
  switch (m.number) {
    case SCI_UNDO: travel(v, d, true); return DONE;
    case SCI_REDO: travel(v, d, false); return DONE;
    case SCI_CANUNDO: value = can && !d.past.empty(); return DONE;
    case SCI_CANREDO: value = can && !d.future.empty(); return DONE;
    case SCI_SETUNDOCOLLECTION:
      if (m.w == 0) {
        d.save_point = d.is_modified() ? -1 : 0;
        d.forget_history();
      }
      d.collects = m.w != 0;
      return DONE;
    case SCI_GETUNDOCOLLECTION: value = d.collects; return DONE;
    case SCI_SETSAVEPOINT:
      d.save_point = Number(d.past.size());
      tell_code(d, SCN_SAVEPOINTREACHED);
      return DONE;
    case SCI_GETMODIFY: value = d.is_modified(); return DONE;
    case SCI_BEGINUNDOACTION:
      if (std::uint64_t(d.depth) >= limits.depth) return HONGPILAS_TOO_MANY;
      if (d.depth++ == 0) d.seal();
      return DONE;
    case SCI_ENDUNDOACTION:
      if (d.depth > 0 && --d.depth == 0) d.seal();
      return DONE;
    case SCI_EMPTYUNDOBUFFER:
      d.forget_history();
      d.save_point = 0;
      return DONE;
    case SCI_ADDUNDOACTION:
      if (!in(m.l, 0, 1)) return BAD;
      if (!d.collects) return DONE;
      if (!d.is_modified()) tell_code(d, SCN_SAVEPOINTLEFT);
      append(d, {Kind::Container, 0, Bytes(), m.w, Bytes(), Bytes()}, false, m.l == UNDO_MAY_COALESCE);
      if (m.l == UNDO_NONE && d.depth == 0) d.seal();
      return DONE;
    default: return OTHER;
  }
}

// Target.

static bool is_word(const Document &d, Number place) {
  if (!in(place, 0, d.length() - 1)) return false;
  unsigned byte = static_cast<unsigned char>(d.text[size_t(place)]);
  return byte >= 0x80 || byte == '_' || (byte >= '0' && byte <= '9') || (byte >= 'A' && byte <= 'Z') || (byte >= 'a' && byte <= 'z');
}

static bool is_match(const Document &d, Number place, const Bytes &text, Number flags) {
  auto folded = [flags](char byte) { return (flags & SCFIND_MATCHCASE) == 0 && byte >= 'A' && byte <= 'Z' ? char(byte - 'A' + 'a') : byte; };
  for (size_t i = 0; i < text.size(); i++)
    if (folded(d.text[size_t(place) + i]) != folded(text[i])) return false;
  if ((flags & (SCFIND_WHOLEWORD | SCFIND_WORDSTART)) != 0 && is_word(d, place - 1)) return false;
  return (flags & SCFIND_WHOLEWORD) == 0 || !is_word(d, place + Number(text.size()));
}

hongpilas_answer Session::send_target(const Message &m, View &v, Document &d) {
  Number &value = reply.value, low = std::min(v.target_start, v.target_end), high = std::max(v.target_start, v.target_end);
  switch (m.number) {
    case SCI_SETTARGETSTART: v.target_start = d.clamp(m.w); return DONE;
    case SCI_SETTARGETEND: v.target_end = d.clamp(m.w); return DONE;
    case SCI_SETTARGETRANGE: return set(v.target_start, d.clamp(m.w), v.target_end, d.clamp(m.l));
    case SCI_GETTARGETSTART: value = v.target_start; return DONE;
    case SCI_GETTARGETEND: value = v.target_end; return DONE;
    case SCI_TARGETFROMSELECTION: return set(v.target_start, v.low(), v.target_end, v.high());
    case SCI_TARGETWHOLEDOCUMENT: return set(v.target_start, 0, v.target_end, d.length());
    case SCI_GETTARGETTEXT: return hand_out(slice(d, low, high), high - low);
    case SCI_SETSEARCHFLAGS:
      if ((m.w & ~Number(SCFIND_WHOLEWORD | SCFIND_MATCHCASE | SCFIND_WORDSTART)) != 0) return BAD;
      v.search_flags = m.w;
      return DONE;
    case SCI_GETSEARCHFLAGS: value = v.search_flags; return DONE;
    case SCI_SEARCHINTARGET: {
      if (!is_length(m)) return BAD;
      Bytes text = first_bytes(m);
      value = text.empty() ? low : -1;
      bool is_forwards = v.target_start <= v.target_end;
      for (Number place = low; !text.empty() && place + m.w <= high; place++)
        if ((!is_forwards || value == -1) && is_match(d, place, text, v.search_flags)) value = place;
      return value == -1 ? DONE : set(v.target_start, value, v.target_end, value + m.w);
    }
    case SCI_REPLACETARGET: {
      if (m.w != -1 && !is_length(m)) return BAD;
      Bytes text = m.w == -1 ? m.text : first_bytes(m);
      Outcome outcome = edit(d, {deletion(low, high), insertion(low, text)});
      if (outcome != Outcome::Done) return answer_of(outcome);
      value = Number(text.size());
      return set(v.target_start, low, v.target_end, low + value);
    }
    default: return OTHER;
  }
}

// Documents, masks, recording.

hongpilas_answer Session::send_session(const Message &m, View &v, Document &d) {
  Number &value = reply.value;
  auto named = documents.find(m.l);
  bool no_ids = std::uint64_t(next_document) > limits.ids;
  auto is_full = [this](const Document &it) { return std::uint64_t(it.held) + it.views.size() >= limits.refs; };
  switch (m.number) {
    case SCI_GETDOCPOINTER: value = v.document; return DONE;
    case SCI_SETDOCPOINTER: {
      if (m.l != 0 && named == documents.end()) return HONGPILAS_NO_SUCH_DOCUMENT;
      if (m.l == 0 ? no_ids : is_full(named->second)) return HONGPILAS_TOO_MANY;
      Number old = v.document, document = m.l == 0 ? new_document(0) : m.l;
      d.views.erase(std::find(d.views.begin(), d.views.end(), m.view));
      attach(m.view, document);
      release(old);
      return DONE;
    }
    case SCI_CREATEDOCUMENT:
      if (m.w < 0 || (m.l & ~Number(SC_DOCUMENTOPTION_STYLES_NONE | SC_DOCUMENTOPTION_TEXT_LARGE)) != 0) return BAD;
      if (no_ids) return HONGPILAS_TOO_MANY;
      value = new_document(m.l);
      documents[value].held = 1;
      return DONE;
    case SCI_ADDREFDOCUMENT:
      if (named == documents.end()) return HONGPILAS_NO_SUCH_DOCUMENT;
      if (is_full(named->second)) return HONGPILAS_TOO_MANY;
      named->second.held++;
      return DONE;
    case SCI_RELEASEDOCUMENT:
      if (named == documents.end() || named->second.held == 0) return HONGPILAS_NO_SUCH_DOCUMENT;
      named->second.held--;
      release(m.l);
      return DONE;
    case SCI_GETDOCUMENTOPTIONS: value = d.options; return DONE;
    case SCI_SETLINEENDTYPESALLOWED: {
      if (!in(m.w, 0, 1)) return BAD;
      if (d.line_end_types == m.w) return DONE;
      d.line_end_types = m.w;
      std::vector<Number> starts = d.starts;
      carry(d, starts, false);
      return DONE;
    }
    case SCI_GETLINEENDTYPESALLOWED:
    case SCI_GETLINEENDTYPESACTIVE: value = d.line_end_types; return DONE;
    case SCI_SETMODEVENTMASK: return set_in(v.mask, m.w, SC_MODEVENTMASKALL);
    case SCI_GETMODEVENTMASK: value = v.mask; return DONE;
    case SCI_STARTRECORD: v.records = true; return DONE;
    case SCI_STOPRECORD: v.records = false; return DONE;
    default: return OTHER;
  }
}

}  // namespace plain

const char *model_marks(uint32_t number) { return plain::marks_of(number); }

const uint32_t *model_numbers(size_t *count) {
  static uint32_t numbers[sizeof plain::table / sizeof *plain::table];
  *count = sizeof numbers / sizeof *numbers;
  for (size_t i = 0; i < *count; i++) numbers[i] = plain::table[i].number;
  return numbers;
}

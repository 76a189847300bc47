// The plain model (model.h): lines and markers, styles and indicators, and folding, of the message table of docs/MESSAGES.md. C++17.
#include "arguments.hpp"

#include <algorithm>

namespace plain {

// Lines and markers.

// All missing bytes are put in, left to right, then all unwanted ones are deleted, left to right; each is a step, at its place of that moment.
static std::vector<Step> conversion(const Document &d, Number mode) {
  std::vector<Step> steps;
  Bytes text = d.text, kept = text;
  std::vector<Number> unwanted;
  Number shift = 0;
  for (Number i = 0; i < Number(text.size()); i++) {
    char byte = text[size_t(i)], next = i + 1 < Number(text.size()) ? text[size_t(i) + 1] : 'x';
    if (byte != '\r' && byte != '\n') continue;
    bool is_pair = byte == '\r' && next == '\n';
    Number found = is_pair ? SC_EOL_CRLF : byte == '\r' ? SC_EOL_CR : SC_EOL_LF, start = i + shift;
    i += is_pair;
    if (found == mode) continue;
    if (found == SC_EOL_LF) steps.push_back(insertion(start, "\r"));
    if (found == SC_EOL_CR) steps.push_back(insertion(start + 1, "\n"));
    shift += !is_pair;
    if (mode != SC_EOL_CRLF) unwanted.push_back(mode == SC_EOL_CR ? start + 1 : start);
  }
  for (size_t i = 0; i < unwanted.size(); i++) steps.push_back(deletion(unwanted[i] - Number(i), unwanted[i] - Number(i) + 1));
  return steps;
}

static Note marker_note(const Document &d, Number line) {
  Note note = modified(SC_MOD_CHANGEMARKER);
  note.data.line = line;
  note.data.position = line < 0 ? 0 : d.start_of(line);
  return note;
}

// Removes markers of a line for which `is_meant` holds, all of them or the first; answers whether there was one.
template <typename Meant>
static bool remove_markers(Row &row, bool all, Meant is_meant) {
  size_t before = row.markers.size();
  for (size_t i = 0; i < row.markers.size();) {
    if (!is_meant(row.markers[i]) || (!all && row.markers.size() < before)) i++;
    else row.markers.erase(row.markers.begin() + Number(i));
  }
  return row.markers.size() < before;
}

hongpilas_answer Session::send_lines(const Message &m, View &, Document &d) {
  Number &value = reply.value, w = m.w, l = m.l;
  bool has_line = d.has_line(w);
  auto is_number = [](Number number) { return [number](const Marker &it) { return number == -1 || it.number == number; }; };
  switch (m.number) {
    case SCI_GETEOLMODE: value = d.line_end_mode; return DONE;
    case SCI_SETEOLMODE: return set_in(d.line_end_mode, w, 2);
    case SCI_CONVERTEOLS:
      if (!in(w, 0, 2)) return BAD;
      return answer_of(edit(d, conversion(d, w)));
    case SCI_MARKERADD:
    case SCI_MARKERADDSET: {
      bool is_set = m.number == SCI_MARKERADDSET;
      if (!in(l, 0, is_set ? 0xFFFFFFFF : 31)) return BAD;
      if (!is_set) value = -1;
      if (!has_line) return DONE;
      Number mask = is_set ? l : Number(1) << l, count = 0;
      for (Number number = 0; number < 32; number++) count += mask >> number & 1;
      if (d.next_handle - 1 + count > Number(limits.handles)) return HONGPILAS_TOO_MANY;
      if (!is_set) value = d.next_handle;
      for (Number number = 0; number < 32; number++)
        if ((mask >> number & 1) != 0) d.rows[size_t(w)].markers.push_back({d.next_handle++, number});
      if (count > 0) tell(d, marker_note(d, w));
      return DONE;
    }
    case SCI_MARKERDELETE:
      if (!in(l, -1, 31)) return BAD;
      if (has_line && remove_markers(d.rows[size_t(w)], l == -1, is_number(l))) tell(d, marker_note(d, w));
      return DONE;
    case SCI_MARKERDELETEALL: {
      if (!in(w, -1, 31)) return BAD;
      bool removed = false;
      for (Row &row : d.rows) removed |= remove_markers(row, true, is_number(w));
      if (removed) tell(d, marker_note(d, -1));
      return DONE;
    }
    case SCI_MARKERDELETEHANDLE:
      for (Number line = 0; line < d.lines(); line++)
        if (remove_markers(d.rows[size_t(line)], true, [w](const Marker &it) { return it.handle == w; })) tell(d, marker_note(d, line));
      return DONE;
    case SCI_MARKERGET: value = has_line ? d.mask_of(w) : 0; return DONE;
    case SCI_MARKERNEXT:
    case SCI_MARKERPREVIOUS:
      value = -1;
      for (Number line = 0; line < d.lines(); line++) {
        bool meets = (d.mask_of(line) & l & 0xFFFFFFFF) != 0;
        if (m.number == SCI_MARKERNEXT && meets && line >= w && value == -1) value = line;
        if (m.number == SCI_MARKERPREVIOUS && meets && line <= w) value = line;
      }
      return DONE;
    case SCI_MARKERLINEFROMHANDLE:
      value = -1;
      for (Number line = 0; line < d.lines(); line++)
        for (const Marker &it : d.rows[size_t(line)].markers)
          if (it.handle == w) value = line;
      return DONE;
    case SCI_SETLINESTATE: {
      if (!in(l, -0x80000000LL, 0x7FFFFFFF)) return BAD;
      if (!has_line || d.rows[size_t(w)].state == l) return DONE;
      d.rows[size_t(w)].state = l;
      Note note = modified(SC_MOD_CHANGELINESTATE);
      note.data.line = w;
      tell(d, note);
      return DONE;
    }
    case SCI_GETLINESTATE: value = has_line ? d.rows[size_t(w)].state : 0; return DONE;
    default: return OTHER;
  }
}

// Styles and indicators.

// Tells of the smallest range with all places where `differs`.
template <typename Differs>
static bool smallest_range(Number from, Number to, Differs differs, Note &note) {
  while (from < to && !differs(from)) from++;
  while (from < to && !differs(to - 1)) to--;
  note.data.position = from;
  note.data.length = to - from;
  return from < to;
}

hongpilas_answer Session::send_styles(const Message &m, View &, Document &d) {
  Number n = d.length(), end = 0;
  switch (m.number) {
    case SCI_GETENDSTYLED: reply.value = d.end_styled; return DONE;
    case SCI_STARTSTYLING: return set_in(d.end_styled, m.w, n);
    case SCI_SETSTYLING:
    case SCI_SETSTYLINGEX: {
      bool is_one = m.number == SCI_SETSTYLING;
      if (!in(m.w, 0, n - d.end_styled) || !(is_one ? in(m.l, 0, 255) : is_length(m))) return BAD;
      Number from = d.end_styled;
      d.end_styled += m.w;
      if ((d.options & SC_DOCUMENTOPTION_STYLES_NONE) != 0) return DONE;
      Bytes old = d.styles;
      d.styles.replace(size_t(from), size_t(m.w), is_one ? Bytes(size_t(m.w), char(m.l)) : first_bytes(m));
      Note note = modified(SC_MOD_CHANGESTYLE | SC_PERFORMED_USER);
      if (smallest_range(
              from, d.end_styled, [&](Number p) { return old[size_t(p)] != d.styles[size_t(p)]; }, note))
        tell(d, note);
      return DONE;
    }
    case SCI_COLOURISE: {
      if (!is_range(m, d, end)) return BAD;
      d.end_styled = std::min(d.end_styled, m.w);
      Note note{};
      note.data.view = m.view;
      note.data.code = SCN_STYLENEEDED;
      note.data.position = end;
      reply.notes.push_back(note);
      return DONE;
    }
    default: return OTHER;
  }
}

hongpilas_answer Session::send_indicators(const Message &m, View &v, Document &d) {
  Number &value = reply.value, n = d.length(), w = m.w;
  switch (m.number) {
    case SCI_SETINDICATORCURRENT: return set_in(v.indicator, w, 31);
    case SCI_GETINDICATORCURRENT: value = v.indicator; return DONE;
    case SCI_SETINDICATORVALUE: return set_in(v.indicator_value, w == 0 ? 1 : w, 0x7FFFFFFF);
    case SCI_GETINDICATORVALUE: value = v.indicator_value; return DONE;
    case SCI_INDICATORFILLRANGE:
    case SCI_INDICATORCLEARRANGE: {
      if (!is_span(m, d)) return BAD;
      Number fill = m.number == SCI_INDICATORFILLRANGE ? v.indicator_value : 0;
      std::vector<Number> &values = d.indicators[size_t(v.indicator)];
      Note note = modified(SC_MOD_CHANGEINDICATOR | SC_PERFORMED_USER);
      bool changes = smallest_range(
          w, w + m.l, [&](Number p) { return d.value_at(v.indicator, p) != fill; }, note);
      if (!changes) return DONE;
      if (values.empty()) values.assign(size_t(n), 0);
      std::fill(values.begin() + w, values.begin() + w + m.l, fill);
      tell(d, note);
      return DONE;
    }
    case SCI_INDICATORALLONFOR:
      for (Number it = 0; it < 32 && in(w, 0, n - 1); it++) value |= Number(d.value_at(it, w) != 0) << it;
      return DONE;
    case SCI_INDICATORVALUEAT:
    case SCI_INDICATORSTART:
    case SCI_INDICATOREND: {
      if (!in(w, 0, 31)) return BAD;
      if (!in(m.l, 0, n - 1)) return DONE;
      Number held = d.value_at(w, m.l), start = m.l, end = m.l + 1;
      while (start > 0 && d.value_at(w, start - 1) == held) start--;
      while (end < n && d.value_at(w, end) == held) end++;
      value = m.number == SCI_INDICATORVALUEAT ? held : m.number == SCI_INDICATORSTART ? start : end;
      return DONE;
    }
    default: return OTHER;
  }
}

// Folding.

hongpilas_answer Session::send_folding(const Message &m, View &v, Document &d) {
  Number &value = reply.value, w = m.w, l = m.l, lines = d.lines(), shown = 0, shown_to = 0;
  bool has_line = d.has_line(w);
  for (Number line = 0; line < lines; line++) {
    shown += v.flags[size_t(line)].visible;
    if (line <= w) shown_to = shown;
  }
  switch (m.number) {
    case SCI_SETFOLDLEVEL: {
      if (!in(l, 0, 0x7FFFFFFF)) return BAD;
      if (!has_line || d.rows[size_t(w)].level == l) return DONE;
      Note note = modified(SC_MOD_CHANGEFOLD);
      note.data.line = w;
      note.data.now = l;
      note.data.prev = d.rows[size_t(w)].level;
      d.rows[size_t(w)].level = l;
      tell(d, note);
      return DONE;
    }
    case SCI_GETFOLDLEVEL: value = has_line ? d.rows[size_t(w)].level : SC_FOLDLEVELBASE; return DONE;
    case SCI_GETLASTCHILD:
      if (!in(l, -1, 0x7FFFFFFF)) return BAD;
      value = !has_line ? -1 : d.last_child(w, l == -1 ? d.level_number(w) : l & 0xFFF);
      return DONE;
    case SCI_GETFOLDPARENT: value = has_line ? d.fold_parent(w) : -1; return DONE;
    case SCI_VISIBLEFROMDOCLINE: value = has_line ? shown_to - 1 : -1; return DONE;
    case SCI_DOCLINEFROMVISIBLE:
      value = w <= 0 ? 0 : lines;
      for (Number line = 0, display = 0; line < lines && w > 0; line++)
        if (v.flags[size_t(line)].visible && display++ == w) value = line;
      return DONE;
    case SCI_SHOWLINES:
    case SCI_HIDELINES:
      for (Number line = 0; line < lines; line++)
        if (in(line, w, l) && (line > 0 || m.number == SCI_SHOWLINES)) v.flags[size_t(line)].visible = m.number == SCI_SHOWLINES;
      return DONE;
    case SCI_GETLINEVISIBLE: value = has_line && v.flags[size_t(w)].visible; return DONE;
    case SCI_GETALLLINESVISIBLE: value = shown == lines; return DONE;
    case SCI_SETFOLDEXPANDED:
      if (has_line) v.flags[size_t(w)].expanded = l != 0;
      return DONE;
    case SCI_GETFOLDEXPANDED: value = has_line && v.flags[size_t(w)].expanded; return DONE;
    case SCI_FOLDLINE:
    case SCI_TOGGLEFOLD: {
      if (m.number == SCI_FOLDLINE && !in(l, 0, 2)) return BAD;
      if (!has_line) return DONE;
      Number header = d.is_header(w) ? w : d.fold_parent(w);
      if (header < 0) return DONE;
      Number action = m.number == SCI_FOLDLINE ? l : SC_FOLDACTION_TOGGLE;
      bool contracts = action == SC_FOLDACTION_TOGGLE ? v.flags[size_t(header)].expanded : action == SC_FOLDACTION_CONTRACT;
      if (contracts) v.contract(d, header);
      else v.expand(d, header);
      return DONE;
    }
    case SCI_ENSUREVISIBLE: {
      if (!has_line || v.flags[size_t(w)].visible) return DONE;
      std::vector<Number> parents;
      for (Number parent = d.fold_parent(w); parent >= 0; parent = d.fold_parent(parent)) parents.insert(parents.begin(), parent);
      for (Number parent : parents) {
        v.flags[size_t(parent)].visible = true;
        if (!v.flags[size_t(parent)].expanded) v.expand(d, parent);
      }
      v.flags[size_t(w)].visible = true;
      return DONE;
    }
    default: return OTHER;
  }
}

}  // namespace plain

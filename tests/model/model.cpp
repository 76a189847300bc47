// The plain model (model.h): text and lines, steps, history, notes, sessions. C++17.
#include "model.hpp"

#include <algorithm>
#include <cstdlib>
#include <cstring>

namespace plain {

// Text and lines.

static unsigned at(const Bytes &text, Number place) {
  return place >= 0 && place < Number(text.size()) ? static_cast<unsigned char>(text[size_t(place)]) : 256;
}

// A line starts at 0, and behind an LF, behind a CR that no LF follows, and, where they are allowed, behind the line ends of Unicode.
bool Document::is_start(Number place) const {
  if (place == 0) return true;
  unsigned first = at(text, place - 3), second = at(text, place - 2), third = at(text, place - 1);
  if (third == '\n' || (third == '\r' && at(text, place) != '\n')) return true;
  if (line_end_types == 0) return false;
  return (second == 0xC2 && third == 0x85) || (first == 0xE2 && second == 0x80 && (third == 0xA8 || third == 0xA9));
}

std::vector<Number> Document::find_starts() const {
  std::vector<Number> found;
  for (Number place = 0; place <= length(); place++)
    if (is_start(place)) found.push_back(place);
  return found;
}

Number Document::line_of(Number place) const { return std::upper_bound(starts.begin(), starts.end(), place) - starts.begin() - 1; }

// Where the end of a line begins: the last line has none.
Number Document::end_of(Number line) const {
  if (line >= lines() - 1) return length();
  Number behind = starts[size_t(line) + 1];
  switch (at(text, behind - 1)) {
    case '\n': return at(text, behind - 2) == '\r' ? behind - 2 : behind - 1;
    case '\r': return behind - 1;
    case 0x85: return behind - 2;
    default: return behind - 3;
  }
}

// How long the well-formed sequence of UTF-8 at a place is (Unicode, table 3-7), or 0.
static Number sequence_at(const Bytes &text, Number place) {
  struct Form {
    unsigned first, last, from, to;
    Number length;
  };
  static const Form forms[] = {{0x00, 0x7F, 0, 0, 1},       {0xC2, 0xDF, 0x80, 0xBF, 2}, {0xE0, 0xE0, 0xA0, 0xBF, 3},
                               {0xE1, 0xEC, 0x80, 0xBF, 3}, {0xED, 0xED, 0x80, 0x9F, 3}, {0xEE, 0xEF, 0x80, 0xBF, 3},
                               {0xF0, 0xF0, 0x90, 0xBF, 4}, {0xF1, 0xF3, 0x80, 0xBF, 4}, {0xF4, 0xF4, 0x80, 0x8F, 4}};
  for (const Form &form : forms) {
    if (at(text, place) < form.first || at(text, place) > form.last) continue;
    if (form.length > 1 && (at(text, place + 1) < form.from || at(text, place + 1) > form.to)) return 0;
    for (Number more = 2; more < form.length; more++)
      if (at(text, place + more) < 0x80 || at(text, place + more) > 0xBF) return 0;
    return form.length;
  }
  return 0;
}

// The text is cut into CRLF, well-formed sequences, and single bytes.
Number Document::cut_behind(Number cut) const {
  if (at(text, cut) == '\r' && at(text, cut + 1) == '\n') return cut + 2;
  return cut + std::max<Number>(sequence_at(text, cut), 1);
}

Number Document::cut_before(Number place) const {
  Number before = 0;
  for (Number cut = 0; cut < place; cut = cut_behind(cut)) before = cut;
  return before;
}

Number Document::cut_after(Number place) const {
  Number cut = 0;
  while (cut <= place && cut < length()) cut = cut_behind(cut);
  return cut;
}

Number Document::value_at(Number indicator, Number place) const {
  const std::vector<Number> &values = indicators[size_t(indicator)];
  return values.empty() ? 0 : values[size_t(place)];
}

// The line before the next line whose number is at most `number`, or the last line.
Number Document::last_child(Number line, Number number) const {
  Number last = line;
  while (last + 1 < lines() && level_number(last + 1) > number) last++;
  return last;
}

Number Document::fold_parent(Number line) const {
  for (Number before = line - 1; before >= 0; before--)
    if (is_header(before) && level_number(before) < level_number(line)) return before;
  return -1;
}

Number Document::mask_of(Number line) const {
  Number mask = 0;
  for (const Marker &marker : rows[size_t(line)].markers) mask |= Number(1) << marker.number;
  return mask;
}

void Document::forget_history() {
  past.clear();
  future.clear();
  depth = 0;
}

void Document::seal() {
  if (!past.empty()) past.back().sealed = true;
}

// Folds.

void View::contract(const Document &document, Number header) {
  flags[size_t(header)].expanded = false;
  Number last = document.last_child(header, document.level_number(header));
  for (Number line = header + 1; line <= last; line++) flags[size_t(line)].visible = false;
}

// A child is then visible exactly where each header between, of which it is a child too, is expanded.
void View::expand(const Document &document, Number header) {
  flags[size_t(header)].expanded = true;
  Number last = document.last_child(header, document.level_number(header));
  std::vector<bool> hidden(size_t(last + 1), false);
  for (Number between = header + 1; between <= last; between++) {
    if (!document.is_header(between) || flags[size_t(between)].expanded) continue;
    Number covered = document.last_child(between, document.level_number(between));
    for (Number line = between + 1; line <= std::min(covered, last); line++) hidden[size_t(line)] = true;
  }
  for (Number line = header + 1; line <= last; line++) flags[size_t(line)].visible = !hidden[size_t(line)];
}

// Notes.

Note modified(Number kind) {
  Note note{};
  note.data.code = SCN_MODIFIED;
  note.data.kind = std::uint32_t(kind);
  return note;
}

// Views hear of modifications by their masks, and of all else.
void Session::tell(const Document &document, const Note &note) {
  for (std::uint32_t view : document.views) {
    if (note.data.code == SCN_MODIFIED && (views[view].mask & note.data.kind) == 0) continue;
    reply.notes.push_back(note);
    reply.notes.back().data.view = view;
  }
}

void Session::tell_code(const Document &document, std::uint32_t code) {
  Note note{};
  note.data.code = code;
  tell(document, note);
}

// Steps.

// Each row goes to the line that holds its moved start. Where rows meet, markers are joined and all else is the first one's.
void Session::carry(Document &document, const std::vector<Number> &moved, bool is_step) {
  document.starts = document.find_starts();
  bool is_fresh = is_step && document.text.empty();
  std::vector<Row> rows(size_t(document.lines()));
  std::vector<bool> taken(size_t(document.lines()), false);
  std::vector<std::pair<size_t, size_t>> firsts;  // the first row that comes to a line, and that line
  for (size_t old = 0; old < moved.size() && !is_fresh; old++) {
    size_t line = size_t(document.line_of(moved[old]));
    Row &row = document.rows[old];
    if (!taken[line]) {
      rows[line] = std::move(row);
      firsts.push_back({old, line});
    } else {
      rows[line].markers.insert(rows[line].markers.end(), row.markers.begin(), row.markers.end());
    }
    taken[line] = true;
  }
  document.rows = std::move(rows);
  for (std::uint32_t id : document.views) {
    std::vector<Flags> flags(size_t(document.lines()));
    for (auto [old, line] : firsts) flags[line] = views[id].flags[old];
    views[id].flags = std::move(flags);
  }
}

static Number moved_by(Kind kind, Number place, Number length, Number position, bool at_place_too) {
  if (kind == Kind::Insertion) return position > place || (at_place_too && position == place) ? position + length : position;
  if (position <= place) return position;
  return position >= place + length ? position - length : place;
}

// Makes a step of the text, and answers by how many the number of lines grew.
Number Session::make(Document &d, Kind kind, Number place, const Bytes &bytes) {
  Number length = Number(bytes.size()), old_length = d.length(), old_lines = d.lines();
  size_t from = size_t(place), count = size_t(length);
  for (std::vector<Number> &values : d.indicators) {
    if (values.empty()) continue;
    if (kind == Kind::Insertion) {
      bool is_zero = place == 0 || place == old_length || values[from] == 0;
      Number value = is_zero ? 0 : values[from - 1];
      values.insert(values.begin() + place, count, value);
    } else {
      values.erase(values.begin() + place, values.begin() + place + length);
    }
  }
  if (kind == Kind::Insertion) {
    d.text.insert(from, bytes);
    d.styles.insert(from, count, 0);
  } else {
    d.text.erase(from, count);
    d.styles.erase(from, count);
  }
  std::vector<Number> moved;
  for (Number start : d.starts) moved.push_back(moved_by(kind, place, length, start, true));
  carry(d, moved, true);
  d.end_styled = std::min(d.end_styled, place);
  for (std::uint32_t id : d.views) {
    View &v = views[id];
    for (Number *position : {&v.anchor, &v.caret, &v.target_start, &v.target_end}) *position = moved_by(kind, place, length, *position, false);
  }
  return d.lines() - old_lines;
}

static Note before_step(Kind kind, Number place, const Bytes &bytes, Number bits) {
  Note note = modified((kind == Kind::Insertion ? SC_MOD_BEFOREINSERT : SC_MOD_BEFOREDELETE) | bits);
  note.data.position = place;
  note.data.length = Number(bytes.size());
  if (kind == Kind::Insertion) note.text = bytes;
  return note;
}

static Note after_step(Kind kind, Number place, const Bytes &bytes, Number lines, Number bits) {
  Note note = modified((kind == Kind::Insertion ? SC_MOD_INSERTTEXT : SC_MOD_DELETETEXT) | bits);
  note.data.position = place;
  note.data.length = Number(bytes.size());
  note.data.lines = lines;
  note.text = bytes;
  return note;
}

// History.

static bool joins(const Document &d, const Change &change, bool is_later, bool coalesces) {
  if (d.past.empty() || d.past.back().sealed || !d.is_modified()) return false;
  if (d.depth > 0 || is_later) return true;
  const std::vector<Change> &changes = d.past.back().changes;
  auto latest = std::find_if(changes.rbegin(), changes.rend(), [](const Change &it) { return it.kind != Kind::Container; });
  if (latest == changes.rend()) return true;
  if (change.kind == Kind::Container) return coalesces;
  if (change.kind != latest->kind) return false;
  Number length = Number(change.bytes.size());
  if (change.kind == Kind::Insertion) return change.place == latest->place + Number(latest->bytes.size());
  return length <= 2 && (change.place + length == latest->place || change.place == latest->place);
}

// Appends a change to the history; answers whether it begins a transaction.
bool Session::append(Document &d, const Change &change, bool is_later, bool coalesces) {
  d.future.clear();
  if (d.save_point > Number(d.past.size())) d.save_point = -1;
  bool begins = !joins(d, change, is_later, coalesces);
  if (begins) d.past.push_back({});
  d.past.back().changes.push_back(change);
  return begins;
}

// Does the steps of a message: read-only is looked at first, then how long the text becomes.
Outcome Session::edit(Document &d, std::vector<Step> steps) {
  auto is_empty = [](const Step &step) { return step.length == 0 && step.bytes.empty(); };
  steps.erase(std::remove_if(steps.begin(), steps.end(), is_empty), steps.end());
  if (steps.empty()) return Outcome::Done;
  if (d.read_only) {
    tell_code(d, SCN_MODIFYATTEMPTRO);
    return Outcome::Attempted;
  }
  Number longest = Number((d.options & SC_DOCUMENTOPTION_TEXT_LARGE) != 0 ? limits.large_bytes : limits.doc_bytes), length = d.length();
  for (const Step &step : steps) {
    length += Number(step.bytes.size()) - step.length;
    if (length > longest) return Outcome::TooLong;
  }
  bool seals = steps.size() > 1 && d.depth == 0;
  if (seals) d.seal();
  for (size_t i = 0; i < steps.size(); i++) {
    const Step &step = steps[i];
    Bytes bytes = step.kind == Kind::Insertion ? step.bytes : d.text.substr(size_t(step.place), size_t(step.length));
    tell(d, before_step(step.kind, step.place, bytes, SC_PERFORMED_USER));
    if (d.collects && !d.is_modified()) tell_code(d, SCN_SAVEPOINTLEFT);
    Bytes before = d.collects ? d.text : Bytes();
    Number lines = make(d, step.kind, step.place, bytes);
    bool begins = d.collects && append(d, {step.kind, step.place, bytes, 0, before, d.text}, i > 0, false);
    tell(d, after_step(step.kind, step.place, bytes, lines, SC_PERFORMED_USER | (begins ? SC_STARTACTION : 0)));
  }
  if (seals) d.seal();
  return Outcome::Done;
}

// Undoes or redoes a transaction. What the text is then is looked up in the whole copies, too.
void Session::travel(View &v, Document &d, bool is_undo) {
  std::vector<Transaction> &from = is_undo ? d.past : d.future, &to = is_undo ? d.future : d.past;
  if (d.depth > 0 || from.empty()) return;
  if (d.read_only) return tell_code(d, SCN_MODIFYATTEMPTRO);
  bool was_modified = d.is_modified(), changed_lines = false, made = false;
  Number bit = is_undo ? SC_PERFORMED_UNDO : SC_PERFORMED_REDO, caret = 0;
  Transaction transaction = std::move(from.back());
  from.pop_back();
  size_t count = transaction.changes.size();
  for (size_t i = 0; i < count; i++) {
    const Change &change = transaction.changes[is_undo ? count - 1 - i : i];
    bool is_last = i == count - 1, inserts = (change.kind == Kind::Insertion) != is_undo;
    Number bits = bit | (count > 1 ? SC_MULTISTEPUNDOREDO : 0) | (is_last ? SC_LASTSTEPINUNDOREDO : 0), lines = 0;
    Kind kind = change.kind == Kind::Container ? Kind::Container : inserts ? Kind::Insertion : Kind::Deletion;
    if (kind != Kind::Container) {
      tell(d, before_step(kind, change.place, change.bytes, bit));
      lines = make(d, kind, change.place, change.bytes);
      if (d.text != (is_undo ? change.before : change.after)) std::abort();
      caret = change.place + (inserts ? Number(change.bytes.size()) : 0);
      made = true;
      changed_lines |= lines != 0;
    }
    if (is_last && changed_lines) bits |= SC_MULTILINEUNDOREDO;
    Note note = kind == Kind::Container ? modified(SC_MOD_CONTAINER | bits) : after_step(kind, change.place, change.bytes, lines, bits);
    if (kind == Kind::Container) note.data.token = change.token;
    tell(d, note);
  }
  to.push_back(std::move(transaction));
  d.seal();
  if (made) v.select(caret);
  if (d.is_modified() != was_modified) tell_code(d, d.is_modified() ? SCN_SAVEPOINTLEFT : SCN_SAVEPOINTREACHED);
}

// Documents and views.

Number Session::new_document(Number options) {
  documents[next_document].options = options;
  return next_document++;
}

// A document goes with its last reference.
void Session::release(Number id) {
  const Document &d = documents[id];
  if (d.views.empty() && d.held == 0) documents.erase(id);
}

void Session::attach(std::uint32_t id, Number document) {
  View &v = views[id];
  v.document = document;
  v.anchor = v.caret = v.target_start = v.target_end = 0;
  v.flags.assign(size_t(documents[document].lines()), Flags());
  documents[document].views.push_back(id);
}

}  // namespace plain

// The calls for C.

using plain::Number;

struct model {
  plain::Session session;
};

static bool in_limits(const hongpilas_limits &limits) {
  const hongpilas_limits most = HONGPILAS_GREATEST_LIMITS;
  auto is_in = [](std::uint64_t limit, std::uint64_t greatest) { return limit >= 1 && limit <= greatest; };
  return is_in(limits.doc_bytes, most.doc_bytes) && is_in(limits.large_bytes, most.large_bytes) && is_in(limits.handles, most.handles) &&
         is_in(limits.ids, most.ids) && is_in(limits.refs, most.refs) && is_in(limits.views, most.views) && is_in(limits.depth, most.depth);
}

model *model_new(const hongpilas_limits *limits) {
  if (!in_limits(*limits)) return nullptr;
  model *made = new model();
  made->session.limits = *limits;
  return made;
}

model *model_copy(const model *from) { return new model(*from); }
void model_free(model *session) { delete session; }

hongpilas_answer model_new_view(model *m, uint32_t *view) {
  plain::Session &s = m->session;
  if (s.views.size() >= s.limits.views || std::uint64_t(s.next_view) > s.limits.ids || std::uint64_t(s.next_document) > s.limits.ids) return HONGPILAS_TOO_MANY;
  *view = std::uint32_t(s.next_view++);
  s.views[*view] = plain::View();
  s.attach(*view, s.new_document(0));
  return HONGPILAS_DONE;
}

hongpilas_answer model_close_view(model *m, uint32_t view) {
  plain::Session &s = m->session;
  auto found = s.views.find(view);
  if (found == s.views.end()) return HONGPILAS_NO_SUCH_VIEW;
  Number document = found->second.document;
  std::vector<std::uint32_t> &attached = s.documents[document].views;
  attached.erase(std::find(attached.begin(), attached.end(), view));
  s.release(document);
  s.views.erase(found);
  return HONGPILAS_DONE;
}

hongpilas_answer model_send(model *m, uint32_t view, uint32_t number, int64_t w, int64_t l, const uint8_t *text, size_t length, int64_t *value) {
  plain::Session &s = m->session;
  hongpilas_answer answer = s.send({view, number, w, l, plain::Bytes(reinterpret_cast<const char *>(text), length)});
  if (answer != HONGPILAS_DONE) return answer;
  std::swap(s.last, s.reply);
  *value = s.last.value;
  return answer;
}

hongpilas_answer model_lend_range(model *m, uint32_t view, size_t start, size_t count, const uint8_t **bytes) {
  auto found = m->session.views.find(view);
  if (found == m->session.views.end()) return HONGPILAS_NO_SUCH_VIEW;
  const plain::Bytes &text = m->session.documents[found->second.document].text;
  if (start > text.size() || count > text.size() - start) return HONGPILAS_BAD_ARGUMENT;
  *bytes = reinterpret_cast<const uint8_t *>(text.data()) + start;
  return HONGPILAS_DONE;
}

int64_t model_value(const model *m) { return m->session.last.value; }

size_t model_text(const model *m, const uint8_t **text) {
  *text = reinterpret_cast<const uint8_t *>(m->session.last.text.data());
  return m->session.last.text.size();
}

size_t model_note_count(const model *m) { return m->session.last.notes.size(); }

bool model_note(const model *m, size_t index, hongpilas_note_data *note) {
  if (index >= m->session.last.notes.size()) return false;
  const plain::Note &it = m->session.last.notes[index];
  *note = it.data;
  note->text = reinterpret_cast<const uint8_t *>(it.text.data());
  note->text_length = it.text.size();
  return true;
}

int64_t model_peek(const model *m, uint32_t view, uint32_t number) {
  auto found = m->session.views.find(view);
  if (found == m->session.views.end()) return 0;
  const plain::Document &d = m->session.documents.at(found->second.document);
  if (number == SCI_GETDOCPOINTER) return found->second.document;
  if (number == SCI_MARKERADD) return d.next_handle;
  return number == SCI_GETLENGTH ? d.length() : number == SCI_GETLINECOUNT ? d.lines() : number == SCI_GETENDSTYLED ? d.end_styled : found->second.caret;
}

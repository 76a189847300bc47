// What the plain model keeps (model.h): model.cpp has steps, history and notes, model_messages.cpp and model_lines.cpp the messages. C++17.
#ifndef MODEL_HPP
#define MODEL_HPP

#include "model.h"

#include <array>
#include <map>
#include <string>
#include <utility>
#include <vector>

namespace plain {

using Bytes = std::string;
using Number = std::int64_t;

struct Marker {
  Number handle, number;
};

struct Row {
  std::vector<Marker> markers;
  Number level = 0x400, state = 0;
};

struct Flags {
  bool visible = true, expanded = true;
};

enum class Kind { Insertion, Deletion, Container };

// A change in the history. Of a step of the text the whole text before and after it is kept.
struct Change {
  Kind kind;
  Number place;
  Bytes bytes;
  Number token;
  Bytes before, after;
};

struct Transaction {
  std::vector<Change> changes;
  bool sealed = false;
};

// A step that a message is going to do; `bytes` of an insertion, `length` of a deletion.
struct Step {
  Kind kind;
  Number place, length;
  Bytes bytes;
};

struct Document {
  Bytes text, styles;
  std::vector<Number> starts{0};
  std::vector<Row> rows{Row()};
  // The values of each byte; an empty list is one of zeros.
  std::array<std::vector<Number>, 32> indicators;
  Number end_styled = 0, line_end_mode = 2, options = 0, line_end_types = 0;
  bool read_only = false, collects = true;
  std::vector<Transaction> past, future;
  Number save_point = 0, depth = 0;  // the save point is -1 where it cannot be reached
  Number next_handle = 1, held = 0;
  std::vector<std::uint32_t> views;  // in order of attaching

  Number length() const { return Number(text.size()); }
  Number lines() const { return Number(starts.size()); }
  bool has_line(Number line) const { return line >= 0 && line < lines(); }
  bool is_modified() const { return save_point != Number(past.size()); }
  Number clamp(Number place) const { return place < 0 ? 0 : place > length() ? length() : place; }
  bool is_start(Number place) const;
  std::vector<Number> find_starts() const;
  Number line_of(Number place) const;
  Number start_of(Number line) const { return line < lines() ? starts[size_t(line)] : length(); }
  Number end_of(Number line) const;
  Number cut_behind(Number cut) const;
  Number cut_before(Number place) const;
  Number cut_after(Number place) const;
  Number value_at(Number indicator, Number place) const;
  Number level_number(Number line) const { return rows[size_t(line)].level & 0xFFF; }
  bool is_header(Number line) const { return (rows[size_t(line)].level & 0x2000) != 0; }
  Number last_child(Number line, Number number) const;
  Number fold_parent(Number line) const;
  Number mask_of(Number line) const;
  void forget_history();
  void seal();
};

struct View {
  Number document = 0, anchor = 0, caret = 0, target_start = 0, target_end = 0, search_flags = 0, mask = 0x7FFFFF, indicator = 0, indicator_value = 1;
  bool converts = true, records = false;
  std::vector<Flags> flags;

  Number low() const { return anchor < caret ? anchor : caret; }
  Number high() const { return anchor < caret ? caret : anchor; }
  void select(Number place) { anchor = caret = place; }
  void contract(const Document &document, Number header);
  void expand(const Document &document, Number header);
};

struct Note {
  hongpilas_note_data data;  // without its text
  Bytes text;
};

struct Reply {
  Number value = 0;
  Bytes text;
  std::vector<Note> notes;
};

// A message, as it was sent.
struct Message {
  std::uint32_t view, number;
  Number w, l;
  Bytes text;
};

// What came of an edit: TooLong is a refusal, Attempted that the document is read-only.
enum class Outcome { Done, Attempted, TooLong };

struct Session {
  hongpilas_limits limits;
  std::map<Number, Document> documents;
  std::map<std::uint32_t, View> views;
  Number next_document = 1, next_view = 1;
  Bytes clipboard;
  Reply last, reply;  // `reply` is that of the message that goes on

  Number new_document(Number options);
  void release(Number document);
  void attach(std::uint32_t view, Number document);
  hongpilas_answer send(const Message &message);

  // The parts of the message table. Each answers a refusal, or DONE; OTHER where the message is none of its own.
  static constexpr hongpilas_answer OTHER = 1000;
  hongpilas_answer send_text(const Message &m, View &v, Document &d);
  hongpilas_answer send_selection(const Message &m, View &v, Document &d);
  hongpilas_answer send_clipboard(const Message &m, View &v, Document &d);
  hongpilas_answer send_key(const Message &m, View &v, Document &d);
  hongpilas_answer send_undo(const Message &m, View &v, Document &d);
  hongpilas_answer send_lines(const Message &m, View &v, Document &d);
  hongpilas_answer send_styles(const Message &m, View &v, Document &d);
  hongpilas_answer send_indicators(const Message &m, View &v, Document &d);
  hongpilas_answer send_target(const Message &m, View &v, Document &d);
  hongpilas_answer send_folding(const Message &m, View &v, Document &d);
  hongpilas_answer send_session(const Message &m, View &v, Document &d);

  void tell(const Document &document, const Note &note);
  void tell_code(const Document &document, std::uint32_t code);
  void carry(Document &document, const std::vector<Number> &moved, bool is_step);
  Number make(Document &document, Kind kind, Number place, const Bytes &bytes);
  bool append(Document &document, const Change &change, bool is_later, bool coalesces);
  Outcome edit(Document &document, std::vector<Step> steps);
  hongpilas_answer hand_out(const Bytes &text, Number value);
  hongpilas_answer replace_selection(View &view, Document &document, const Bytes &text);
  void travel(View &view, Document &document, bool is_undo);
};

Note modified(Number kind);

}  // namespace plain

#endif

/* Hongpilas in C++17: sessions, views and notifications over hongpilas.h. Only a header; link with the library for C.
 *
 *   hongpilas::Session session;
 *   hongpilas::View view = session.new_view();
 *   view.InsertText(0, "hello,\nworld");
 *   for (const hongpilas::Note &note : session.notes()) std::cout << note.position << "\n";
 *   std::string line = view.GetLine(1);
 *
 * Messages are methods by Scintilla's names. A text that a message takes is a Text: whatever converts to a std::string_view, or, where there
 * is one, a std::span of bytes. Its length is sent with it, so that ADDTEXT and the like have no argument for that. Positions, lengths and
 * lines are std::int64_t and count from 0.
 *
 * Refusals. The methods of View throw Refused; those of ResultView, which view.results() is, throw nothing and return a Result, with a value
 * or a Refusal, as std::expected has. A refused call changes nothing. Out of memory is a refusal too, also where a text is copied; but there
 * it ends a program that is built without exceptions.
 *
 * Queries are const: they change nothing, and leave the session's last reply as it is, so that a loop over notifications may send them. All
 * other messages, once done, replace the last reply: its value, its text and its notifications.
 *
 * Borrowed bytes. What GetLine and the like return is a copy, as is what notes() returns. Borrowed are
 *  - text() and lent_notes(): until the next message that is done and is no query, or the end of the session;
 *  - GetLineView and the like, and read(): until the next query that returns a text, or the end of the session;
 *  - lend_range: until the next call on the session, except those that only read the last reply.
 * A text that is sent has none of these bytes: copy it first.
 *
 * Calls on one session must not overlap: use a lock, or pass the session through a channel. The caller's other duties stand at the top of
 * hongpilas.h. */
#ifndef HONGPILAS_HPP
#define HONGPILAS_HPP

#include <hongpilas.h>

#include <cassert>
#include <cstddef>
#include <cstdint>
#include <cstdlib>
#include <exception>
#include <functional>
#include <iterator>
#include <memory>
#include <new>
#include <string>
#include <string_view>
#include <type_traits>
#include <utility>
#include <variant>
#include <vector>

#if __cplusplus >= 202002L
#if __has_include(<ranges>)
#include <ranges>
#endif
#if __has_include(<span>)
#include <span>
#endif
#endif

/* Code that is built without exceptions has all but View, Session's constructor and new_view, and value() of a refused Result ends the
 * program. */
#if defined(__cpp_exceptions)
#define HONGPILAS_THROWS 1
#else
#define HONGPILAS_THROWS 0
#endif

namespace hongpilas {

/// Why a call is refused. A later library may have other numbers than these.
enum class Refusal : std::uint32_t {
  OutOfMemory = HONGPILAS_OUT_OF_MEMORY,
  NoSuchView = HONGPILAS_NO_SUCH_VIEW,
  UnknownMessage = HONGPILAS_UNKNOWN_MESSAGE,
  NoSuchDocument = HONGPILAS_NO_SUCH_DOCUMENT,
  TooLong = HONGPILAS_TOO_LONG,
  BadArgument = HONGPILAS_BAD_ARGUMENT,
  TooMany = HONGPILAS_TOO_MANY
};

/// The name of a refusal, such as "no such view". It is never freed.
inline std::string_view name_of(Refusal refusal) noexcept { return hongpilas_answer_name(static_cast<hongpilas_answer>(refusal)); }

/// A call was refused, and has changed nothing. It holds a number, so that none of its own functions allocates.
class Refused : public std::exception {
 public:
  explicit Refused(Refusal refusal) noexcept : refusal_(refusal) {}
  Refusal refusal() const noexcept { return refusal_; }
  const char *what() const noexcept override { return hongpilas_answer_name(static_cast<hongpilas_answer>(refusal_)); }

 private:
  Refusal refusal_;
};

namespace detail {
[[noreturn]] inline void refuse(Refusal refusal) {
#if HONGPILAS_THROWS
  throw Refused(refusal);
#else
  static_cast<void>(refusal);
  std::abort();
#endif
}

/// What `make` returns, or OutOfMemory if that wants more memory than there is.
template <class Made, class Make>
Made unless_out_of_memory(Make make) noexcept {
#if HONGPILAS_THROWS
  try {
    return make();
  } catch (const std::bad_alloc &) {
    return Refusal::OutOfMemory;
  }
#else
  return make();
#endif
}

/// The end of a guard, which reports no refusal.
inline void ends(hongpilas_answer) noexcept {}

/// Bytes that the library lends. If there are none, their address means nothing.
inline std::string_view lent(const std::uint8_t *bytes, std::size_t length) noexcept {
  return length == 0 ? std::string_view() : std::string_view(reinterpret_cast<const char *>(bytes), length);
}
}  // namespace detail

/// A value, or why there is none. `*` and `->` are for a result that has a value, error() for one that has none; value() throws Refused.
template <class T>
class [[nodiscard]] Result {
 public:
  using value_type = T;
  using error_type = Refusal;

  Result(T value) noexcept(std::is_nothrow_move_constructible_v<T>) : held_(std::in_place_index<0>, std::move(value)) {}
  Result(Refusal refusal) noexcept : held_(std::in_place_index<1>, refusal) {}

  bool has_value() const noexcept { return held_.index() == 0; }
  explicit operator bool() const noexcept { return has_value(); }
  Refusal error() const noexcept { return assert(!has_value()), *std::get_if<1>(&held_); }

  T &operator*() &noexcept { return assert(has_value()), *std::get_if<0>(&held_); }
  const T &operator*() const &noexcept { return assert(has_value()), *std::get_if<0>(&held_); }
  T &&operator*() &&noexcept { return assert(has_value()), std::move(*std::get_if<0>(&held_)); }
  T *operator->() noexcept { return assert(has_value()), std::get_if<0>(&held_); }
  const T *operator->() const noexcept { return assert(has_value()), std::get_if<0>(&held_); }

  T &value() & { return checked(), **this; }
  const T &value() const & { return checked(), **this; }
  T &&value() && { return checked(), *std::move(*this); }
  T value_or(T other) const & { return has_value() ? **this : std::move(other); }
  T value_or(T other) && { return has_value() ? *std::move(*this) : std::move(other); }

  /// What `next` returns for the value, a Result of its own; or the same refusal.
  template <class Next>
  auto and_then(Next &&next) && -> std::invoke_result_t<Next, T> {
    if (!has_value()) return error();
    return std::invoke(std::forward<Next>(next), *std::move(*this));
  }
  template <class Next>
  auto and_then(Next &&next) const & -> std::invoke_result_t<Next, T> {
    return Result(*this).and_then(std::forward<Next>(next));
  }
  /// A result with what `change` returns for the value; or the same refusal.
  template <class Change>
  auto transform(Change &&change) && -> Result<std::invoke_result_t<Change, T>> {
    if (!has_value()) return error();
    return std::invoke(std::forward<Change>(change), *std::move(*this));
  }
  template <class Change>
  auto transform(Change &&change) const & -> Result<std::invoke_result_t<Change, T>> {
    return Result(*this).transform(std::forward<Change>(change));
  }

  friend bool operator==(const Result &one, const Result &other) { return one.held_ == other.held_; }
  friend bool operator!=(const Result &one, const Result &other) { return !(one == other); }

 private:
  void checked() const {
    if (!has_value()) detail::refuse(error());
  }

  std::variant<T, Refusal> held_;
};

/// Done, or why it was refused.
template <>
class [[nodiscard]] Result<void> {
 public:
  using value_type = void;
  using error_type = Refusal;

  Result() noexcept = default;
  Result(Refusal refusal) noexcept : answer_(static_cast<hongpilas_answer>(refusal)) {}

  bool has_value() const noexcept { return answer_ == HONGPILAS_DONE; }
  explicit operator bool() const noexcept { return has_value(); }
  Refusal error() const noexcept { return assert(!has_value()), static_cast<Refusal>(answer_); }
  void operator*() const noexcept { assert(has_value()); }
  void value() const {
    if (!has_value()) detail::refuse(error());
  }

  friend bool operator==(const Result &one, const Result &other) noexcept { return one.answer_ == other.answer_; }
  friend bool operator!=(const Result &one, const Result &other) noexcept { return !(one == other); }

 private:
  hongpilas_answer answer_ = HONGPILAS_DONE;
};

namespace detail {
/// An answer of the library as a Result.
inline Result<void> result_of(hongpilas_answer answer) noexcept {
  return answer == HONGPILAS_DONE ? Result<void>() : Result<void>(static_cast<Refusal>(answer));
}
template <class T>
Result<T> result_of(hongpilas_answer answer, T value) noexcept {
  if (answer != HONGPILAS_DONE) return static_cast<Refusal>(answer);
  return value;
}
}  // namespace detail

/// A text that is sent: bytes with a length, borrowed for the call. It is made of what converts to a std::string_view, such as a literal or a
/// std::string, and, where there is a std::span, of one of bytes.
class Text {
 public:
  Text() noexcept = default;
  template <class Characters, class = std::enable_if_t<std::is_convertible_v<const Characters &, std::string_view>>>
  Text(const Characters &text) noexcept(std::is_nothrow_constructible_v<std::string_view, const Characters &>) : bytes_(text) {}
#if defined(__cpp_lib_span)
  Text(std::span<const std::byte> bytes) noexcept : bytes_(reinterpret_cast<const char *>(bytes.data()), bytes.size()) {}
  Text(std::span<const std::uint8_t> bytes) noexcept : bytes_(reinterpret_cast<const char *>(bytes.data()), bytes.size()) {}
#endif
#if defined(__cpp_char8_t)
  Text(std::u8string_view text) noexcept : bytes_(reinterpret_cast<const char *>(text.data()), text.size()) {}
  Text(const char8_t *text) noexcept : Text(std::u8string_view(text)) {}
#endif

  const char *data() const noexcept { return bytes_.data(); }
  std::size_t size() const noexcept { return bytes_.size(); }

 private:
  std::string_view bytes_;
};

#if defined(__cpp_lib_span)
/// Bytes that a call returned, as a span.
inline std::span<const std::byte> as_bytes(std::string_view text) noexcept { return std::as_bytes(std::span<const char>(text.data(), text.size())); }
#endif

/// The name of a notification's code: "SCN_MODIFIED" for 2008. Empty if no notification has it.
inline std::string_view note_name(std::uint32_t code) noexcept {
  const char *name = hongpilas_note_name(code);
  return name == nullptr ? std::string_view() : std::string_view(name);
}

/// A notification of a view. Fields that its code does not use are 0.
template <class Bytes>
struct BasicNote {
  std::uint32_t view;     ///< the view that is notified
  std::uint32_t code;     ///< which notification, such as SCN_MODIFIED
  std::uint32_t kind;     ///< Scintilla's modificationType
  std::uint32_t message;  ///< the number of a recorded message
  std::int64_t position;  ///< a position, in bytes, just after this step
  std::int64_t length;    ///< a length, in bytes
  std::int64_t lines;     ///< Scintilla's linesAdded
  std::int64_t line;      ///< a line, from 0; -1 for all lines
  std::int64_t now;       ///< a fold level after a change: foldLevelNow
  std::int64_t prev;      ///< a fold level before it: foldLevelPrev
  std::int64_t token;     ///< the token of a container's own undo step
  std::int64_t w;         ///< the arguments of a recorded message
  std::int64_t l;
  Bytes text;  ///< the notification's text

  friend bool operator==(const BasicNote &one, const BasicNote &other) noexcept {
    return one.view == other.view && one.code == other.code && one.kind == other.kind && one.message == other.message && one.position == other.position &&
           one.length == other.length && one.lines == other.lines && one.line == other.line && one.now == other.now && one.prev == other.prev &&
           one.token == other.token && one.w == other.w && one.l == other.l && one.text == other.text;
  }
  friend bool operator!=(const BasicNote &one, const BasicNote &other) noexcept { return !(one == other); }
};

/// A notification with a text of its own.
using Note = BasicNote<std::string>;
/// A notification whose text is borrowed as long as the reply is kept.
using LentNote = BasicNote<std::string_view>;

/// The notifications of the last reply, for all views, in their order: a random access range over the session's own, without copies. They are
/// valid until the next message that is done and is no query; queries may be sent in a loop over them.
class LentNotes {
  struct Arrow {
    LentNote note;
    const LentNote *operator->() const noexcept { return &note; }
  };

 public:
  class iterator {
   public:
    // What `*` returns is no reference, which C++17 wants of more than an input iterator, and C++20 does not.
    using iterator_category = std::input_iterator_tag;
#if __cplusplus >= 202002L
    using iterator_concept = std::random_access_iterator_tag;
#endif
    using value_type = LentNote;
    using difference_type = std::ptrdiff_t;
    using pointer = Arrow;
    using reference = LentNote;

    iterator() noexcept = default;
    iterator(const hongpilas_session *session, std::size_t index) noexcept : session_(session), index_(index) {}
    LentNote operator*() const noexcept { return LentNotes(session_)[index_]; }
    Arrow operator->() const noexcept { return {**this}; }
    LentNote operator[](difference_type count) const noexcept { return *(*this + count); }
    iterator &operator++() noexcept { return ++index_, *this; }
    iterator operator++(int) noexcept { return iterator(session_, index_++); }
    iterator &operator--() noexcept { return --index_, *this; }
    iterator operator--(int) noexcept { return iterator(session_, index_--); }
    iterator &operator+=(difference_type count) noexcept { return index_ += static_cast<std::size_t>(count), *this; }
    iterator &operator-=(difference_type count) noexcept { return index_ -= static_cast<std::size_t>(count), *this; }
    friend iterator operator+(iterator from, difference_type count) noexcept { return from += count; }
    friend iterator operator+(difference_type count, iterator from) noexcept { return from += count; }
    friend iterator operator-(iterator from, difference_type count) noexcept { return from -= count; }
    friend difference_type operator-(const iterator &one, const iterator &other) noexcept {
      return static_cast<difference_type>(one.index_) - static_cast<difference_type>(other.index_);
    }
    friend bool operator==(const iterator &one, const iterator &other) noexcept { return one.index_ == other.index_; }
    friend bool operator!=(const iterator &one, const iterator &other) noexcept { return one.index_ != other.index_; }
    friend bool operator<(const iterator &one, const iterator &other) noexcept { return one.index_ < other.index_; }
    friend bool operator>(const iterator &one, const iterator &other) noexcept { return one.index_ > other.index_; }
    friend bool operator<=(const iterator &one, const iterator &other) noexcept { return one.index_ <= other.index_; }
    friend bool operator>=(const iterator &one, const iterator &other) noexcept { return one.index_ >= other.index_; }

   private:
    const hongpilas_session *session_ = nullptr;
    std::size_t index_ = 0;
  };
  using value_type = LentNote;
  using const_iterator = iterator;

  LentNotes() noexcept = default;
  explicit LentNotes(const hongpilas_session *session) noexcept : session_(session) {}
  std::size_t size() const noexcept {
    std::size_t count = 0;
    return hongpilas_note_count(session_, &count) == HONGPILAS_DONE ? count : 0;
  }
  bool empty() const noexcept { return size() == 0; }
  iterator begin() const noexcept { return iterator(session_, 0); }
  iterator end() const noexcept { return iterator(session_, size()); }
  /// The notification with this index; one of zeros if there is none.
  LentNote operator[](std::size_t index) const noexcept {
    hongpilas_note_data it = {};
    if (hongpilas_note(session_, index, &it, sizeof it) != HONGPILAS_DONE) it = {};
    return {it.view, it.code, it.kind, it.message, it.position, it.length, it.lines,
            it.line, it.now,  it.prev, it.token,   it.w,        it.l,      detail::lent(it.text, it.text_length)};
  }

 private:
  const hongpilas_session *session_ = nullptr;
};

namespace detail {
/// Copies of notifications: those for one view, or for all if the view is 0, which no view is.
inline Result<std::vector<Note>> copied(const LentNotes &notes, std::uint32_t view) noexcept {
  return unless_out_of_memory<Result<std::vector<Note>>>([&] {
    std::vector<Note> found;
    for (const LentNote &it : notes)
      if (view == 0 || it.view == view)
        found.push_back(
            {it.view, it.code, it.kind, it.message, it.position, it.length, it.lines, it.line, it.now, it.prev, it.token, it.w, it.l, std::string(it.text)});
    return found;
  });
}

inline std::int64_t value_of(const hongpilas_session *session) noexcept {
  std::int64_t value = 0;
  return hongpilas_value(session, &value) == HONGPILAS_DONE ? value : 0;
}
inline std::string_view text_of(const hongpilas_session *session) noexcept {
  const std::uint8_t *bytes = nullptr;
  std::size_t length = 0;
  return hongpilas_text(session, &bytes, &length) == HONGPILAS_DONE ? lent(bytes, length) : std::string_view();
}
}  // namespace detail

/// Limits of a session. To lower some: `hongpilas::Limits limits = hongpilas::greatest_limits; limits.views = 2;`.
using Limits = hongpilas_limits;
inline constexpr Limits greatest_limits = HONGPILAS_GREATEST_LIMITS;

/* What a view's methods return is a policy, and so a part of its type: most code wants plain values and exceptions, and code where a refusal
 * is an ordinary answer, or which is built without exceptions, wants it in the result. A third way, a Result everywhere, would put a
 * `.value()` behind each message. */

/// The policy of View: values are returned, and refusals are thrown as Refused.
struct Throwing {
  static constexpr bool nothrow = false;
  template <class T>
  using Answer = T;
  template <class T>
  static T answer(Result<T> &&result) {
    return std::move(result).value();
  }
};

/// The policy of ResultView: a Result is returned, and nothing is thrown.
struct Returning {
  static constexpr bool nothrow = true;
  template <class T>
  using Answer = Result<T>;
  template <class T>
  static Result<T> answer(Result<T> &&result) noexcept {
    return std::move(result);
  }
};

template <class Policy>
class BasicView;
/// A view whose methods return a Result. In a program that is built without exceptions, those that copy, such as GetText() and notes(), end it
/// if there is no memory for the copy; GetTextView() and Session::lent_notes() copy nothing.
using ResultView = BasicView<Returning>;
#if HONGPILAS_THROWS
using View = BasicView<Throwing>;
#endif

/// An open undo group: what is done while this object lives is undone at once. At its end it sends ENDUNDOACTION, which replaces the last
/// reply, to the view that began it; read notifications before. It has to end before its session does. Groups may lie in groups; a group is
/// moved, but not assigned, since the new one would begin inside the old one.
class [[nodiscard]] UndoGroup {
 public:
  UndoGroup(UndoGroup &&other) noexcept : session_(std::exchange(other.session_, nullptr)), view_(other.view_) {}
  UndoGroup &operator=(UndoGroup &&) = delete;
  ~UndoGroup() { detail::ends(hongpilas_send(session_, view_, SCI_ENDUNDOACTION, 0, 0, nullptr, 0, nullptr)); }

 private:
  template <class Policy>
  friend class BasicView;
  UndoGroup(hongpilas_session *session, std::uint32_t view) noexcept : session_(session), view_(view) {}

  // Null if there is nothing to end: a call on a null session is refused.
  hongpilas_session *session_;
  std::uint32_t view_;
};

/// A document that the caller holds, whether views are attached to it or not. At its end it sends RELEASEDOCUMENT to the view that made it,
/// which has to be open then, as has the session; release() is for when they may not be.
class [[nodiscard]] Document {
 public:
  Document(Document &&other) noexcept : session_(std::exchange(other.session_, nullptr)), view_(other.view_), id_(other.id_) {}
  Document &operator=(Document other) noexcept {
    std::swap(session_, other.session_);
    std::swap(view_, other.view_);
    std::swap(id_, other.id_);
    return *this;
  }
  ~Document() { detail::ends(hongpilas_send(session_, view_, SCI_RELEASEDOCUMENT, 0, id_, nullptr, 0, nullptr)); }

  /// The document's id, which SetDocPointer takes.
  std::int64_t id() const noexcept { return id_; }
  /// Leaves the document held, and returns its id: the caller then sends RELEASEDOCUMENT.
  std::int64_t release() noexcept { return session_ = nullptr, id_; }

 private:
  template <class Policy>
  friend class BasicView;
  Document(hongpilas_session *session, std::uint32_t view, std::int64_t id) noexcept : session_(session), view_(view), id_(id) {}

  // Null if there is nothing to release.
  hongpilas_session *session_;
  std::uint32_t view_;
  std::int64_t id_;
};

/// A view, by its id: two words that are copied freely, and do not close the view when they end. It may be used as long as its session is
/// open, also when the Session object has moved. Queries are const, and leave the session's last reply.
template <class Policy>
class BasicView {
 public:
  template <class T>
  using Answer = typename Policy::template Answer<T>;
  /// Whether no method throws.
  static constexpr bool nothrow = Policy::nothrow;

  BasicView(hongpilas_session *session, std::uint32_t id) noexcept : session_(session), id_(id) {}

  /// The view's id: 1, 2, 3 and so on in the order in which a session's views are opened.
  std::uint32_t id() const noexcept { return id_; }
  /// The same view, whose methods return a Result.
  ResultView results() const noexcept { return ResultView(session_, id_); }
#if HONGPILAS_THROWS
  /// The same view, whose methods throw.
  View throwing() const noexcept { return View(session_, id_); }
#endif

  /// Sends any message, and returns its value. docs/MESSAGES.md says what w, l and the text mean.
  Answer<std::int64_t> send(std::uint32_t number, std::int64_t w = 0, std::int64_t l = 0, Text text = {}) noexcept(nothrow) {
    return as_number(number, w, l, text);
  }
  /// Sends any query, and returns its value; the last reply stays. Refused: UnknownMessage if the message is no query.
  [[nodiscard]] Answer<std::int64_t> ask(std::uint32_t number, std::int64_t w = 0, std::int64_t l = 0) const noexcept(nothrow) {
    return ask_number(number, w, l);
  }
  /// Sends any query, and returns its text, borrowed until the next query that returns a text; the last reply stays.
  [[nodiscard]] Answer<std::string_view> read(std::uint32_t number, std::int64_t w = 0, std::int64_t l = 0) const noexcept(nothrow) {
    return read_lent(number, w, l);
  }

  /// Lends bytes of the view's document, without a copy. They are valid until the next call that does more than read the last reply.
  /// Refused: BadArgument if the range does not lie in the text.
  [[nodiscard]] Answer<std::string_view> lend_range(std::int64_t start, std::int64_t count) const noexcept(nothrow) {
    const std::uint8_t *bytes = nullptr;
    if (start < 0 || count < 0) return Policy::answer(Result<std::string_view>(Refusal::BadArgument));
    const auto length = static_cast<std::size_t>(count);
    const hongpilas_answer answer = hongpilas_lend_range(session_, id_, static_cast<std::size_t>(start), length, &bytes);
    return Policy::answer(detail::result_of(answer, detail::lent(bytes, answer == HONGPILAS_DONE ? length : 0)));
  }

  /// Begins an undo group, which ends with the object that is returned. Refused: TooMany at the limit of depth.
  Answer<UndoGroup> undo_group() noexcept(nothrow) {
    const Result<std::int64_t> begun = sent(SCI_BEGINUNDOACTION, 0, 0, {});
    return Policy::answer(begun ? Result<UndoGroup>(UndoGroup(session_, id_)) : Result<UndoGroup>(begun.error()));
  }
  /// Makes a document, and holds it until the object that is returned ends. The options are those of CREATEDOCUMENT, and so are the refusals.
  Answer<Document> create_document(std::int64_t options = 0) noexcept(nothrow) {
    const Result<std::int64_t> made = sent(SCI_CREATEDOCUMENT, 0, options, {});
    return Policy::answer(made ? Result<Document>(Document(session_, id_, *made)) : Result<Document>(made.error()));
  }
  /// Holds the view's document until the object that is returned ends. Refused: TooMany at the limit of references.
  Answer<Document> hold_document() noexcept(nothrow) {
    std::int64_t id = 0;
    const Result<void> asked = detail::result_of(hongpilas_ask(session_, id_, SCI_GETDOCPOINTER, 0, 0, &id));
    const Result<std::int64_t> held = asked ? sent(SCI_ADDREFDOCUMENT, 0, id, {}) : Result<std::int64_t>(asked.error());
    return Policy::answer(held ? Result<Document>(Document(session_, id_, id)) : Result<Document>(held.error()));
  }

  /// Closes the view. A document to which no other view is attached, and which no caller holds, is freed with it.
  Answer<void> close() noexcept(nothrow) { return Policy::answer(detail::result_of(hongpilas_close_view(session_, id_))); }

  /// The session's last reply, whichever view it came from: its value, and its text, borrowed.
  std::int64_t value() const noexcept { return detail::value_of(session_); }
  std::string_view text() const noexcept { return detail::text_of(session_); }
  /// This view's notifications in the session's last reply, whichever view that came from, as copies. Session::notes() has those of all views.
  [[nodiscard]] Answer<std::vector<Note>> notes() const noexcept(nothrow) { return Policy::answer(detail::copied(LentNotes(session_), id_)); }

  /// Whether both are the same view of the same session.
  template <class Other>
  friend bool operator==(const BasicView &one, const BasicView<Other> &other) noexcept {
    return one.session() == other.session() && one.id() == other.id();
  }
  template <class Other>
  friend bool operator!=(const BasicView &one, const BasicView<Other> &other) noexcept {
    return !(one == other);
  }
  /// The session for calls of hongpilas.h. It stays its object's.
  hongpilas_session *session() const noexcept { return session_; }

  // Written by tools/pages/wrappers.py: begin
  /// Inserts `text` at the caret, and moves anchor and caret to the end of the inserted text. An empty `text` moves
  /// the anchor to the caret. Message: `SCI_ADDTEXT`.
  Answer<void> AddText(Text text) noexcept(nothrow) { return as_done(SCI_ADDTEXT, length_of(text), 0, text); }
  /// Inserts `text` at `position`, or at the caret if `position` is -1. Refused with `Refusal::BadArgument` unless
  /// `position` is -1 to the text's length. Message: `SCI_INSERTTEXT`.
  Answer<void> InsertText(std::int64_t position, Text text) noexcept(nothrow) { return as_done(SCI_INSERTTEXT, position, 0, text); }
  /// Deletes the whole text. Message: `SCI_CLEARALL`.
  Answer<void> ClearAll() noexcept(nothrow) { return as_done(SCI_CLEARALL, 0, 0); }
  /// Returns the length of the text. Message: `SCI_GETLENGTH`.
  [[nodiscard]] Answer<std::int64_t> GetLength() const noexcept(nothrow) { return ask_number(SCI_GETLENGTH, 0, 0); }
  /// Returns the byte at `position`, 0 to 255, or 0 if there is none. Message: `SCI_GETCHARAT`.
  [[nodiscard]] Answer<std::int64_t> GetCharAt(std::int64_t position) const noexcept(nothrow) { return ask_number(SCI_GETCHARAT, position, 0); }
  /// Returns the position of the caret. Message: `SCI_GETCURRENTPOS`.
  [[nodiscard]] Answer<std::int64_t> GetCurrentPos() const noexcept(nothrow) { return ask_number(SCI_GETCURRENTPOS, 0, 0); }
  /// Returns the position of the anchor. Message: `SCI_GETANCHOR`.
  [[nodiscard]] Answer<std::int64_t> GetAnchor() const noexcept(nothrow) { return ask_number(SCI_GETANCHOR, 0, 0); }
  /// Returns the style of the byte at `position`, or 0 if there is none. Message: `SCI_GETSTYLEAT`.
  [[nodiscard]] Answer<std::int64_t> GetStyleAt(std::int64_t position) const noexcept(nothrow) { return ask_number(SCI_GETSTYLEAT, position, 0); }
  /// Performs again the transaction that was undone last; does nothing while a group is open, or if there is no
  /// transaction to redo. Message: `SCI_REDO`.
  Answer<void> Redo() noexcept(nothrow) { return as_done(SCI_REDO, 0, 0); }
  /// Sets whether undo is collected. Off, even if it was off, forgets the history and closes all groups, and keeps
  /// whether the document counts as modified. On while undo is collected changes nothing. Message:
  /// `SCI_SETUNDOCOLLECTION`.
  Answer<void> SetUndoCollection(bool on) noexcept(nothrow) { return as_done(SCI_SETUNDOCOLLECTION, on, 0); }
  /// Moves the anchor to 0 and the caret to the end of the text. Message: `SCI_SELECTALL`.
  Answer<void> SelectAll() noexcept(nothrow) { return as_done(SCI_SELECTALL, 0, 0); }
  /// Makes the current state the save point, and always sends SCN_SAVEPOINTREACHED. Message: `SCI_SETSAVEPOINT`.
  Answer<void> SetSavePoint() noexcept(nothrow) { return as_done(SCI_SETSAVEPOINT, 0, 0); }
  /// Returns each byte from `start` to `end`, followed by its style; the value, which `ask` returns, is the number of
  /// bytes returned. Refused with `Refusal::BadArgument` unless `start` and `end` are a range of the text; an `end`
  /// of -1 is its end. Message: `SCI_GETSTYLEDTEXT`.
  [[nodiscard]] Answer<std::string> GetStyledText(std::int64_t start, std::int64_t end) const noexcept(nothrow) {
    return read_copy(SCI_GETSTYLEDTEXT, start, end);
  }
  /// Like GetStyledText, but lent, not copied: the text is valid until the next query that returns a text.
  [[nodiscard]] Answer<std::string_view> GetStyledTextView(std::int64_t start, std::int64_t end) const noexcept(nothrow) {
    return read_lent(SCI_GETSTYLEDTEXT, start, end);
  }
  /// Returns whether `Redo` would change something: no group is open, the document is not read-only, and there is a
  /// transaction to redo. Message: `SCI_CANREDO`.
  [[nodiscard]] Answer<bool> CanRedo() const noexcept(nothrow) { return ask_flag(SCI_CANREDO, 0, 0); }
  /// Returns the line of the marker with `handle`, or -1 if there is none. Message: `SCI_MARKERLINEFROMHANDLE`.
  [[nodiscard]] Answer<std::int64_t> MarkerLineFromHandle(std::int64_t handle) const noexcept(nothrow) {
    return ask_number(SCI_MARKERLINEFROMHANDLE, handle, 0);
  }
  /// Removes the marker with `handle`. If there is one, sends SCN_MODIFIED (`SC_MOD_CHANGEMARKER`). Message:
  /// `SCI_MARKERDELETEHANDLE`.
  Answer<void> MarkerDeleteHandle(std::int64_t handle) noexcept(nothrow) { return as_done(SCI_MARKERDELETEHANDLE, handle, 0); }
  /// Returns whether undo is collected. Message: `SCI_GETUNDOCOLLECTION`.
  [[nodiscard]] Answer<bool> GetUndoCollection() const noexcept(nothrow) { return ask_flag(SCI_GETUNDOCOLLECTION, 0, 0); }
  /// Moves anchor and caret to the start of line `line`; a negative number stands for the first line, one that is too
  /// great for the last. Message: `SCI_GOTOLINE`.
  Answer<void> GotoLine(std::int64_t line) noexcept(nothrow) { return as_done(SCI_GOTOLINE, line, 0); }
  /// Moves anchor and caret to `position` (clamped to the text). Message: `SCI_GOTOPOS`.
  Answer<void> GotoPos(std::int64_t position) noexcept(nothrow) { return as_done(SCI_GOTOPOS, position, 0); }
  /// Moves the anchor to `position` (clamped to the text); the caret stays. Message: `SCI_SETANCHOR`.
  Answer<void> SetAnchor(std::int64_t position) noexcept(nothrow) { return as_done(SCI_SETANCHOR, position, 0); }
  /// Returns the caret's line with its line end; the value, which `ask` returns, is the caret's distance from the
  /// line's start, in bytes. Message: `SCI_GETCURLINE`.
  [[nodiscard]] Answer<std::string> GetCurLine() const noexcept(nothrow) { return read_copy(SCI_GETCURLINE, 0, 0); }
  /// Like GetCurLine, but lent, not copied: the text is valid until the next query that returns a text.
  [[nodiscard]] Answer<std::string_view> GetCurLineView() const noexcept(nothrow) { return read_lent(SCI_GETCURLINE, 0, 0); }
  /// Returns end styled: the position up to which the document is styled. Message: `SCI_GETENDSTYLED`.
  [[nodiscard]] Answer<std::int64_t> GetEndStyled() const noexcept(nothrow) { return ask_number(SCI_GETENDSTYLED, 0, 0); }
  /// Turns each CRLF, CR and LF of the text into one line end: `SC_EOL_CRLF` 0, `SC_EOL_CR` 1 or `SC_EOL_LF` 2.
  /// Unicode line ends stay, and so does the document's line end. Refused with `Refusal::BadArgument` unless `mode`
  /// is 0 to 2. Message: `SCI_CONVERTEOLS`.
  Answer<void> ConvertEOLs(std::int64_t mode) noexcept(nothrow) { return as_done(SCI_CONVERTEOLS, mode, 0); }
  /// Returns the document's line end: `SC_EOL_CRLF`, `SC_EOL_CR` or `SC_EOL_LF`. Message: `SCI_GETEOLMODE`.
  [[nodiscard]] Answer<std::int64_t> GetEOLMode() const noexcept(nothrow) { return ask_number(SCI_GETEOLMODE, 0, 0); }
  /// Sets the document's line end: `SC_EOL_CRLF` 0, `SC_EOL_CR` 1 or `SC_EOL_LF` 2. Refused with
  /// `Refusal::BadArgument` unless `mode` is 0 to 2. Message: `SCI_SETEOLMODE`.
  Answer<void> SetEOLMode(std::int64_t mode) noexcept(nothrow) { return as_done(SCI_SETEOLMODE, mode, 0); }
  /// Moves end styled to `position`. Refused with `Refusal::BadArgument` unless `position` is 0 to the text's length.
  /// Message: `SCI_STARTSTYLING`.
  Answer<void> StartStyling(std::int64_t position) noexcept(nothrow) { return as_done(SCI_STARTSTYLING, position, 0); }
  /// Gives `style` to the `length` bytes from end styled on, and moves end styled after them. If a style changed,
  /// sends SCN_MODIFIED (`SC_MOD_CHANGESTYLE`). Refused with `Refusal::BadArgument` unless `style` is 0 to 255, and
  /// `length` 0 to the number of bytes from end styled on. Message: `SCI_SETSTYLING`.
  Answer<void> SetStyling(std::int64_t length, std::int64_t style) noexcept(nothrow) { return as_done(SCI_SETSTYLING, length, style); }
  /// Adds a marker with `number` to line `line`, after those that it has, and returns its handle; -1 if there is no
  /// such line. If it added one, sends SCN_MODIFIED (`SC_MOD_CHANGEMARKER`). Refused with `Refusal::BadArgument`
  /// unless `number` is 0 to 31, and with `Refusal::TooMany` if marker handles are used up. Message: `SCI_MARKERADD`.
  Answer<std::int64_t> MarkerAdd(std::int64_t line, std::int64_t number) noexcept(nothrow) { return as_number(SCI_MARKERADD, line, number); }
  /// Removes from line `line`, if there is such a line, the first marker with `number`, or all markers if that is -1.
  /// If it removed one, sends SCN_MODIFIED (`SC_MOD_CHANGEMARKER`). Refused with `Refusal::BadArgument` unless
  /// `number` is -1 to 31. Message: `SCI_MARKERDELETE`.
  Answer<void> MarkerDelete(std::int64_t line, std::int64_t number) noexcept(nothrow) { return as_done(SCI_MARKERDELETE, line, number); }
  /// Removes all markers with `number` from the document, or all markers if that is -1. If it removed one, sends one
  /// SCN_MODIFIED (`SC_MOD_CHANGEMARKER`) with line -1. Refused with `Refusal::BadArgument` unless `number` is -1 to
  /// 31. Message: `SCI_MARKERDELETEALL`.
  Answer<void> MarkerDeleteAll(std::int64_t number) noexcept(nothrow) { return as_done(SCI_MARKERDELETEALL, number, 0); }
  /// Returns the mask of the markers of line `line`: bit k is set if it has one with number k; 0 if there is no such
  /// line. Message: `SCI_MARKERGET`.
  [[nodiscard]] Answer<std::int64_t> MarkerGet(std::int64_t line) const noexcept(nothrow) { return ask_number(SCI_MARKERGET, line, 0); }
  /// Returns the first line from `line` on that has a marker whose bit is set in the low 32 bits of `mask`, or -1.
  /// Message: `SCI_MARKERNEXT`.
  [[nodiscard]] Answer<std::int64_t> MarkerNext(std::int64_t line, std::int64_t mask) const noexcept(nothrow) { return ask_number(SCI_MARKERNEXT, line, mask); }
  /// Returns the last line up to `line` that has a marker whose bit is set in the low 32 bits of `mask`, or -1.
  /// Message: `SCI_MARKERPREVIOUS`.
  [[nodiscard]] Answer<std::int64_t> MarkerPrevious(std::int64_t line, std::int64_t mask) const noexcept(nothrow) {
    return ask_number(SCI_MARKERPREVIOUS, line, mask);
  }
  /// Gives each byte from end styled on the style that `styles` has for it, and moves end styled after the last one.
  /// If a style changed, sends SCN_MODIFIED (`SC_MOD_CHANGESTYLE`). Refused with `Refusal::BadArgument` if `styles`
  /// has more bytes than there are from end styled on. Message: `SCI_SETSTYLINGEX`.
  Answer<void> SetStylingEx(Text styles) noexcept(nothrow) { return as_done(SCI_SETSTYLINGEX, length_of(styles), 0, styles); }
  /// Opens an undo group, inside those that are open. Refused with `Refusal::TooMany` at the limit of their depth.
  /// Message: `SCI_BEGINUNDOACTION`.
  Answer<void> BeginUndoAction() noexcept(nothrow) { return as_done(SCI_BEGINUNDOACTION, 0, 0); }
  /// Closes the undo group that was opened last. Does nothing if none is open. Message: `SCI_ENDUNDOACTION`.
  Answer<void> EndUndoAction() noexcept(nothrow) { return as_done(SCI_ENDUNDOACTION, 0, 0); }
  /// Sets the state of line `line`, if there is such a line. If the state changed, sends SCN_MODIFIED
  /// (`SC_MOD_CHANGELINESTATE`). Refused with `Refusal::BadArgument` unless `state` is -2^31 to 2^31-1. Message:
  /// `SCI_SETLINESTATE`.
  Answer<void> SetLineState(std::int64_t line, std::int64_t state) noexcept(nothrow) { return as_done(SCI_SETLINESTATE, line, state); }
  /// Returns the state of line `line`, or 0 if there is no such line. Message: `SCI_GETLINESTATE`.
  [[nodiscard]] Answer<std::int64_t> GetLineState(std::int64_t line) const noexcept(nothrow) { return ask_number(SCI_GETLINESTATE, line, 0); }
  /// Returns where the line end of line `line` begins; the text's length for the last line and past it; -1 if `line`
  /// is negative. Message: `SCI_GETLINEENDPOSITION`.
  [[nodiscard]] Answer<std::int64_t> GetLineEndPosition(std::int64_t line) const noexcept(nothrow) { return ask_number(SCI_GETLINEENDPOSITION, line, 0); }
  /// Returns whether the document is read-only. Message: `SCI_GETREADONLY`.
  [[nodiscard]] Answer<bool> GetReadOnly() const noexcept(nothrow) { return ask_flag(SCI_GETREADONLY, 0, 0); }
  /// Moves the caret to `position` (clamped to the text); the anchor stays. Message: `SCI_SETCURRENTPOS`.
  Answer<void> SetCurrentPos(std::int64_t position) noexcept(nothrow) { return as_done(SCI_SETCURRENTPOS, position, 0); }
  /// Moves the anchor to `position` (clamped to the text); if the caret is before it, moves the caret there too.
  /// Message: `SCI_SETSELECTIONSTART`.
  Answer<void> SetSelectionStart(std::int64_t position) noexcept(nothrow) { return as_done(SCI_SETSELECTIONSTART, position, 0); }
  /// Returns the selection's start: the lesser of anchor and caret. Message: `SCI_GETSELECTIONSTART`.
  [[nodiscard]] Answer<std::int64_t> GetSelectionStart() const noexcept(nothrow) { return ask_number(SCI_GETSELECTIONSTART, 0, 0); }
  /// Moves the caret to `position` (clamped to the text); if the anchor is after it, moves the anchor there too.
  /// Message: `SCI_SETSELECTIONEND`.
  Answer<void> SetSelectionEnd(std::int64_t position) noexcept(nothrow) { return as_done(SCI_SETSELECTIONEND, position, 0); }
  /// Returns the selection's end: the greater of anchor and caret. Message: `SCI_GETSELECTIONEND`.
  [[nodiscard]] Answer<std::int64_t> GetSelectionEnd() const noexcept(nothrow) { return ask_number(SCI_GETSELECTIONEND, 0, 0); }
  /// Returns line `line` with its line end; the value, which `ask` returns, is its length. If there is no such line,
  /// the text is empty and the value 0. Message: `SCI_GETLINE`.
  [[nodiscard]] Answer<std::string> GetLine(std::int64_t line) const noexcept(nothrow) { return read_copy(SCI_GETLINE, line, 0); }
  /// Like GetLine, but lent, not copied: the text is valid until the next query that returns a text.
  [[nodiscard]] Answer<std::string_view> GetLineView(std::int64_t line) const noexcept(nothrow) { return read_lent(SCI_GETLINE, line, 0); }
  /// Returns the number of lines, which is at least 1. Message: `SCI_GETLINECOUNT`.
  [[nodiscard]] Answer<std::int64_t> GetLineCount() const noexcept(nothrow) { return ask_number(SCI_GETLINECOUNT, 0, 0); }
  /// Returns whether the document is modified, that is, not at its save point. Message: `SCI_GETMODIFY`.
  [[nodiscard]] Answer<bool> GetModify() const noexcept(nothrow) { return ask_flag(SCI_GETMODIFY, 0, 0); }
  /// Moves the anchor to `anchor` and the caret to `caret` (both clamped to the text). A negative `caret` stands for
  /// the end of the text, and a negative `anchor` for where the caret then is. Message: `SCI_SETSEL`.
  Answer<void> SetSel(std::int64_t anchor, std::int64_t caret) noexcept(nothrow) { return as_done(SCI_SETSEL, anchor, caret); }
  /// Returns the selected text; the value, which `ask` returns, is its length. Message: `SCI_GETSELTEXT`.
  [[nodiscard]] Answer<std::string> GetSelText() const noexcept(nothrow) { return read_copy(SCI_GETSELTEXT, 0, 0); }
  /// Like GetSelText, but lent, not copied: the text is valid until the next query that returns a text.
  [[nodiscard]] Answer<std::string_view> GetSelTextView() const noexcept(nothrow) { return read_lent(SCI_GETSELTEXT, 0, 0); }
  /// Returns the text from `start` to `end`; the value, which `ask` returns, is its length. Refused with
  /// `Refusal::BadArgument` unless `start` and `end` are a range of the text; an `end` of -1 is its end. Message:
  /// `SCI_GETTEXTRANGE`.
  [[nodiscard]] Answer<std::string> GetTextRange(std::int64_t start, std::int64_t end) const noexcept(nothrow) {
    return read_copy(SCI_GETTEXTRANGE, start, end);
  }
  /// Like GetTextRange, but lent, not copied: the text is valid until the next query that returns a text.
  [[nodiscard]] Answer<std::string_view> GetTextRangeView(std::int64_t start, std::int64_t end) const noexcept(nothrow) {
    return read_lent(SCI_GETTEXTRANGE, start, end);
  }
  /// Returns the line that contains `position` (clamped to the text). Message: `SCI_LINEFROMPOSITION`.
  [[nodiscard]] Answer<std::int64_t> LineFromPosition(std::int64_t position) const noexcept(nothrow) { return ask_number(SCI_LINEFROMPOSITION, position, 0); }
  /// Returns the start of line `line`. A negative number stands for the line of the selection's start; the number of
  /// lines gives the text's length, and a greater number -1. Message: `SCI_POSITIONFROMLINE`.
  [[nodiscard]] Answer<std::int64_t> PositionFromLine(std::int64_t line) const noexcept(nothrow) { return ask_number(SCI_POSITIONFROMLINE, line, 0); }
  /// Replaces the selection by `text`, and moves anchor and caret to the end of the inserted text. Message:
  /// `SCI_REPLACESEL`.
  Answer<void> ReplaceSel(Text text) noexcept(nothrow) { return as_done(SCI_REPLACESEL, 0, 0, text); }
  /// Makes the document read-only, or writable if `on` is false. Message: `SCI_SETREADONLY`.
  Answer<void> SetReadOnly(bool on) noexcept(nothrow) { return as_done(SCI_SETREADONLY, on, 0); }
  /// Returns whether text can be pasted: whether the document is not read-only. Message: `SCI_CANPASTE`.
  [[nodiscard]] Answer<bool> CanPaste() const noexcept(nothrow) { return ask_flag(SCI_CANPASTE, 0, 0); }
  /// Returns whether `Undo` would change something: no group is open, the document is not read-only, and there is a
  /// transaction to undo. Message: `SCI_CANUNDO`.
  [[nodiscard]] Answer<bool> CanUndo() const noexcept(nothrow) { return ask_flag(SCI_CANUNDO, 0, 0); }
  /// Forgets the history, closes all groups, and makes the current state the save point. No view is notified.
  /// Message: `SCI_EMPTYUNDOBUFFER`.
  Answer<void> EmptyUndoBuffer() noexcept(nothrow) { return as_done(SCI_EMPTYUNDOBUFFER, 0, 0); }
  /// Takes back the last transaction; does nothing while a group is open, or if there is no transaction to undo.
  /// Message: `SCI_UNDO`.
  Answer<void> Undo() noexcept(nothrow) { return as_done(SCI_UNDO, 0, 0); }
  /// Copies the selection to the clipboard and deletes it. Does nothing if the selection is empty; on a read-only
  /// document the clipboard stays as it is. Message: `SCI_CUT`.
  Answer<void> Cut() noexcept(nothrow) { return as_done(SCI_CUT, 0, 0); }
  /// Copies the selection to the clipboard. Does nothing if the selection is empty. Message: `SCI_COPY`.
  Answer<void> Copy() noexcept(nothrow) { return as_done(SCI_COPY, 0, 0); }
  /// Replaces the selection by the clipboard, and moves anchor and caret to the end of the inserted text. If the view
  /// converts pastes, each CRLF, CR and LF is inserted as the document's line end. Does nothing if the clipboard is
  /// empty. Message: `SCI_PASTE`.
  Answer<void> Paste() noexcept(nothrow) { return as_done(SCI_PASTE, 0, 0); }
  /// Deletes the selection, or, if that is empty, the bytes from the caret to the next character boundary. Message:
  /// `SCI_CLEAR`.
  Answer<void> Clear() noexcept(nothrow) { return as_done(SCI_CLEAR, 0, 0); }
  /// Replaces the whole text by `text`. Message: `SCI_SETTEXT`.
  Answer<void> SetText(Text text) noexcept(nothrow) { return as_done(SCI_SETTEXT, 0, 0, text); }
  /// Returns the whole text; the value, which `ask` returns, is its length. Message: `SCI_GETTEXT`.
  [[nodiscard]] Answer<std::string> GetText() const noexcept(nothrow) { return read_copy(SCI_GETTEXT, 0, 0); }
  /// Like GetText, but lent, not copied: the text is valid until the next query that returns a text.
  [[nodiscard]] Answer<std::string_view> GetTextView() const noexcept(nothrow) { return read_lent(SCI_GETTEXT, 0, 0); }
  /// Returns the length of the text. Message: `SCI_GETTEXTLENGTH`.
  [[nodiscard]] Answer<std::int64_t> GetTextLength() const noexcept(nothrow) { return ask_number(SCI_GETTEXTLENGTH, 0, 0); }
  /// Sets the target's start to `position` (clamped to the text). Message: `SCI_SETTARGETSTART`.
  Answer<void> SetTargetStart(std::int64_t position) noexcept(nothrow) { return as_done(SCI_SETTARGETSTART, position, 0); }
  /// Returns the target's start. Message: `SCI_GETTARGETSTART`.
  [[nodiscard]] Answer<std::int64_t> GetTargetStart() const noexcept(nothrow) { return ask_number(SCI_GETTARGETSTART, 0, 0); }
  /// Sets the target's end to `position` (clamped to the text). Message: `SCI_SETTARGETEND`.
  Answer<void> SetTargetEnd(std::int64_t position) noexcept(nothrow) { return as_done(SCI_SETTARGETEND, position, 0); }
  /// Returns the target's end. Message: `SCI_GETTARGETEND`.
  [[nodiscard]] Answer<std::int64_t> GetTargetEnd() const noexcept(nothrow) { return ask_number(SCI_GETTARGETEND, 0, 0); }
  /// Replaces the text between the target's ends by `text`, makes the inserted text the target, and returns its
  /// length. On a read-only document it returns 0, and the target stays. Message: `SCI_REPLACETARGET`.
  Answer<std::int64_t> ReplaceTarget(Text text) noexcept(nothrow) { return as_number(SCI_REPLACETARGET, length_of(text), 0, text); }
  /// Searches the target for `text` by the view's search flags. Finds the first match, or the last one if the
  /// target's start is greater than its end; sets the target's start and end to those of the match, and returns its
  /// start. Without a match it returns -1, and the target stays. Message: `SCI_SEARCHINTARGET`.
  Answer<std::int64_t> SearchInTarget(Text text) noexcept(nothrow) { return as_number(SCI_SEARCHINTARGET, length_of(text), 0, text); }
  /// Sets the view's search flags to `flags`: 0, or made of `SCFIND_WHOLEWORD` 0x2, `SCFIND_MATCHCASE` 0x4 and
  /// `SCFIND_WORDSTART` 0x100000. Refused with `Refusal::BadArgument` if `flags` has other bits. Message:
  /// `SCI_SETSEARCHFLAGS`.
  Answer<void> SetSearchFlags(std::int64_t flags) noexcept(nothrow) { return as_done(SCI_SETSEARCHFLAGS, flags, 0); }
  /// Returns the view's search flags. Message: `SCI_GETSEARCHFLAGS`.
  [[nodiscard]] Answer<std::int64_t> GetSearchFlags() const noexcept(nothrow) { return ask_number(SCI_GETSEARCHFLAGS, 0, 0); }
  /// Returns the display line of line `line`; for a hidden line that of the last visible line before it; -1 if there
  /// is no such line. Message: `SCI_VISIBLEFROMDOCLINE`.
  [[nodiscard]] Answer<std::int64_t> VisibleFromDocLine(std::int64_t line) const noexcept(nothrow) { return ask_number(SCI_VISIBLEFROMDOCLINE, line, 0); }
  /// Returns the line at display line `displayLine`; 0 if that is negative, and the number of lines if it is past the
  /// last. Message: `SCI_DOCLINEFROMVISIBLE`.
  [[nodiscard]] Answer<std::int64_t> DocLineFromVisible(std::int64_t displayLine) const noexcept(nothrow) {
    return ask_number(SCI_DOCLINEFROMVISIBLE, displayLine, 0);
  }
  /// Sets the fold level of line `line`, if there is such a line. If the level changed, sends SCN_MODIFIED
  /// (`SC_MOD_CHANGEFOLD`). Refused with `Refusal::BadArgument` unless `level` is 0 to 2^31-1. Message:
  /// `SCI_SETFOLDLEVEL`.
  Answer<void> SetFoldLevel(std::int64_t line, std::int64_t level) noexcept(nothrow) { return as_done(SCI_SETFOLDLEVEL, line, level); }
  /// Returns the fold level of line `line`, or 1024 (`SC_FOLDLEVELBASE`) if there is no such line. Message:
  /// `SCI_GETFOLDLEVEL`.
  [[nodiscard]] Answer<std::int64_t> GetFoldLevel(std::int64_t line) const noexcept(nothrow) { return ask_number(SCI_GETFOLDLEVEL, line, 0); }
  /// Returns the last child of line `line`, or -1 if there is no such line. That child is the line before the next
  /// one whose level number is at most that of `level` (that of line `line` if `level` is -1), or the last line of
  /// the document if there is no such next line. Refused with `Refusal::BadArgument` unless `level` is -1 to 2^31-1.
  /// Message: `SCI_GETLASTCHILD`.
  [[nodiscard]] Answer<std::int64_t> GetLastChild(std::int64_t line, std::int64_t level) const noexcept(nothrow) {
    return ask_number(SCI_GETLASTCHILD, line, level);
  }
  /// Returns the fold parent of line `line`: the nearest earlier header with a smaller level number; -1 if there is
  /// none, or no such line. Message: `SCI_GETFOLDPARENT`.
  [[nodiscard]] Answer<std::int64_t> GetFoldParent(std::int64_t line) const noexcept(nothrow) { return ask_number(SCI_GETFOLDPARENT, line, 0); }
  /// Makes the lines from `first` to `last` visible, as far as they exist. Message: `SCI_SHOWLINES`.
  Answer<void> ShowLines(std::int64_t first, std::int64_t last) noexcept(nothrow) { return as_done(SCI_SHOWLINES, first, last); }
  /// Hides the lines from `first` to `last`, as far as they exist, except line 0. Message: `SCI_HIDELINES`.
  Answer<void> HideLines(std::int64_t first, std::int64_t last) noexcept(nothrow) { return as_done(SCI_HIDELINES, first, last); }
  /// Returns whether line `line` is visible; false if there is no such line. Message: `SCI_GETLINEVISIBLE`.
  [[nodiscard]] Answer<bool> GetLineVisible(std::int64_t line) const noexcept(nothrow) { return ask_flag(SCI_GETLINEVISIBLE, line, 0); }
  /// Sets whether line `line` is expanded, if there is such a line; shows and hides nothing. Message:
  /// `SCI_SETFOLDEXPANDED`.
  Answer<void> SetFoldExpanded(std::int64_t line, bool on) noexcept(nothrow) { return as_done(SCI_SETFOLDEXPANDED, line, on); }
  /// Returns whether line `line` is expanded; false if there is no such line. Message: `SCI_GETFOLDEXPANDED`.
  [[nodiscard]] Answer<bool> GetFoldExpanded(std::int64_t line) const noexcept(nothrow) { return ask_flag(SCI_GETFOLDEXPANDED, line, 0); }
  /// Contracts line `line` if it is an expanded header, and expands it if it is a contracted one; if it is no header,
  /// does the same to its fold parent, if it has one. Message: `SCI_TOGGLEFOLD`.
  Answer<void> ToggleFold(std::int64_t line) noexcept(nothrow) { return as_done(SCI_TOGGLEFOLD, line, 0); }
  /// Makes a hidden line `line` visible; before that, makes each of its fold parents visible, and expands those that
  /// are contracted, the outermost first. Does nothing for a visible line, or if there is no such line. Message:
  /// `SCI_ENSUREVISIBLE`.
  Answer<void> EnsureVisible(std::int64_t line) noexcept(nothrow) { return as_done(SCI_ENSUREVISIBLE, line, 0); }
  /// Returns whether all lines are visible. Message: `SCI_GETALLLINESVISIBLE`.
  [[nodiscard]] Answer<bool> GetAllLinesVisible() const noexcept(nothrow) { return ask_flag(SCI_GETALLLINESVISIBLE, 0, 0); }
  /// Contracts, expands or toggles line `line` if it is a header, else its fold parent, if it has one. `action` is
  /// `SC_FOLDACTION_CONTRACT` 0, `SC_FOLDACTION_EXPAND` 1 or `SC_FOLDACTION_TOGGLE` 2; all else is refused with
  /// `Refusal::BadArgument`. Message: `SCI_FOLDLINE`.
  Answer<void> FoldLine(std::int64_t line, std::int64_t action) noexcept(nothrow) { return as_done(SCI_FOLDLINE, line, action); }
  /// Inserts `text` at the end of the document. Message: `SCI_APPENDTEXT`.
  Answer<void> AppendText(Text text) noexcept(nothrow) { return as_done(SCI_APPENDTEXT, length_of(text), 0, text); }
  /// Sets the target's start and end to those of the selection, the lesser first. Message: `SCI_TARGETFROMSELECTION`.
  Answer<void> TargetFromSelection() noexcept(nothrow) { return as_done(SCI_TARGETFROMSELECTION, 0, 0); }
  /// Moves anchor and caret to the selection's start, or, if it is empty, to the character boundary before the caret.
  /// Message: `SCI_CHARLEFT`.
  Answer<void> CharLeft() noexcept(nothrow) { return as_done(SCI_CHARLEFT, 0, 0); }
  /// Moves the caret to the character boundary before it; the anchor stays. Message: `SCI_CHARLEFTEXTEND`.
  Answer<void> CharLeftExtend() noexcept(nothrow) { return as_done(SCI_CHARLEFTEXTEND, 0, 0); }
  /// Moves anchor and caret to the selection's end, or, if it is empty, to the character boundary after the caret.
  /// Message: `SCI_CHARRIGHT`.
  Answer<void> CharRight() noexcept(nothrow) { return as_done(SCI_CHARRIGHT, 0, 0); }
  /// Moves the caret to the character boundary after it; the anchor stays. Message: `SCI_CHARRIGHTEXTEND`.
  Answer<void> CharRightExtend() noexcept(nothrow) { return as_done(SCI_CHARRIGHTEXTEND, 0, 0); }
  /// Moves anchor and caret to the start of the caret's line. Message: `SCI_HOME`.
  Answer<void> Home() noexcept(nothrow) { return as_done(SCI_HOME, 0, 0); }
  /// Moves the caret to the start of its line; the anchor stays. Message: `SCI_HOMEEXTEND`.
  Answer<void> HomeExtend() noexcept(nothrow) { return as_done(SCI_HOMEEXTEND, 0, 0); }
  /// Moves anchor and caret to where the line end of the caret's line begins. Message: `SCI_LINEEND`.
  Answer<void> LineEnd() noexcept(nothrow) { return as_done(SCI_LINEEND, 0, 0); }
  /// Moves the caret to where the line end of its line begins; the anchor stays. Message: `SCI_LINEENDEXTEND`.
  Answer<void> LineEndExtend() noexcept(nothrow) { return as_done(SCI_LINEENDEXTEND, 0, 0); }
  /// Moves anchor and caret to 0. Message: `SCI_DOCUMENTSTART`.
  Answer<void> DocumentStart() noexcept(nothrow) { return as_done(SCI_DOCUMENTSTART, 0, 0); }
  /// Moves the caret to 0; the anchor stays. Message: `SCI_DOCUMENTSTARTEXTEND`.
  Answer<void> DocumentStartExtend() noexcept(nothrow) { return as_done(SCI_DOCUMENTSTARTEXTEND, 0, 0); }
  /// Moves anchor and caret to the end of the text. Message: `SCI_DOCUMENTEND`.
  Answer<void> DocumentEnd() noexcept(nothrow) { return as_done(SCI_DOCUMENTEND, 0, 0); }
  /// Moves the caret to the end of the text; the anchor stays. Message: `SCI_DOCUMENTENDEXTEND`.
  Answer<void> DocumentEndExtend() noexcept(nothrow) { return as_done(SCI_DOCUMENTENDEXTEND, 0, 0); }
  /// Deletes the selection, or, if that is empty, the bytes from the character boundary before the caret to the
  /// caret. Message: `SCI_DELETEBACK`.
  Answer<void> DeleteBack() noexcept(nothrow) { return as_done(SCI_DELETEBACK, 0, 0); }
  /// Replaces the selection by the document's line end, and moves anchor and caret to the end of the inserted text.
  /// Message: `SCI_NEWLINE`.
  Answer<void> NewLine() noexcept(nothrow) { return as_done(SCI_NEWLINE, 0, 0); }
  /// Returns the length of line `line` with its line end, or 0 if there is no such line. Message: `SCI_LINELENGTH`.
  [[nodiscard]] Answer<std::int64_t> LineLength(std::int64_t line) const noexcept(nothrow) { return ask_number(SCI_LINELENGTH, line, 0); }
  /// Returns the id of the view's document. Message: `SCI_GETDOCPOINTER`.
  [[nodiscard]] Answer<std::int64_t> GetDocPointer() const noexcept(nothrow) { return ask_number(SCI_GETDOCPOINTER, 0, 0); }
  /// Attaches the view to `document`, or to a new document if that is 0. That document gains a reference, and then
  /// the old one loses one; the view is attached last, with anchor, caret and target 0, and with all lines visible
  /// and expanded. The view's other settings stay. The same holds for the view's own document. Refused with
  /// `Refusal::NoSuchDocument` if there is no such document; with `Refusal::TooMany` at the limit of its references,
  /// or if ids for a new one are used up. Message: `SCI_SETDOCPOINTER`.
  Answer<void> SetDocPointer(std::int64_t document) noexcept(nothrow) { return as_done(SCI_SETDOCPOINTER, 0, document); }
  /// Sets the view's mask: the kinds of SCN_MODIFIED that it is subscribed to, a bit for each. Refused with
  /// `Refusal::BadArgument` unless `mask` is 0 to 0x7FFFFF (`SC_MODEVENTMASKALL`). Message: `SCI_SETMODEVENTMASK`.
  Answer<void> SetModEventMask(std::int64_t mask) noexcept(nothrow) { return as_done(SCI_SETMODEVENTMASK, mask, 0); }
  /// Creates a document, held once by the caller, and returns its id; `bytes` is not used. `options` is 0, or made of
  /// `SC_DOCUMENTOPTION_STYLES_NONE` 1 and `SC_DOCUMENTOPTION_TEXT_LARGE` 256. Refused with `Refusal::BadArgument` if
  /// `bytes` is negative or `options` has other bits, and with `Refusal::TooMany` if ids are used up. Message:
  /// `SCI_CREATEDOCUMENT`.
  Answer<std::int64_t> CreateDocument(std::int64_t bytes, std::int64_t options) noexcept(nothrow) { return as_number(SCI_CREATEDOCUMENT, bytes, options); }
  /// Adds a reference to `document` that the caller holds. Refused with `Refusal::NoSuchDocument` if there is no such
  /// document, and with `Refusal::TooMany` at the limit of its references. Message: `SCI_ADDREFDOCUMENT`.
  Answer<void> AddRefDocument(std::int64_t document) noexcept(nothrow) { return as_done(SCI_ADDREFDOCUMENT, 0, document); }
  /// Gives back a reference to `document` that a caller holds. Refused with `Refusal::NoSuchDocument` if there is no
  /// such document, or if no caller holds it. Message: `SCI_RELEASEDOCUMENT`.
  Answer<void> ReleaseDocument(std::int64_t document) noexcept(nothrow) { return as_done(SCI_RELEASEDOCUMENT, 0, document); }
  /// Returns the view's mask: the kinds of SCN_MODIFIED that it is subscribed to. Message: `SCI_GETMODEVENTMASK`.
  [[nodiscard]] Answer<std::int64_t> GetModEventMask() const noexcept(nothrow) { return ask_number(SCI_GETMODEVENTMASK, 0, 0); }
  /// Returns the options of the view's document: 0, or made of `SC_DOCUMENTOPTION_STYLES_NONE` and
  /// `SC_DOCUMENTOPTION_TEXT_LARGE`. Message: `SCI_GETDOCUMENTOPTIONS`.
  [[nodiscard]] Answer<std::int64_t> GetDocumentOptions() const noexcept(nothrow) { return ask_number(SCI_GETDOCUMENTOPTIONS, 0, 0); }
  /// Returns the last character boundary before `position` (clamped to the text), or 0. Message:
  /// `SCI_POSITIONBEFORE`.
  [[nodiscard]] Answer<std::int64_t> PositionBefore(std::int64_t position) const noexcept(nothrow) { return ask_number(SCI_POSITIONBEFORE, position, 0); }
  /// Returns the first character boundary after `position` (clamped to the text), or the text's length. Message:
  /// `SCI_POSITIONAFTER`.
  [[nodiscard]] Answer<std::int64_t> PositionAfter(std::int64_t position) const noexcept(nothrow) { return ask_number(SCI_POSITIONAFTER, position, 0); }
  /// Makes the text from `start` to `end` the clipboard, even if that is empty. Refused with `Refusal::BadArgument`
  /// unless `start` and `end` are a range of the text; an `end` of -1 is its end. Message: `SCI_COPYRANGE`.
  Answer<void> CopyRange(std::int64_t start, std::int64_t end) noexcept(nothrow) { return as_done(SCI_COPYRANGE, start, end); }
  /// Makes `text` the clipboard, even if it is empty. Message: `SCI_COPYTEXT`.
  Answer<void> CopyText(Text text) noexcept(nothrow) { return as_done(SCI_COPYTEXT, length_of(text), 0, text); }
  /// Adds to line `line`, if there is such a line, a marker for each bit that is set in `mask`, in rising order. If
  /// it added one, sends one SCN_MODIFIED (`SC_MOD_CHANGEMARKER`). Refused with `Refusal::BadArgument` unless `mask`
  /// is 0 to 2^32-1, and with `Refusal::TooMany` if there are not enough marker handles for all. Message:
  /// `SCI_MARKERADDSET`.
  Answer<void> MarkerAddSet(std::int64_t line, std::int64_t mask) noexcept(nothrow) { return as_done(SCI_MARKERADDSET, line, mask); }
  /// Sets whether this view converts line ends in what it pastes. Message: `SCI_SETPASTECONVERTENDINGS`.
  Answer<void> SetPasteConvertEndings(bool on) noexcept(nothrow) { return as_done(SCI_SETPASTECONVERTENDINGS, on, 0); }
  /// Returns whether this view converts line ends in what it pastes. Message: `SCI_GETPASTECONVERTENDINGS`.
  [[nodiscard]] Answer<bool> GetPasteConvertEndings() const noexcept(nothrow) { return ask_flag(SCI_GETPASTECONVERTENDINGS, 0, 0); }
  /// Sets the view's current indicator. Refused with `Refusal::BadArgument` unless `number` is 0 to 31. Message:
  /// `SCI_SETINDICATORCURRENT`.
  Answer<void> SetIndicatorCurrent(std::int64_t number) noexcept(nothrow) { return as_done(SCI_SETINDICATORCURRENT, number, 0); }
  /// Returns the view's current indicator. Message: `SCI_GETINDICATORCURRENT`.
  [[nodiscard]] Answer<std::int64_t> GetIndicatorCurrent() const noexcept(nothrow) { return ask_number(SCI_GETINDICATORCURRENT, 0, 0); }
  /// Sets the value that this view's `IndicatorFillRange` writes; 0 counts as 1. Refused with `Refusal::BadArgument`
  /// unless `value` is 0 to 2^31-1. Message: `SCI_SETINDICATORVALUE`.
  Answer<void> SetIndicatorValue(std::int64_t value) noexcept(nothrow) { return as_done(SCI_SETINDICATORVALUE, value, 0); }
  /// Returns the value that this view's `IndicatorFillRange` writes. Message: `SCI_GETINDICATORVALUE`.
  [[nodiscard]] Answer<std::int64_t> GetIndicatorValue() const noexcept(nothrow) { return ask_number(SCI_GETINDICATORVALUE, 0, 0); }
  /// Gives the view's current indicator the view's value over the `length` bytes from `start` on. If a value changed,
  /// sends SCN_MODIFIED (`SC_MOD_CHANGEINDICATOR`). Refused with `Refusal::BadArgument` unless these are a range of
  /// the text. Message: `SCI_INDICATORFILLRANGE`.
  Answer<void> IndicatorFillRange(std::int64_t start, std::int64_t length) noexcept(nothrow) { return as_done(SCI_INDICATORFILLRANGE, start, length); }
  /// Gives the view's current indicator the value 0 over the `length` bytes from `start` on. If a value changed,
  /// sends SCN_MODIFIED (`SC_MOD_CHANGEINDICATOR`). Refused with `Refusal::BadArgument` unless these are a range of
  /// the text. Message: `SCI_INDICATORCLEARRANGE`.
  Answer<void> IndicatorClearRange(std::int64_t start, std::int64_t length) noexcept(nothrow) { return as_done(SCI_INDICATORCLEARRANGE, start, length); }
  /// Returns a mask in which bit k is set if indicator k is not 0 at the byte at `position`; 0 if there is no such
  /// byte. Message: `SCI_INDICATORALLONFOR`.
  [[nodiscard]] Answer<std::int64_t> IndicatorAllOnFor(std::int64_t position) const noexcept(nothrow) { return ask_number(SCI_INDICATORALLONFOR, position, 0); }
  /// Returns the value of indicator `number` at the byte at `position`, or 0 if there is no such byte. Refused with
  /// `Refusal::BadArgument` unless `number` is 0 to 31. Message: `SCI_INDICATORVALUEAT`.
  [[nodiscard]] Answer<std::int64_t> IndicatorValueAt(std::int64_t number, std::int64_t position) const noexcept(nothrow) {
    return ask_number(SCI_INDICATORVALUEAT, number, position);
  }
  /// Returns the start of the longest run of one value of indicator `number` around the byte at `position`; 0 if
  /// there is no such byte. Refused with `Refusal::BadArgument` unless `number` is 0 to 31. Message:
  /// `SCI_INDICATORSTART`.
  [[nodiscard]] Answer<std::int64_t> IndicatorStart(std::int64_t number, std::int64_t position) const noexcept(nothrow) {
    return ask_number(SCI_INDICATORSTART, number, position);
  }
  /// Returns the end of the longest run of one value of indicator `number` around the byte at `position`: the place
  /// after its last byte; 0 if there is no such byte. Refused with `Refusal::BadArgument` unless `number` is 0 to 31.
  /// Message: `SCI_INDICATOREND`.
  [[nodiscard]] Answer<std::int64_t> IndicatorEnd(std::int64_t number, std::int64_t position) const noexcept(nothrow) {
    return ask_number(SCI_INDICATOREND, number, position);
  }
  /// Moves anchor and caret to `position` (clamped to the text). Message: `SCI_SETEMPTYSELECTION`.
  Answer<void> SetEmptySelection(std::int64_t position) noexcept(nothrow) { return as_done(SCI_SETEMPTYSELECTION, position, 0); }
  /// Appends a container action with `token` to the history, also on a read-only document. `flags` is `UNDO_NONE` 0,
  /// or `UNDO_MAY_COALESCE` 1 for an action that may join the last transaction. Sends SCN_SAVEPOINTLEFT if the
  /// document was at its save point. Does nothing while undo is not collected. Refused with `Refusal::BadArgument`
  /// unless `flags` is 0 or 1. Message: `SCI_ADDUNDOACTION`.
  Answer<void> AddUndoAction(std::int64_t token, std::int64_t flags) noexcept(nothrow) { return as_done(SCI_ADDUNDOACTION, token, flags); }
  /// Deletes the `length` bytes from `start` on. Refused with `Refusal::BadArgument` unless these are a range of the
  /// text. Message: `SCI_DELETERANGE`.
  Answer<void> DeleteRange(std::int64_t start, std::int64_t length) noexcept(nothrow) { return as_done(SCI_DELETERANGE, start, length); }
  /// Returns whether the selection is empty. Message: `SCI_GETSELECTIONEMPTY`.
  [[nodiscard]] Answer<bool> GetSelectionEmpty() const noexcept(nothrow) { return ask_flag(SCI_GETSELECTIONEMPTY, 0, 0); }
  /// Sets which line ends the document allows, also if it is read-only: `SC_LINE_END_TYPE_DEFAULT` 0, or
  /// `SC_LINE_END_TYPE_UNICODE` 1 for those of Unicode too. Line data (markers, fold levels, line states) and the
  /// line flags of each view go to the lines that contain their starts. Refused with `Refusal::BadArgument` unless
  /// `types` is 0 or 1. Message: `SCI_SETLINEENDTYPESALLOWED`.
  Answer<void> SetLineEndTypesAllowed(std::int64_t types) noexcept(nothrow) { return as_done(SCI_SETLINEENDTYPESALLOWED, types, 0); }
  /// Returns which line ends the document allows: `SC_LINE_END_TYPE_DEFAULT` or `SC_LINE_END_TYPE_UNICODE`. Message:
  /// `SCI_GETLINEENDTYPESALLOWED`.
  [[nodiscard]] Answer<std::int64_t> GetLineEndTypesAllowed() const noexcept(nothrow) { return ask_number(SCI_GETLINEENDTYPESALLOWED, 0, 0); }
  /// Returns which line ends divide the text: those that the document allows, `SC_LINE_END_TYPE_DEFAULT` or
  /// `SC_LINE_END_TYPE_UNICODE`. Message: `SCI_GETLINEENDTYPESACTIVE`.
  [[nodiscard]] Answer<std::int64_t> GetLineEndTypesActive() const noexcept(nothrow) { return ask_number(SCI_GETLINEENDTYPESACTIVE, 0, 0); }
  /// Sets the target's start to `start` and its end to `end` (both clamped to the text). Message:
  /// `SCI_SETTARGETRANGE`.
  Answer<void> SetTargetRange(std::int64_t start, std::int64_t end) noexcept(nothrow) { return as_done(SCI_SETTARGETRANGE, start, end); }
  /// Returns the text between the target's ends, whichever is the lesser; the value, which `ask` returns, is its
  /// length. Message: `SCI_GETTARGETTEXT`.
  [[nodiscard]] Answer<std::string> GetTargetText() const noexcept(nothrow) { return read_copy(SCI_GETTARGETTEXT, 0, 0); }
  /// Like GetTargetText, but lent, not copied: the text is valid until the next query that returns a text.
  [[nodiscard]] Answer<std::string_view> GetTargetTextView() const noexcept(nothrow) { return read_lent(SCI_GETTARGETTEXT, 0, 0); }
  /// Sets the target's start to 0 and its end to the end of the text. Message: `SCI_TARGETWHOLEDOCUMENT`.
  Answer<void> TargetWholeDocument() noexcept(nothrow) { return as_done(SCI_TARGETWHOLEDOCUMENT, 0, 0); }
  /// Starts recording in this view: it is notified by SCN_MACRORECORD of each message marked R, before all else.
  /// Message: `SCI_STARTRECORD`.
  Answer<void> StartRecord() noexcept(nothrow) { return as_done(SCI_STARTRECORD, 0, 0); }
  /// Stops recording in this view. Message: `SCI_STOPRECORD`.
  Answer<void> StopRecord() noexcept(nothrow) { return as_done(SCI_STOPRECORD, 0, 0); }
  /// Asks for styles up to `end`: if end styled is after `start`, moves it back to `start`; then sends the view
  /// SCN_STYLENEEDED with the position `end`, even for an empty range. Refused with `Refusal::BadArgument` unless
  /// `start` and `end` are a range of the text; an `end` of -1 is its end. Message: `SCI_COLOURISE`.
  Answer<void> Colourise(std::int64_t start, std::int64_t end) noexcept(nothrow) { return as_done(SCI_COLOURISE, start, end); }
  // Written by tools/pages/wrappers.py: end

 private:
  Result<std::int64_t> sent(std::uint32_t number, std::int64_t w, std::int64_t l, Text text) const noexcept {
    std::int64_t value = 0;
    const hongpilas_answer answer = hongpilas_send(session_, id_, number, w, l, text.data(), text.size(), &value);
    return detail::result_of(answer, value);
  }
  Result<std::int64_t> asked(std::uint32_t number, std::int64_t w, std::int64_t l) const noexcept {
    std::int64_t value = 0;
    const hongpilas_answer answer = hongpilas_ask(session_, id_, number, w, l, &value);
    return detail::result_of(answer, value);
  }
  Result<std::string_view> lent_by(std::uint32_t number, std::int64_t w, std::int64_t l) const noexcept {
    const std::uint8_t *bytes = nullptr;
    std::size_t length = 0;
    const hongpilas_answer answer = hongpilas_read(session_, id_, number, w, l, &bytes, &length, nullptr);
    return detail::result_of(answer, detail::lent(bytes, length));
  }

  // Messages.
  Answer<void> as_done(std::uint32_t number, std::int64_t w, std::int64_t l, Text text = {}) noexcept(nothrow) {
    const Result<std::int64_t> result = sent(number, w, l, text);
    return Policy::answer(result ? Result<void>() : Result<void>(result.error()));
  }
  Answer<std::int64_t> as_number(std::uint32_t number, std::int64_t w, std::int64_t l, Text text = {}) noexcept(nothrow) {
    return Policy::answer(sent(number, w, l, text));
  }

  // Queries.
  Answer<std::int64_t> ask_number(std::uint32_t number, std::int64_t w, std::int64_t l) const noexcept(nothrow) { return Policy::answer(asked(number, w, l)); }
  Answer<bool> ask_flag(std::uint32_t number, std::int64_t w, std::int64_t l) const noexcept(nothrow) {
    return Policy::answer(asked(number, w, l).transform([](std::int64_t value) noexcept { return value != 0; }));
  }
  Answer<std::string> read_copy(std::uint32_t number, std::int64_t w, std::int64_t l) const noexcept(nothrow) {
    return Policy::answer(detail::unless_out_of_memory<Result<std::string>>(
        [&] { return lent_by(number, w, l).transform([](std::string_view bytes) { return std::string(bytes); }); }));
  }
  Answer<std::string_view> read_lent(std::uint32_t number, std::int64_t w, std::int64_t l) const noexcept(nothrow) {
    return Policy::answer(lent_by(number, w, l));
  }
  static std::int64_t length_of(const Text &text) noexcept { return static_cast<std::int64_t>(text.size()); }

  hongpilas_session *session_;
  std::uint32_t id_;
};

/// A session: its documents and the views on them. It moves, and is freed with all that it owns when it ends. Calls on one that was moved from
/// are refused as NoSuchView.
class Session {
 public:
#if HONGPILAS_THROWS
  /// Opens a session without documents and views. Throws Refused: OutOfMemory; BadArgument if a limit is 0 or above the greatest.
  explicit Session(const Limits &limits = greatest_limits) : Session(open(limits).value()) {}

  /// Opens a view on a new document. Throws Refused: TooMany, OutOfMemory.
  View new_view() { return open_view().value().throwing(); }
  /// The view with this id. Messages to one that is not open are refused as NoSuchView.
  View view(std::uint32_t id) const noexcept { return View(session_.get(), id); }

  /// The last reply's notifications, for all views, as copies. Throws Refused: OutOfMemory.
  [[nodiscard]] std::vector<Note> notes() const { return detail::copied(lent_notes(), 0).value(); }
#endif

  /// Opens a session without documents and views. Refused: OutOfMemory; BadArgument if a limit is 0 or above the greatest.
  static Result<Session> open(const Limits &limits = greatest_limits) noexcept {
    hongpilas_session *session = nullptr;
    const hongpilas_answer answer = hongpilas_new_with_limits(&session, &limits, sizeof limits);
    if (answer != HONGPILAS_DONE) return static_cast<Refusal>(answer);
    return Session(session);
  }

  /// Opens a view on a new document. Refused: TooMany, OutOfMemory.
  Result<ResultView> open_view() noexcept {
    std::uint32_t id = 0;
    const hongpilas_answer answer = hongpilas_new_view(session_.get(), &id);
    return detail::result_of(answer, ResultView(session_.get(), id));
  }
  /// The view with this id, whose methods return a Result.
  ResultView result_view(std::uint32_t id) const noexcept { return ResultView(session_.get(), id); }

  /// The last reply, whichever view it came from: its value, and its text, borrowed until the next message that is done and is no query.
  std::int64_t value() const noexcept { return detail::value_of(session_.get()); }
  std::string_view text() const noexcept { return detail::text_of(session_.get()); }
  /// The last reply's notifications, for all views, borrowed as long.
  LentNotes lent_notes() const noexcept { return LentNotes(session_.get()); }

  /// The session for calls of hongpilas.h. It stays this object's.
  hongpilas_session *handle() noexcept { return session_.get(); }

 private:
  struct Free {
    void operator()(hongpilas_session *session) const noexcept { hongpilas_free(session); }
  };
  explicit Session(hongpilas_session *session) noexcept : session_(session) {}

  std::unique_ptr<hongpilas_session, Free> session_;
};

}  // namespace hongpilas

/// Views in unordered containers.
template <class Policy>
struct std::hash<hongpilas::BasicView<Policy>> {
  std::size_t operator()(const hongpilas::BasicView<Policy> &view) const noexcept {
    return std::hash<const void *>()(view.session()) ^ (std::hash<std::uint32_t>()(view.id()) << 1);
  }
};

#if defined(__cpp_lib_ranges)
// What the iterators read is the session's own, and outlives the range.
template <>
inline constexpr bool std::ranges::enable_borrowed_range<hongpilas::LentNotes> = true;
template <>
inline constexpr bool std::ranges::enable_view<hongpilas::LentNotes> = true;
#endif

#endif

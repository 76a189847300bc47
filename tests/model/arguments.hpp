// What the message table says of arguments, and the answers and steps that messages have in common. For the parts of the plain model. C++17.
#ifndef ARGUMENTS_HPP
#define ARGUMENTS_HPP

#include "model.hpp"

namespace plain {

inline constexpr hongpilas_answer DONE = HONGPILAS_DONE, BAD = HONGPILAS_BAD_ARGUMENT;

inline bool in(Number x, Number from, Number to) { return x >= from && x <= to; }

// "range": w lies in 0..n, and l is -1 for the end or lies in w..n; `end` is set to where it ends.
inline bool is_range(const Message &m, const Document &d, Number &end) {
  if (!in(m.w, 0, d.length())) return false;
  end = m.l == -1 ? d.length() : m.l;
  return in(end, m.w, d.length());
}

// "w in 0..n, l in 0..n-w".
inline bool is_span(const Message &m, const Document &d) { return in(m.w, 0, d.length()) && in(m.l, 0, d.length() - m.w); }

// "length w".
inline bool is_length(const Message &m) { return in(m.w, 0, Number(m.text.size())); }
inline Bytes first_bytes(const Message &m) { return m.text.substr(0, size_t(m.w)); }

inline Bytes slice(const Document &d, Number from, Number to) { return d.text.substr(size_t(from), size_t(to - from)); }
inline Step insertion(Number place, const Bytes &bytes) { return {Kind::Insertion, place, 0, bytes}; }
inline Step deletion(Number from, Number to) { return {Kind::Deletion, from, to - from, Bytes()}; }
inline hongpilas_answer answer_of(Outcome outcome) { return outcome == Outcome::TooLong ? hongpilas_answer(HONGPILAS_TOO_LONG) : DONE; }

// Sets two numbers; or one, where it lies in 0..greatest.
inline hongpilas_answer set(Number &first, Number x, Number &second, Number y) {
  first = x;
  second = y;
  return DONE;
}

inline hongpilas_answer set_in(Number &into, Number x, Number greatest) {
  if (!in(x, 0, greatest)) return BAD;
  into = x;
  return DONE;
}

inline Bytes line_end(Number mode) { return mode == SC_EOL_CRLF ? "\r\n" : mode == SC_EOL_CR ? "\r" : "\n"; }

}  // namespace plain

#endif

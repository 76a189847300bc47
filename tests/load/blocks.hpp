// The plain model of load.cpp: a document as a list of blocks of some thousand bytes, in which the row of a line lies at its line's first byte and goes
// where that byte goes. It is written from docs/BEHAVIOUR.md, as model.hpp is, for texts that are too long to be copied whole. C++17.
#ifndef BLOCKS_HPP
#define BLOCKS_HPP

#include <algorithm>
#include <cstdint>
#include <cstdlib>
#include <memory>
#include <string>
#include <utility>
#include <vector>

namespace blocks {

using Bytes = std::string;
using Number = std::int64_t;

constexpr size_t INDICATORS = 3, VIEWS = 3, LARGEST = 32768;

struct Row {
  std::vector<std::pair<Number, int>> markers;  // handle, number
  int level = 0x400, state = 0;
  unsigned visible = 7, expanded = 7;  // a bit for each view
};

struct Block {
  Bytes bytes, styles;
  Bytes values[INDICATORS];  // values up to 255
  std::vector<unsigned> at;  // where lines start; at the end of the bytes in the last block alone
  std::vector<Row> rows;
};

struct Step {
  bool inserts;
  Number place;
  Bytes bytes;
};

class Document {
 public:
  bool unicode = false;
  Number caret[VIEWS] = {}, anchor[VIEWS] = {};
  Number next_handle = 1;
  size_t history_bytes = 0;

  Document() {
    add_block(0);
    blocks_[0]->at.push_back(0);
    blocks_[0]->rows.emplace_back();
    count(0);
  }

  Number length() const { return length_; }
  Number lines() const { return lines_; }

  Bytes text(Number from, Number to) const {
    return slice(from, to, [](const Block &b) -> const Bytes & { return b.bytes; });
  }
  Bytes styles(Number from, Number to) const {
    return slice(from, to, [](const Block &b) -> const Bytes & { return b.styles; });
  }
  Bytes values(size_t k, Number from, Number to) const {
    return slice(from, to, [k](const Block &b) -> const Bytes & { return b.values[k]; });
  }

  void set_styles(Number from, const Bytes &styles) {
    write(from, Number(styles.size()), [&](Block &b, size_t at, size_t n, size_t done) { b.styles.replace(at, n, styles, done, n); });
  }
  void fill(size_t k, Number from, Number n, int value) {
    write(from, n, [&](Block &b, size_t at, size_t count, size_t) { b.values[k].replace(at, count, count, char(value)); });
  }

  // A line, as a place among rows.
  struct Line {
    size_t block, index;
  };
  Line line(Number number) const {
    size_t b = 0;
    while (number >= starts_[b]) number -= starts_[b++];
    return {b, size_t(number)};
  }
  Row &row(Line it) { return blocks_[it.block]->rows[it.index]; }
  bool next(Line &it) const {
    it.index++;
    while (it.block < blocks_.size() && it.index >= blocks_[it.block]->rows.size()) it = {it.block + 1, 0};
    return it.block < blocks_.size();
  }
  bool previous(Line &it) const {
    while (it.index == 0) {
      if (it.block == 0) return false;
      it.block--;
      it.index = blocks_[it.block]->rows.size();
    }
    it.index--;
    return true;
  }
  Number start_of(Number number) const {
    if (number >= lines_) return length_;
    Line it = line(number);
    Number before = 0;
    for (size_t b = 0; b < it.block; b++) before += sizes_[b];
    return before + blocks_[it.block]->at[it.index];
  }
  Number line_of(Number place) const {
    auto [b, offset] = find(place);
    Number before = 0;
    for (size_t i = 0; i < b; i++) before += starts_[i];
    const std::vector<unsigned> &at = blocks_[b]->at;
    return before + (std::upper_bound(at.begin(), at.end(), unsigned(offset)) - at.begin()) - 1;
  }

  // The last child of a header, by its own number, and its fold parent; both as line numbers.
  Number last_child(Number number) {
    Line it = line(number);
    int own = row(it).level & 0xFFF;
    while (next(it) && (row(it).level & 0xFFF) > own) number++;
    return number;
  }
  Number fold_parent(Number number) {
    Line it = line(number);
    int own = row(it).level & 0xFFF;
    while (previous(it)) {
      number--;
      if ((row(it).level & 0x2000) != 0 && (row(it).level & 0xFFF) < own) return number;
    }
    return -1;
  }

  // Steps, in the group that is open; `is_own` tells those of a message from those of undo.
  void insert(Number p, const Bytes &text) {
    record({true, p, text});
    put(p, text);
  }
  void erase(Number p, Number n) {
    record({false, p, this->text(p, p + n)});
    take(p, n);
  }
  void begin() { past_.emplace_back(); }
  void end() {
    if (past_.back().empty()) past_.pop_back();
    else drop_future();
  }
  void forget() {
    past_.clear();
    future_.clear();
    history_bytes = 0;
  }
  bool travel(bool is_undo, size_t view) {
    auto &from = is_undo ? past_ : future_, &to = is_undo ? future_ : past_;
    if (from.empty()) return false;
    std::vector<Step> steps = std::move(from.back());
    from.pop_back();
    for (size_t i = 0; i < steps.size(); i++) {
      const Step &step = steps[is_undo ? steps.size() - 1 - i : i];
      bool inserts = step.inserts != is_undo;
      if (inserts) put(step.place, step.bytes);
      else take(step.place, Number(step.bytes.size()));
      caret[view] = anchor[view] = step.place + (inserts ? Number(step.bytes.size()) : 0);
    }
    to.push_back(std::move(steps));
    return true;
  }
  size_t past() const { return past_.size(); }
  size_t future() const { return future_.size(); }

 private:
  std::vector<std::unique_ptr<Block>> blocks_;
  std::vector<Number> sizes_, starts_;  // of each block, side by side
  Number length_ = 0, lines_ = 0;
  std::vector<std::vector<Step>> past_, future_;
  using Rows = std::vector<std::pair<Number, Row>>;

  void record(Step step) {
    history_bytes += step.bytes.size();
    past_.back().push_back(std::move(step));
  }
  void drop_future() {
    for (const auto &steps : future_)
      for (const Step &step : steps) history_bytes -= step.bytes.size();
    future_.clear();
  }

  void add_block(size_t at) {
    blocks_.insert(blocks_.begin() + Number(at), std::make_unique<Block>());
    sizes_.insert(sizes_.begin() + Number(at), 0);
    starts_.insert(starts_.begin() + Number(at), 0);
  }
  void count(size_t b) {
    Number size = Number(blocks_[b]->bytes.size()), starts = Number(blocks_[b]->at.size());
    length_ += size - sizes_[b];
    lines_ += starts - starts_[b];
    sizes_[b] = size;
    starts_[b] = starts;
  }

  // The block in which the byte at a place lies; of the end of the text the last one.
  std::pair<size_t, size_t> find(Number place) const {
    size_t b = 0;
    while (b + 1 < sizes_.size() && place >= sizes_[b]) place -= sizes_[b++];
    return {b, size_t(place)};
  }

  template <typename Of>
  Bytes slice(Number from, Number to, Of of) const {
    Bytes all;
    auto [b, offset] = find(from);
    while (from < to) {
      const Bytes &bytes = of(*blocks_[b]);
      size_t n = std::min(bytes.size() - offset, size_t(to - from));
      all.append(bytes, offset, n);
      from += Number(n);
      b++;
      offset = 0;
    }
    return all;
  }

  template <typename Put>
  void write(Number from, Number n, Put put) {
    auto [b, offset] = find(from);
    for (size_t done = 0; done < size_t(n); b++, offset = 0) {
      size_t count = std::min(size_t(sizes_[b]) - offset, size_t(n) - done);
      if (count > 0) put(*blocks_[b], offset, count, done);
      done += count;
    }
  }

  void move_positions(bool inserts, Number p, Number n) {
    auto moved = [&](Number x) { return x <= p ? x : inserts ? x + n : x >= p + n ? x - n : p; };
    for (size_t v = 0; v < VIEWS; v++) {
      caret[v] = moved(caret[v]);
      anchor[v] = moved(anchor[v]);
    }
  }

  void put(Number p, const Bytes &text) {
    Number n = Number(text.size());
    int filled[INDICATORS];
    for (size_t k = 0; k < INDICATORS; k++) {
      bool is_zero = p == 0 || p == length_ || values(k, p, p + 1)[0] == 0;
      filled[k] = is_zero ? 0 : static_cast<unsigned char>(values(k, p - 1, p)[0]);
    }
    auto [b, offset] = find(p);
    Block &block = *blocks_[b];
    block.bytes.insert(offset, text);
    block.styles.insert(offset, text.size(), 0);
    for (size_t k = 0; k < INDICATORS; k++) block.values[k].insert(offset, text.size(), char(filled[k]));
    for (unsigned &at : block.at)
      if (at >= offset) at += unsigned(n);
    count(b);
    while (blocks_[b]->bytes.size() > LARGEST) split(b++);
    move_positions(true, p, n);
    regroup(p, p + n + 3, {});
  }

  void split(size_t b) {
    add_block(b + 1);
    Block &from = *blocks_[b], &to = *blocks_[b + 1];
    size_t half = from.bytes.size() > 4 * LARGEST ? LARGEST / 2 : from.bytes.size() / 2;
    auto tail = [half](Bytes &source) {
      Bytes behind = source.substr(half);
      source.erase(half);
      source.shrink_to_fit();
      return behind;
    };
    to.bytes = tail(from.bytes);
    to.styles = tail(from.styles);
    for (size_t k = 0; k < INDICATORS; k++) to.values[k] = tail(from.values[k]);
    size_t first = size_t(std::lower_bound(from.at.begin(), from.at.end(), unsigned(half)) - from.at.begin());
    for (size_t i = first; i < from.at.size(); i++) {
      to.at.push_back(from.at[i] - unsigned(half));
      to.rows.push_back(std::move(from.rows[i]));
    }
    from.at.resize(first);
    from.rows.resize(first);
    count(b);
    count(b + 1);
  }

  void take(Number p, Number n) {
    Rows carried = take_rows(p, p + n - 1);
    for (auto &it : carried) it.first = p;
    Rows behind = take_rows(p + n, p + n + 3);
    for (auto &it : behind) it.first -= n;
    carried.insert(carried.end(), std::make_move_iterator(behind.begin()), std::make_move_iterator(behind.end()));
    auto [b, offset] = find(p);
    for (Number left = n; left > 0; offset = 0) {
      Block &block = *blocks_[b];
      size_t count_here = std::min(block.bytes.size() - offset, size_t(left));
      block.bytes.erase(offset, count_here);
      block.styles.erase(offset, count_here);
      for (size_t k = 0; k < INDICATORS; k++) block.values[k].erase(offset, count_here);
      for (unsigned &at : block.at)
        if (at > offset) at -= unsigned(count_here);
      left -= Number(count_here);
      count(b);
      if (block.bytes.empty() && block.at.empty() && blocks_.size() > 1) {
        blocks_.erase(blocks_.begin() + Number(b));
        sizes_.erase(sizes_.begin() + Number(b));
        starts_.erase(starts_.begin() + Number(b));
      } else {
        b++;
      }
    }
    move_positions(false, p, n);
    if (length_ == 0) {
      take_rows(0, 0);
      carried.assign(1, {0, Row()});
    }
    regroup(p, p + 3, std::move(carried));
  }

  // Takes the rows out whose lines start from one place to another, that one too.
  Rows take_rows(Number from, Number to) {
    Rows taken;
    auto [b, offset] = find(from);
    for (Number base = from - Number(offset); b < blocks_.size() && base <= to; base += sizes_[b++]) {
      Block &block = *blocks_[b];
      auto first = size_t(std::lower_bound(block.at.begin(), block.at.end(), unsigned(std::max<Number>(from - base, 0))) - block.at.begin()), last = first;
      while (last < block.at.size() && base + block.at[last] <= to) {
        taken.push_back({base + block.at[last], std::move(block.rows[last])});
        last++;
      }
      block.at.erase(block.at.begin() + Number(first), block.at.begin() + Number(last));
      block.rows.erase(block.rows.begin() + Number(first), block.rows.begin() + Number(last));
      count(b);
    }
    return taken;
  }

  void put_row(Number place, Row &&row) {
    auto [b, offset] = find(place);
    Block &block = *blocks_[b];
    auto i = std::lower_bound(block.at.begin(), block.at.end(), unsigned(offset)) - block.at.begin();
    block.at.insert(block.at.begin() + i, unsigned(offset));
    block.rows.insert(block.rows.begin() + i, std::move(row));
    count(b);
  }

  // Lines may have come or gone from one place to another: each row goes to the line that holds its start, `carried` first.
  void regroup(Number from, Number to, Rows rows) {
    to = std::min(to, length_);
    Rows there = take_rows(from, to);
    rows.insert(rows.end(), std::make_move_iterator(there.begin()), std::make_move_iterator(there.end()));
    Number base = std::max<Number>(from - 3, 0);
    Bytes around = text(base, std::min(to + 1, length_));
    auto at = [&](Number p) { return p >= base && p - base < Number(around.size()) ? unsigned(static_cast<unsigned char>(around[size_t(p - base)])) : 256; };
    Rows made;
    for (Number p = from; p <= to; p++) {
      bool starts =
          p == 0 || at(p - 1) == '\n' || (at(p - 1) == '\r' && at(p) != '\n') ||
          (unicode && ((at(p - 2) == 0xC2 && at(p - 1) == 0x85) || (at(p - 3) == 0xE2 && at(p - 2) == 0x80 && (at(p - 1) == 0xA8 || at(p - 1) == 0xA9))));
      if (starts) made.push_back({p, Row()});
    }
    std::vector<bool> taken(made.size(), false);
    for (auto &it : rows) {
      auto line = std::upper_bound(made.begin(), made.end(), it.first, [](Number p, const auto &m) { return p < m.first; }) - made.begin();
      Row *into = line > 0 ? &made[size_t(line) - 1].second : &row_before(from);
      if (line > 0 && !taken[size_t(line) - 1]) {
        *into = std::move(it.second);
        taken[size_t(line) - 1] = true;
      } else {
        into->markers.insert(into->markers.end(), it.second.markers.begin(), it.second.markers.end());
      }
    }
    for (auto &it : made) put_row(it.first, std::move(it.second));
  }

  // The row of the line that starts last before a place.
  Row &row_before(Number place) {
    auto [b, offset] = find(place);
    for (;; b--) {
      Block &block = *blocks_[b];
      auto i = std::lower_bound(block.at.begin(), block.at.end(), unsigned(offset)) - block.at.begin();
      if (i > 0) return block.rows[size_t(i) - 1];
      if (b == 0) std::abort();
      offset = SIZE_MAX >> 32;
    }
  }
};

}  // namespace blocks

#endif

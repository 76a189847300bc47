/* Hongpilas in code that is built without exceptions: each call returns a Result, with a value or a Refusal.
 * c++ -std=c++17 -fno-exceptions -I../../include results.cpp ../../out/libhongpilas.a -o results */
#include <hongpilas.hpp>

#include <cstdio>
#include <string_view>

using hongpilas::Result;
using hongpilas::ResultView;
using hongpilas::Session;
using hongpilas::UndoGroup;

/* Says what was answered; a refusal by its name. */
static void say(const char *what, const Result<std::int64_t> &result) {
  if (result) {
    std::printf("%s: %lld\n", what, static_cast<long long>(*result));
    return;
  }
  const std::string_view name = hongpilas::name_of(result.error());
  std::printf("%s: refused, %.*s\n", what, static_cast<int>(name.size()), name.data());
}

/* Puts a text in, and returns how many lines the document has then: the first refusal ends it. */
static Result<std::int64_t> insert(ResultView view, std::string_view text) {
  if (const Result<void> inserted = view.InsertText(-1, text); !inserted) return inserted.error();
  return view.GetLineCount();
}

int main() {
  hongpilas::Limits limits = hongpilas::greatest_limits;
  limits.doc_bytes = 10;
  limits.views = 1;
  Result<Session> session = Session::open(limits);
  if (!session) return 1;
  Result<ResultView> view = session->open_view();
  if (!view) return 1;

  {
    const Result<UndoGroup> group = view->undo_group();
    if (!group) return 1;
    say("two lines", insert(*view, "one\n").and_then([&](std::int64_t) { return insert(*view, "two"); }));
  }
  const Result<void> undone = view->Undo();
  say("undone at once", undone ? view->GetLength() : Result<std::int64_t>(undone.error()));
  say("two lines", insert(*view, "one\ntwo"));
  say("too long a text", insert(*view, " and more"));
  say("a search", view->SearchInTarget("x"));
  const Result<std::string_view> line = view->GetLineView(1);
  if (line) std::printf("line 1: %.*s\n", static_cast<int>(line->size()), line->data());
  const Result<ResultView> second = session->open_view();
  say("a second view", second ? Result<std::int64_t>(second->id()) : Result<std::int64_t>(second.error()));
  limits.views = 0;
  const Result<Session> none = Session::open(limits);
  say("a limit of 0", none ? Result<std::int64_t>(0) : Result<std::int64_t>(none.error()));
}

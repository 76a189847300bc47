/* What the types of hongpilas.hpp promise to who compiles with them, and what they do where memory is out or a session has moved. It includes the
 * headers for C before, in an order that is nobody's business. */
#include <hongpilas_scintilla.h>
#include <hongpilas.h>
#include <hongpilas.hpp>

#include <cstdlib>
#include <iostream>
#include <iterator>
#include <string>
#include <type_traits>
#include <unordered_set>
#include <utility>
#include <vector>

using hongpilas::Document;
using hongpilas::LentNotes;
using hongpilas::Limits;
using hongpilas::Note;
using hongpilas::Refusal;
using hongpilas::Refused;
using hongpilas::Result;
using hongpilas::ResultView;
using hongpilas::Session;
using hongpilas::UndoGroup;
using hongpilas::View;

// Nothing that a refusal does allocates.
static_assert(sizeof(Refused) <= 2 * sizeof(void *) && std::is_nothrow_copy_constructible_v<Refused> && std::is_nothrow_constructible_v<Refused, Refusal>);
// Methods of a ResultView throw nothing, those of a View may.
static_assert(noexcept(std::declval<ResultView &>().InsertText(0, "")) &&noexcept(std::declval<const ResultView &>().GetLine(0)));
static_assert(!noexcept(std::declval<View &>().InsertText(0, "")) &&noexcept(std::declval<const View &>().value()));
static_assert(noexcept(std::declval<const ResultView &>().notes()) &&noexcept(std::declval<ResultView &>().undo_group()));
// Guards move, and are not copied.
static_assert(std::is_nothrow_move_constructible_v<UndoGroup> && !std::is_copy_constructible_v<UndoGroup>);
static_assert(std::is_nothrow_move_assignable_v<Document> && !std::is_copy_constructible_v<Document>);
static_assert(!std::is_convertible_v<int, hongpilas::Text> && std::is_convertible_v<std::string, hongpilas::Text>);
#if defined(__cpp_lib_ranges)
static_assert(std::ranges::random_access_range<LentNotes> && std::ranges::sized_range<LentNotes> && std::ranges::borrowed_range<LentNotes> &&
              std::ranges::view<LentNotes>);
#endif

/* Allocations fail as long as this is set: those of C++, and, as this is linked, those of the library. */
static bool is_out = false;
extern "C" void *__real_malloc(std::size_t size);
extern "C" void *__wrap_malloc(std::size_t size);
extern "C" void *__real_realloc(void *memory, std::size_t size);
extern "C" void *__wrap_realloc(void *memory, std::size_t size);
void *__wrap_malloc(std::size_t size) { return is_out ? nullptr : __real_malloc(size); }
void *__wrap_realloc(void *memory, std::size_t size) { return is_out ? nullptr : __real_realloc(memory, size); }
void *operator new(std::size_t size) {
  void *memory = std::malloc(size);
  if (memory == nullptr) throw std::bad_alloc();
  return memory;
}
void operator delete(void *memory) noexcept { std::free(memory); }
void operator delete(void *memory, std::size_t) noexcept { std::free(memory); }

/* Calls while C++ has no memory: its name if it is refused. */
template <class Call>
static std::string out_of_memory(Call call) {
  const char *said = "done";
  is_out = true;
  try {
    call();
  } catch (const Refused &refused) {
    said = refused.what();
  } catch (const std::exception &other) {
    said = other.what();
  }
  is_out = false;
  return said;
}

static void try_memory(View view) {
  const std::string longer(100, 'x');
  view.SetText(longer);
  std::cout << "an insertion: " << out_of_memory([&] { view.InsertText(0, longer); }) << "\n";
  std::cout << "a copied text: " << out_of_memory([&] { static_cast<void>(view.GetText()); }) << "\n";
  std::cout << "copied notifications: " << out_of_memory([&] { static_cast<void>(view.notes()); }) << "\n";
  std::cout << "a Result: " << out_of_memory([&] { view.results().GetText().value(); }) << "\n";
  std::cout << "a borrowed text: " << out_of_memory([&] { static_cast<void>(view.GetTextView()); }) << "\n";
  std::cout << "a refusal: " << out_of_memory([&] { view.send(9999); }) << "\n";
}

static void try_texts(View view) {
  const std::string text = "one";
  const char array[] = "two";
  view.SetText(text);
  view.AppendText(array);
  view.AppendText(std::string_view("three"));
#if defined(__cpp_char8_t)
  view.AppendText(u8"four");
#else
  view.AppendText("four");
#endif
#if defined(__cpp_lib_span)
  const std::vector<std::byte> bytes(4, std::byte('5'));
  const std::vector<std::uint8_t> numbers(2, '6');
  view.AppendText(std::span(bytes));
  view.AppendText(std::span(numbers));
  if (hongpilas::as_bytes(view.GetTextView()).size() != 21) std::abort();
#else
  view.AppendText("555566");
#endif
  std::cout << view.GetText() << "\n";
}

static void try_results(ResultView view) {
  const auto lines = view.SetText("one\ntwo").has_value() ? view.GetLineCount() : Result<std::int64_t>(Refusal::BadArgument);
  std::cout << "lines: " << *lines.transform([](std::int64_t count) { return count * 10; }) << ", "
            << *lines.and_then([&](std::int64_t count) { return view.GetLine(count - 1); }) << "\n";
  std::cout << "equal: " << (lines == Result<std::int64_t>(2)) << (lines != Result<std::int64_t>(Refusal::BadArgument)) << "\n";
  std::cout << "refused: " << hongpilas::name_of(view.GetTextRange(5, 99).and_then([](std::string) { return Result<int>(1); }).error()) << ", "
            << hongpilas::name_of(static_cast<Refusal>(99)) << ", " << hongpilas::name_of(view.ask(SCI_UNDO).error()) << "\n";
}

static void try_views(Session &session) {
  const View one = session.new_view(), other = session.new_view();
  std::unordered_set<View> views{one, other, one};
  std::cout << "views: " << views.size() << (one == session.view(1)) << (one == one.results()) << (one != other) << "\n";
  Session moved = std::move(session);
  std::cout << "moved: " << moved.view(1).GetLength() << ", " << hongpilas::name_of(session.open_view().error()) << ", " << session.lent_notes().size()
            << "\n";  // NOLINT: what is left of it refuses
  session = std::move(moved);
}

int main() {
  Session session;
  try_views(session);
  try_memory(session.view(1));
  try_texts(session.view(1));
  try_results(session.result_view(1));
}

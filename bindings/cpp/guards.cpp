/* Guards: an undo group that ends where an exception leaves it, and a document that is held without a view.
 * c++ -std=c++17 -I../../include guards.cpp ../../out/libhongpilas.a -o guards */
#include <hongpilas.hpp>

#include <iostream>
#include <stdexcept>
#include <type_traits>
#include <utility>

using hongpilas::Document;
using hongpilas::Session;
using hongpilas::UndoGroup;
using hongpilas::View;

/* A group that were assigned to would end behind the beginning of the new one: both would be one. */
static_assert(std::is_move_constructible_v<UndoGroup> && !std::is_move_assignable_v<UndoGroup>);

/* Two insertions in a group, of which the second is refused. */
static void insert_twice(View view) {
  const auto group = view.undo_group();
  view.InsertText(0, "one ");
  view.InsertText(99, "two ");
}

static void try_groups(View view) {
  try {
    insert_twice(view);
  } catch (const hongpilas::Refused &refused) {
    std::cout << "refused in the group: " << refused.what() << ", text \"" << view.GetText() << "\"\n";
  }
  view.AppendText("three");
  view.Undo();
  std::cout << "undone behind the group: \"" << view.GetText() << "\"\n";
  {
    auto outer = view.undo_group();
    const auto inner = view.undo_group();
    view.AppendText("four ");
    const auto moved = std::move(outer);
    view.AppendText("five ");
  }
  view.Undo();
  std::cout << "undone with the groups: \"" << view.GetText() << "\"\n";
}

/* A document goes from one view to another by way of no view. */
static void try_documents(Session &session) {
  View keeper = session.new_view(), reader = session.new_view();
  std::int64_t id = 0;
  {
    const Document made = keeper.create_document(SC_DOCUMENTOPTION_STYLES_NONE);
    id = made.id();
    reader.SetDocPointer(id);
    reader.SetText("kept");
    const Document held = reader.hold_document();
    reader.SetDocPointer(0);
    std::cout << "held: " << (held.id() == id) << ", other text \"" << reader.GetText() << "\"\n";
    reader.SetDocPointer(id);
    std::cout << "its text: \"" << reader.GetText() << "\", options " << reader.GetDocumentOptions() << "\n";
    reader.SetDocPointer(0);
  }
  std::cout << "released: " << hongpilas::name_of(reader.results().SetDocPointer(id).error()) << "\n";
  Document made = keeper.create_document();
  Document other = keeper.create_document();
  const std::int64_t first = made.id();
  made = std::move(other);
  std::cout << "released by an assignment: " << hongpilas::name_of(keeper.results().ReleaseDocument(first).error()) << "\n";
  const std::int64_t left = made.release();
  keeper.ReleaseDocument(left);
  std::cout << "released by hand: " << hongpilas::name_of(keeper.results().ReleaseDocument(left).error()) << "\n";
}

int main() {
  Session session;
  try_groups(session.new_view());
  try_documents(session);
}

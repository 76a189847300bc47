/* Two views of one document, in C++: a text goes in and out, each view is notified, a word is replaced everywhere as one undo step, refusals
 * are thrown or returned, and a macro is replayed. c++ -std=c++17 -I../../include hello.cpp ../../out/libhongpilas.a -o hello */
#include <hongpilas.hpp>

#include <iostream>
#include <string_view>
#include <utility>

using hongpilas::LentNote;
using hongpilas::Note;
using hongpilas::Session;
using hongpilas::View;

/* Prints the notifications of an insertion. The queries of the loop leave them as they are. */
static void print_notes(const Session &session) {
  for (const LentNote &note : session.lent_notes())
    if (note.code == SCN_MODIFIED && (note.kind & SC_MOD_INSERTTEXT) != 0)
      std::cout << "view " << note.view << ", " << hongpilas::note_name(note.code) << ": " << note.text.size() << " bytes at " << note.position << ", "
                << note.lines << " lines more, now " << session.view(note.view).GetLineCount() << "\n";
}

/* A view that is const answers queries alone. */
static void show(const View &view) {
  std::cout << view.GetLength() << " bytes, " << view.GetLineCount() << " lines\n";
  std::cout << "line 1 is \"" << view.GetLine(1) << "\"\n";
  std::cout << "lent: \"" << view.lend_range(0, 5) << "\", \"" << view.GetTextRangeView(3, 5) << "\"\n";
}

/* Replaces a word everywhere, as one undo step. */
static void replace_all(View view, std::string_view word, std::string_view other) {
  const auto group = view.undo_group();
  view.SetSearchFlags(SCFIND_MATCHCASE | SCFIND_WHOLEWORD);
  view.TargetWholeDocument();
  while (view.SearchInTarget(word) >= 0) {
    view.ReplaceTarget(other);
    view.SetTargetRange(view.GetTargetEnd(), view.GetLength());
  }
}

/* Inserts a text by one view, and reads it by another. */
static void edit(Session &session) {
  View writer = session.new_view(), reader = session.new_view();
  reader.SetDocPointer(writer.GetDocPointer());
  writer.InsertText(0, "hello,\nworld, hello");
  print_notes(session);
  show(reader);
  replace_all(writer, "hello", "good morning");
  std::cout << "replaced: \"" << reader.GetText() << "\"\n";
  reader.Undo();
  std::cout << "undone: \"" << writer.GetText() << "\", redo: " << std::boolalpha << writer.CanRedo() << "\n";
}

/* Records what is typed in a view, and sends it to another. */
static void replay(Session &session) {
  View from = session.new_view(), to = session.new_view();
  from.StartRecord();
  from.AddText("größer");
  for (const Note &note : session.notes())
    if (note.code == SCN_MACRORECORD) to.send(note.message, note.w, note.l, note.text);
  std::cout << "replayed: \"" << to.GetText() << "\"\n";
}

/* What is refused, thrown by a View and returned by a ResultView. */
static void try_refusals(View view) {
  try {
    static_cast<void>(view.GetTextRange(5, 99));
  } catch (const hongpilas::Refused &refused) {
    std::cout << "thrown: " << refused.what() << "\n";
  }
  const hongpilas::Result<std::int64_t> sent = view.results().send(9999);
  std::cout << "returned: " << (sent ? "a value" : hongpilas::name_of(sent.error())) << "\n";
  std::cout << "instead of it: " << view.results().send(9999).value_or(-1) << "\n";
}

int main() {
  Session session;
  edit(session);
  replay(session);
  View view = session.view(1);
  Session moved = std::move(session);
  try_refusals(view);
  view.close();
  const hongpilas::Result<void> again = view.results().close();
  std::cout << "closed again: " << (again ? "done" : hongpilas::name_of(again.error())) << "\n";
}

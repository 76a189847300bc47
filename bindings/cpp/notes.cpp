/* What hello.cpp does not show of notifications: queries keep them, copies outlive the next message, a view has its own, codes have names.
 * c++ -std=c++17 -I../../include notes.cpp ../../out/libhongpilas.a -o notes */
#include <hongpilas.hpp>

#include <algorithm>
#include <cstdint>
#include <iostream>
#include <vector>

using hongpilas::LentNote;
using hongpilas::LentNotes;
using hongpilas::Note;
using hongpilas::Session;
using hongpilas::View;

/* One line for a notification. */
template <class AnyNote>
static void say(const AnyNote &note) {
  std::cout << "view " << note.view << ": " << hongpilas::note_name(note.code) << " \"" << note.text << "\"\n";
}

int main() {
  Session session;
  View first = session.new_view(), second = session.new_view();
  second.SetDocPointer(first.GetDocPointer());
  first.AddText("one");
  std::cout << "borrowed, with questions at each\n";
  for (const LentNote &note : session.lent_notes()) {
    say(note);
    if (session.view(note.view).GetLength() != 3 || session.view(note.view).GetText() != "one") return 1;
  }
  std::cout << "after it: " << session.lent_notes().size() << "\n";

  const LentNotes lent = session.lent_notes();
  const auto inserted = std::find_if(lent.begin(), lent.end(), [](const LentNote &note) { return (note.kind & SC_MOD_INSERTTEXT) != 0; });
  std::cout << "view " << inserted->view << " got " << inserted->text.size() << " bytes: notification " << inserted - lent.begin() << " of " << lent.size()
            << "\n";

  second.AppendText("two");
  const std::vector<Note> kept = first.notes();
  std::cout << "those of view 2\n";
  for (const Note &note : second.notes()) say(note);
  const hongpilas::Result<std::int64_t> refused = first.results().send(9999);
  std::cout << hongpilas::name_of(refused.error()) << " leaves " << session.lent_notes().size() << "\n";
  std::cout << "equal to itself: " << (kept == first.notes()) << "\n";
  first.Undo();
  std::cout << "kept after another message\n";
  for (const Note &note : kept) say(note);
  std::cout << "no notification has code 1: \"" << hongpilas::note_name(1) << "\"\n";
}

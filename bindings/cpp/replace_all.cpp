/* Opens a file, replaces a word everywhere as one undo step, prints the notifications, and has a thread read a copy of the text.
 *   c++ -std=c++17 -Iinclude bindings/cpp/replace_all.cpp out/libhongpilas.a -pthread -o replace_all
 *   ./replace_all examples/c/tutorial/sample.txt side n */
#include <hongpilas.hpp>

#include <cstddef>
#include <fstream>
#include <future>
#include <iostream>
#include <iterator>
#include <sstream>
#include <stdexcept>
#include <string>
#include <string_view>

using hongpilas::LentNote;
using hongpilas::Session;
using hongpilas::View;

/* Prints the notifications of the last reply: the next message replaces them. The view's mask lets SCN_MODIFIED through for insertions and
 * deletions alone. */
static void print_notes(const Session &session) {
  for (const LentNote &note : session.lent_notes()) {
    std::cout << "  " << hongpilas::note_name(note.code);
    if (note.code == SCN_MODIFIED)
      std::cout << ": " << note.length << " bytes " << ((note.kind & SC_MOD_INSERTTEXT) != 0 ? "inserted" : "deleted") << " at " << note.position;
    std::cout << "\n";
  }
}

/* Appends a file to the text. Undo is not collected meanwhile: nobody can undo the opening. */
static void open_file(const Session &session, View view, const std::string &name) {
  std::ifstream file(name, std::ios::binary);
  if (!file) throw std::runtime_error(name + " cannot be opened");
  view.SetUndoCollection(false);
  view.AppendText(std::string(std::istreambuf_iterator<char>(file), {}));
  print_notes(session);
  view.SetUndoCollection(true);
  view.SetSavePoint();
  print_notes(session);
}

/* Replaces a word everywhere. What is done while the group lives is one undo step. */
static void replace_all(const Session &session, View view, std::string_view word, std::string_view other) {
  const auto group = view.undo_group();
  view.SetSearchFlags(SCFIND_MATCHCASE | SCFIND_WHOLEWORD);
  view.TargetWholeDocument();
  while (view.SearchInTarget(word) >= 0) {
    view.ReplaceTarget(other);
    print_notes(session);
    view.SetTargetRange(view.GetTargetEnd(), view.GetLength());
  }
}

/* Counts the words of a copy, which is the thread's own. It makes no call on the session. */
static std::ptrdiff_t count_words(const std::string &copy) {
  std::istringstream words(copy);
  return std::distance(std::istream_iterator<std::string>(words), std::istream_iterator<std::string>());
}

static void run(const std::string &name, std::string_view word, std::string_view other) {
  Session session;
  View view = session.new_view();
  view.SetModEventMask(SC_MOD_INSERTTEXT | SC_MOD_DELETETEXT);
  std::cout << "open\n";
  open_file(session, view, name);
  std::future<std::ptrdiff_t> counted = std::async(std::launch::async, count_words, view.GetText());
  std::cout << "replace\n";
  replace_all(session, view, word, other);
  std::cout << view.GetText() << "undo\n";
  view.Undo();
  print_notes(session);
  std::cout << counted.get() << " words in the copy\n";
}

int main(int count, char **arguments) {
  if (count != 4 || arguments[2][0] == '\0') {
    std::cerr << "replace_all FILE WORD OTHER\n";
    return 2;
  }
  try {
    run(arguments[1], arguments[2], arguments[3]);
  } catch (const std::exception &fault) {
    /* hongpilas::Refused is one, too: the call has changed nothing, so an editor would say why, and go on. */
    std::cerr << fault.what() << "\n";
    return 1;
  }
  return 0;
}

// A notify function of the Scintilla-compatible interface that is left by a C++ exception: the message has been done, the next call is taken as ever, what stood in
// the queue is delivered, and all is freed.
#include <hongpilas_scintilla.h>

#include <cstdio>
#include <cstdlib>
#include <stdexcept>
#include <string>

namespace {

void must(bool holds, const char *what) {
  if (holds) return;
  std::printf("FAILED  %s\n", what);
  std::exit(1);
}

struct Listener {
  hongpilas_scintilla *component;
  int heard = 0, throws_at = 0;
  bool frees = false;
  std::string texts = {};
};

void hear(SCNotification *note, void *data) {
  auto &it = *static_cast<Listener *>(data);
  std::string held(100, 'x');  // is destroyed on the way out
  it.heard++;
  if (note->text != nullptr) it.texts.append(note->text, std::size_t(note->length));
  if (it.heard != it.throws_at) return;
  if (it.frees) hongpilas_scintilla_free(it.component);
  throw std::runtime_error(held);
}

// Whether a message came to an exception.
bool throws(sptr_t view, unsigned int message, uptr_t w, sptr_t l) {
  std::string held(100, 'y');
  try {
    hongpilas_direct(view, message, w, l);
  } catch (const std::runtime_error &) {
    return true;
  }
  return false;
}

sptr_t text(const char *bytes) { return reinterpret_cast<sptr_t>(bytes); }

void try_throwing(int at) {
  Listener it{hongpilas_scintilla_new()};
  sptr_t view = hongpilas_scintilla_open(it.component);
  hongpilas_set_notify(view, hear, &it);
  it.throws_at = at;
  must(throws(view, SCI_ADDTEXT, 5, text("hello")), "an exception passes through the call");
  must(it.heard == at, "the notifications behind it are not told yet");
  must(hongpilas_direct(view, SCI_GETLENGTH, 0, 0) == 5, "the message was done");
  must(!throws(view, SCI_INSERTTEXT, 5, text("!")), "the next call is done");
  must(it.heard == 5, "and all is told, in order");
  must(it.texts == "hellohello!!", "with its texts");
  must(hongpilas_direct(view, SCI_GETLENGTH, 0, 0) == 6 && hongpilas_direct(view, SCI_GETSTATUS, 0, 0) == SC_STATUS_OK, "nothing was refused");
  hongpilas_scintilla_free(it.component);
}

// Freed at once behind the exception, and inside the notify function in front of it.
void try_freeing(bool inside) {
  Listener it{hongpilas_scintilla_new()};
  sptr_t view = hongpilas_scintilla_open(it.component);
  hongpilas_set_notify(view, hear, &it);
  it.throws_at = 2;
  it.frees = inside;
  must(throws(view, SCI_ADDTEXT, 5, text("hello")), "an exception passes through the call");
  if (!inside) hongpilas_scintilla_free(it.component);
}

}  // namespace

int main() {
  for (int at = 1; at <= 3; at++) try_throwing(at);
  try_freeing(false);
  try_freeing(true);
  std::printf("exceptions out of a notify function\n");
}

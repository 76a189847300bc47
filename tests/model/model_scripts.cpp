// model_scripts SCRIPT [FILE..]: runs a script of the worked examples in the plain model, and prints what docs/SCRIPTS.md says. The script is well
// formed. It shows that the model, which fuzz.c compares the library with, answers as the examples do. C++17.
#include "model.h"

#include <cinttypes>
#include <cstdio>
#include <cstdlib>
#include <fstream>
#include <iterator>
#include <string>
#include <vector>

using Bytes = std::string;

static Bytes read_file(const char *path) {
  std::ifstream file(path, std::ios::binary);
  if (!file) {
    std::fprintf(stderr, "%s does not open\n", path);
    std::exit(2);
  }
  return Bytes(std::istreambuf_iterator<char>(file), {});
}

static Bytes spelled(const uint8_t *bytes, size_t length) {
  Bytes text = "\"";
  for (size_t i = 0; i < length; i++) {
    char hexadecimal[5];
    std::snprintf(hexadecimal, sizeof hexadecimal, "\\x%02x", bytes[i]);
    if (bytes[i] == '"' || bytes[i] == '\\') text += '\\';
    if (bytes[i] >= 0x20 && bytes[i] <= 0x7E) text += char(bytes[i]);
    else text += hexadecimal;
  }
  return text + "\"";
}

// The text between the first and the last quote of a line.
static Bytes read_text(const Bytes &line) {
  size_t from = line.find('"') + 1, to = line.rfind('"');
  Bytes text;
  while (from < to) {
    if (line[from] != '\\') text += line[from++];
    else if (line[from + 1] == 'x') text += char(std::stoi(line.substr(from + 2, 2), nullptr, 16)), from += 4;
    else text += line[from + 1], from += 2;
  }
  return text;
}

static void print_reply(const model *session) {
  const uint8_t *text = nullptr;
  size_t length = model_text(session, &text);
  std::printf("= %" PRId64 " %s\n", model_value(session), spelled(text, length).c_str());
  hongpilas_note_data n;
  for (size_t i = 0; model_note(session, i, &n); i++)
    std::printf(
        "@ %u %u %u "
        "%" PRId64 " %" PRId64 " %" PRId64 " %" PRId64 " %" PRId64 " %" PRId64 " %" PRId64 " %u %" PRId64 " %" PRId64 " %s\n",
        n.view, n.code, n.kind, n.position, n.length, n.lines, n.line, n.now, n.prev, n.token, n.message, n.w, n.l, spelled(n.text, n.text_length).c_str());
}

int main(int count, char **words) {
  if (count < 2) return 2;
  std::vector<Bytes> files;
  for (int i = 2; i < count; i++) files.push_back(read_file(words[i]));
  const hongpilas_limits limits = HONGPILAS_GREATEST_LIMITS;
  model *session = model_new(&limits);
  Bytes script = read_file(words[1]);
  bool has_value = false, first = true;
  int64_t value = 0;
  for (size_t at = 0; at < script.size(); first = false) {
    size_t end = script.find('\n', at);
    Bytes line = script.substr(at, end - at);
    at = end + 1;
    if (first) continue;
    uint32_t view = 0, number = 0;
    int64_t w = 0, l = 0;
    Bytes text;
    if (std::sscanf(line.c_str(), "expect %" SCNd64, &w) == 1) {
      std::printf("%c %" PRId64 "\n", has_value && value == w ? '+' : '-', w);
      continue;
    }
    hongpilas_answer answer = HONGPILAS_DONE;
    if (line == "open") {
      answer = model_new_view(session, &view);
      value = view;
    } else if (std::sscanf(line.c_str(), "close %u", &view) == 1) {
      answer = model_close_view(session, view);
      value = 0;
    } else if (std::sscanf(line.c_str(), "load %u %u", &view, &number) == 2) {
      bool has_file = number >= 1 && number <= files.size();
      if (has_file) text = files[number - 1];
      // A question tells whether there is such a view.
      answer = model_send(session, view, has_file ? SCI_SETTEXT : SCI_GETLENGTH, 0, 0, reinterpret_cast<const uint8_t *>(text.data()), text.size(), &value);
      if (!has_file && answer == HONGPILAS_DONE) answer = HONGPILAS_BAD_ARGUMENT;
    } else {
      std::sscanf(line.c_str(), "send %u %u %" SCNd64 " %" SCNd64, &view, &number, &w, &l);
      text = read_text(line);
      answer = model_send(session, view, number, w, l, reinterpret_cast<const uint8_t *>(text.data()), text.size(), &value);
    }
    has_value = answer == HONGPILAS_DONE;
    if (!has_value) std::printf("! %u\n", answer);
    else if (line == "open" || line[0] == 'c') std::printf("= %" PRId64 " \"\"\n", value);
    else print_reply(session);
  }
  model_free(session);
}

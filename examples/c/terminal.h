/* The terminal of edit.c: its size and its characters, the keys that come from it, and how it is taken and left. */
#ifndef TERMINAL_H
#define TERMINAL_H

#include <errno.h>
#include <signal.h>
#include <stdbool.h>
#include <stdint.h>
#include <stdio.h>
#include <stdlib.h>
#include <string.h>
#include <sys/ioctl.h>
#include <termios.h>
#include <unistd.h>

enum { LEAST_ROWS = 2, LEAST_COLUMNS = 24 };
enum { ESCAPE = 0x1B, RUBOUT = 0x7F, NOTHING = -1, AT_END = -2 };

static int rows = 24, columns = 80;
static volatile sig_atomic_t is_resized, is_ended; /* by a signal */

static int64_t least(int64_t a, int64_t b) { return a < b ? a : b; }
static int64_t greatest(int64_t a, int64_t b) { return a > b ? a : b; }

static void take_size(void) {
  struct winsize size;
  is_resized = 0;
  if (ioctl(STDOUT_FILENO, TIOCGWINSZ, &size) != 0 || size.ws_row == 0 || size.ws_col == 0) return;
  rows = (int)greatest(size.ws_row, LEAST_ROWS);
  columns = (int)greatest(size.ws_col, LEAST_COLUMNS);
}

/* One character: a tab as blanks, and what cannot be shown as a point, also the controls from U+0080 on. */
static void draw_character(const uint8_t *bytes, size_t count, int64_t width) {
  bool is_control = bytes[0] < ' ' || bytes[0] == RUBOUT || (count == 2 && bytes[0] == 0xC2 && bytes[1] < 0xA0);
  if (bytes[0] == '\t') printf("%*s", (int)width, "");
  else if (is_control || (bytes[0] >= 0x80 && count == 1)) putchar('.');
  else fwrite(bytes, 1, count, stdout);
}

/* ---- Keys ---- */

/* The key that was pressed last: the character that was typed, or a name as in `commands`, or "" for a new size of the terminal. */
static char key[16];
static int read_ahead = NOTHING; /* the byte behind it, where it was read to see where the key ends */

static bool is_key(const char *name) { return strcmp(key, name) == 0; }
static bool is_text(void) { return key[0] != '\0' && (key[0] != '^' || key[1] == '\0'); }

/* The next byte, or NOTHING where none comes within a tenth of a second. */
static int next_byte(void) {
  unsigned char byte;
  int ahead = read_ahead;
  read_ahead = NOTHING;
  if (ahead != NOTHING) return ahead;
  ssize_t count = read(STDIN_FILENO, &byte, 1);
  if (count < 0 && errno != EINTR && errno != EAGAIN) return AT_END;
  return count == 1 ? byte : NOTHING;
}

/* Reads what a terminal sends behind an escape: `[` or `O`, and on to the byte that closes it. Else the escape is a key itself. */
static void read_sequence(void) {
  size_t length = 2;
  read_ahead = next_byte();
  if (read_ahead != '[' && read_ahead != 'O') return;
  for (int byte; length < sizeof key - 1 && (byte = next_byte()) >= 0;) {
    key[length++] = (char)byte;
    if (length > 3 && byte >= '@' && byte != '[') break;
  }
  key[2] = '[';
  key[length] = '\0';
}

/* Reads on in the character that begins with this byte. What does not belong to it is left for the next key. */
static void read_character(int byte) {
  size_t whole = byte < 0xC2 || byte > 0xF4 ? 1 : byte < 0xE0 ? 2 : byte < 0xF0 ? 3 : 4, length = 1;
  key[0] = (char)byte;
  while (length < whole && (byte = next_byte()) >= 0x80 && byte < 0xC0) key[length++] = (char)byte;
  if (length < whole) read_ahead = byte;
  key[length] = '\0';
}

/* Shows what was drawn, and waits for a key or a new size of the terminal. False where no key can come any more. */
static bool read_key(void) {
  int byte;
  fflush(stdout);
  while ((byte = next_byte()) == NOTHING && !is_resized && !is_ended) continue;
  key[0] = '\0';
  if (byte == RUBOUT || (byte >= 0 && byte < ' ' && byte != '\t')) sprintf(key, "^%c", byte ^ 0x40);
  else if (byte >= 0) read_character(byte);
  if (byte == ESCAPE) read_sequence();
  return byte != AT_END && !is_ended;
}

/* ---- Taking and leaving it ---- */

static struct termios found_terminal;
static void note_size(int signal) { is_resized = signal; }
static void note_end(int signal) { is_ended = signal; }

static void leave_terminal(void) {
  fputs("\x1b[?7h\x1b[?1049l", stdout);
  fflush(stdout);
  tcsetattr(STDIN_FILENO, TCSAFLUSH, &found_terminal);
}

/* Keys as they are sent, a read of at most a tenth of a second, and a screen of its own, whose rows end where they end. */
static bool take_terminal(void) {
  static const int ends[] = {SIGTERM, SIGHUP, SIGINT, SIGQUIT};
  if (!isatty(STDOUT_FILENO) || tcgetattr(STDIN_FILENO, &found_terminal) != 0) return false;
  struct termios raw = found_terminal;
  cfmakeraw(&raw);
  raw.c_cc[VMIN] = 0;
  raw.c_cc[VTIME] = 1;
  signal(SIGWINCH, note_size);
  for (size_t i = 0; i < sizeof ends / sizeof *ends; i++) signal(ends[i], note_end);
  signal(SIGXFSZ, SIG_IGN); /* a write tells where a file may not grow */
  if (tcsetattr(STDIN_FILENO, TCSAFLUSH, &raw) != 0) return false;
  atexit(leave_terminal);
  setvbuf(stdout, NULL, _IOFBF, 1 << 16);
  fputs("\x1b[?1049h\x1b[?7l", stdout);
  take_size();
  return true;
}

#endif

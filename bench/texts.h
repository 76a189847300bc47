/* The texts, which are the same each time, and what a container lexer makes of a line: a part of messages.c and of memory.c. */
#ifndef TEXTS_H
#define TEXTS_H

/* A text with a NUL behind it. */
typedef struct input {
  size_t size;
  void (*make)(char *into, size_t size);
  char *bytes; /* NULL until it is used */
} input;

static uint64_t text_seed;

static unsigned drawn(unsigned bound) {
  text_seed ^= text_seed << 13;
  text_seed ^= text_seed >> 7;
  text_seed ^= text_seed << 17;
  return (unsigned)(text_seed % bound);
}

/* Puts a line at the end of a text, as far as there is room, and returns where the next begins. */
static size_t put(char *into, size_t at, size_t size, const char *line) {
  size_t length = strlen(line), count = length < size - at ? length : size - at;
  memcpy(into + at, line, count);
  return at + count;
}

static const char line_text[] = "A line that is put in has forty bytes..\n";

/* Lines of 40 bytes. */
static void make_lines(char *into, size_t size) {
  for (size_t at = 0; at < size;) at = put(into, at, size, line_text);
}

/* One byte again and again, without a line end. */
static void make_one_line(char *into, size_t size) { memset(into, 'a', size); }

/* Lines of 60 to 110 bytes. */
static void make_log(char *into, size_t size) {
  static const char *const levels[] = {"DEBUG", "INFO ", "INFO ", "INFO ", "WARN ", "ERROR"};
  static const char *const said[] = {"request done", "connection reused from the pool", "cache missed, reading from disk",
                                     "retried after a timeout of the peer"};
  char line[160];
  unsigned millisecond = 0;
  for (size_t at = 0; at < size; millisecond += drawn(50)) {
    snprintf(line, sizeof line, "2026-11-29 %02u:%02u:%02u.%03u %s worker-%02u: %s, id %08x, %u ms\n", millisecond / 3600000 % 24, millisecond / 60000 % 60,
             millisecond / 1000 % 60, millisecond % 1000, levels[drawn(6)], drawn(32), said[drawn(4)], drawn(1u << 31), drawn(900));
    at = put(into, at, size, line);
  }
}

static const char *word(void) {
  static const char *const words[] = {"length", "count",  "place", "text",  "line", "width",   "node",   "value", "index", "buffer", "start",
                                      "offset", "result", "item",  "total", "mask", "pointer", "handle", "view",  "state", "first",  "limit"};
  return words[drawn(sizeof words / sizeof *words)];
}

/* A line of a body whose blocks are `depth` deep. It may open or close a block. */
static void make_statement(char *line, size_t room, unsigned *depth) {
  int indent = 2 * (int)*depth;
  unsigned kind = drawn(12);
  if (kind == 0 && *depth < 5) {
    snprintf(line, room, "%*sif (%s_%s < %u) {\n", indent, "", word(), word(), drawn(1000));
    ++*depth;
  } else if (kind == 1 && *depth < 5) {
    snprintf(line, room, "%*sfor (%s = 0; %s < %s; %s++) {\n", indent, "", word(), word(), word(), word());
    ++*depth;
  } else if (kind <= 3 && *depth > 1) {
    --*depth;
    snprintf(line, room, "%*s}\n", indent - 2, "");
  } else if (kind == 4) {
    snprintf(line, room, "%*s/* The %s of the %s, in bytes, as the %s has it. */\n", indent, "", word(), word(), word());
  } else if (kind == 5) {
    snprintf(line, room, "%*sprint(\"%s of %s\", %s);\n", indent, "", word(), word(), word());
  } else {
    snprintf(line, room, "%*s%s = %s(%s, %u) + %s;\n", indent, "", word(), word(), word(), drawn(100), word());
  }
}

/* Functions of 5 to 40 lines, with blocks in blocks. */
static void make_source(char *into, size_t size) {
  char line[160];
  for (size_t at = 0; at < size;) {
    unsigned depth = 1, left = 5 + drawn(36);
    snprintf(line, sizeof line, "static int %s_of_%s(int %s, const char *%s) {\n", word(), word(), word(), word());
    at = put(into, at, size, line);
    while ((left > 0 || depth > 1) && at < size) {
      make_statement(line, sizeof line, &depth);
      at = put(into, at, size, line);
      if (left > 0) left--;
    }
    at = put(into, at, size, "}\n\n");
  }
}

static const char *bytes_of(input *it) {
  if (it->bytes == NULL) {
    it->bytes = malloc(it->size + 1);
    must(it->bytes != NULL, "out of memory");
    text_seed = 88172645463325252u;
    it->make(it->bytes, it->size);
    it->bytes[it->size] = '\0';
  }
  return it->bytes;
}

static void forget(input *it) {
  free(it->bytes);
  it->bytes = NULL;
}

/* ---- A container lexer ---- */

enum { SPACE, NAME, NUMBER, STRING, COMMENT, OPERATOR };

static bool is_of_name(char byte) { return (byte >= 'a' && byte <= 'z') || (byte >= 'A' && byte <= 'Z') || byte == '_'; }
static bool is_digit(char byte) { return byte >= '0' && byte <= '9'; }

/* How long the token is that begins a line's rest, and its style. No token reaches over a line's end. */
static size_t token_of(const char *rest, size_t left, char *style) {
  size_t length = 1;
  if (left > 1 && rest[0] == '/' && rest[1] == '*') {
    for (length = 2; length < left && !(rest[length - 2] == '*' && rest[length - 1] == '/' && length > 3);) length++;
    *style = COMMENT;
  } else if (rest[0] == '"') {
    while (length < left && rest[length] != '"' && rest[length] != '\n') length++;
    if (length < left && rest[length] == '"') length++;
    *style = STRING;
  } else if (is_digit(rest[0])) {
    while (length < left && is_digit(rest[length])) length++;
    *style = NUMBER;
  } else if (is_of_name(rest[0])) {
    while (length < left && (is_of_name(rest[length]) || is_digit(rest[length]))) length++;
    *style = NAME;
  } else if (rest[0] == ' ' || rest[0] == '\n') {
    while (length < left && rest[length - 1] != '\n' && (rest[length] == ' ' || rest[length] == '\n')) length++;
    *style = SPACE;
  } else {
    *style = OPERATOR;
  }
  return length;
}

/* Writes the style of each byte of a line. Returns the line's fold level: `*depth` is how many blocks are open before it, and then behind it. */
static int64_t lex(const char *line, size_t length, char *styles, int *depth) {
  int before = *depth;
  for (size_t at = 0; at < length;) {
    char style = SPACE;
    size_t count = token_of(line + at, length - at, &style);
    memset(styles + at, style, count);
    if (style == OPERATOR) *depth += (line[at] == '{') - (line[at] == '}');
    at += count;
  }
  return (SC_FOLDLEVELBASE + before) | (*depth > before ? SC_FOLDLEVELHEADERFLAG : 0);
}

#endif

/* Writes the message of each line on standard input, as `grasp_replay pack` does, with libcbor.
   It is there to compare times, and takes lines that `grasp_replay show` wrote. */
#include <cbor.h>
#include <stdbool.h>
#include <stdint.h>
#include <stdio.h>
#include <stdlib.h>
#include <string.h>

static char *word; /* the next word of the line, ended by 0; NULL where the line has ended */

static void fail(const char *why) {
  fprintf(stderr, "%s\n", why);
  exit(1);
}

static void next(void) {
  char *end = word + strlen(word) + 1;
  word = *end == '\n' ? NULL : end;
}

static bool is(const char *name) { return word && strcmp(word, name) == 0; }

static char *take(void) {
  if (!word) fail("a word is missing");
  char *taken = word;
  next();
  return taken;
}

static uint64_t number(void) {
  char *digits = take(), *end;
  uint64_t n = strtoull(digits, &end, 10);
  if (end == digits || *end) fail("not a number");
  return n;
}

static cbor_item_t *unsigned_item(uint64_t n) {
  if (n < 1 << 8) return cbor_build_uint8(n);
  if (n < 1 << 16) return cbor_build_uint16(n);
  if (n < 1ull << 32) return cbor_build_uint32(n);
  return cbor_build_uint64(n);
}

static unsigned digit(char c) {
  if (c >= '0' && c <= '9') return c - '0';
  if (c >= 'a' && c <= 'f') return c - 'a' + 10;
  fail("not a hexadecimal digit");
  return 0;
}

static size_t bytes_of(const char *digits, unsigned char *out) {
  size_t length = 0;
  for (; *digits; digits += 2) out[length++] = digit(digits[0]) << 4 | digit(digits[1]);
  return length;
}

static cbor_item_t *address(void) {
  unsigned char bytes[4096];
  size_t length = bytes_of(take(), bytes);
  return cbor_build_bytestring(bytes, length);
}

static cbor_item_t *text(void) {
  char letters[4096], *from = take();
  size_t length = 0;
  if (*from++ != '\'') fail("not a text");
  while (*from) {
    if (*from == '%') {
      letters[length++] = digit(from[1]) << 4 | digit(from[2]);
      from += 3;
    } else {
      letters[length++] = *from++;
    }
  }
  return cbor_build_stringn(letters, length);
}

static cbor_item_t *value(void) {
  unsigned char bytes[4096];
  char *from = take();
  struct cbor_load_result result;
  if (*from != 'x') fail("not a value");
  size_t length = bytes_of(from + 1, bytes);
  cbor_item_t *item = cbor_load(bytes, length, &result);
  if (!item || result.read != length) fail("not a value");
  return item;
}

static cbor_item_t *list(size_t count, cbor_item_t **parts) {
  cbor_item_t *all = cbor_new_definite_array(count);
  for (size_t i = 0; i < count; i++) {
    if (!cbor_array_push(all, parts[i])) fail("out of memory");
    cbor_decref(&parts[i]);
  }
  return all;
}

static cbor_item_t *proto(void) {
  char *name = take();
  if (*name == '-') return cbor_new_null();
  return unsigned_item(strcmp(name, "tcp") == 0 ? 6 : 17);
}

static cbor_item_t *port(void) {
  if (is("-")) { take(); return cbor_new_null(); }
  return unsigned_item(number());
}

static bool is_locator(void) { return is("v6") || is("v4") || is("fqdn") || is("uri"); }

static cbor_item_t *locator(void) {
  cbor_item_t *parts[4];
  char *kind = take();
  if (strcmp(kind, "v6") == 0) { parts[0] = unsigned_item(103); parts[1] = address(); }
  else if (strcmp(kind, "v4") == 0) { parts[0] = unsigned_item(104); parts[1] = address(); }
  else if (strcmp(kind, "fqdn") == 0) { parts[0] = unsigned_item(105); parts[1] = text(); }
  else { parts[0] = unsigned_item(106); parts[1] = text(); }
  parts[2] = proto();
  parts[3] = port();
  return list(4, parts);
}

static cbor_item_t *objective(void) {
  cbor_item_t *parts[4];
  size_t count = 3;
  if (!is("obj")) fail("not an objective");
  take();
  parts[0] = text();
  parts[1] = unsigned_item(number());
  parts[2] = unsigned_item(number());
  if (is("-")) take(); else parts[count++] = value();
  return list(count, parts);
}

static size_t response(cbor_item_t **parts) {
  size_t count = 4;
  parts[2] = address();
  parts[3] = unsigned_item(number());
  if (is("divert")) {
    cbor_item_t *others[256];
    size_t many = 1;
    take();
    others[0] = unsigned_item(100);
    while (is_locator()) others[many++] = locator();
    parts[count++] = list(many, others);
  } else {
    take();
    while (is_locator()) parts[count++] = locator();
  }
  if (is("obj")) parts[count++] = objective();
  return count;
}

static size_t flood(cbor_item_t **parts) {
  size_t count = 4;
  parts[2] = address();
  parts[3] = unsigned_item(number());
  while (word) {
    cbor_item_t *pair[2];
    pair[0] = objective();
    if (is("none")) { take(); pair[1] = cbor_new_definite_array(0); } else pair[1] = locator();
    parts[count++] = list(2, pair);
  }
  return count;
}

static cbor_item_t *verdict(void) {
  cbor_item_t *parts[2];
  if (is("accept")) { take(); parts[0] = unsigned_item(101); return list(1, parts); }
  take();
  parts[0] = unsigned_item(102);
  if (!word) return list(1, parts);
  parts[1] = text();
  return list(2, parts);
}

static const struct { const char *name; unsigned kind; } kinds[] = {
  {"noop", 0}, {"discovery", 1}, {"response", 2}, {"request-neg", 3}, {"request-syn", 4}, {"negotiate", 5},
  {"end", 6}, {"wait", 7}, {"synch", 8}, {"flood", 9}, {"invalid", 99},
};

static unsigned kind_of(const char *name) {
  for (size_t i = 0; i < sizeof kinds / sizeof *kinds; i++)
    if (strcmp(kinds[i].name, name) == 0) return kinds[i].kind;
  fail("not a message");
  return 0;
}

static cbor_item_t *message(void) {
  cbor_item_t *parts[512];
  size_t count = 2;
  unsigned kind = kind_of(take());
  parts[0] = unsigned_item(kind);
  if (kind == 0) return list(1, parts);
  parts[1] = unsigned_item(number());
  switch (kind) {
    case 1: parts[count++] = address(); parts[count++] = objective(); break;
    case 2: count = response(parts); break;
    case 6: parts[count++] = verdict(); break;
    case 7: parts[count++] = unsigned_item(number()); break;
    case 9: count = flood(parts); break;
    case 99: if (is("-")) take(); else parts[count++] = value(); break;
    default: parts[count++] = objective();
  }
  return list(count, parts);
}

int main(void) {
  size_t capacity = 1 << 25, length = 0, got;
  char *input = malloc(capacity);
  unsigned char *bytes = malloc(1 << 16);
  if (!input || !bytes) fail("out of memory");
  while ((got = fread(input + length, 1, capacity - length, stdin)) > 0) length += got;
  for (char *line = input; line < input + length;) {
    char *end = memchr(line, '\n', input + length - line);
    if (!end) fail("a line end is missing");
    /* Each blank becomes the end of a word. Behind the last word stands 0, and then the mark of the line's end. */
    char *copy = malloc(end - line + 2);
    if (!copy) fail("out of memory");
    for (char *from = line, *to = copy; from < end; from++) *to++ = *from == ' ' ? 0 : *from;
    copy[end - line] = 0;
    copy[end - line + 1] = '\n';
    word = copy;
    cbor_item_t *item = message();
    if (word) fail("a word too many");
    size_t written = cbor_serialize(item, bytes, 1 << 16);
    if (!written) fail("too long");
    fwrite(bytes, 1, written, stdout);
    cbor_decref(&item);
    free(copy);
    line = end + 1;
  }
  free(bytes);
  free(input);
  return 0;
}

/* Writes a line for each GRASP message of the stream on standard input, as `grasp_replay show` does, by hand: in one pass, with no
   tree. It is there to compare times, and takes every item of the right shape for a message. */
#include <stdbool.h>
#include <stdint.h>
#include <stdio.h>
#include <stdlib.h>
#include <string.h>

#define OPEN UINT64_MAX /* the count of an array or a string that has no definite length */

static const unsigned char *at, *end;
static char out[1 << 16], *to = out;
static unsigned char encoded[1 << 12]; /* a value in its shortest encoding */
static char pairs[512], tens[200];

static void fail(const char *why) {
  fprintf(stderr, "%s\n", why);
  exit(1);
}

static unsigned char byte(void) {
  if (at == end) fail("the end is missing");
  return *at++;
}

static uint64_t argument(unsigned first) {
  unsigned info = first & 31, size;
  uint64_t n = 0;
  if (info < 24) return info;
  if (info == 31) return OPEN;
  if (info > 27) fail("not an item");
  for (size = 1u << (info - 24); size > 0; size--) n = n << 8 | byte();
  return n;
}

static uint64_t head(unsigned major) {
  unsigned first = byte();
  if (first >> 5 != major) fail("not a message");
  return argument(first);
}

/* Whether one more part follows, of so many that are left. */
static bool more(uint64_t *left) {
  if (*left != OPEN) return (*left)-- > 0;
  if (at == end) fail("the end is missing");
  if (*at != 0xff) return true;
  at++;
  return false;
}

static void last(uint64_t left) {
  if (more(&left)) fail("a part too many");
}

static void put(const char *word, size_t length) {
  memcpy(to, word, length);
  to += length;
}

#define PUT(word) put(word, sizeof word - 1)

static void put_number(uint64_t n) {
  char digits[20], *from = digits + 20;
  for (; n >= 100; n /= 100) memcpy(from -= 2, tens + 2 * (n % 100), 2);
  if (n >= 10) memcpy(from -= 2, tens + 2 * n, 2);
  else *--from = '0' + n;
  *to++ = ' ';
  put(from, digits + 20 - from);
}

static uint64_t number(uint64_t most) {
  uint64_t n = head(0);
  if (n > most) fail("too large");
  put_number(n);
  return n;
}

static void put_hex(const unsigned char *bytes, size_t length) {
  for (size_t i = 0; i < length; i++, to += 2) memcpy(to, pairs + 2 * bytes[i], 2);
}

static bool is_utf8(const unsigned char *from, const unsigned char *stop) {
  while (from < stop) {
    unsigned lead = *from++, count = lead < 0x80 ? 0 : lead < 0xc2 ? 9 : lead < 0xe0 ? 1 : lead < 0xf0 ? 2 : lead < 0xf5 ? 3 : 9;
    if (count > stop - from) return false;
    if (count > 0 && ((lead == 0xe0 && *from < 0xa0) || (lead == 0xed && *from > 0x9f))) return false;
    if (count > 0 && ((lead == 0xf0 && *from < 0x90) || (lead == 0xf4 && *from > 0x8f))) return false;
    for (; count > 0; count--) if ((*from++ & 0xc0) != 0x80) return false;
  }
  return true;
}

static void put_escaped(uint64_t length) {
  const unsigned char *stop = at + length, *start = at;
  unsigned all = 0;
  if (length > (uint64_t)(end - at)) fail("the end is missing");
  for (; at < stop; at++) {
    all |= *at;
    if (*at >= 33 && *at <= 126 && *at != '%') {
      *to++ = *at;
    } else {
      *to++ = '%';
      put_hex(at, 1);
    }
  }
  if (all > 127 && !is_utf8(start, stop)) fail("not a text");
}

static void text(void) {
  uint64_t length = head(3);
  PUT(" '");
  if (length != OPEN) put_escaped(length);
  else while (more(&length)) put_escaped(head(3));
}

/* A byte string, of one of two lengths, in place or in chunks. */
static void octets(uint64_t one, uint64_t other) {
  uint64_t length = head(2), all = 0;
  *to++ = ' ';
  if (length != OPEN) {
    if (length > (uint64_t)(end - at)) fail("the end is missing");
    put_hex(at, length), at += length, all = length;
  } else {
    while (more(&length)) {
      uint64_t chunk = head(2);
      if (chunk > (uint64_t)(end - at)) fail("the end is missing");
      put_hex(at, chunk), at += chunk, all += chunk;
    }
  }
  if (all != one && all != other) fail("not an address");
}

static unsigned char *put_head(unsigned char *to, unsigned major, uint64_t n) {
  unsigned size = n < 24 ? 0 : n < 1 << 8 ? 1 : n < 1 << 16 ? 2 : n < 1ull << 32 ? 4 : 8;
  *to++ = major << 5 | (size == 0 ? n : size == 1 ? 24 : size == 2 ? 25 : size == 4 ? 26 : 27);
  while (size > 0) *to++ = n >> 8 * --size;
  return to;
}

static void skip(void) {
  unsigned first = byte();
  uint64_t n = argument(first);
  switch (first >> 5) {
    case 2: case 3: if (n != OPEN) at += n; else while (more(&n)) skip(); break;
    case 4: while (more(&n)) skip(); break;
    case 5: while (more(&n)) skip(), skip(); break;
    case 6: skip(); break;
  }
}

static uint64_t counted(uint64_t n, unsigned each) {
  const unsigned char *start = at;
  uint64_t count = 0;
  if (n != OPEN) return n;
  for (; more(&n); count++) for (unsigned i = 0; i < each; i++) skip();
  at = start;
  return count;
}

static unsigned char *shortest(unsigned char *to, unsigned depth) {
  unsigned first = byte(), major = first >> 5;
  uint64_t n = argument(first), count;
  if (depth > 13 || to > encoded + sizeof encoded - 16) fail("too deep or too long");
  switch (major) {
    case 0: case 1: return put_head(to, major, n);
    case 2: case 3:
      if (n == OPEN) fail("chunks in values are left out here");
      if (n > (uint64_t)(end - at) || n > (uint64_t)(encoded + sizeof encoded - 16 - to)) fail("the end is missing");
      if (major == 3 && !is_utf8(at, at + n)) fail("not a text");
      to = put_head(to, major, n);
      memcpy(to, at, n);
      at += n;
      return to + n;
    case 4:
      count = counted(n, 1);
      to = put_head(to, 4, count);
      for (; count > 0; count--) to = shortest(to, depth + 1);
      break;
    case 5:
      count = counted(n, 2);
      to = put_head(to, 5, count);
      for (; count > 0; count--) to = shortest(shortest(to, depth + 1), depth + 1);
      break;
    case 6: return shortest(put_head(to, 6, n), depth + 1);
    default:
      *to++ = first;
      if ((first & 31) > 23) {
        unsigned size = 1u << ((first & 31) - 24);
        memcpy(to, at - size, size);
        to += size;
      }
      return to;
  }
  if (n == OPEN) at++;
  return to;
}

static void value(void) {
  unsigned char *stop = shortest(encoded, 1);
  PUT(" x");
  put_hex(encoded, stop - encoded);
}

static void last_value(uint64_t left) {
  if (!more(&left)) {
    PUT(" -");
  } else {
    value();
    last(left);
  }
}

static void objective(void) {
  uint64_t left = head(4);
  PUT(" obj");
  for (unsigned i = 0; i < 3; i++) if (!more(&left)) fail("a part is missing"); else if (i == 0) text(); else number(i == 1 ? 15 : 255);
  last_value(left);
}

static bool null(void) {
  if (at == end || *at != 0xf6) return false;
  at++;
  PUT(" -");
  return true;
}

static void proto(void) {
  uint64_t n = head(0);
  if (n == 6) PUT(" tcp");
  else if (n == 17) PUT(" udp");
  else fail("not a protocol");
}

/* A locator behind the head of its array. */
static void locator_parts(uint64_t left) {
  more(&left);
  switch (head(0)) {
    case 103: PUT(" v6"), more(&left), octets(16, 16); break;
    case 104: PUT(" v4"), more(&left), octets(4, 4); break;
    case 105: PUT(" fqdn"), more(&left), text(); break;
    case 106:
      PUT(" uri"), more(&left), text(), more(&left);
      if (!null()) proto();
      more(&left);
      if (!null()) number(65535);
      last(left);
      return;
    default: fail("not a locator");
  }
  more(&left), proto(), more(&left), number(65535);
  last(left);
}

static bool begins_text(void) {
  const unsigned char *start = at;
  head(4);
  bool is = at < end && *at >> 5 == 3;
  at = start;
  return is;
}

/* Locators and perhaps an objective, to the end of the array. */
static void locators(uint64_t left) {
  while (more(&left)) {
    if (begins_text()) {
      objective();
      last(left);
      return;
    }
    locator_parts(head(4));
  }
}

static void response(uint64_t left) {
  const unsigned char *start = at;
  if (!more(&left)) fail("a part is missing");
  uint64_t inner = head(4);
  if (more(&inner) && at < end && *at >> 5 == 0 && head(0) == 100) {
    PUT(" divert");
    while (more(&inner)) locator_parts(head(4));
    if (more(&left)) objective(), last(left);
    return;
  }
  PUT(" locators");
  at = start;
  locators(left == OPEN ? left : left + 1);
}

static void flood(uint64_t left) {
  while (more(&left)) {
    uint64_t two = head(4);
    more(&two), objective(), more(&two);
    uint64_t parts = head(4);
    const unsigned char *start = at;
    uint64_t none = parts;
    if (!more(&none)) PUT(" none");
    else at = start, locator_parts(parts);
    last(two);
  }
}

static void verdict(void) {
  uint64_t left = head(4);
  more(&left);
  switch (head(0)) {
    case 101: PUT(" accept"); break;
    case 102: PUT(" decline"); if (more(&left)) text(); else return; break;
    default: fail("not a verdict");
  }
  last(left);
}

static void message(void) {
  uint64_t left = head(4);
  if (!more(&left)) fail("a part is missing");
  uint64_t kind = head(0);
  static const char *const names[] = {"noop", "discovery", "response", "request-neg", "request-syn", "negotiate", "end", "wait", "synch", "flood"};
  if (kind < 10) put(names[kind], strlen(names[kind]));
  else if (kind == 99) PUT("invalid");
  else fail("not a message");
  if (kind > 0) more(&left), number(UINT32_MAX);
  switch (kind) {
    case 1: more(&left), octets(4, 16), more(&left), objective(); break;
    case 2: more(&left), octets(4, 16), more(&left), number(UINT32_MAX), response(left); return;
    case 3: case 4: case 5: case 8: more(&left), objective(); break;
    case 6: more(&left), verdict(); break;
    case 7: more(&left), number(UINT32_MAX); break;
    case 9: more(&left), octets(4, 16), more(&left), number(UINT32_MAX), flood(left); return;
    case 99: last_value(left); return;
  }
  last(left);
}

int main(void) {
  size_t capacity = 1 << 25, length = 0, got;
  unsigned char *bytes = malloc(capacity);
  if (!bytes) fail("out of memory");
  for (unsigned i = 0; i < 256; i++) memcpy(pairs + 2 * i, (char[]){"0123456789abcdef"[i >> 4], "0123456789abcdef"[i & 15]}, 2);
  for (unsigned i = 0; i < 100; i++) memcpy(tens + 2 * i, (char[]){'0' + i / 10, '0' + i % 10}, 2);
  while ((got = fread(bytes + length, 1, capacity - length, stdin)) > 0) length += got;
  at = bytes, end = bytes + length;
  while (at < end) {
    if (to > out + sizeof out - (1 << 14)) fwrite(out, 1, to - out, stdout), to = out;
    message();
    *to++ = '\n';
  }
  fwrite(out, 1, to - out, stdout);
  free(bytes);
  return 0;
}

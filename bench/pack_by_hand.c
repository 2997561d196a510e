/* Writes the message of each line on standard input, as `grasp_replay pack` does, by hand: in one pass, with no tree. It is there to
   compare times, and takes lines that `grasp_replay show` wrote. */
#include <stdbool.h>
#include <stdint.h>
#include <stdio.h>
#include <stdlib.h>
#include <string.h>

static const char *at, *end;
static unsigned char out[1 << 16], *to = out, values[256];

static void fail(const char *why) {
  fprintf(stderr, "%s\n", why);
  exit(1);
}

static bool takes(const char *word, size_t length) {
  if ((size_t)(end - at) < length || memcmp(at, word, length) != 0) return false;
  at += length;
  return true;
}

#define TAKES(word) takes(word, sizeof word - 1)

static bool ends(void) { return at == end || *at == '\n'; }

static void put_head(unsigned major, uint64_t n) {
  unsigned size = n < 24 ? 0 : n < 1 << 8 ? 1 : n < 1 << 16 ? 2 : n < 1ull << 32 ? 4 : 8;
  *to++ = major << 5 | (size == 0 ? n : size == 1 ? 24 : size == 2 ? 25 : size == 4 ? 26 : 27);
  while (size > 0) *to++ = n >> 8 * --size;
}

static void number(uint64_t most) {
  uint64_t n = 0;
  const char *start = ++at;
  if (at[-1] != ' ') fail("a blank is missing");
  for (; at < end && *at >= '0' && *at <= '9' && at - start < 11; at++) n = 10 * n + (*at - '0');
  if (at == start || n > most || (at - start > 1 && *start == '0')) fail("not a number");
  put_head(0, n);
}

static size_t unhex(size_t most) {
  size_t count = 0;
  for (; count < most && end - at > 1; count++, at += 2) {
    unsigned high = values[(unsigned char)at[0]], low = values[(unsigned char)at[1]];
    if ((high | low) > 15) break;
    *to++ = high << 4 | low;
  }
  return count;
}

static void octets(size_t one, size_t other) {
  unsigned char *where = to++;
  if (!TAKES(" ")) fail("a blank is missing");
  size_t count = unhex(other);
  if (count != one && count != other) fail("not an address");
  *where = 0x40 + count;
}

static void text(void) {
  unsigned char *where = to;
  if (!TAKES(" '")) fail("not a text");
  to += 3;
  unsigned char *start = to;
  for (; at < end && *at != ' ' && *at != '\n'; at++) {
    if (*at == '%') {
      *to++ = values[(unsigned char)at[1]] << 4 | values[(unsigned char)at[2]];
      at += 2;
    } else {
      *to++ = *at;
    }
  }
  size_t length = to - start;
  to = where;
  put_head(3, length);
  memmove(to, start, length);
  to += length;
}

/* Whether there was a value. */
static bool value(void) {
  if (TAKES(" -")) return false;
  if (!TAKES(" x")) fail("not a value");
  unhex(4096);
  return true;
}

static void objective(void) {
  unsigned char *where = to++;
  if (!TAKES(" obj")) fail("not an objective");
  text(), number(15), number(255);
  *where = value() ? 0x84 : 0x83;
}

static void place(void) {
  if (TAKES(" tcp")) *to++ = 6;
  else if (TAKES(" udp")) *to++ = 17;
  else if (TAKES(" -")) *to++ = 0xf6;
  else fail("not a protocol");
  if (TAKES(" -")) *to++ = 0xf6;
  else number(65535);
}

static bool locator(void) {
  unsigned char *start = to;
  *to++ = 0x84, *to++ = 0x18;
  if (TAKES(" v6 ")) at--, *to++ = 103, octets(16, 16);
  else if (TAKES(" v4 ")) at--, *to++ = 104, octets(4, 4);
  else if (TAKES(" fqdn ")) at--, *to++ = 105, text();
  else if (TAKES(" uri ")) at--, *to++ = 106, text();
  else { to = start; return false; }
  place();
  return true;
}

/* Moves what stands behind a head of one byte, where its count needs a longer one. */
static void set_count(unsigned char *where, unsigned long count) {
  unsigned char *stop = to;
  to = where;
  if (count < 24) { put_head(4, count); to = stop; return; }
  unsigned more = count < 256 ? 1 : 2;
  memmove(where + 1 + more, where + 1, stop - where - 1);
  put_head(4, count);
  to = stop + more;
}

static void response(unsigned char *where) {
  unsigned count = 4;
  octets(4, 16), number(UINT32_MAX);
  if (TAKES(" divert")) {
    unsigned char *inner = to++;
    unsigned many = 1;
    *to++ = 0x18, *to++ = 100;
    while (locator()) many++;
    set_count(inner, many);
    count++;
  } else {
    if (!TAKES(" locators")) fail("not a response");
    while (locator()) count++;
  }
  if (!ends()) objective(), count++;
  set_count(where, count);
}

static void flood(unsigned char *where) {
  unsigned count = 4;
  octets(4, 16), number(UINT32_MAX);
  for (; !ends(); count++) {
    *to++ = 0x82;
    objective();
    if (TAKES(" none")) *to++ = 0x80;
    else if (!locator()) fail("not a locator");
  }
  set_count(where, count);
}

static void verdict(void) {
  unsigned char *where = to++;
  *to++ = 0x18;
  if (TAKES(" accept")) { *where = 0x81, *to++ = 101; return; }
  if (!TAKES(" decline")) fail("not a verdict");
  *to++ = 102, *where = 0x81;
  if (!ends()) *where = 0x82, text();
}

static void told(unsigned kind) {
  *to++ = 0x83, *to++ = kind;
  number(UINT32_MAX), objective();
}

static void message(void) {
  unsigned char *where = to;
  if (TAKES("noop")) *to++ = 0x81, *to++ = 0;
  else if (TAKES("discovery")) *to++ = 0x84, *to++ = 1, number(UINT32_MAX), octets(4, 16), objective();
  else if (TAKES("response")) *to++ = 0x80, *to++ = 2, number(UINT32_MAX), response(where);
  else if (TAKES("request-neg")) told(3);
  else if (TAKES("request-syn")) told(4);
  else if (TAKES("negotiate")) told(5);
  else if (TAKES("end")) *to++ = 0x83, *to++ = 6, number(UINT32_MAX), verdict();
  else if (TAKES("wait")) *to++ = 0x83, *to++ = 7, number(UINT32_MAX), number(UINT32_MAX);
  else if (TAKES("synch")) told(8);
  else if (TAKES("flood")) *to++ = 0x80, *to++ = 9, number(UINT32_MAX), flood(where);
  else if (TAKES("invalid")) {
    *to++ = 0x82, *to++ = 0x18, *to++ = 99, number(UINT32_MAX);
    if (value()) *where = 0x83;
  } else fail("not a message");
  if (!TAKES("\n")) fail("a line end is missing");
}

int main(void) {
  size_t capacity = 1 << 25, length = 0, got;
  char *input = malloc(capacity);
  if (!input) fail("out of memory");
  memset(values, 99, sizeof values);
  for (unsigned i = 0; i < 16; i++) values[(unsigned char)"0123456789abcdef"[i]] = i;
  while ((got = fread(input + length, 1, capacity - length, stdin)) > 0) length += got;
  at = input, end = input + length;
  while (at < end) {
    if (to > out + sizeof out - (1 << 14)) fwrite(out, 1, to - out, stdout), to = out;
    message();
  }
  fwrite(out, 1, to - out, stdout);
  free(input);
  return 0;
}

/* Writes a line for each GRASP message of the stream on standard input, as `grasp_replay show` does, with libcbor.
   It is there to compare times, and takes every item of the right shape for a message. */
#include <cbor.h>
#include <stdbool.h>
#include <stdint.h>
#include <stdio.h>
#include <stdlib.h>
#include <string.h>

static void fail(const char *why) {
  fprintf(stderr, "%s\n", why);
  exit(1);
}

static uint64_t number(cbor_item_t *item) {
  if (!cbor_isa_uint(item)) fail("not a number");
  return cbor_get_int(item);
}

static void hex(const unsigned char *bytes, size_t length) {
  static const char digits[] = "0123456789abcdef";
  for (size_t i = 0; i < length; i++) {
    putchar_unlocked(digits[bytes[i] >> 4]);
    putchar_unlocked(digits[bytes[i] & 15]);
  }
}

static void text(cbor_item_t *item) {
  if (!cbor_isa_string(item) || !cbor_string_is_definite(item)) fail("not a text");
  const unsigned char *bytes = cbor_string_handle(item);
  putchar_unlocked(' ');
  putchar_unlocked('\'');
  for (size_t i = 0; i < cbor_string_length(item); i++) {
    if (bytes[i] >= 33 && bytes[i] <= 126 && bytes[i] != '%') {
      putchar_unlocked(bytes[i]);
    } else {
      putchar_unlocked('%');
      hex(bytes + i, 1);
    }
  }
}

static void value(cbor_item_t *item) {
  unsigned char *bytes;
  size_t size;
  size_t length = cbor_serialize_alloc(item, &bytes, &size);
  fputs(" x", stdout);
  hex(bytes, length);
  free(bytes);
}

static void address(cbor_item_t *item) {
  if (!cbor_isa_bytestring(item)) fail("not an address");
  putchar_unlocked(' ');
  hex(cbor_bytestring_handle(item), cbor_bytestring_length(item));
}

static cbor_item_t *part(cbor_item_t *list, size_t place) {
  if (!cbor_isa_array(list) || place >= cbor_array_size(list)) fail("not a message");
  return cbor_array_handle(list)[place];
}

static void proto(cbor_item_t *item) {
  if (cbor_isa_float_ctrl(item)) {
    fputs(" -", stdout);
  } else {
    fputs(number(item) == 6 ? " tcp" : " udp", stdout);
  }
}

static void port(cbor_item_t *item) {
  if (cbor_isa_float_ctrl(item)) {
    fputs(" -", stdout);
  } else {
    printf(" %llu", (unsigned long long)number(item));
  }
}

static void locator(cbor_item_t *item) {
  switch (number(part(item, 0))) {
    case 103: fputs(" v6", stdout); address(part(item, 1)); break;
    case 104: fputs(" v4", stdout); address(part(item, 1)); break;
    case 105: fputs(" fqdn", stdout); text(part(item, 1)); break;
    case 106: fputs(" uri", stdout); text(part(item, 1)); break;
    default: fail("not a locator");
  }
  proto(part(item, 2));
  port(part(item, 3));
}

static void objective(cbor_item_t *item) {
  fputs(" obj", stdout);
  text(part(item, 0));
  printf(" %u %u", (unsigned)number(part(item, 1)), (unsigned)number(part(item, 2)));
  if (cbor_array_size(item) == 4) {
    value(part(item, 3));
  } else {
    fputs(" -", stdout);
  }
}

static void locators(cbor_item_t *list, size_t from) {
  for (size_t i = from; i < cbor_array_size(list); i++) locator(part(list, i));
}

static void response(cbor_item_t *item) {
  address(part(item, 2));
  printf(" %llu", (unsigned long long)number(part(item, 3)));
  cbor_item_t *first = part(item, 4);
  if (number(part(first, 0)) == 100) {
    fputs(" divert", stdout);
    locators(first, 1);
  } else {
    fputs(" locators", stdout);
    locators(item, 4);
  }
}

static void flood(cbor_item_t *item) {
  address(part(item, 2));
  printf(" %llu", (unsigned long long)number(part(item, 3)));
  for (size_t i = 4; i < cbor_array_size(item); i++) {
    objective(part(part(item, i), 0));
    cbor_item_t *where = part(part(item, i), 1);
    if (cbor_array_size(where) == 0) {
      fputs(" none", stdout);
    } else {
      locator(where);
    }
  }
}

static void verdict(cbor_item_t *item) {
  if (number(part(item, 0)) == 101) {
    fputs(" accept", stdout);
  } else {
    fputs(" decline", stdout);
    if (cbor_array_size(item) > 1) text(part(item, 1));
  }
}

static void named(const char *name, cbor_item_t *item) {
  fputs(name, stdout);
  printf(" %llu", (unsigned long long)number(part(item, 1)));
}

static void message(cbor_item_t *item) {
  switch (number(part(item, 0))) {
    case 0: fputs("noop", stdout); break;
    case 1: named("discovery", item); address(part(item, 2)); objective(part(item, 3)); break;
    case 2: named("response", item); response(item); break;
    case 3: named("request-neg", item); objective(part(item, 2)); break;
    case 4: named("request-syn", item); objective(part(item, 2)); break;
    case 5: named("negotiate", item); objective(part(item, 2)); break;
    case 6: named("end", item); verdict(part(item, 2)); break;
    case 7: named("wait", item); printf(" %llu", (unsigned long long)number(part(item, 2))); break;
    case 8: named("synch", item); objective(part(item, 2)); break;
    case 9: named("flood", item); flood(item); break;
    case 99:
      named("invalid", item);
      if (cbor_array_size(item) > 2) value(part(item, 2)); else fputs(" -", stdout);
      break;
    default: fail("not a message");
  }
  putchar_unlocked('\n');
}

int main(void) {
  size_t capacity = 1 << 25, length = 0, got;
  unsigned char *bytes = malloc(capacity);
  if (!bytes) fail("out of memory");
  while ((got = fread(bytes + length, 1, capacity - length, stdin)) > 0) length += got;
  for (size_t at = 0; at < length;) {
    struct cbor_load_result result;
    cbor_item_t *item = cbor_load(bytes + at, length - at, &result);
    if (!item) { fprintf(stderr, "error %d at %zu\n", result.error.code, at + result.error.position); return 1; }
    message(item);
    cbor_decref(&item);
    at += result.read;
  }
  free(bytes);
  return 0;
}

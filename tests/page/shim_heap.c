/* The heap of page/engine/shim.c by itself: blocks of random sizes are taken, changed and given back, each with bytes of its own,
   over memory that grows within a limit. Ends with 0 where no byte was ever another, and each refusal was for want of room. */
#include <stdio.h>
#include <stdlib.h>
#include <string.h>

#define HEAP_ALONE
#include "../../page/engine/shim.c"

enum { BLOCKS = 300, ROUNDS = 60000, PAGES = 40 };
static byte room[PAGES * 65536L] __attribute__((aligned(65536)));
static size pages = 1;
static struct { byte *at; size length; byte mark; } blocks[BLOCKS];
static unsigned long seed = 1;

byte *heap_begin(void) { return room + 40; }

int heap_grow(size more) {
  if (pages + more > PAGES) return 0;
  pages += more;
  return 1;
}

static unsigned long next(void) {
  seed ^= seed << 13;
  seed ^= seed >> 7;
  return seed ^= seed << 17;
}

static size some_length(void) { return next() % (next() % 8 ? 200 : next() % 20 ? 20000 : 400000); }

static void fail(const char *why) {
  printf("%s\n", why);
  exit(1);
}

static void check(int i, size length) {
  for (size k = 0; k < length; k++) {
    if (blocks[i].at[k] != (byte)(blocks[i].mark + k)) fail("a byte of a block has changed");
  }
}

static void fill(int i, size from) {
  for (size k = from; k < blocks[i].length; k++) blocks[i].at[k] = (byte)(blocks[i].mark + k);
}

static void put(int i, taken got, size length) {
  if ((size)got.block % 16) fail("a block stands at no multiple of 16");
  if ((byte *)got.block < room + 40 || (byte *)got.block + length > room + pages * 65536) fail("a block lies outside of memory");
  blocks[i].at = got.block;
  blocks[i].length = length;
}

/* With so little allowed, blocks are refused before they pass it. */
static void check_limit(void) {
  enum { LIMIT = 50000, EACH = 1000 };
  long count = 0;
  allow(LIMIT);
  while (rattle_alloc(EACH, 16).is_there) count++;
  if (!count || count * EACH > LIMIT) fail("the limit isn't kept");
  allow(1e15);
}

int main(void) {
  long refused = 0, done = 0;
  check_limit();
  for (long round = 0; round < ROUNDS; round++) {
    int i = (int)(next() % BLOCKS);
    size length = some_length() + 1;
    if (!blocks[i].at) {
      taken got = rattle_alloc(length, 16);
      if (!got.is_there) { refused++; continue; }
      blocks[i].mark = (byte)next();
      put(i, got, length);
      fill(i, 0);
    } else if (next() % 2) {
      size kept = blocks[i].length < length ? blocks[i].length : length;
      taken got = rattle_realloc(blocks[i].at, kept, length, 16);
      if (!got.is_there) { refused++; check(i, blocks[i].length); continue; }
      put(i, got, length);
      check(i, kept);
      fill(i, kept);
    } else {
      check(i, blocks[i].length);
      rattle_dealloc(blocks[i].at);
      blocks[i].at = 0;
    }
    done++;
  }
  for (int i = 0; i < BLOCKS; i++) if (blocks[i].at) check(i, blocks[i].length);
  if (!refused) fail("nothing was refused, so memory never ran out");
  if (rattle_alloc(1ul << 30, 16).is_there || rattle_alloc(1ul << 40, 16).is_there) fail("more was given than there is");
  printf("%ld calls, of which %ld were refused\n", done + refused, refused);
  return 0;
}

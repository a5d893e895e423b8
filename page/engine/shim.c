/* Stands for the C library under the program, where a page runs it: a heap, the files and the command line, over four
   functions of the page. Nothing proves this file.

   The page takes and gives numbers as doubles, which hold each address and each length here exactly. */

typedef unsigned char byte;
typedef unsigned int word;
typedef unsigned long size;
typedef long offset;
_Static_assert(sizeof(size) == 8 && sizeof(void *) == 8, "addresses have 64 bits");

/* A test of the heap alone defines HEAP_ALONE, and gives these two. */
#ifdef HEAP_ALONE
#define EXPORT(name)
extern byte *heap_begin(void);
extern int heap_grow(size pages);
#else
#define EXPORT(name) __attribute__((export_name(#name)))
extern byte __heap_base;
static byte *heap_begin(void) { return &__heap_base; }
static int heap_grow(size pages) { return __builtin_wasm_memory_grow(0, pages) != (size)-1; }
#endif

/* ---- the heap: blocks of some sizes, four between a power of two and the next, each size with a list of what was
   given back. A block has 16 bytes before it, with its class. */

enum { PAGE = 65536, HEAD = 16, CLASSES = 160 };
#define LARGEST (1ul << 34)
#define PAGES_AT_ONCE 64ul
typedef struct given { struct given *next; } given;
static given *lists[CLASSES];
static size top, end, limit = LARGEST;

static int class_of(size length) {
  if (length <= 64) return (int)((length + 15) / 16) - 1;
  int log = 63 - __builtin_clzl(length - 1);
  return 4 + (log - 6) * 4 + (int)(((length - 1) >> (log - 2)) & 3);
}

static size size_of(int class) {
  if (class < 4) return (size)(class + 1) * 16;
  int log = 6 + (class - 4) / 4;
  return (1ul << log) + ((size)((class - 4) % 4) + 1) * (1ul << (log - 2));
}

static int *class_before(void *block) { return (int *)((byte *)block - HEAD); }

/* Whether there is room for so many bytes more, which memory grows for if need be. */
static int has_room(size length) {
  if (!top) {
    top = ((size)heap_begin() + HEAD - 1) / HEAD * HEAD;
    end = (top + PAGE - 1) / PAGE * PAGE;
  }
  if (length > limit || top - (size)heap_begin() > limit - length) return 0;
  if (end - top >= length) return 1;
  size pages = (length - (end - top) + PAGE - 1) / PAGE;
  size more = pages < PAGES_AT_ONCE ? PAGES_AT_ONCE : pages;
  if (!heap_grow(more)) {
    more = pages;
    if (!heap_grow(more)) return 0;
  }
  end += more * PAGE;
  return 1;
}

static void *take(size length) {
  if (length > LARGEST) return 0;
  int class = class_of(length ? length : 1);
  given *found = lists[class];
  if (found) {
    lists[class] = found->next;
    return found;
  }
  size whole = size_of(class) + HEAD;
  if (!has_room(whole)) return 0;
  byte *block = (byte *)top + HEAD;
  top += whole;
  *class_before(block) = class;
  return block;
}

static void give(void *block) {
  int class = *class_before(block);
  ((given *)block)->next = lists[class];
  lists[class] = block;
}

/* The same bytes in a block of another length, or none, with the block as it was. */
static void *change(void *block, size length) {
  size room = size_of(*class_before(block));
  if (length <= room && length >= room / 4) return block;
  void *other = take(length);
  if (!other) return length <= room ? block : 0;
  __builtin_memcpy(other, block, length < room ? length : room);
  give(block);
  return other;
}

typedef struct { size is_there; void *block; } taken;
static byte nothing;

static taken told(void *block) { return (taken){block != 0, block ? block : &nothing}; }

taken rattle_alloc(size length, size alignment) { return told(take(length ? length : alignment)); }
void rattle_dealloc(void *block) { give(block); }

taken rattle_realloc(void *block, size kept, size length, size alignment) {
  (void)kept;
  return told(change(block, length ? length : alignment));
}

/* The heap takes no more bytes than this. */
EXPORT(allow) void allow(double bytes) { limit = bytes < (double)LARGEST ? (size)bytes : LARGEST; }

#ifndef HEAP_ALONE
/* ---- files */

#define IMPORT(name) __attribute__((import_module("page"), import_name(#name)))
IMPORT(read) double page_read(int file, double at, double most);
IMPORT(write) double page_write(int file, double at, double length);
IMPORT(open) int page_open(double path);
IMPORT(word) double page_word(int index, double at, double most);

enum { NO_SUCH_FILE = 2, CANNOT = 5, BAD = 22, NO_SEEK = 29 };
static int fault;

static offset outcome(double length) {
  if (length >= 0) return (offset)length;
  fault = CANNOT;
  return -1;
}

static offset refuse(int number) {
  fault = number;
  return -1;
}

int rattle_errno(void) { return fault; }
void rattle_set_errno(int number) { fault = number; }
offset read(int file, byte *at, size most) { return outcome(page_read(file, (double)(size)at, (double)most)); }
offset write(int file, const byte *at, size length) { return outcome(page_write(file, (double)(size)at, (double)length)); }
offset __write(int file, const byte *at, size length) { return write(file, at, length); }

int open(const byte *path, int flags, ...) {
  (void)flags;
  int file = page_open((double)(size)path);
  return file < 0 ? (int)refuse(NO_SUCH_FILE) : file;
}

int close(int file) { return (void)file, 0; }
int isatty(int file) { return (void)file, 0; }
int fcntl(int file, int command, ...) { return (void)file, (void)command, (int)refuse(BAD); }
int statx(void) { return (int)refuse(NO_SUCH_FILE); }
offset lseek(int file, offset by, int from) { return (void)file, (void)by, (void)from, refuse(NO_SEEK); }

int __xpg_strerror_r(int number, byte *at, size most) {
  (void)number;
  if (most) *at = 0;
  return 0;
}

/* ---- the command line, and no environment */

size rattle_arg_count(void) { return (size)page_word(-1, 0, 0); }
offset rattle_arg(size index, byte *at, size most) { return (offset)page_word((int)index, (double)(size)at, (double)most); }
offset rattle_env(const byte *name, byte *at, size most) { return (void)name, (void)at, (void)most, -1; }
offset rattle_env_at(size index, byte *at, size most) { return (void)index, (void)at, (void)most, -1; }

/* ---- what `main` asks of the system at first: that a broken pipe is no signal, and which processor it is. */

offset __sysv_signal(int number, offset handler) { return (void)number, (void)handler, 0; }

void *__x86_get_cpuid_feature_leaf(int leaf) {
  static word all[16] = {-1u, -1u, -1u, -1u, -1u, -1u, -1u, -1u, -1u, -1u, -1u, -1u, -1u, -1u, -1u, -1u};
  return (void)leaf, all;
}

/* ---- what the compiler calls by name */

int memcmp(const void *one, const void *other, size length) {
  const byte *a = one, *b = other;
  for (; length >= 8 && !((size)a & 7) && !((size)b & 7) && *(const size *)a == *(const size *)b; length -= 8) {
    a += 8;
    b += 8;
  }
  for (; length; length--, a++, b++) {
    if (*a != *b) return *a - *b;
  }
  return 0;
}

int bcmp(const void *one, const void *other, size length) { return memcmp(one, other, length); }

size strlen(const char *text) {
  size length = 0;
  while (text[length]) length++;
  return length;
}

/* ---- what the page calls */

int main(void);
EXPORT(run) int run(void) { return main(); }
#endif

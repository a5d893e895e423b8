// An allocator that refuses growths, to be loaded before the C library's (LD_PRELOAD). A growth is a call for memory.
// FAIL_AT=N refuses the Nth, counted from 1, and with FAIL_ON=1 each after it too. At the end of the process the
// numbers of growths asked for and refused are written to the file that FAIL_TELL names, where it names one. With
// FAIL_READS=1 each read of standard input is interrupted, and their number is written after the other two. With FAIL_HOW
// set, each write to standard output takes at most FAIL_MOST bytes, and from the one after FAIL_WRITES on it fails
// (FAIL_HOW=fails), takes nothing (nothing) or is interrupted (interrupted).
#include <errno.h>
#include <stdio.h>
#include <stdlib.h>
#include <sys/syscall.h>
#include <unistd.h>

void *__libc_malloc(size_t);
void *__libc_calloc(size_t, size_t);
void *__libc_realloc(void *, size_t);
void *__libc_memalign(size_t, size_t);

static unsigned long asked, refused, interrupted, first, writes, most;
static int ready, onward, interrupting;
static const char *how;

static unsigned long number(const char *name) {
  const char *text = getenv(name);
  return text ? strtoul(text, 0, 10) : 0;
}

static void begin(void) {
  first = number("FAIL_AT");
  onward = number("FAIL_ON") == 1;
  interrupting = number("FAIL_READS") == 1;
  how = getenv("FAIL_HOW");
  writes = number("FAIL_WRITES");
  most = number("FAIL_MOST");
  ready = 1;
}

static int refuse(void) {
  if (!ready) begin();
  asked++;
  if (!first || asked < first || (asked > first && !onward)) return 0;
  refused++;
  errno = ENOMEM;
  return 1;
}

void *malloc(size_t size) { return refuse() ? 0 : __libc_malloc(size); }

void *calloc(size_t count, size_t size) { return refuse() ? 0 : __libc_calloc(count, size); }

void *realloc(void *old, size_t size) { return refuse() ? 0 : __libc_realloc(old, size); }

void *memalign(size_t align, size_t size) { return refuse() ? 0 : __libc_memalign(align, size); }

void *aligned_alloc(size_t align, size_t size) { return memalign(align, size); }

int posix_memalign(void **place, size_t align, size_t size) {
  void *got = memalign(align, size);
  if (!got) return ENOMEM;
  *place = got;
  return 0;
}

ssize_t read(int file, void *bytes, size_t count) {
  if (!ready) begin();
  if (!interrupting || file != 0) return syscall(SYS_read, file, bytes, count);
  interrupted++;
  errno = EINTR;
  return -1;
}

ssize_t write(int file, const void *bytes, size_t count) {
  if (!ready) begin();
  if (!how || file != 1) return syscall(SYS_write, file, bytes, count);
  if (writes) {
    writes--;
    return syscall(SYS_write, file, bytes, count < most ? count : most);
  }
  if (*how == 'n') return 0;
  errno = *how == 'i' ? EINTR : EIO;
  return -1;
}

__attribute__((destructor)) static void end(void) {
  unsigned long asked_then = asked, refused_then = refused, interrupted_then = interrupted;
  const char *path = getenv("FAIL_TELL");
  first = 0;
  FILE *file = path ? fopen(path, "w") : 0;
  if (!file) return;
  fprintf(file, "%lu %lu %lu\n", asked_then, refused_then, interrupted_then);
  fclose(file);
}

// Stands between the program and the C library (LD_PRELOAD), counts the calls that take memory or go to a device, each
// kind from 0, and refuses those that REFUSE lists. Each entry ends with ';' and has four words: the kind of call, the
// first and the last number that are refused, and the way:
//
//   no       the answer is that there is no memory
//   EIO      the answer is an error of the device
//   EINTR    the answer is that a signal interrupted the call
//   short    one byte alone is read or written
//
// For each call to a device a line goes to the file TOLD: the kind, the name of the file or a number, and the answer.
// When the program ends, two more lines tell how often it asked for memory and how many blocks it never gave back.
#define _GNU_SOURCE
#include <errno.h>
#include <fcntl.h>
#include <stdarg.h>
#include <stdio.h>
#include <stdlib.h>
#include <string.h>
#include <sys/syscall.h>
#include <unistd.h>

// What the C library's own functions are called besides.
void *__libc_malloc(size_t size);
void *__libc_calloc(size_t count, size_t size);
void *__libc_realloc(void *block, size_t size);
void *__libc_memalign(size_t alignment, size_t size);
void __libc_free(void *block);

enum kind { MEMORY, OPEN, LSEEK, READ, CLOSE, WRITE, KINDS };
static const char *const kind_names[KINDS] = {"memory", "open", "lseek", "read", "close", "write"};

enum way { NOT, NO, BROKEN, INTERRUPTED, SHORT, WAYS };
static const char *const way_names[WAYS] = {"not", "no", "EIO", "EINTR", "short"};

struct refusal {
  int kind, way;
  long first, last;
};

static struct refusal refusals[8];
static int refused;
static long calls[KINDS];
static long kept;
static int told = -1;

static int number_of(const char *name, const char *const *names, int count) {
  for (int i = 0; i < count; i++)
    if (strcmp(name, names[i]) == 0) return i;
  _exit(99);
}

static void read_refusals(const char *text) {
  char kind[16], way[16];
  struct refusal next;
  int length;
  while (refused < 8 && sscanf(text, " %15s %ld %ld %15[^; ];%n", kind, &next.first, &next.last, way, &length) == 4) {
    next.kind = number_of(kind, kind_names, KINDS);
    next.way = number_of(way, way_names, WAYS);
    refusals[refused++] = next;
    text += length;
  }
}

// The file of what is told gets a number that the program doesn't come to.
__attribute__((constructor)) static void begin(void) {
  const char *list = getenv("REFUSE"), *path = getenv("TOLD");
  if (list) read_refusals(list);
  if (!path) return;
  int file = syscall(SYS_openat, AT_FDCWD, path, O_WRONLY | O_CREAT | O_TRUNC, 0600);
  if (file < 0 || (told = fcntl(file, F_DUPFD_CLOEXEC, 200)) < 0) _exit(99);
  syscall(SYS_close, file);
}

__attribute__((format(printf, 1, 2))) static void tell(const char *form, ...) {
  char line[5000];
  va_list values;
  va_start(values, form);
  int length = vsnprintf(line, sizeof line, form, values);
  va_end(values);
  if (told >= 0 && syscall(SYS_write, told, line, length) != length) _exit(99);
}

__attribute__((destructor)) static void end(void) {
  tell("memory %ld\nkept %ld\n", calls[MEMORY], kept);
}

// How the call that is made now is refused. The first entry that lists it counts.
static enum way way_of(enum kind kind) {
  long number = calls[kind]++;
  for (int i = 0; i < refused; i++) {
    struct refusal it = refusals[i];
    if (it.kind == (int)kind && it.first <= number && number <= it.last) return it.way;
  }
  return NOT;
}

static void *block_of(void *block) {
  kept += block != NULL;
  return block;
}

static int no_memory(void) {
  if (way_of(MEMORY) == NOT) return 0;
  errno = ENOMEM;
  return 1;
}

void *malloc(size_t size) { return no_memory() ? NULL : block_of(__libc_malloc(size)); }

void *calloc(size_t count, size_t size) { return no_memory() ? NULL : block_of(__libc_calloc(count, size)); }

void *aligned_alloc(size_t alignment, size_t size) {
  return no_memory() ? NULL : block_of(__libc_memalign(alignment, size));
}

void *memalign(size_t alignment, size_t size) { return aligned_alloc(alignment, size); }

int posix_memalign(void **block, size_t alignment, size_t size) {
  void *made = aligned_alloc(alignment, size);
  if (made) *block = made;
  return made ? 0 : ENOMEM;
}

void *realloc(void *block, size_t size) {
  if (no_memory()) return NULL;
  return block ? __libc_realloc(block, size) : block_of(__libc_realloc(block, size));
}

void free(void *block) {
  kept -= block != NULL;
  __libc_free(block);
}

// Whether this way is an answer by itself, which is then in `errno`.
static int fails(enum way way) {
  if (way == BROKEN) errno = EIO;
  if (way == INTERRUPTED) errno = EINTR;
  return way == BROKEN || way == INTERRUPTED;
}

int open(const char *path, int flags, ...) {
  va_list values;
  va_start(values, flags);
  int mode = flags & O_CREAT ? va_arg(values, int) : 0;
  va_end(values);
  int file = fails(way_of(OPEN)) ? -1 : (int)syscall(SYS_openat, AT_FDCWD, path, flags, mode);
  tell("open %s %d\n", path, file);
  return file;
}

off_t lseek(int file, off_t offset, int from) {
  off_t place = fails(way_of(LSEEK)) ? -1 : syscall(SYS_lseek, file, offset, from);
  tell("lseek %ld %ld\n", (long)offset, (long)place);
  return place;
}

ssize_t read(int file, void *bytes, size_t count) {
  enum way way = way_of(READ);
  ssize_t got = fails(way) ? -1 : syscall(SYS_read, file, bytes, way == SHORT && count ? 1 : count);
  tell("read %zu %zd\n", count, got);
  return got;
}

// A file is closed also where the answer is an error.
int close(int file) {
  int closed = (int)syscall(SYS_close, file);
  if (fails(way_of(CLOSE))) closed = -1;
  tell("close %d %d\n", file, closed);
  return closed;
}

ssize_t write(int file, const void *bytes, size_t count) {
  enum way way = way_of(WRITE);
  ssize_t put = fails(way) ? -1 : syscall(SYS_write, file, bytes, way == SHORT && count ? 1 : count);
  tell("write %zu %zd\n", count, put);
  return put;
}

// Its other name, by which the program's start says that the processor lacks something.
ssize_t __write(int file, const void *bytes, size_t count) { return write(file, bytes, count); }

/* Laid before the C library by LD_PRELOAD, it refuses a program its calls, as a machine does that runs out of memory or
   whose disk fails. The calls of one kind are counted from the program's `main` on, so none of the loader's is. The
   environment says which are refused:

   REFUSE         memory, read or write: the kind
   REFUSE_FIRST   the number of the first call that is refused, counted from 1; without it none is
   REFUSE_LAST    that of the last; without it all that follow are refused too
   REFUSE_FILE    the one file whose reads and writes count
   REFUSE_SIZE    how many octets a read or write takes at most
   REFUSE_ERROR   the number of the error; without it ENOMEM or EIO
   REFUSE_COUNTS  a file of 16 octets, which gets the number of the calls and of those refused, 8 octets each */
#define _GNU_SOURCE
#include <dlfcn.h>
#include <errno.h>
#include <fcntl.h>
#include <stdint.h>
#include <stdlib.h>
#include <string.h>
#include <sys/mman.h>
#include <sys/stat.h>
#include <sys/syscall.h>
#include <sys/uio.h>
#include <unistd.h>

typedef int Main(int, char **, char **);
void *__libc_malloc(size_t), *__libc_calloc(size_t, size_t), *__libc_realloc(void *, size_t);
void *__libc_memalign(size_t, size_t);

static Main *own_main;
static const char *kind;
static uint64_t first, last, own_counts[2], *counts = own_counts;
static size_t most;
static int error, has_file;
static struct stat file;

static uint64_t number(const char *name, uint64_t otherwise) {
  const char *text = getenv(name);
  return text ? strtoull(text, NULL, 10) : otherwise;
}

static void read_environment(void) {
  const char *path = getenv("REFUSE_FILE"), *told = getenv("REFUSE_COUNTS");
  int opened = told ? open(told, O_RDWR) : -1;
  void *shared = opened < 0 ? MAP_FAILED : mmap(NULL, sizeof own_counts, PROT_READ | PROT_WRITE, MAP_SHARED, opened, 0);
  if (shared != MAP_FAILED) counts = shared;
  if (opened >= 0) close(opened);
  has_file = path != NULL;
  if ((told && shared == MAP_FAILED) || (has_file && stat(path, &file) != 0)) abort();
  first = number("REFUSE_FIRST", UINT64_MAX);
  last = number("REFUSE_LAST", UINT64_MAX);
  most = number("REFUSE_SIZE", SIZE_MAX);
  error = number("REFUSE_ERROR", 0);
  kind = getenv("REFUSE");
}

static int is_refused(int usual) {
  if (++counts[0] < first || counts[0] > last) return 0;
  counts[1]++;
  errno = error ? error : usual;
  return 1;
}

static int is_counted(const char *asked) { return kind && strcmp(kind, asked) == 0; }

static int lacks_memory(void) { return is_counted("memory") && is_refused(ENOMEM); }

static int is_counted_on(const char *asked, int descriptor) {
  struct stat its;
  if (!is_counted(asked)) return 0;
  return !has_file || (fstat(descriptor, &its) == 0 && its.st_dev == file.st_dev && its.st_ino == file.st_ino);
}

static size_t least(size_t length) { return length < most ? length : most; }

void *malloc(size_t size) { return lacks_memory() ? NULL : __libc_malloc(size); }

void *calloc(size_t count, size_t size) { return lacks_memory() ? NULL : __libc_calloc(count, size); }

void *realloc(void *old, size_t size) { return lacks_memory() ? NULL : __libc_realloc(old, size); }

void *aligned_alloc(size_t alignment, size_t size) { return lacks_memory() ? NULL : __libc_memalign(alignment, size); }

int posix_memalign(void **place, size_t alignment, size_t size) {
  void *given = aligned_alloc(alignment, size);
  if (given) *place = given;
  return given ? 0 : ENOMEM;
}

ssize_t read(int descriptor, void *octets, size_t length) {
  int counted = is_counted_on("read", descriptor);
  if (counted && is_refused(EIO)) return -1;
  return syscall(SYS_read, descriptor, octets, counted ? least(length) : length);
}

ssize_t write(int descriptor, const void *octets, size_t length) {
  int counted = is_counted_on("write", descriptor);
  if (counted && is_refused(EIO)) return -1;
  if (counted && most == 0) return 0;
  return syscall(SYS_write, descriptor, octets, counted ? least(length) : length);
}

ssize_t writev(int descriptor, const struct iovec *parts, int count) {
  if (!is_counted_on("write", descriptor)) return syscall(SYS_writev, descriptor, parts, count);
  return count ? write(descriptor, parts[0].iov_base, parts[0].iov_len) : 0;
}

static int counted_main(int count, char **words, char **environment) {
  read_environment();
  return own_main(count, words, environment);
}

int __libc_start_main(Main *main, int count, char **words, void (*begin)(void), void (*end)(void), void (*unload)(void),
                      void *stack) {
  int (*start)(Main *, int, char **, void (*)(void), void (*)(void), void (*)(void), void *);
  *(void **)&start = dlsym(RTLD_NEXT, "__libc_start_main");
  own_main = main;
  return start(counted_main, count, words, begin, end, unload, stack);
}

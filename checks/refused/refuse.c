// refuse.c: loaded before the C library (LD_PRELOAD), it counts what a program asks the system for, and refuses one of
// these requests. Variables say which; each is a number, and absent or 0 nothing is refused.
//
//   REFUSE_MEMORY=N       the N-th request for memory
//   REFUSE_MEMORY_FROM=N  the N-th request for memory, and each one after it
//   REFUSE_CALL=K         with REFUSE_MEMORY=N, the N-th request between the K-th call and the next. A write to standard
//                         output that begins with "== " says a call
//   REFUSE_THREAD=N       the N-th thread
//   REFUSE_READ=N         the N-th read of standard input
//   REFUSE_WRITE=N        the N-th write to standard output
//   REFUSE_WRITE_FROM=N   the N-th such write, and each write to standard output or standard error after it
//   SHORT_READ=N          each read takes at most N bytes
//   SHORT_WRITE=N         each write takes at most N bytes
//   COUNTS=FILE           where the counts are written
//
// The file has a line 'at FD BYTES MEMORY' for each write that succeeded: where it went, how many bytes it took, and how
// many requests for memory came before it. The last line is 'end MEMORY THREADS READS WRITES REFUSED', where REFUSED is
// how many of the requests for memory were refused.

#define _GNU_SOURCE
#include <dlfcn.h>
#include <errno.h>
#include <fcntl.h>
#include <pthread.h>
#include <stdarg.h>
#include <stdatomic.h>
#include <stdio.h>
#include <stdlib.h>
#include <string.h>
#include <sys/syscall.h>
#include <unistd.h>

// What the C library defines malloc and its kin by.
extern void *__libc_malloc(size_t size);
extern void *__libc_calloc(size_t count, size_t size);
extern void *__libc_realloc(void *block, size_t size);
extern void *__libc_memalign(size_t alignment, size_t size);

struct limits {
  unsigned long memory, memory_from, call, thread, read, write, write_from, short_read, short_write;
};

static struct limits limits;
static int counts = -1;
static atomic_bool counting;
static atomic_ulong memory, threads, reads, writes, refused;
// the calls said so far, and the requests for memory since the last of them
static atomic_ulong calls, since;
static int (*start_thread)(pthread_t *, const pthread_attr_t *, void *(*)(void *), void *);

static unsigned long number(const char *name) {
  const char *value = getenv(name);
  return value ? strtoul(value, NULL, 10) : 0;
}

// Writes a line to the file of counts, by a system call that isn't counted.
static void tell(const char *format, ...) {
  char line[128];
  va_list values;
  if (counts < 0) return;
  va_start(values, format);
  int length = vsnprintf(line, sizeof line, format, values);
  va_end(values);
  syscall(SYS_write, counts, line, (size_t)length);
}

__attribute__((constructor)) static void begin(void) {
  const char *file = getenv("COUNTS");
  limits = (struct limits){
      .memory = number("REFUSE_MEMORY"),
      .memory_from = number("REFUSE_MEMORY_FROM"),
      .call = number("REFUSE_CALL"),
      .thread = number("REFUSE_THREAD"),
      .read = number("REFUSE_READ"),
      .write = number("REFUSE_WRITE"),
      .write_from = number("REFUSE_WRITE_FROM"),
      .short_read = number("SHORT_READ"),
      .short_write = number("SHORT_WRITE"),
  };
  start_thread = dlsym(RTLD_NEXT, "pthread_create");
  if (file) counts = open(file, O_WRONLY | O_CREAT | O_TRUNC | O_CLOEXEC, 0644);
  atomic_store(&counting, 1);
}

// Where the program ends, which it does by a return of main or by _exit.
__attribute__((destructor)) static void end(void) {
  if (!atomic_exchange(&counting, 0)) return;
  tell("end %lu %lu %lu %lu %lu\n", atomic_load(&memory), atomic_load(&threads), atomic_load(&reads), atomic_load(&writes),
       atomic_load(&refused));
}

// Whether the request of this number is the one that is refused, or comes after the first that is.
static int is_refused(unsigned long at, unsigned long one, unsigned long from) {
  return at == one || (from != 0 && at >= from);
}

void _exit(int status) {
  end();
  for (;;) syscall(SYS_exit_group, status);
}

// Counts a request for memory, and says whether it is refused.
static int no_memory(void) {
  if (!atomic_load(&counting)) return 0;
  unsigned long at = atomic_fetch_add(&memory, 1) + 1;
  unsigned long at_call = atomic_fetch_add(&since, 1) + 1;
  if (limits.call && atomic_load(&calls) != limits.call) return 0;
  if (!is_refused(limits.call ? at_call : at, limits.memory, limits.memory_from)) return 0;
  atomic_fetch_add(&refused, 1);
  errno = ENOMEM;
  return 1;
}

void *malloc(size_t size) { return no_memory() ? NULL : __libc_malloc(size); }

void *calloc(size_t count, size_t size) { return no_memory() ? NULL : __libc_calloc(count, size); }

void *realloc(void *block, size_t size) { return no_memory() ? NULL : __libc_realloc(block, size); }

void *memalign(size_t alignment, size_t size) { return no_memory() ? NULL : __libc_memalign(alignment, size); }

void *aligned_alloc(size_t alignment, size_t size) { return memalign(alignment, size); }

int posix_memalign(void **block, size_t alignment, size_t size) {
  void *found = memalign(alignment, size);
  if (!found) return ENOMEM;
  *block = found;
  return 0;
}

int pthread_create(pthread_t *thread, const pthread_attr_t *how, void *(*run)(void *), void *argument) {
  unsigned long at = atomic_fetch_add(&threads, 1) + 1;
  return at == limits.thread ? EAGAIN : start_thread(thread, how, run, argument);
}

ssize_t read(int fd, void *bytes, size_t length) {
  if (fd == 0) {
    unsigned long at = atomic_fetch_add(&reads, 1) + 1;
    if (at == limits.read) {
      errno = EIO;
      return -1;
    }
    if (limits.short_read && length > limits.short_read) length = limits.short_read;
  }
  return syscall(SYS_read, fd, bytes, length);
}

// Counts the requests for memory anew from where a call is said.
static void look_for_call(int fd, const void *bytes, size_t length) {
  if (fd != 1 || length < 3 || memcmp(bytes, "== ", 3) != 0) return;
  atomic_store(&since, 0);
  atomic_fetch_add(&calls, 1);
}

// Whether a write is refused. Those to standard output are counted.
static int no_write(int fd) {
  if (fd == 1) return is_refused(atomic_fetch_add(&writes, 1) + 1, limits.write, limits.write_from);
  return limits.write_from && atomic_load(&writes) >= limits.write_from;
}

ssize_t write(int fd, const void *bytes, size_t length) {
  if (fd != 1 && fd != 2) return syscall(SYS_write, fd, bytes, length);
  if (no_write(fd)) {
    errno = EIO;
    return -1;
  }
  if (limits.short_write && length > limits.short_write) length = limits.short_write;
  look_for_call(fd, bytes, length);
  unsigned long before = atomic_load(&memory);
  long taken = syscall(SYS_write, fd, bytes, length);
  if (taken >= 0) tell("at %d %ld %lu\n", fd, taken, before);
  return taken;
}

// The name by which the C library itself and some programs call it.
ssize_t __write(int fd, const void *bytes, size_t length) { return write(fd, bytes, length); }

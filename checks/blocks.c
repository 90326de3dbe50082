// blocks.c: loaded before the C library (LD_PRELOAD), it counts the blocks that a program asks for and those that it gives back. Where
// the program ends, the line 'ASKED GIVEN' comes into the file that the variable BLOCKS names. It includes no header, so that the kit's
// own compiler, which has none, makes it too. It takes the C library of GNU, whose malloc has a second name.

typedef __SIZE_TYPE__ size_t;

// ENOMEM
enum { NO_MEMORY = 12 };

// What the C library defines malloc and its kin by.
extern void *__libc_malloc(size_t size);
extern void *__libc_calloc(size_t count, size_t size);
extern void *__libc_realloc(void *block, size_t size);
extern void *__libc_memalign(size_t alignment, size_t size);
extern void __libc_free(void *block);
// It gives back what it keeps for itself, as for the stacks of threads that have ended.
extern void __libc_freeres(void);

extern char *getenv(const char *name);
extern _Noreturn void _Exit(int status);
extern int creat(const char *file, unsigned mode);
extern int dprintf(int fd, const char *format, ...);

static size_t asked, given;

// Threads count at the same time.
static void count(size_t *blocks) { __atomic_fetch_add(blocks, 1, __ATOMIC_SEQ_CST); }

// Counts a block that was asked for, if there was memory for it.
static void *counted(void *block) {
  if (block) count(&asked);
  return block;
}

// Where the program ends, which it does by a return of main or by _exit.
__attribute__((destructor)) static void tell(void) {
  const char *file = getenv("BLOCKS");
  if (!file) return;
  __libc_freeres();
  dprintf(creat(file, 0644), "%zu %zu\n", asked, given);
}

_Noreturn void _exit(int status) {
  tell();
  _Exit(status);
}

void *malloc(size_t size) { return counted(__libc_malloc(size)); }

void *calloc(size_t number, size_t size) { return counted(__libc_calloc(number, size)); }

// Another block in place of this one. A block of no bytes is none: it is only given back.
void *realloc(void *block, size_t size) {
  void *other = counted(__libc_realloc(block, size));
  if (block && (other || !size)) count(&given);
  return other;
}

void *memalign(size_t alignment, size_t size) { return counted(__libc_memalign(alignment, size)); }

void *aligned_alloc(size_t alignment, size_t size) { return memalign(alignment, size); }

int posix_memalign(void **block, size_t alignment, size_t size) {
  void *found = memalign(alignment, size);
  if (!found) return NO_MEMORY;
  *block = found;
  return 0;
}

void free(void *block) {
  if (block) count(&given);
  __libc_free(block);
}

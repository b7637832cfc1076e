/* Fault injection for tools/refusals: makes one allocation fail in the program that it is loaded into.
 *
 * It is loaded before the C library by LD_PRELOAD. REFUSED says which allocation fails, counted from 1 since the program
 * began, and TOLD_TO is the number of an open file, to which it writes one byte when that happens. Where REFUSED is 0 none
 * fails, and it writes one byte for each allocation.
 *
 * It needs glibc on x86-64: it forwards calls to functions that glibc alone has, and is built for that machine.
 */
#ifndef __x86_64__
#error "refuse_one.c needs glibc on x86-64"
#endif

typedef __SIZE_TYPE__ size_t;

char *getenv(const char *name);
int atoi(const char *digits);
long write(int file, const void *bytes, size_t length);
void *__libc_malloc(size_t size);
void *__libc_calloc(size_t count, size_t size);
void *__libc_realloc(void *old, size_t size);
void *__libc_memalign(size_t alignment, size_t size);

enum { OUT_OF_MEMORY = 12 };

static int left;
static int told_to = -1;
static int counts;

__attribute__((constructor)) static void begin(void) {
  const char *refused = getenv("REFUSED"), *file = getenv("TOLD_TO");
  told_to = file ? atoi(file) : -1;
  left = refused ? atoi(refused) : 0;
  counts = left == 0 && told_to >= 0;
}

static void tell(void) {
  if (write(told_to, "!", 1) != 1)
    __builtin_trap();
}

static int refuses(void) {
  if (counts)
    tell();
  if (left == 0 || --left != 0)
    return 0;
  tell();
  return 1;
}

void *malloc(size_t size) { return refuses() ? 0 : __libc_malloc(size); }

void *calloc(size_t count, size_t size) { return refuses() ? 0 : __libc_calloc(count, size); }

void *realloc(void *old, size_t size) { return refuses() ? 0 : __libc_realloc(old, size); }

void *memalign(size_t alignment, size_t size) { return refuses() ? 0 : __libc_memalign(alignment, size); }

void *aligned_alloc(size_t alignment, size_t size) { return memalign(alignment, size); }

int posix_memalign(void **to, size_t alignment, size_t size) {
  void *got = memalign(alignment, size);
  if (got)
    *to = got;
  return got ? 0 : OUT_OF_MEMORY;
}

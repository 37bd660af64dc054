// Refuses a request for memory of a program into which it is preloaded: the one with the number REFUSE, counted from 1, and with
// REFUSE_ALL those behind it too. The requests are those by malloc and realloc. Their count is kept in the file REFUSE_COUNT.
//
// A program with the address sanitizer has an allocator of its own, to which its malloc and realloc jump. There the two jumps are led here.
// What the sanitizer itself asks for as a thread begins is neither counted nor refused: it stops without it.
#define _GNU_SOURCE
#include <dlfcn.h>
#include <errno.h>
#include <fcntl.h>
#include <pthread.h>
#include <stdint.h>
#include <stdlib.h>
#include <string.h>
#include <sys/mman.h>
#include <unistd.h>

static uint64_t own_count, *count = &own_count, first;
static int goes_on, has_sanitizer;
static __thread int is_exempt __attribute__((tls_model("initial-exec")));
static void *(*real_malloc)(size_t), *(*real_realloc)(void *, size_t);

static int is_refused(void) {
  if (is_exempt) return 0;
  uint64_t number = __atomic_add_fetch(count, 1, __ATOMIC_SEQ_CST);
  int is = first && (number == first || (goes_on && number > first));
  if (is) errno = ENOMEM;
  return is;
}

static void *counted_malloc(size_t size) {
  return is_refused() ? 0 : real_malloc(size);
}

static void *counted_realloc(void *at, size_t size) {
  return is_refused() ? 0 : real_realloc(at, size);
}

// What stands before the allocator of the C library.
static void *front_malloc(size_t size) {
  if (!real_malloc) real_malloc = dlsym(RTLD_NEXT, "malloc");
  return counted_malloc(size);
}

static void *front_realloc(void *at, size_t size) {
  if (!real_realloc) real_realloc = dlsym(RTLD_NEXT, "realloc");
  return counted_realloc(at, size);
}

void *malloc(size_t size) __attribute__((alias("front_malloc")));
void *realloc(void *at, size_t size) __attribute__((alias("front_realloc")));

// What the sanitizer calls as a thread begins, which takes memory.
int pthread_getattr_np(pthread_t thread, pthread_attr_t *attributes) {
  int (*real)(pthread_t, pthread_attr_t *) = dlsym(RTLD_NEXT, "pthread_getattr_np");
  is_exempt = has_sanitizer;
  int result = real(thread, attributes);
  is_exempt = 0;
  return result;
}

#ifdef __x86_64__
enum { PAGE = 4096, STEP = 1 << 20, STEPS = 1000, JUMP = 5 };

// A page below the code, so near that a jump reaches it; null where there is none.
static unsigned char *near_page(unsigned char *code) {
  for (int step = 16; step < STEPS; step++) {
    unsigned char *wanted = (unsigned char *)((uintptr_t)code / PAGE * PAGE) - (intptr_t)step * STEP;
    unsigned char *page = mmap(wanted, PAGE, PROT_READ | PROT_WRITE | PROT_EXEC, MAP_PRIVATE | MAP_ANONYMOUS, -1, 0);
    if (page == wanted) return page;
    if (page != MAP_FAILED) munmap(page, PAGE);
  }
  return 0;
}

// Leads a function that is a jump to another one; where it led to before, or null where it is no jump.
static void *led(unsigned char *code, void *to) {
  unsigned char *page, *begin = (unsigned char *)((uintptr_t)code / PAGE * PAGE);
  int32_t reach;
  if (*code != 0xe9 || !(page = near_page(code)) || mprotect(begin, 2 * PAGE, PROT_READ | PROT_WRITE | PROT_EXEC)) return 0;
  memcpy(&reach, code + 1, sizeof reach);
  void *before = code + JUMP + reach;
  memcpy(page, "\x49\xbb", 2), memcpy(page + 2, &to, sizeof to), memcpy(page + 10, "\x41\xff\xe3", 3);
  reach = (int32_t)(page - (code + JUMP));
  memcpy(code + 1, &reach, sizeof reach);
  return before;
}
#else
static void *led(unsigned char *code, void *to) { return 0; }
#endif

static void keep_count(const char *file) {
  int handle = open(file, O_RDWR);
  void *page = handle < 0 ? MAP_FAILED : mmap(0, sizeof own_count, PROT_READ | PROT_WRITE, MAP_SHARED, handle, 0);
  if (page == MAP_FAILED) _exit(99);
  count = page;
  close(handle);
}

__attribute__((constructor)) static void begin(void) {
  void *of_malloc = dlsym(RTLD_DEFAULT, "malloc"), *of_realloc = dlsym(RTLD_DEFAULT, "realloc");
  if (of_malloc != (void *)front_malloc) {
    has_sanitizer = 1;
    real_realloc = led(of_realloc, counted_realloc);
    real_malloc = led(of_malloc, counted_malloc);
    if (!real_realloc || !real_malloc) _exit(99);
  }
  if (getenv("REFUSE_COUNT")) keep_count(getenv("REFUSE_COUNT"));
  __atomic_store_n(count, 0, __ATOMIC_SEQ_CST);
  goes_on = getenv("REFUSE_ALL") != 0;
  first = getenv("REFUSE") ? strtoull(getenv("REFUSE"), 0, 10) : 0;
}

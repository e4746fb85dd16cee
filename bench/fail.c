/* Lets one allocation fail, whose number FAILING has (0: none), and makes the file COUNTED as long as there were allocations. For
   LD_PRELOAD: see memory.sh and growths.sh. */
#include <errno.h>
#include <fcntl.h>
#include <stdlib.h>
#include <unistd.h>

extern void *__libc_malloc(size_t), *__libc_realloc(void *, size_t), *__libc_calloc(size_t, size_t);
static long failing = -1, count = 0;

static int fails(void) {
  if (failing < 0) failing = atol(getenv("FAILING"));
  if (++count != failing) return 0;
  errno = ENOMEM;
  return 1;
}

void *malloc(size_t n) { return fails() ? NULL : __libc_malloc(n); }
void *realloc(void *p, size_t n) { return fails() ? NULL : __libc_realloc(p, n); }
void *calloc(size_t n, size_t size) { return fails() ? NULL : __libc_calloc(n, size); }

__attribute__((destructor)) static void tell(void) {
  int file = open(getenv("COUNTED"), O_CREAT | O_WRONLY, 0600);
  if (file < 0 || ftruncate(file, count) || close(file)) _exit(99);
}

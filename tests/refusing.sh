# To be sourced: a library that refuses one request for memory of the program that it is preloaded
# in.

# make_refusing FILE: builds it. Its `malloc` and kin refuse the request that REFUSED_REQUEST
# counts, from 1 on, and then write one byte to descriptor 9.
make_refusing() {
  local compiler
  compiler=$(command -v cc || command -v gcc || command -v clang) || {
    echo 'no C compiler (cc, gcc or clang) is on PATH' >&2
    return 1
  }
  "$compiler" -O2 -shared -fPIC -x c -o "$1" - <<'C'
#define _GNU_SOURCE
#include <errno.h>
#include <stdlib.h>
#include <unistd.h>

void *__libc_malloc(size_t);
void *__libc_calloc(size_t, size_t);
void *__libc_realloc(void *, size_t);
void *__libc_memalign(size_t, size_t);

static long refused = -1;
static long requests = 0;

static int refuses(void) {
  if (refused < 0) {
    const char *number = getenv("REFUSED_REQUEST");
    refused = number ? atol(number) : 0;
  }
  requests++;
  if (requests != refused) return 0;
  if (write(9, "x", 1) < 0) _exit(99);
  errno = ENOMEM;
  return 1;
}

void *malloc(size_t n) { return refuses() ? NULL : __libc_malloc(n); }
void *calloc(size_t k, size_t n) { return refuses() ? NULL : __libc_calloc(k, n); }
void *realloc(void *p, size_t n) { return refuses() ? NULL : __libc_realloc(p, n); }
void *memalign(size_t a, size_t n) { return refuses() ? NULL : __libc_memalign(a, n); }
void *aligned_alloc(size_t a, size_t n) { return memalign(a, n); }
int posix_memalign(void **p, size_t a, size_t n) {
  *p = memalign(a, n);
  return *p ? 0 : ENOMEM;
}
C
}

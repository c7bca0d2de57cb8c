/* What the tests in C that have memory refused share. They are linked with --wrap=malloc and --wrap=realloc. */
#include <stdlib.h>

/* The n-th piece of memory that is wanted, counted from 0, is refused. */
static long until_refusal = -1;
static int refused;
extern void *__real_malloc(size_t size);
extern void *__real_realloc(void *at, size_t size);

static int refuses(void) {
  if (until_refusal < 0) return 0;
  if (until_refusal-- > 0) return 0;
  refused = 1;
  return 1;
}

void *__wrap_malloc(size_t size) { return refuses() ? NULL : __real_malloc(size); }
void *__wrap_realloc(void *at, size_t size) { return refuses() ? NULL : __real_realloc(at, size); }

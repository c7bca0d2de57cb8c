/* The memory of the library: the three functions that a Rattle static library takes from its program,
   over malloc. A block of no bytes is one of the least size, so that it has an address of its own. */
#include <stdbool.h>
#include <stddef.h>
#include <stdlib.h>

#ifdef __cplusplus
extern "C" {
#endif

struct tried {
  bool ok;
  void *at;
};

/* what a refusal points to: nothing is owned there */
static char nowhere;

static struct tried answer(void *block) {
  struct tried tried = {block != NULL, block != NULL ? block : &nowhere};
  return tried;
}

struct tried rattle_alloc(size_t size, size_t align) { return answer(malloc(size != 0 ? size : align)); }

struct tried rattle_realloc(void *block, size_t old_size, size_t size, size_t align) {
  (void)old_size;
  return answer(realloc(block, size != 0 ? size : align));
}

void rattle_dealloc(void *block) { free(block); }

#ifdef __cplusplus
}
#endif

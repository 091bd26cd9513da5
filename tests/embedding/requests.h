/* Requests for memory that are counted, and refused as a test says; linked with --wrap=malloc,--wrap=realloc,--wrap=free. And CHECK, which
   exits with the number of the line that isn't so. */
#include <stdio.h>
#include <stdlib.h>

#define CHECK(is) do { if (!(is)) { printf("line %d: %s\n", __LINE__, #is); exit(1); } } while (0)

/* how many more requests are granted; less than 0: all */
static __thread long left = -1;
static __thread long held = 0;

void *__real_malloc(size_t);
void *__real_realloc(void *, size_t);
void __real_free(void *);

static int is_refused(void) { return left >= 0 && left-- == 0; }

void *__wrap_malloc(size_t n) {
  if (is_refused()) return NULL;
  held++;
  return __real_malloc(n);
}

void *__wrap_realloc(void *at, size_t n) {
  if (is_refused()) return NULL;
  if (!at) held++;
  return __real_realloc(at, n);
}

void __wrap_free(void *at) {
  if (at) held--;
  __real_free(at);
}

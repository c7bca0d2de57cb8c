/* What the tests in C share: a wish that is reported if it doesn't hold, and counted. */
#include <stdio.h>

static int failures;

static void want(int holds, const char *what) {
  if (!holds) {
    printf("wrong: %s\n", what);
    failures++;
  }
}

// Store buffering by two functions of a program, whose results are what they return: may both return 0?
#include <stdatomic.h>

atomic_int x, y;

int P0(void) {
  atomic_store(&x, 1);
  return atomic_load(&y);
}

int P1(void) {
  atomic_store(&y, 1);
  return atomic_load(&x);
}

// exists (0:a0=0 /\ 1:a0=0)

// Dekker's entry: each hart raises its flag, and enters where the other's is down: may both enter?
#include <stdatomic.h>

atomic_int flag0, flag1;
int inside;

int P0(void) {
  atomic_store(&flag0, 1);
  if (atomic_load(&flag1))
    return 0;
  inside = 1;
  return 1;
}

int P1(void) {
  atomic_store(&flag1, 1);
  if (atomic_load(&flag0))
    return 0;
  inside = 2;
  return 1;
}

// exists (0:a0=1 /\ 1:a0=1)

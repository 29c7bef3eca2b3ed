/* Xen's console: the header's page with rings of characters and its masks; the loops are ours, as the header says that they go.
   package: libxen-dev
   queue: head=page.out_prod,tail=page.out_cons,slots=page.out,size=2048,width=1
   flags: -D__XEN_TOOLS__ -isystem out/usr/include
   answer: gcc 0, clang 0 */
#include <stdint.h>
#include <stddef.h>
#include <string.h>
#include <xen/io/console.h>

static struct xencons_interface page;
volatile char got;

void P0(void) {
  for (char n = 0;; n++) {
    XENCONS_RING_IDX prod = page.out_prod;
    while (prod - __atomic_load_n(&page.out_cons, __ATOMIC_ACQUIRE) >= sizeof page.out) {}
    page.out[MASK_XENCONS_IDX(prod, page.out)] = n;
    __atomic_store_n(&page.out_prod, prod + 1, __ATOMIC_RELEASE);
  }
}

void P1(void) {
  for (;;) {
    XENCONS_RING_IDX cons = page.out_cons;
    if (cons != __atomic_load_n(&page.out_prod, __ATOMIC_ACQUIRE)) {
      got = page.out[MASK_XENCONS_IDX(cons, page.out)];
      __atomic_store_n(&page.out_cons, cons + 1, __ATOMIC_RELEASE);
    }
  }
}

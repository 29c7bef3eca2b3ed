/* liburing's completion queue. The library receives; the kernel's half is ours. Of an entry `res` is read.
   package: liburing-dev
   queue: head=tail,tail=head,slots=entry,size=8
   flags: -Iout/shims/posix -Iout/shims -isystem out/usr/include
   read: 8-11
   answer: gcc 0, clang 0 */
#include <liburing.h>

static unsigned head, tail;
static struct io_uring_cqe entry[8];
static struct io_uring ring = {
  .cq = {.khead = &head, .ktail = &tail, .cqes = entry, .ring_mask = 7, .ring_entries = 8}, .features = IORING_FEAT_EXT_ARG};
volatile int got;

void P0(void) {
  for (unsigned n = 0;; n++) {
    while (n - io_uring_smp_load_acquire(&head) >= 8) {}
    entry[n % 8].user_data = n;
    entry[n % 8].res = n;
    entry[n % 8].flags = 0;
    io_uring_smp_store_release(&tail, n + 1);
  }
}

void P1(void) {
  for (;;) {
    struct io_uring_cqe *one;
    unsigned at, count = 0;
    io_uring_for_each_cqe(&ring, at, one) {
      got = one->res;
      if (++count == 2)
        break;
    }
    io_uring_cq_advance(&ring, count);
  }
}

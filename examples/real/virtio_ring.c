/* virtio's split ring: descriptors that are made available, and used in order. The header has the ring's layout; the loops are ours.
   package: linux-libc-dev
   queue: head=available.idx,tail=used.idx,slots=available.ring,size=8,width=2,bytes=2
   flags: -Iout/shims -isystem out/usr/include
   answer: gcc 0, clang 0 */
#include <linux/virtio_ring.h>

static struct { struct vring_desc desc[8]; __virtio16 flags, idx, ring[8], event; } available __attribute__((aligned(16)));
static struct { __virtio16 flags, idx; struct vring_used_elem ring[8]; __virtio16 event; } used __attribute__((aligned(4)));
static struct vring ring = {.num = 8, .desc = available.desc, .avail = (vring_avail_t *)&available.flags, .used = (vring_used_t *)&used};
volatile __virtio16 got;

void P0(void) {
  for (__u16 n = 0, seen = 0;;) {
    if ((__u16)(n - seen) < ring.num) {
      ring.desc[n % 8].len = n;
      ring.avail->ring[n % ring.num] = n % 8;
      __atomic_thread_fence(__ATOMIC_RELEASE);
      *(volatile __virtio16 *)&ring.avail->idx = ++n;
    }
    seen = *(volatile __virtio16 *)&ring.used->idx;
  }
}

void P1(void) {
  for (__u16 n = 0;;)
    if (*(volatile __virtio16 *)&ring.avail->idx != n) {
      __atomic_thread_fence(__ATOMIC_ACQUIRE);
      __u16 id = got = ring.avail->ring[n % ring.num];
      ring.used->ring[n % ring.num].id = id;
      __atomic_thread_fence(__ATOMIC_RELEASE);
      *(volatile __virtio16 *)&ring.used->idx = ++n;
    }
}

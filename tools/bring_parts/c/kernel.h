/* Words of the Linux kernel's litmus tests, with the fences that its port to RISC-V has. */
#include "herd.h"
#define READ_ONCE(x) (*(volatile __typeof__(x) *)&(x))
#define WRITE_ONCE(x, v) ((void)(*(volatile __typeof__(x) *)&(x) = (v)))
#define KERNEL_FENCE(p, s) __asm__ volatile("fence " #p "," #s ::: "memory")
#define smp_mb() KERNEL_FENCE(rw, rw)
#define smp_rmb() KERNEL_FENCE(r, r)
#define smp_wmb() KERNEL_FENCE(w, w)
#define smp_load_acquire(p) __extension__({ __typeof__(*(p)) loaded = READ_ONCE(*(p)); KERNEL_FENCE(r, rw); loaded; })
#define smp_store_release(p, v) do { KERNEL_FENCE(rw, w); WRITE_ONCE(*(p), v); } while (0)
#define xchg(p, v) __atomic_exchange_n(p, v, __ATOMIC_SEQ_CST)
#define xchg_relaxed(p, v) __atomic_exchange_n(p, v, __ATOMIC_RELAXED)

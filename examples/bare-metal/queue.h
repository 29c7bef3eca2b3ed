/* A queue of words from one hart to another, for C11 and C++: the block, and the functions of functions.S.
 * docs/functions.md has what callers owe and what they get.
 *
 *     LAMPORT_QUEUE(requests, 8);                 defines struct requests, a block for 8 slots: at most 7 words wait in it
 *     struct requests queue;                      all zero: empty
 *
 *     QUEUE_TRY_SEND(&queue, word)                on the hart that sends: 1, or 0 if it found the queue full
 *     QUEUE_TRY_RECEIVE(&queue)                   on the hart that receives: ok is 1, or 0 if it found it empty
 *
 * With a cached tail the sender reads the receiver's index only where its copy of it says that the queue is full:
 *
 *     CACHED_QUEUE(orders, 8);                    a block for 8 slots: at most 7 words wait in it
 *     CACHED_TRY_SEND(&queue, word)
 *     CACHED_TRY_RECEIVE(&queue)
 *
 * For words that are never 0 there is FastForward's queue, in which no hart reads the other's index and all slots serve:
 *
 *     FASTFORWARD_QUEUE(answers, 8);              a block for 8 slots: at most 8 words wait in it; 1 slot is enough
 *     FASTFORWARD_TRY_SEND(&queue, word)          the word isn't 0
 *     FASTFORWARD_TRY_RECEIVE(&queue)
 *
 * The functions exist for RV32 only. Elsewhere this header has the block and its offsets, and a call is refused in words. */
#ifndef QUEUE_H
#define QUEUE_H

#include <stddef.h>
#include <stdint.h>

#ifdef __cplusplus
#define QUEUE_ALIGNAS(bytes) alignas(bytes)
#define QUEUE_ASSERT(holds, text) static_assert(holds, text)
#else
#define QUEUE_ALIGNAS(bytes) _Alignas(bytes)
#define QUEUE_ASSERT(holds, text) _Static_assert(holds, text)
#endif

/* Defines `struct name`, the block of a queue with this count of slots, which is a constant and at least 2. Only the two
 * functions write to it once the queue is in use. A semicolon follows. */
#define LAMPORT_QUEUE(name, count)                                                                                         \
    struct name {                                                                                                          \
        QUEUE_ALIGNAS(64) uint32_t head; /* written by the sender's calls */                                               \
        QUEUE_ALIGNAS(64) uint32_t tail; /* written by the receiver's calls */                                             \
        QUEUE_ALIGNAS(64) uint32_t slots[count];                                                                           \
    };                                                                                                                     \
    QUEUE_ASSERT((count) >= 2, "a queue has at least 2 slots");                                                            \
    QUEUE_ASSERT(offsetof(struct name, head) == 0, "the functions have the head at 0");                                    \
    QUEUE_ASSERT(offsetof(struct name, tail) == 64, "the functions have the tail at 64");                                  \
    QUEUE_ASSERT(offsetof(struct name, slots) == 128, "the functions have the slots at 128");                              \
    QUEUE_ASSERT(sizeof(((struct name *)0)->slots) == 4 * (count), "a slot has 4 bytes")

/* The same with a cached tail: the sender keeps a copy of the tail beside the head. */
#define CACHED_QUEUE(name, count)                                                                                          \
    struct name {                                                                                                          \
        QUEUE_ALIGNAS(64) uint32_t head; /* written by the sender's calls */                                               \
        uint32_t copy;                   /* of the tail, the same */                                                       \
        QUEUE_ALIGNAS(64) uint32_t tail; /* written by the receiver's calls */                                             \
        QUEUE_ALIGNAS(64) uint32_t cached_slots[count];                                                                    \
    };                                                                                                                     \
    QUEUE_ASSERT((count) >= 2, "a queue has at least 2 slots");                                                            \
    QUEUE_ASSERT(offsetof(struct name, head) == 0, "the functions have the head at 0");                                    \
    QUEUE_ASSERT(offsetof(struct name, copy) == 4, "the functions have the copy of the tail at 4");                        \
    QUEUE_ASSERT(offsetof(struct name, tail) == 64, "the functions have the tail at 64");                                  \
    QUEUE_ASSERT(offsetof(struct name, cached_slots) == 128, "the functions have the slots at 128");                       \
    QUEUE_ASSERT(sizeof(((struct name *)0)->cached_slots) == 4 * (count), "a slot has 4 bytes")

/* The same for FastForward's, with at least 1 slot. A slot that holds 0 is free. */
#define FASTFORWARD_QUEUE(name, count)                                                                                     \
    struct name {                                                                                                          \
        QUEUE_ALIGNAS(64) uint32_t head; /* written by the sender's calls */                                               \
        QUEUE_ALIGNAS(64) uint32_t tail; /* written by the receiver's calls */                                             \
        QUEUE_ALIGNAS(64) uint32_t words_or_0[count];                                                                      \
    };                                                                                                                     \
    QUEUE_ASSERT((count) >= 1, "a queue has at least 1 slot");                                                             \
    QUEUE_ASSERT(offsetof(struct name, head) == 0, "the functions have the head at 0");                                    \
    QUEUE_ASSERT(offsetof(struct name, tail) == 64, "the functions have the tail at 64");                                  \
    QUEUE_ASSERT(offsetof(struct name, words_or_0) == 128, "the functions have the slots at 128");                         \
    QUEUE_ASSERT(sizeof(((struct name *)0)->words_or_0) == 4 * (count), "a slot has 4 bytes")

/* The bytes of a queue's slots: what its functions take in a2. */
#define QUEUE_BYTES(queue) ((uint32_t)sizeof((queue)->slots))
#define CACHED_BYTES(queue) ((uint32_t)sizeof((queue)->cached_slots))
#define FASTFORWARD_BYTES(queue) ((uint32_t)sizeof((queue)->words_or_0))

/* What a receive returns, in a0 and a1. */
struct received {
    uint32_t ok;   /* 1, or 0: the queue was found empty */
    uint32_t word; /* the word if ok is 1 */
};
QUEUE_ASSERT(sizeof(struct received) == 8, "a0 and a1");

#if defined(__riscv) && __riscv_xlen == 32

#ifdef __riscv_compressed
#error "queue.h: compile without compressed instructions, as by -march=rv32ima: rule 7 of docs/functions.md"
#endif

#ifdef __cplusplus
extern "C" {
#endif

/* Sends the word and returns 1, or returns 0 and stores nothing: it found the queue full. It has no loop. What this hart
 * stored before the call, the receiver's hart reads once it has received the word, if no other hart had a store pending
 * there at the call, and nobody writes there since. */
uint32_t lamport_try_send(void *block, uint32_t word, uint32_t bytes);

/* Receives the oldest word, or returns ok = 0 and stores nothing: it found the queue empty. It has no loop. `unused` may
 * be anything. What this hart stored before the call, after j words were received, the sender's hart reads once it has
 * sent j + S words, if no other hart had a store pending there at the call, and nobody writes there since; S is the count
 * of slots. */
struct received lamport_try_receive(void *block, uint32_t unused, uint32_t bytes);

/* The same of a block of CACHED_QUEUE, whose words lamport_try_receive receives. */
uint32_t cached_try_send(void *block, uint32_t word, uint32_t bytes);

/* The same of a block of FASTFORWARD_QUEUE, and of words that aren't 0. What the receiver's hart stored before a call, after
 * j words were received, the sender's hart reads once it has sent j + S + 1 words, under the same conditions. */
uint32_t fastforward_try_send(void *block, uint32_t word, uint32_t bytes);
struct received fastforward_try_receive(void *block, uint32_t unused, uint32_t bytes);

#ifdef __cplusplus
}
#endif

/* The same, with the bytes taken from the block's type. `queue` points to a struct of LAMPORT_QUEUE. */
#define QUEUE_TRY_SEND(queue, word) lamport_try_send((queue), (word), QUEUE_BYTES(queue))
#define QUEUE_TRY_RECEIVE(queue) lamport_try_receive((queue), 0, QUEUE_BYTES(queue))

/* `queue` points to a struct of CACHED_QUEUE. */
#define CACHED_TRY_SEND(queue, word) cached_try_send((queue), (word), CACHED_BYTES(queue))
#define CACHED_TRY_RECEIVE(queue) lamport_try_receive((queue), 0, CACHED_BYTES(queue))

/* `queue` points to a struct of FASTFORWARD_QUEUE. */
#define FASTFORWARD_TRY_SEND(queue, word) fastforward_try_send((queue), (word), FASTFORWARD_BYTES(queue))
#define FASTFORWARD_TRY_RECEIVE(queue) fastforward_try_receive((queue), 0, FASTFORWARD_BYTES(queue))

#else

/* No such name is declared: it is what the compiler complains of. */
#define QUEUE_TRY_SEND(queue, word) queue_h_has_functions_for_RV32_only
#define QUEUE_TRY_RECEIVE(queue) queue_h_has_functions_for_RV32_only
#define CACHED_TRY_SEND(queue, word) queue_h_has_functions_for_RV32_only
#define CACHED_TRY_RECEIVE(queue) queue_h_has_functions_for_RV32_only
#define FASTFORWARD_TRY_SEND(queue, word) queue_h_has_functions_for_RV32_only
#define FASTFORWARD_TRY_RECEIVE(queue) queue_h_has_functions_for_RV32_only

#endif
#endif

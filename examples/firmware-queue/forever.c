/* Hart 0 fills buffers and hands each over by its index, hart 1 reads them, without an end: for `make queue`.
   queue: head=q_head,tail=q_tail,slots=q_slots,size=3,index=wrapping,scale=4
   answer: kept in every run, and goes on while its harts run */
#include "queue.h"

/* one more than slots, so that a buffer is read before it is filled anew; a power of 2, for `%` */
enum { SLOTS = 3, BUFFERS = SLOTS + 1 };

LAMPORT_QUEUE(words, SLOTS);
struct words q;
uint32_t buffer[BUFFERS];

void P0(void) {
    for (uint32_t i = 0;; i++) {
        buffer[i % BUFFERS] = i;
        while (!QUEUE_TRY_SEND(&q, i % BUFFERS)) {
        }
    }
}

uint32_t P1(void) {
    for (uint32_t sum = 0;;) {
        struct received got = QUEUE_TRY_RECEIVE(&q);
        /* what a queue brings may be any word: the remainder keeps the load within the buffers */
        if (got.ok && (sum += buffer[got.word % BUFFERS]) == 1000000)
            return sum;
    }
}

// exists (1:a0=0)

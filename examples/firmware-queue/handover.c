/* Hart 0 writes two messages and hands each over by its index; hart 1 returns the sum of what it reads. */
#include "queue.h"

LAMPORT_QUEUE(messages, 2);
struct messages q;
uint32_t message[3];

void P0(void) {
    for (uint32_t i = 0; i < 2; i++) {
        message[i] = 7 + i;
        while (!QUEUE_TRY_SEND(&q, i)) {
        }
    }
}

uint32_t P1(void) {
    uint32_t sum = 0;
    for (uint32_t i = 0; i < 2; i++) {
        struct received got;
        do
            got = QUEUE_TRY_RECEIVE(&q);
        while (!got.ok);
        sum += message[got.word];
    }
    return sum;
}

/* Does hart 1 ever miss a message? */
// exists (~ 1:a0=15)

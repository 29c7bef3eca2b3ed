/* Two harts hand buffers over by index, there and back. Hart 0 fills a buffer and sends its index. Hart 1 reads the
 * buffer, writes its answer into it and sends the index back. No lock, no fence, no atomic instruction.
 *
 * Who has an index owns the buffer: the queues are first in first out, so the buffers are used in turn. An index goes into a
 * queue plus 1, since FastForward's takes no 0. */
#include "board.h"
#include "queue.h"

#ifndef SLOTS
#define SLOTS 3
#endif
#ifndef ROUNDS
#define ROUNDS 1000000u
#endif

enum { BUFFERS = SLOTS + 1, WORDS = 8 };

/* Each kind of queue does. */
#ifdef FASTFORWARD
FASTFORWARD_QUEUE(queue, SLOTS);
#define TRY_SEND(queue, index) FASTFORWARD_TRY_SEND((queue), (index) + 1)
#define TRY_RECEIVE FASTFORWARD_TRY_RECEIVE
#elif defined CACHED
CACHED_QUEUE(queue, SLOTS);
#define TRY_SEND(queue, index) CACHED_TRY_SEND((queue), (index) + 1)
#define TRY_RECEIVE CACHED_TRY_RECEIVE
#else
LAMPORT_QUEUE(queue, SLOTS);
#define TRY_SEND(queue, index) QUEUE_TRY_SEND((queue), (index) + 1)
#define TRY_RECEIVE QUEUE_TRY_RECEIVE
#endif

/* Not static: the compiler has to assume that the functions of another file read and write these. */
struct queue there, back;
uint32_t buffers[BUFFERS][WORDS];

/* word i of the buffer of a round: what hart 0 asks. Hart 1 answers its complement. */
static uint32_t question(uint32_t round, uint32_t i) {
    return round * WORDS + i;
}

/* Hart 0: takes the next buffer that came back, if one did. Returns how many rounds are answered now. */
static uint32_t take_back(uint32_t answered) {
    struct received got = TRY_RECEIVE(&back);
    if (!got.ok)
        return answered;
    uint32_t index = got.word - 1;
    if (index != answered % BUFFERS)
        stop("buffer came back out of turn", answered);
    for (uint32_t i = 0; i < WORDS; i++)
        if (buffers[index][i] != ~question(answered, i))
            stop("answer differs", answered);
    return answered + 1;
}

static void sender(void) {
    uint32_t answered = 0;
    for (uint32_t round = 0; round < ROUNDS; round++) {
        uint32_t index = round % BUFFERS;
        while (round - answered == BUFFERS)
            answered = take_back(answered);
        for (uint32_t i = 0; i < WORDS; i++)
            buffers[index][i] = question(round, i);
        while (!TRY_SEND(&there, index))
            answered = take_back(answered);
    }
    while (answered < ROUNDS)
        answered = take_back(answered);
}

static void receiver(void) {
    for (uint32_t round = 0; round < ROUNDS; round++) {
        struct received got;
        do
            got = TRY_RECEIVE(&there);
        while (!got.ok);
        uint32_t index = got.word - 1;
        if (index != round % BUFFERS)
            stop("buffer arrived out of turn", round);
        for (uint32_t i = 0; i < WORDS; i++)
            if (buffers[index][i] != question(round, i))
                stop("question differs", round);
        for (uint32_t i = 0; i < WORDS; i++)
            buffers[index][i] = ~question(round, i);
        while (!TRY_SEND(&back, index)) {
        }
    }
}

/* Where start.S lets each hart begin. */
void begin(uint32_t hart) {
    if (hart == 0) {
        sender();
        stop(0, ROUNDS);
    }
    receiver();
}
